"""Requests: what a program asks of an engine, whichever library it lies in."""

from __future__ import annotations

import ctypes
import struct
from typing import Any, Dict, Optional, Tuple, TypeVar, Union

from . import library as lib
from .events import Refusal
from .performatives import Attach, Begin, Detach, Disposition, Error, Flow, Transfer

#: The operations of the library by their numbers; `enum amqp1_operation` of `include/amqp1/exports.h` has each
(
    _OPEN, _CLOSE, _BEGIN, _END, _RELEASE, _FORGET, _LINK, _LINK_ON, _ATTACH, _DETACH, _FLOW, _TRANSFER, _DISPOSITION,
    _SETTLE, SEND,
) = range(2, 17)  # fmt: skip
_REFUSAL, REMOTE_OPEN, _MAX_PIECE_LEN, _PAYLOAD_ROOM = range(18, 22)
_SESSION_OF, _STATE, _SESSION_STATE = range(23, 26)
_BEGIN_ANSWER, _END_ANSWER, _LET_GO = range(34, 37)

#: What is refused without a name of the engine's
_REFUSED_AS = {
    lib.NOT_DETACHED: "NotDetached", lib.UNSETTLED: "Unsettled", lib.NOT_NEXT: "NotNext", lib.NO_LINK: "NoLink",
    lib.IN_USE: "InUse", lib.OVER: "Over", lib.HELD_BACK: "HeldBack",
}  # fmt: skip

_R = TypeVar("_R", bound="Requests")

#: The states of a connection, in the library's order (AMQP 1.0 part 2, section 2.4.6)
STATES = (
    "START", "HDR_RCVD", "HDR_SENT", "HDR_EXCH", "OPEN_PIPE", "OC_PIPE", "OPEN_RCVD", "OPEN_SENT", "CLOSE_PIPE",
    "OPENED", "CLOSE_RCVD", "CLOSE_SENT", "DISCARDING", "END",
)  # fmt: skip


#: The states of a session, in the library's order (section 2.5.5)
SESSION_STATES = (
    "UNMAPPED", "BEGIN_SENT", "BEGIN_RCVD", "MAPPED", "END_SENT", "END_RCVD", "DISCARDING",
)  # fmt: skip


class NoMemory(MemoryError):
    """Memory was refused. What was not taken was not done; frames that wait go out with a later call."""


class AnswerLost(NoMemory):
    """Memory was refused once the engine had begun a session. `is_sent`: its Begin went out, and the peer's was not
    taken, so that the connection is to be closed; else the number is used, and the peer may be answered under another
    one."""

    def __init__(self, is_sent: bool) -> None:
        super().__init__("memory was refused once a session had begun")
        self.is_sent = is_sent


class BadArgument(ValueError):
    """The request is none: a performative that is another one, a name that is no text, a number that does not fit."""


class Requests:
    """The requests of one side of one connection. It belongs to one thread at a time.

    A request that is refused raises `Refusal`; nothing that came before it is lost. What is to be sent is taken by
    `to_send`."""

    def __init__(self, functions: Any) -> None:
        """`functions` are those of the library."""
        self._functions, self._call_by, self._free_by = functions, functions.amqp1_call, functions.amqp1_free
        self._place, self._written = lib.Place(), ctypes.c_size_t(0)
        self._here, self._written_at = ctypes.byref(self._place), ctypes.byref(self._written)
        self._buffer = ctypes.create_string_buffer(65536)
        # of each session the number of the next delivery
        self._numbers: Dict[int, int] = {}

    def __enter__(self: _R) -> _R:
        return self

    def __exit__(self, *_: object) -> None:
        self.free()

    def __del__(self) -> None:
        if hasattr(self, "_place"):
            self.free()

    def free(self) -> None:
        """Gives the engine's memory back. Every later call raises `RuntimeError`."""
        self._free_by(ctypes.byref(self._place))

    # ---- the connection

    def open(self) -> None:
        """The Open is to be sent."""
        self._ask(_OPEN)

    def close(self, error: Optional[Error] = None) -> None:
        """A Close is to be sent, with an error or without."""
        self._ask(_CLOSE, b"\0" if error is None else b"\1" + error.encode(self._functions))

    @property
    def state(self) -> str:
        """The connection's state, by the standard's name."""
        return STATES[self._get(_STATE)[0]]

    @property
    def max_piece_len(self) -> int:
        """The most bytes of a frame, without its size, that the peer takes."""
        return int.from_bytes(self._get(_MAX_PIECE_LEN), "big")

    # ---- sessions

    def begin(self, session: int, begin: Optional[Begin] = None) -> None:
        """A session is begun, under a number that none had."""
        self._ask(_BEGIN, numbers(session) + (begin or Begin()).encode(self._functions))
        self._numbers[session] = 0

    def end(self, session: int, error: Optional[Error] = None) -> None:
        """The session's End is to be sent, or the peer's is answered."""
        self._ask(_END, numbers(session) + (b"\0" if error is None else b"\1" + error.encode(self._functions)))

    def release(self, session: int) -> None:
        """The session's channel is given back."""
        self._ask(_RELEASE, numbers(session))

    def forget(self, session: int) -> None:
        """A session that is over is let go."""
        self._ask(_FORGET, numbers(session))
        self._numbers.pop(session, None)

    def answer_begin(self, session: int, frame: bytes, begin: Optional[Begin] = None) -> None:
        """The Begin by which the peer begins a session, a frame behind its size, is answered by a session under a
        number that none had. Raises `Refusal` where it is not: `NotOpened`, `ChannelInUse`, `TooLarge`, or by the
        engine's name; and `AnswerLost` where memory was refused on the way."""
        perf = (begin or Begin()).encode(self._functions)
        self._ask(_BEGIN_ANSWER, numbers(session, len(perf)) + perf + frame)
        self._numbers[session] = 0

    def answer_end(self, session: int, error: Optional[Error] = None) -> None:
        """The End by which the peer ends a session is answered, and the session is let go. Raises `Refusal` where the
        peer has not ended it, or this side has too (`NotEnded`), and as `let_go` does."""
        self._ask(_END_ANSWER, numbers(session) + (b"\0" if error is None else b"\1" + error.encode(self._functions)))
        self._numbers.pop(session, None)

    def let_go(self, session: int) -> None:
        """A session that both sides have ended gives its channel back, and is let go: `release` and `forget`. Raises
        `Refusal` (`NotEnded`) of any other, which keeps its channel."""
        self._ask(_LET_GO, numbers(session))
        self._numbers.pop(session, None)

    def session_of(self, channel: int) -> Optional[int]:
        """The session to which frames on this channel of the peer's go."""
        of = self._get(_SESSION_OF, struct.pack(">H", channel))
        return int.from_bytes(of, "big") if of else None

    def session_state(self, session: int) -> Optional[str]:
        """The session's state, by the standard's name; `None` where no session has the number."""
        of = self._get(_SESSION_STATE, numbers(session))
        return SESSION_STATES[of[0]] if of else None

    # ---- links

    def link(self, session: int, name: str, role: bool, settle_mode: int = 0) -> int:
        """A link of this name is allotted, on whose events `role`, this side's, and its receiver's settle mode decide.
        Answers its output handle, by which all later calls name the link."""
        return self._allot(_LINK, numbers(session) + bytes([role, settle_mode]) + name.encode())

    def link_on(self, session: int, input_handle: int, name: str, role: bool, settle_mode: int = 0) -> int:
        """The same, where the peer's attach came on this input handle before."""
        return self._allot(_LINK_ON, numbers(session, input_handle) + bytes([role, settle_mode]) + name.encode())

    def attach(self, session: int, attach: Attach) -> None:
        """An Attach is to be sent; its handle is the output handle of the link."""
        self._ask(_ATTACH, numbers(session) + attach.encode(self._functions))

    def detach(self, session: int, detach: Detach, expects_answer: bool = True) -> None:
        """A Detach is to be sent; `expects_answer` is false where it answers the peer's."""
        self._ask(_DETACH, numbers(session) + bytes([expects_answer]) + detach.encode(self._functions))

    def flow(self, session: int, flow: Flow) -> None:
        """A flow of a link is to be sent."""
        self._ask(_FLOW, numbers(session) + flow.encode(self._functions))

    def transfer(self, session: int, transfer: Transfer, payload: bytes = b"", first: bool = True) -> Optional[int]:
        """A transfer is to be sent: the first of its delivery, or a later one. `transfer.handle` is the output handle
        of its link, which the peer has attached and neither side has detached: else it is refused (`UnattachedHandle`).
        Answers the number of the delivery, of a first one: deliveries are numbered in the order in which they are
        accepted, from 0 on, also while the session holds them back (AMQP 1.0 part 2, section 2.6.12)."""
        perf = transfer.encode(self._functions)
        self._ask(_TRANSFER, numbers(session) + bytes([first]) + numbers(len(perf)) + perf + payload)
        return self._numbered(session) if first else None

    def _numbered(self, session: int) -> int:
        number = self._numbers.get(session, 0)
        self._numbers[session] = (number + 1) % 2**32
        return number

    def payload_room(self, transfer: Transfer) -> int:
        """How many bytes of payload go out in one frame beside this transfer, whatever number its delivery gets; 0
        where there is none."""
        return int.from_bytes(self._get(_PAYLOAD_ROOM, transfer.encode(self._functions)), "big")

    def disposition(self, session: int, disposition: Disposition) -> None:
        """A disposition is to be sent."""
        self._ask(_DISPOSITION, numbers(session) + disposition.encode(self._functions))

    def settle(self, session: int, role: bool, first: int, last: Optional[int] = None) -> None:
        """Open deliveries from `first` to `last` that this side settles by itself are let go. `role` is this side's."""
        self._ask(_SETTLE, numbers(session) + bytes([role]) + numbers(first, first if last is None else last))

    # ---- the library's functions

    def _call(self, operation: int, given: Union[bytes, int], length: int) -> Tuple[int, int]:
        """`given` is bytes, or where so many lie."""
        status = self._call_by(self._here, operation, given, length, self._buffer, len(self._buffer), self._written_at)
        return status, self._written.value

    def _ask(self, operation: int, given: bytes = b"") -> None:
        self._judge(self._call(operation, given, len(given))[0])

    def _allot(self, operation: int, given: bytes) -> int:
        return int.from_bytes(self._get(operation, given), "big")

    def _get(self, operation: int, given: bytes = b"") -> bytes:
        status, count = self._call(operation, given, len(given))
        if status == lib.TOO_SMALL:
            self._buffer = ctypes.create_string_buffer(count)
            status, count = self._call(operation, given, len(given))
        self._judge(status)
        return ctypes.string_at(self._buffer, count)

    def _refusal(self) -> Refusal:
        name, condition, description = (self._get(_REFUSAL).decode(errors="replace").split("\n", 2) + ["", ""])[:3]
        return Refusal(name, condition or None, description or None)

    def _judge(self, status: int) -> None:
        if status == lib.DONE:
            return
        if status in (lib.REFUSED, lib.NOT_RELEASED, lib.NOT_FORGOTTEN):
            raise self._refusal()
        if status in _REFUSED_AS:
            raise Refusal(_REFUSED_AS[status])
        if status in (lib.LOST, lib.BROKEN):
            raise AnswerLost(status == lib.BROKEN)
        if status == lib.NO_MEMORY:
            raise NoMemory("memory was refused")
        if status == lib.NO_ENGINE:
            raise RuntimeError("the engine was freed")
        raise BadArgument("no such request" if status == lib.BAD_ARGUMENT else f"status {status}")


def numbers(*given: int) -> bytes:
    """Numbers of 32 bits, one after the other, in network order."""
    for number in given:
        if not 0 <= number < 2**32:
            raise BadArgument(f"{number} is no number of 32 bits")
    return b"".join(number.to_bytes(4, "big") for number in given)
