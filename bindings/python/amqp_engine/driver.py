"""The driver: received bytes go in, records come out; requests go in, bytes to send come out. It does no input or
output itself, and keeps no byte that was not taken. Of each frame there is a record of fixed size; what the frame says
else stands in the bytes that were given, at the record's places.
"""

from __future__ import annotations

import ctypes
import os
import struct
from typing import Any, Dict, Iterator, List, NamedTuple, Optional, Sequence, Tuple, Union, cast

from . import library as lib
from . import opening as begins
from .events import Refusal
from .linking import LinkEvent, Links, Told, Unsettled
from .opening import Opening
from .performatives import Open, Transfer

from .records import (
    ABORTED, ATTACHED, ATTACH_WANTED, AVAILABLE, BEGIN_WANTED, BEGUN, CLOSED, COUNTED, CREDITED, DETACHED, DISPOSITION,
    DRAIN, ECHO, ENDED, FLOW, FORMATTED, FOR_GOOD, LINKED, MORE, NONE, NUMBERED, OF_RECEIVER, OPENED, RECORD, REFUSED,
    SETTLED, STATED, TAGGED, TRANSFER, WITH_ERROR, Delivery, Record, head_of, tuple_of,
)  # fmt: skip
from .requesting import REMOTE_OPEN, SEND, BadArgument, NoMemory, numbers

_UNFIT, _REFUSAL_TEXT, _DISPOSE, _LOGIN, _CHALLENGE, _RESPOND, _IS_OVER = range(27, 34)

#: What is due at a tick: nothing; an empty frame, which waits to be sent; the end of an opening that took too long; or
#: of a peer that was silent
DUE_NOTHING, DUE_BEAT, DUE_OPENING_LATE, DUE_PEER_SILENT = range(4)
_NEVER = 2**64 - 1
#: What `answer` gives: to a Begin, an End and a Close of the peer's, and to a frame that was refused
ANSWER_BEGINS, ANSWER_ENDS, ANSWER_CLOSES, ANSWER_REFUSALS = 1, 2, 4, 8
ANSWER_ALL = 15
#: The states of deliveries
STATE_ACCEPTED, STATE_REJECTED, STATE_RELEASED, STATE_MODIFIED, STATE_RECEIVED, STATE_OTHER = range(1, 7)

_SENT = struct.Struct("=2I")
_PARTS = struct.Struct("=4I2H20s2I")
#: Why a Begin that answers none was refused
WHY_BEGIN_WANTED = 33
#: Why a transfer is not sent that is longer than a frame of the peer's
WHY_PAYLOAD_TOO_LONG = 91
_NONE_HERE = ctypes.c_char()
_HEADER = b"AMQP\0\1\0\0"


class Taken(NamedTuple):
    """What `Driver.take` took: how many bytes; the records of what they are; how many bytes the next frame has, as far
    as that is known; whether a size stands there that no frame has: then a Close waits to be sent, for
    `amqp:connection:framing-error`; whether the connection is over; and whether `login`, `challenge` or `respond` comes
    first."""

    taken: int
    records: List[Record]
    wanted: int
    is_bad: bool
    is_over: bool
    waits: bool


class Tick(NamedTuple):
    """What was due, and is done (`DUE_BEAT` ..), and when the next tick is wanted, in the caller's milliseconds; `None`
    where none is."""

    due: int
    next: Optional[int]


def _delivery_of(session: int, transfer: Transfer, payload: bytes) -> Delivery:
    """A whole delivery, as a head says it. Raises `BadArgument` where the transfer says more."""
    if (transfer.rcv_settle_mode, transfer.state) != (None, None) or transfer.resume or transfer.batchable:
        raise BadArgument("a delivery that is longer than a frame says no rcv_settle_mode, state, resume or batchable")
    format = transfer.message_format
    says = (
        (SETTLED, transfer.settled),
        (MORE, transfer.more),
        (ABORTED, transfer.aborted),
        (FORMATTED, format is not None),
    )
    flags = NUMBERED | sum(flag for flag, is_so in says if is_so)
    return Delivery(session, transfer.handle, transfer.delivery_tag, payload, flags, format or 0)


def _place_of(data: Union[bytes, bytearray], at: int) -> Tuple[int, Any]:
    """Where these bytes lie, from a place on; and what holds them there."""
    if isinstance(data, bytes):
        return (ctypes.cast(ctypes.c_char_p(data), ctypes.c_void_p).value or 0) + at, data
    if at >= len(data):
        return ctypes.addressof(_NONE_HERE), data
    held = ctypes.c_char.from_buffer(data, at)
    return ctypes.addressof(held), held


def _moved(record: Record, by: int) -> Record:
    """A record whose places are those of bytes that begin so much earlier."""
    if begins.SASL_HEADER <= record.kind <= begins.NOT_OPENED:
        return record._replace(**{name: getattr(record, name) + by for name in begins.places_of(record)})
    return record._replace(at=record.at + by, payload_at=record.payload_at + by)


class Driver(Links):
    """One side of one connection, over `libamqp1.so`."""

    def __init__(
        self,
        open: Open,
        *,
        key: Optional[bytes] = None,
        most: int = 256,
        library: Optional[str] = None,
        opening: Optional[Opening] = None,
        time: int = 0,
        limit: Optional[int] = None,
    ) -> None:
        """A driver that is to send this Open. `key`: 16 bytes that the peer cannot know, so that it cannot choose names
        and handles that collide; by default they are random. `most`: how many records there are at once. `library`: the
        path of `libamqp1.so`.

        `opening` is how the stream begins, from its first byte on. Without one the driver begins behind the protocol
        headers, which are the caller's. `time` is when it begins, in milliseconds, and `limit` how many of them
        headers, SASL and both Opens may take."""
        functions = lib.load(library)
        super().__init__(functions)
        self._take, self._send, self._cut, self._tick = (
            functions.amqp1_take,
            functions.amqp1_send,
            functions.amqp1_cut,
            functions.amqp1_tick,
        )
        self._answer, self._heard = functions.amqp1_answer, functions.amqp1_heard
        self._records = ctypes.create_string_buffer(most * RECORD.size)
        self._most, self._took, self._went, self._ticked = most, lib.Took(), lib.Went(), lib.Ticked()
        self._took_at = ctypes.byref(self._took)
        self._parts = ctypes.create_string_buffer(_PARTS.size)
        self._texts: Dict[int, Tuple[str, ...]] = {}
        #: Whether memory was refused for some of what `to_send` was to give: it is to be called again
        self.has_left = False
        if key is not None and len(key) != 16:
            raise ValueError("a key has 16 bytes")
        own_key = os.urandom(16) if key is None else key
        self._make(functions.amqp1_new, open.encode(functions), own_key, opening or Opening(), time, limit)
        if opening is None:
            self._pass_headers()

    def _make(self, new: Any, open: bytes, key: bytes, opening: Opening, time: int, limit: Optional[int]) -> None:
        host = None if opening.host is None else opening.host.encode()
        said = [(mechanism.encode("ascii"), response) for mechanism, response in opening.logins]
        heads = (lib.LoginHead * len(said))(
            *(lib.LoginHead(len(it), NONE if response is None else len(response)) for it, response in said)
        )
        data = (host or b"") + b"".join(mechanism + (response or b"") for mechanism, response in said)
        own_host = NONE if host is None else len(host)
        how = lib.How((ctypes.c_uint8 * 16)(*key), time, NONE if limit is None else limit, opening.side, own_host)
        self._judge(
            new(ctypes.byref(self._place), ctypes.byref(how), open, len(open), heads, len(said), data, len(data))
        )

    def _pass_headers(self) -> None:
        """The library's stream is given the peer's header, and its own is taken off."""
        status, count = self._call(SEND, b"", 0)
        self._judge(status)
        if ctypes.string_at(self._buffer, count) != _HEADER or self.take(_HEADER).taken != len(_HEADER):
            raise RuntimeError("the library does not exchange headers")

    # ---- logins and the time

    def login(self, code: int, additional: Optional[bytes] = None) -> None:
        """A server's answer to a client that asks to be let in: 0 lets it in, and nothing else does; after another code
        (1 where what it says does not let it in, 2 where this side fails) the connection is over. Raises `Refusal`
        where no login is asked (`WrongTime`)."""
        self._ask(_LOGIN, bytes([code, additional is not None]) + (additional or b""))

    def challenge(self, challenge: bytes) -> None:
        """A server's challenge to a client that asks to be let in: one response is awaited then. Raises `Refusal` as
        `login` does."""
        self._ask(_CHALLENGE, challenge)

    def respond(self, response: bytes) -> None:
        """A client's response to a challenge. Raises `Refusal` where there was none (`WrongTime`)."""
        self._ask(_RESPOND, response)

    def heard(self, now: int) -> None:
        """Tells that bytes came at this time, in milliseconds, though none of them were given to `take` yet: the peer
        is not silent. `take` says it of what it takes."""
        self._judge(self._heard(ctypes.byref(self._place), now))

    def tick(self, now: int) -> Tick:
        """Tells the time, in milliseconds, and does what is due: an empty frame, where nothing was sent for half of the
        peer's `idle_time_out`; a Close, where nothing was taken for as long as this side's own; the end, where the
        opening took longer than its limit. To be called by `next`, and after other calls, since these may move that."""
        self._judge(self._tick(ctypes.byref(self._place), now, ctypes.byref(self._ticked)))
        return Tick(self._ticked.due, None if self._ticked.next == _NEVER else self._ticked.next)

    @property
    def has_ended(self) -> bool:
        """Whether the connection is over: nothing is taken and nothing may be asked for any more. What waits is still
        to be sent."""
        return self._get(_IS_OVER) != b"\0"

    # ---- what comes

    def take(self, data: Union[bytes, bytearray], at: int = 0, now: int = 0) -> Taken:
        """Takes what came at this time, from a place of the bytes on: a header, a frame of SASL, or whole frames, as
        long as there is room for their records, up to one that is to be answered first: each runs once. Give what was
        not taken again, with what came since. Raises `NoMemory` where memory was refused before the first one. Who
        calls no `tick` need tell no time."""
        took = self._took
        # what is held keeps a bytearray as long as it is
        start, held = (data, data) if not at and isinstance(data, bytes) else _place_of(data, at)
        status = self._take(self._here, now, start, len(data) - at, self._records, self._most, self._took_at)
        del held
        if status not in (lib.FULL, lib.BAD_SIZE, lib.AGAIN, lib.WAITS, lib.OVER) and not (
            status == lib.NO_MEMORY and took.taken
        ):
            self._judge(status)
        said = memoryview(self._records)[: took.written * RECORD.size]
        records = [tuple_of(Record, it) for it in RECORD.iter_unpack(said)]
        if at:
            records = [_moved(it, at) for it in records]
        return Taken(took.taken, records, took.wanted, status == lib.BAD_SIZE, status == lib.OVER, status == lib.WAITS)

    def answer(self, record: Record, data: bytes, number: int, answers: int = ANSWER_ALL) -> bool:
        """Gives what a record asks for, of the answers that are named; `data` are the bytes that `take` was given for
        it. False where it asks for none of them, or none is due. A Begin of the peer's is answered by a session of this
        number, which none had before. Raises as `answer_begin` and `answer_end` do, and `Refusal` where the End or the
        Close for a refused frame is refused."""
        status = self._answer(ctypes.byref(self._place), RECORD.pack(*record), data, len(data), answers, number)
        if status == lib.NOTHING:
            return False
        self._judge(status)
        if record.kind == BEGIN_WANTED:
            self._numbers[number] = 0
        elif record.kind == ENDED:
            self._numbers.pop(record.session, None)
        return True

    def refusal_of(self, number: int) -> Refusal:
        """Why a frame or a transfer was refused, by its number: its name, and the condition that answers the frame, if
        any."""
        return Refusal(*self._text_of(number)[:2])

    def answer_of(self, number: int) -> Optional[str]:
        """How a refused frame is answered: by `end`, of its session, or by `close`, with the condition of `refusal_of`.
        `None`: it is not."""
        return self._text_of(number)[2]

    def _text_of(self, number: int) -> Tuple[str, Optional[str], Optional[str]]:
        if number not in self._texts:
            self._texts[number] = tuple(self._get(_REFUSAL_TEXT, numbers(number)).decode().split("\n"))
        name, condition, answer = (*self._texts[number], "", "")[:3]
        return name, condition or None, answer or None

    @property
    def remote_open(self) -> Optional[Open]:
        """The peer's Open, once it came. Raises `Malformed` where it holds what Python has not."""
        of = self._get(REMOTE_OPEN)
        return Open.decode(of) if of else None

    # ---- what goes

    def send(self, deliveries: Sequence[Delivery]) -> List[Tuple[int, int]]:
        """Sends transfers, each of one frame, in order. Of each: the number of its delivery, if it is the first one of
        it, and 0; or 0, and the number of its refusal. Where memory is refused the list is shorter: those that are left
        are to be sent again."""
        heads = b"".join(map(head_of, deliveries))
        data = b"".join(part for it in deliveries for part in (it.tag or b"", it.payload))
        count = len(deliveries)
        sent = ctypes.create_string_buffer(max(count, 1) * _SENT.size)
        went = self._went
        status = self._send(ctypes.byref(self._place), heads, count, data, len(data), sent, count, ctypes.byref(went))
        if status != lib.NO_MEMORY or not went.taken:
            self._judge(status)
        told = list(cast(Iterator[Tuple[int, int]], _SENT.iter_unpack(memoryview(sent)[: went.taken * _SENT.size])))
        for it, (_, refusal) in zip(deliveries, told):
            if it.flags & NUMBERED and not refusal:
                self._numbered(it.session)
        return told

    def cut(self, delivery: Delivery) -> List[Delivery]:
        """The parts of a transfer that may be longer than a frame, each of one frame. `send` takes them; one is to be
        sent only where the one before was not refused. Raises `Refusal` where no frame has room for one (`TooLarge`),
        and where the tag has more than 32 bytes (`TagTooLong`)."""
        parts: List[Delivery] = []
        head, tag, at = head_of(delivery), delivery.tag or b"", 0
        while True:
            self._judge(self._cut(ctypes.byref(self._place), head, tag, len(tag), self._parts))
            session, link, format, payload, flags, _, rest, more, refusal = _PARTS.unpack(self._parts)
            if refusal:
                raise self._refused_as(refusal)
            own_tag = tag if flags & TAGGED else None
            parts.append(Delivery(session, link, own_tag, delivery.payload[at : at + payload], flags & ~TAGGED, format))
            if not more:
                return parts
            head, tag, at = rest, b"", at + payload

    def deliver(self, session: int, transfer: Transfer, payload: bytes) -> Optional[int]:
        """A whole delivery is to be sent, in as many transfers as the peer's limit asks for. Each is one frame, so that
        both sides count as many against the window. Answers what `transfer` does of the first one. Raises `BadArgument`
        where it is longer than a frame and says what no head does: `rcv_settle_mode`, `state`, `resume`,
        `batchable`."""
        if len(payload) <= self.payload_room(transfer):
            return self.transfer(session, transfer, payload)
        number = None
        for part in self.cut(_delivery_of(session, transfer, payload)):
            # one by one: none goes out behind one that is refused
            ((told, refusal),) = self.send([part])
            if refusal:
                raise self._refused_as(refusal)
            number = told if number is None else number
        return number

    def link_deliver(self, delivery: Delivery, given: int = 0) -> Told:
        """A whole delivery is to be sent on a link, in as many transfers as the peer's limit asks for. What became of
        it, as of `link_send`: where its first transfer is refused nothing changed; where a later one is, the delivery
        is under way, and a transfer with `ABORTED` ends it."""
        told = self.link_send(delivery, given)
        if told.refusal != WHY_PAYLOAD_TOO_LONG:
            return told
        for part in self.cut(delivery):
            told = self.link_send(part, given)
            if told.refusal:
                return told
        return told

    def dispose(self, session: int, role: bool, first: int, last: int, settled: bool, outcome: int = 0) -> None:
        """A disposition is to be sent, of the deliveries from `first` to `last`. `role` is this side's; the outcome is
        0 for none, or accepted, released or modified."""
        self._ask(_DISPOSE, numbers(session) + bytes([role]) + numbers(first, last) + bytes([settled, outcome]))

    def to_send(self) -> bytes:
        """All bytes that wait to be sent, with their sizes; they are taken. Where memory is refused for some of them,
        `has_left` is set, and the others come with the next call."""
        parts = []
        while True:
            status, count = self._call(SEND, b"", 0)
            parts.append(ctypes.string_at(self._buffer, count))
            self.has_left = status == lib.NO_MEMORY
            if not self.has_left:
                self._judge(status)
            if count < len(self._buffer):
                return b"".join(parts)

    @property
    def unfit(self) -> int:
        """How many frames were longer than the peer takes, and were not sent."""
        return int.from_bytes(self._get(_UNFIT), "big")

    def _refused_as(self, number: int) -> Refusal:
        """The refusal of a request, of which no peer is told. What no frame has room for is `TooLarge`."""
        return Refusal("TooLarge" if number == WHY_PAYLOAD_TOO_LONG else self._text_of(number)[0])


__all__ = [
    "ABORTED", "ATTACHED", "ATTACH_WANTED", "AVAILABLE", "BEGIN_WANTED", "BEGUN", "BadArgument", "CLOSED", "COUNTED",
    "CREDITED", "DETACHED", "DISPOSITION", "DRAIN", "Delivery", "Driver", "ECHO", "ENDED", "FLOW", "FORMATTED",
    "FOR_GOOD", "LINKED", "LinkEvent", "MORE", "NONE", "NUMBERED", "NoMemory", "OF_RECEIVER", "OPENED", "Opening",
    "REFUSED", "Record", "SETTLED", "STATED", "TAGGED", "TRANSFER", "Taken", "Tick", "Told", "Unsettled", "WITH_ERROR",
]  # fmt: skip
