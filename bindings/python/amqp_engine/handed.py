"""Deliveries on the links of a client that is served: those that came, and those that this side sent."""

from __future__ import annotations

import asyncio
from typing import TYPE_CHECKING, Any, Dict, Generator, List, Optional

from .driver import STATE_ACCEPTED, STATE_MODIFIED, STATE_OTHER, STATE_REJECTED, STATE_RELEASED
from .message import Message
from .performatives import Disposition, Error, rejected
from .values import Described, Ulong

if TYPE_CHECKING:
    from .incoming import IncomingLink
    from .outgoing import OutgoingLink

_MODIFIED = 0x27
#: The outcomes by the names of their descriptors, which the library leaves aside (AMQP 1.0 part 3, section 3.4)
_BY_NAME = {
    "amqp:accepted:list": STATE_ACCEPTED, "amqp:rejected:list": STATE_REJECTED, "amqp:released:list": STATE_RELEASED,
    "amqp:modified:list": STATE_MODIFIED,
}  # fmt: skip


class Flushed:
    """What was asked has been asked. Who awaits it waits while the client has much to read."""

    __slots__ = ("_link",)

    def __init__(self, link: Any) -> None:
        self._link = link

    def __await__(self) -> Generator[Any, None, None]:
        return self._link.connection.flush().__await__()  # type: ignore[no-any-return]


class IncomingDelivery:
    """A whole delivery that came. It is settled by one of `accept`, `reject`, `release` and `modify`, which may be
    awaited and need not be; a second one does nothing, nor does one on a link that is over. Where the client settles
    last (`rcv_settle_mode` second), it is over once it has."""

    __slots__ = ("link", "number", "tag", "format", "payload", "is_settled", "is_told")

    def __init__(self, link: "IncomingLink", number: int, tag: bytes, format: int) -> None:
        #: its link
        self.link = link
        #: its number, its tag and the format of its message
        self.number, self.tag, self.format = number, tag, format
        #: the bytes of its message
        self.payload = b""
        #: whether it is settled, by either side; and whether this side has said what becomes of it
        self.is_settled = self.is_told = False

    @property
    def message(self) -> Message:
        """The message, which is read as it is looked at. Raises `Malformed` where it is none."""
        return Message.decode(self.payload)

    def accept(self) -> Flushed:
        """It is accepted."""
        return self._say(STATE_ACCEPTED)

    def release(self) -> Flushed:
        """It is given back, as if it had not been sent."""
        return self._say(STATE_RELEASED)

    def reject(self, error: Optional[Error] = None) -> Flushed:
        """It is refused, with what is wrong with it."""
        return self._say(STATE_REJECTED, rejected(error))

    def modify(
        self, failed: bool = True, elsewhere: bool = False, annotations: Optional[Dict[Any, Any]] = None
    ) -> Flushed:
        """It is given back, changed (AMQP 1.0 part 3, section 3.4.5): its delivery `failed`, it is to go `elsewhere`,
        and it has these annotations."""
        fields: List[Any] = [failed, elsewhere]
        return self._say(STATE_MODIFIED, Described(Ulong(_MODIFIED), fields + ([annotations] if annotations else [])))

    def _say(self, outcome: int, state: Optional[Described] = None) -> Flushed:
        if not (self.is_told or self.is_settled or self.link.is_over):
            self.is_told, self.is_settled = True, self.link.settles
            self.link.dispose(self, outcome, state)
        return Flushed(self.link)


class OutgoingDelivery:
    """A delivery that this side sent."""

    __slots__ = ("link", "number", "tag", "payload", "is_settled", "outcome", "_body", "_told")

    def __init__(self, link: "OutgoingLink", number: int, tag: bytes, payload: bytes, is_settled: bool) -> None:
        #: its link
        self.link = link
        #: its number and its tag
        self.number, self.tag = number, tag
        #: the bytes of its message
        self.payload = payload
        #: whether it is settled
        self.is_settled = is_settled
        #: what became of it, as the client says: `STATE_ACCEPTED` and so on of `driver`; 0 where it says nothing
        self.outcome = 0
        self._body = b""
        self._told: Optional["asyncio.Future[int]"] = None

    @property
    def state(self) -> Optional[Described]:
        """The client's word on it as it came, as with the error of a rejection. Raises `Malformed` where it cannot be
        read."""
        return Disposition.decode(self._body).state if self._body else None

    async def settled(self) -> int:
        """Waits until it is settled, and answers the outcome. Raises `LinkClosed` where the link goes before: it may
        have arrived, and may not."""
        if self.is_settled:
            return self.outcome
        if self.link.is_over:
            raise self.link.ended_error()
        if self._told is None:
            self._told = asyncio.get_running_loop().create_future()
        return await asyncio.shield(self._told)

    def settle(self, outcome: int, body: bytes) -> None:
        """For the package: the client has settled it."""
        self.is_settled, self.outcome, self._body = True, outcome, body
        if outcome == STATE_OTHER and (state := self.state) is not None:
            self.outcome = _BY_NAME.get(state.descriptor, outcome)
        if self._told is not None and not self._told.done():
            self._told.set_result(outcome)

    def leave(self) -> None:
        """For the package: its link is over."""
        if self._told is not None and not self._told.done():
            self._told.set_exception(self.link.ended_error())
            # who waited may have gone
            self._told.exception()
