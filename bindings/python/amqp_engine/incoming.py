"""A link on which a client that is served sends, and its deliveries."""

from __future__ import annotations

import asyncio
from collections import deque
from typing import TYPE_CHECKING, Any, AsyncIterator, Deque, Dict, List, Optional

from .driver import FORMATTED, TAGGED, LinkEvent, Record
from .ends import Link, LinkHandler
from .handed import IncomingDelivery, OutgoingDelivery

from .linking import (
    EVENT_ABORTED, EVENT_FIRST, EVENT_FLOW, EVENT_GIVEN, EVENT_LAST, EVENT_PART, EVENT_PRESETTLED, WISH_GRANT,
)  # fmt: skip
from .performatives import FIRST, RECEIVER, SECOND, Disposition, Error
from .serving import OfLink, Wanted
from .values import Described

#: How many bytes a tag may have (AMQP 1.0 part 2, section 2.8.7)
_TAG_MOST = 32

if TYPE_CHECKING:
    from .served import Served
    from .sessions import ServedSession


class IncomingLink(Link):
    """A link on which the client sends. An asynchronous iterator of its deliveries, which ends with the link."""

    def __init__(self, connection: "Served", session: "ServedSession", wanted: Wanted) -> None:
        super().__init__(connection, session, wanted)
        #: whether this side settles by what it says of a delivery; else the client does so then
        self.settles = wanted.attach.rcv_settle_mode != SECOND
        # the delivery that is coming, and those that are unsettled, by their numbers
        self._coming: Optional[IncomingDelivery] = None
        self._open: Dict[int, IncomingDelivery] = {}
        self._parts: List[bytes] = []
        # of the part that is coming, its bytes; and up to how much credit is given
        self._size = self._most = 0
        self._iterates = True
        # what the program has not taken; and who waits for more
        self._waiting: Optional[Deque[IncomingDelivery]] = None
        self._waits: Optional["asyncio.Future[None]"] = None

    def accept(
        self, credit: int = 100, *, handler: Optional[LinkHandler] = None, settles: Optional[bool] = None,
        max_message_size: Optional[int] = None, **how: Any,
    ) -> None:  # fmt: skip
        """The link is accepted. With `credit` the client may send so many deliveries, and more as the program takes
        them from the iterator; a `handler` has each as it comes, and calls `renew`. With `settles` this side settles a
        delivery by what it says of it, whatever the client wishes (AMQP 1.0 part 2, section 2.8.3), or waits for the
        client to settle. A longer message than `max_message_size` ends the link. `how` are other fields of the
        Attach."""
        if settles is not None:
            self.settles = settles
            how["rcv_settle_mode"] = FIRST if settles else SECOND
        self._handler = handler or self._handler
        self._iterates, self._most = handler is None, credit
        # the library renews nothing by itself: the program has to take what came
        self._attach(max_message_size, **how)
        if self._iterates:
            self.renew()

    def renew(self) -> None:
        """Gives the client credit up to that of `accept`, where less than half of it is left."""
        if self.credit < self._most - self._most // 2 and not self.is_over:
            self.connection.ask(self._engine.link_flow, self.session.number, self.handle, WISH_GRANT, self._most)

    @property
    def credit(self) -> int:
        """How many deliveries the client may begin."""
        return 0 if self.is_over else self._engine.link_credit(self.session.number, self.handle)

    def __aiter__(self) -> AsyncIterator[IncomingDelivery]:
        return self

    async def __anext__(self) -> IncomingDelivery:
        while not self._waiting:
            if self.is_over:
                raise StopAsyncIteration
            if self._waits is not None:
                raise RuntimeError("two tasks wait for the deliveries of one link")
            self._waits = asyncio.get_running_loop().create_future()
            try:
                await self._waits
            finally:
                self._waits = None
        delivery = self._waiting.popleft()
        self.connection.takes(-len(delivery.payload))
        if len(self._waiting) <= self._most // 2:
            self.renew()
        return delivery

    def dispose(self, delivery: IncomingDelivery, outcome: int, state: Optional[Described]) -> None:
        """For the package: what becomes of a delivery."""
        number, session = delivery.number, self.session.number
        if state is None:
            self.connection.ask(self._engine.link_settle, session, RECEIVER, number, number, self.settles, outcome)
        else:
            said = Disposition(RECEIVER, number, settled=self.settles, state=state)
            self.connection.ask(self._engine.link_dispose, session, said)
        if self.settles:
            self._open.pop(number, None)
            self.session.take_out(RECEIVER, number)
        else:
            self.session.owed += 1

    def settle(self, number: int, told: OfLink) -> None:
        """For the package: the client settled a delivery."""
        delivery = self._open.pop(number, None)
        if delivery is not None:
            delivery.is_settled = True
            self.session.owed -= delivery.is_told

    def hear(self, told: OfLink) -> None:
        """For the package: what came for it."""
        if told.event.kind == EVENT_PART:
            self._hear_part(told.event, told.record, told.body)
        elif told.event.kind == EVENT_FLOW:
            self.session.owe(told.event)
        else:
            super().hear(told)

    def _hear_part(self, event: LinkEvent, record: Record, payload: bytes) -> None:
        if record.tag_size > _TAG_MOST:
            self.detach(Error("amqp:invalid-field", "a delivery-tag of more than 32 bytes"))
            return
        if event.flags & EVENT_FIRST:
            tag = record.tag[: record.tag_size] if record.flags & TAGGED else b""
            self._coming = IncomingDelivery(self, event.first, tag, record.format if record.flags & FORMATTED else 0)
        self._parts.append(payload)
        self._size += len(payload)
        self.connection.incomplete += len(payload)
        if event.flags & (EVENT_LAST | EVENT_ABORTED):
            self._whole(event)
        elif (error := self.session.excess()) is not None:
            self.detach(error)

    def _whole(self, event: LinkEvent) -> None:
        delivery, payload = self._coming, b"".join(self._parts)
        self._forget_parts()
        if event.flags & EVENT_GIVEN:
            # a later part settled it, or aborted it: the session's own record of it goes
            self.session.owe(event)
        if delivery is None or event.flags & EVENT_ABORTED:
            return
        delivery.payload, delivery.is_settled = payload, bool(event.flags & EVENT_PRESETTLED)
        if not delivery.is_settled:
            self._open[event.first] = delivery
        if (error := self.session.excess()) is not None:
            self.detach(error)
        elif self._iterates:
            if self._waiting is None:
                self._waiting = deque()
            self._waiting.append(delivery)
            self.connection.takes(len(payload))
            self._wake()
        else:
            self._handler.delivered(self, delivery)

    def _forget_parts(self) -> None:
        self.connection.incomplete -= self._size
        self._coming, self._parts, self._size = None, [], 0

    def _leave(self) -> List[OutgoingDelivery]:
        self._forget_parts()
        self.session.owed -= sum(it.is_told for it in self._open.values())
        self._open.clear()
        self._wake()
        return []

    def _wake(self) -> None:
        if self._waits is not None and not self._waits.done():
            self._waits.set_result(None)
