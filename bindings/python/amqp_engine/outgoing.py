"""A link on which a client that is served receives."""

from __future__ import annotations

import asyncio
from collections import deque
from typing import TYPE_CHECKING, Any, Deque, Dict, List, Optional, Tuple, Union

from .driver import DRAIN, FORMATTED, SETTLED, Delivery, LinkEvent
from .ends import Link, LinkHandler
from .events import Refusal
from .handed import OutgoingDelivery
from .linking import EVENT_FLOW, WHY_LINK_NOT_ATTACHED, WHY_LINK_NO_CREDIT
from .message import Message
from .performatives import SETTLED as SENDS_SETTLED
from .serving import OfLink, Wanted

if TYPE_CHECKING:
    from .served import Served
    from .sessions import ServedSession


_Pending = Tuple[Union[bytes, Message], Optional[bool], "asyncio.Future[OutgoingDelivery]"]
#: What waits to be sent on a link on which nothing was
_NOTHING: Deque[Any] = deque(maxlen=0)


class OutgoingLink(Link):
    """A link on which the client receives."""

    def __init__(self, connection: "Served", session: "ServedSession", wanted: Wanted) -> None:
        super().__init__(connection, session, wanted)
        #: whether deliveries go out settled, where `send` says nothing
        self.sends_settled = wanted.attach.snd_settle_mode == SENDS_SETTLED
        # what is unsettled, by its numbers
        self._open: Dict[int, OutgoingDelivery] = {}
        # what waits to be sent, and who waits for that
        self._pending: Deque[_Pending] = _NOTHING
        self._tags = 0
        # the flow that is to be answered, and whether it drains
        self._owed: Optional[LinkEvent] = None
        self._drains = False

    def accept(
        self, *, handler: Optional[LinkHandler] = None, max_message_size: Optional[int] = None, **how: Any
    ) -> None:
        """The link is accepted. A `handler` is told of credit and of what is settled. `how` are other fields of the
        Attach."""
        self._handler = handler or _SENDS
        self._attach(max_message_size, **how)

    @property
    def credit(self) -> int:
        """How many deliveries may be begun."""
        return 0 if self.is_over else self._engine.link_credit(self.session.number, self.handle)

    def try_send(
        self, message: Union[bytes, Message], *, settled: Optional[bool] = None, format: int = 0
    ) -> Optional[OutgoingDelivery]:
        """Sends a message, or its bytes, if the client can take it now: it gave credit, its session's window is open,
        and it reads what it was sent and settles it. Else `None`, and the link's handler is told (`credited`) once it
        can. Raises `Refusal` where it is refused for another reason, as one that is too large."""
        self.is_to_be_answered()
        if self.is_over or not self.session.can_take(self):
            return None
        payload = message.encode() if isinstance(message, Message) else message
        is_settled, tag = self.sends_settled if settled is None else settled, self._tags.to_bytes(8, "big")
        flags = FORMATTED | (SETTLED if is_settled else 0)
        told = self._engine.link_deliver(Delivery(self.session.number, self.handle, tag, payload, flags, format))
        if told.refusal in (WHY_LINK_NO_CREDIT, WHY_LINK_NOT_ATTACHED):
            return None
        if told.refusal:
            raise self._engine.refusal_of(told.refusal)
        self.session.sent()
        self._tags += 1
        delivery = OutgoingDelivery(self, told.number, tag, payload, is_settled)
        if not is_settled:
            self._open[told.number] = delivery
            self.session.opens(1, len(payload))
        return delivery

    async def send(self, message: Union[bytes, Message], *, settled: Optional[bool] = None) -> OutgoingDelivery:
        """Sends a message, or its bytes, once the client can take it; several wait in their order. `await
        delivery.settled()` waits for its outcome. Raises `LinkClosed` where the link goes before."""
        if self.is_over:
            raise self.ended_error()
        future: "asyncio.Future[OutgoingDelivery]" = asyncio.get_running_loop().create_future()
        if self._pending is _NOTHING:
            self._pending = deque()
        self._pending.append((message, settled, future))
        self.send_pending()
        return await future

    def send_pending(self) -> int:
        """For the package: what waits is sent, as far as the client takes it. Answers how many wait on."""
        while self._pending:
            message, settled, future = self._pending[0]
            if not future.done():
                try:
                    delivery = self.try_send(message, settled=settled)
                except Refusal as refusal:
                    future.set_exception(refusal)
                else:
                    if delivery is None:
                        break
                    future.set_result(delivery)
            self._pending.popleft()
        return len(self._pending)

    def answer(self, available: int = 0) -> None:
        """Answers the client's flow, where it asked for that and was not answered yet: what it drains is used up."""
        event, self._owed = self._owed, None
        if event is not None and not self.is_over:
            self.session.owe(event, available)

    def want(self) -> None:
        """For the package: the client gave credit, or can take more."""
        if self.is_over:
            return
        available = self._handler.credited(self)
        if self._owed is not None and not (self._drains and available and self.credit):
            self.answer(available)

    def due(self, event: LinkEvent) -> None:
        """For the package: what it owes, and was held back, may go out."""
        if self.is_over:
            super().due(event)
        else:
            self._owed = event
            self.want()

    def hear(self, told: OfLink) -> None:
        """For the package: what came for it."""
        if told.event.kind == EVENT_FLOW:
            self._owed, self._drains = told.event, bool(told.record.flags & DRAIN)
            self.want()
        else:
            super().hear(told)

    def settle(self, number: int, told: OfLink) -> None:
        """For the package: the client settled a delivery."""
        delivery = self._open.pop(number, None)
        if delivery is not None:
            self.session.opens(-1, -len(delivery.payload))
            delivery.settle(told.record.outcome, told.body)
            self._handler.settled(self, delivery)

    def _leave(self) -> List[OutgoingDelivery]:
        left, self._open = list(self._open.values()), {}
        for it in left:
            self.session.opens(-1, -len(it.payload))
            it.leave()
        for *_, future in self._pending:
            if not future.done():
                future.set_exception(self.ended_error())
        self._pending = _NOTHING
        self.connection.parked.pop(self, None)
        return left


class _Sends(LinkHandler):
    """The handler of a link whose program awaits `send`."""

    def credited(self, link: OutgoingLink) -> int:
        return link.send_pending()


_SENDS = _Sends()
