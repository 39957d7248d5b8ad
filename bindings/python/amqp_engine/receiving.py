"""Receivers: deliveries come as far as credit was granted, which is renewed as a program takes them; and what a program
says of each."""

from __future__ import annotations

import asyncio
from collections import deque
from typing import TYPE_CHECKING, Any, AsyncIterator, Callable, Deque, Dict, List, Mapping, Optional

from .errors import AlreadyClosed, AmqpError, TimedOut
from .line import Line, Session

from .linking import (
    EVENT_ABORTED, EVENT_FIRST, EVENT_FLOW, EVENT_GIVEN, EVENT_LAST, EVENT_PART, EVENT_PRESETTLED, WISH_DRAIN,
    WISH_GRANT, LinkEvent,
)  # fmt: skip
from .links import Link
from .message import Message
from .outcomes import STATE_ACCEPTED, STATE_RELEASED, Modified, Outcome, Rejected, state_of
from .performatives import RECEIVER, Disposition, Error
from .records import Record

if TYPE_CHECKING:
    from .client import Client

#: The longest message that a receiver takes where it does not say another, in bytes
MESSAGE_MOST = 64 << 20


class ReceivedDelivery:
    """A message that came, and that the program settles: by `accept`, `reject`, `release` or `modify`. One that the
    peer had settled (`settled`) needs nothing: these calls do nothing then, and so does a second one."""

    __slots__ = ("receiver", "payload", "tag", "settled", "number", "_line", "_session", "_message")

    def __init__(self, receiver: "Receiver", payload: bytes, tag: bytes, settled: bool, number: int) -> None:
        #: the receiver that it came to
        self.receiver = receiver
        #: the message's bytes
        self.payload = payload
        #: the delivery's tag, that the peer chose
        self.tag = tag
        #: whether it is settled: the peer sent it so, or this side has settled it
        self.settled = settled
        #: the number of the delivery in its session
        self.number = number
        self._line, self._session = receiver._line, receiver._session
        self._message: Optional[Message] = None

    @property
    def message(self) -> Message:
        """The message. Raises `Malformed` where the bytes are none."""
        if self._message is None:
            self._message = Message.decode(self.payload)
        return self._message

    async def accept(self) -> None:
        """The message was taken. Raises the error by which the link ended, where it did: then the peer was not told."""
        await self._settle(STATE_ACCEPTED)

    async def release(self) -> None:
        """The message was not processed, and may go to another receiver, or come again."""
        await self._settle(STATE_RELEASED)

    async def reject(self, condition: Optional[str] = None, description: Optional[str] = None) -> None:
        """The message is no good, by a condition of the standard or of one's own, as `amqp:decode-error`."""
        await self._dispose(Rejected(None if condition is None else Error(condition, description)))

    async def modify(
        self, *, failed: bool = True, undeliverable: bool = False, annotations: Optional[Mapping[Any, Any]] = None
    ) -> None:
        """The message was not processed: `failed` counts as a failed delivery; `undeliverable` is not to come to this
        receiver again; `annotations` are merged into the message's."""
        await self._dispose(Modified(failed, undeliverable, annotations))

    async def _settle(self, outcome: int) -> None:
        line = self._begin_to_settle()
        if line is not None and self._session is not None:
            line.settle(self._session, self.number, outcome)
            if line.wire.is_paused:
                await line.wire.drain()

    async def _dispose(self, outcome: Outcome) -> None:
        line = self._begin_to_settle()
        if line is not None and self._session is not None:
            line.dispose(self._session, Disposition(RECEIVER, self.number, settled=True, state=state_of(outcome)))
            if line.wire.is_paused:
                await line.wire.drain()

    def settle_by(self, soon: Callable[..., object], outcome: int) -> None:
        """The same from another thread than the loop's, which `soon` has call something: it does not wait for that."""
        line = self._begin_to_settle()
        if line is not None:
            soon(line.settle, self._session, self.number, outcome)

    def _begin_to_settle(self) -> Optional[Line]:
        """The line on which to settle; `None` where nothing is to be settled."""
        if self.settled:
            return None
        receiver = self.receiver
        is_there = self._line is not None and receiver._line is self._line and not self._line.ended.done()
        receiver.check()
        if not is_there:
            raise AmqpError("the connection on which the message came is lost: it may come again")
        self.settled = True
        return self._line

    def __repr__(self) -> str:
        return f"ReceivedDelivery({self.number}, {len(self.payload)} bytes{', settled' if self.settled else ''})"


class Receiver(Link):
    """Receives messages from an address. An asynchronous iterator of deliveries, which ends where this side closes it.

    At most `credit` messages are on the way or wait to be taken; what is taken makes room for as many. With a credit of
    0 the program grants it itself, by `grant`."""

    def __init__(
        self, client: "Client", name: Optional[str], attach: Dict[str, Any], own_session: bool, credit: int
    ) -> None:
        super().__init__(client, RECEIVER, name, attach, own_session)
        self._most = credit
        # what the peer may begin still, and what it was granted last
        self._unused = self._granted = 0
        self._queue: Deque[ReceivedDelivery] = deque()
        # the payload of the delivery under way
        self._parts: List[bytes] = []
        self._waiters: Deque["asyncio.Future[None]"] = deque()
        self._drained: Optional["asyncio.Future[None]"] = None
        self._is_drained = False

    async def receive(self, timeout: Optional[float] = None) -> ReceivedDelivery:
        """The next delivery. Raises `TimedOut` where none comes in time, `AlreadyClosed` where this side has closed the
        link, and the error by which the link ends. A call that is cancelled takes none."""
        until = None if timeout is None else asyncio.get_running_loop().time() + timeout
        while not self._queue:
            self.check()
            if self._attached is None:
                raise RuntimeError("the receiver is not open")
            await self._comes(until, timeout)
        delivery = self._queue.popleft()
        self._renew()
        return delivery

    def taken(self) -> Optional[ReceivedDelivery]:
        """A delivery that waits, if one does, for another thread than the loop's. The loop is to call `renew` then."""
        try:
            return self._queue.popleft()
        except IndexError:
            return None

    def renew(self) -> None:
        """Grants credit for what was taken."""
        if self._over is None:
            self._renew()

    async def _comes(self, until: Optional[float], timeout: Optional[float]) -> None:
        """Until a delivery has come, or the link is over."""
        loop = asyncio.get_running_loop()
        waiter: "asyncio.Future[None]" = loop.create_future()
        self._waiters.append(waiter)
        timer = None
        if until is not None:
            timer = loop.call_at(until, _fail, waiter, TimedOut(f"no message came within {timeout:g} seconds"))
        try:
            await waiter
        except asyncio.CancelledError:
            if waiter.done() and not waiter.cancelled() and self._queue:
                self._wake_one()
            raise
        finally:
            if timer is not None:
                timer.cancel()
            if waiter in self._waiters:
                self._waiters.remove(waiter)

    def __aiter__(self) -> AsyncIterator[ReceivedDelivery]:
        return self

    async def __anext__(self) -> ReceivedDelivery:
        try:
            return await self.receive()
        except AlreadyClosed:
            raise StopAsyncIteration from None

    def grant(self, credit: int) -> None:
        """Grants so much credit, in the place of what was left: for a receiver with a credit of 0, or after `drain`."""
        line, session = self._line, self._session
        self._is_drained = False
        if line is not None and session is not None and session.over is None:
            # in the order of the program's calls
            line.settle_now(session)
            line.driver.link_flow(session.number, self._handle, WISH_GRANT, credit)
            self._unused = self._granted = credit
            line.wire.ask()

    async def drain(self, timeout: Optional[float] = None) -> int:
        """Has the peer send what it has at once, and give the rest of the credit back; answers how many deliveries wait
        to be taken then. No more come until `grant`. Raises `TimedOut`."""
        line, session = self._line, self._session
        self.check()
        if line is None or session is None:
            raise AmqpError("the link is not attached now")
        self._is_drained = True
        if line.driver.link_credit(session.number, self._handle):
            self._drained = asyncio.get_running_loop().create_future()
            line.settle_now(session)
            line.driver.link_flow(session.number, self._handle, WISH_DRAIN)
            line.wire.ask()
            await before_future(self._drained, timeout, "the peer did not answer a drain")
        return len(self._queue)

    @property
    def waiting(self) -> int:
        """How many deliveries have come and wait to be taken."""
        return len(self._queue)

    # ---- on a line

    def _begin(self, line: Line) -> None:
        self._unused = self._granted = 0
        if self._most > len(self._queue):
            self.grant(self._most - len(self._queue))

    def _renew(self) -> None:
        """Credit for what was taken, once that is half of it, and the peer has used half of what it was granted last;
        all of it where the peer counts late."""
        unused, line = self._unused, self._line
        if unused and (2 * unused >= self._granted or line is not None and line.counts_late):
            return
        room = self._most - len(self._queue) - bool(self._parts) - unused
        if room >= max(1, self._most // 2) and not self._is_drained and self._most:
            self.grant(unused + room)

    def _take(self, line: Line, record: Record, event: LinkEvent, data: bytes) -> None:
        if event.kind == EVENT_PART:
            return self._take_part(line, record, event, data)
        if event.kind == EVENT_FLOW:
            line.driver.link_respond(event)
            self._unused = event.credit
            if self._drained is not None and not self._drained.done() and event.credit == 0:
                self._drained.set_result(None)

    def _take_part(self, line: Line, record: Record, event: LinkEvent, data: bytes) -> None:
        payload = data[record.payload_at : record.payload_at + record.payload]
        self._unused = event.credit
        if event.flags & EVENT_GIVEN:
            # aborted, or settled by a later part: the session's own record of it goes
            line.driver.link_respond(event)
        if event.flags & (EVENT_FIRST | EVENT_ABORTED):
            self._parts.clear()
        if event.flags & EVENT_ABORTED:
            return self._renew()
        if not event.flags & EVENT_LAST:
            self._parts.append(payload)
            return
        if self._parts:
            payload = b"".join([*self._parts, payload])
            self._parts.clear()
        tag = record.tag[: record.tag_size] if record.tag_size <= 32 else b""
        self._queue.append(ReceivedDelivery(self, payload, tag, bool(event.flags & EVENT_PRESETTLED), event.first))
        self._wake_one()
        self._renew()

    def _wake_one(self) -> None:
        while self._waiters:
            waiter = self._waiters.popleft()
            if not waiter.done():
                waiter.set_result(None)
                return

    def _left(self, line: Line, why: BaseException, comes_back: bool) -> None:
        """What was not settled is the peer's again, and will come again."""
        self._parts.clear()
        self._queue = deque(it for it in self._queue if it.settled)
        if self._drained is not None:
            _fail(self._drained, why)

    def _wake(self, why: BaseException) -> None:
        while self._waiters:
            waiter = self._waiters.popleft()
            if not waiter.done():
                waiter.set_result(None)


def _fail(future: "asyncio.Future[None]", error: BaseException) -> None:
    if not future.done():
        future.set_exception(error)


async def before_future(future: "asyncio.Future[None]", seconds: Optional[float], otherwise: str) -> None:
    """What is awaited, or `TimedOut` after so many seconds."""
    timer = None
    if seconds is not None:
        error = TimedOut(f"{otherwise} within {seconds:g} seconds")
        timer = asyncio.get_running_loop().call_later(seconds, _fail, future, error)
    try:
        await future
    finally:
        if timer is not None:
            timer.cancel()


__all__ = ["ReceivedDelivery", "Receiver", "Session"]
