"""Senders: messages go out as the peer's credit, its window and its reading allow, and each call waits for what becomes
of its message."""

from __future__ import annotations

import asyncio
import itertools
from collections import deque
from typing import TYPE_CHECKING, Any, Deque, Dict, List, Optional

from . import records as said
from .driver import WHY_PAYLOAD_TOO_LONG, Delivery
from .errors import AmqpError, NotAccepted, TimedOut
from .line import MUCH, Line
from .linking import EVENT_FLOW, WHY_LINK_NO_CREDIT, WHY_LINK_NOT_ATTACHED, WHY_LINK_TOO_LARGE, LinkEvent
from .links import Link
from .message import Message
from .outcomes import SETTLED_OUTCOME, Outcome
from .performatives import SENDER, SETTLED, Error
from .records import HEAD, Record

if TYPE_CHECKING:
    from .client import Client


class Sending:
    """One message on its way, and who waits for what becomes of it."""

    __slots__ = ("sender", "payload", "tag", "is_settled", "future", "number")

    def __init__(
        self, sender: "Sender", payload: bytes, tag: bytes, is_settled: bool, future: "asyncio.Future[Outcome]"
    ) -> None:
        #: by whom it is sent, its bytes, the tag of its delivery, and whether it is sent settled
        self.sender, self.payload, self.tag, self.is_settled = sender, payload, tag, is_settled
        #: what becomes of it
        self.future = future
        #: that of its delivery, once it went out
        self.number: Optional[int] = None

    def settle(self, outcome: Outcome) -> None:
        """The delivery is settled."""
        if not self.future.done():
            self.future.set_result(outcome)

    def fail(self, error: BaseException) -> None:
        """What became of it is not known, or it did not go out."""
        if not self.future.done():
            self.future.set_exception(error)

    def time_out(self, seconds: float) -> None:
        """Its time is over."""
        went = self.number is not None
        what = "the message was sent, and not settled" if went else "the message was not sent"
        self.fail(TimedOut(f"{what} within {seconds:g} seconds", went))


class Sender(Link):
    """Sends messages to an address. Several tasks may send at once; messages go out in the order of the calls."""

    def __init__(
        self, client: "Client", name: Optional[str], attach: Dict[str, Any], own_session: bool, resend: bool
    ) -> None:
        super().__init__(client, SENDER, name, attach, own_session)
        self._waiting: Deque[Sending] = deque()
        self._tags = itertools.count()
        self._resend, self._is_settled = resend, attach["snd_settle_mode"] == SETTLED
        # whether the credit is used up, until a flow comes
        self._is_spent = False

    async def send(
        self, message: Any, *, timeout: Optional[float] = None, settled: bool = False, raises: bool = True
    ) -> Outcome:
        """Sends a message, a `Message` or the body of one, and answers what became of it: it waits for credit, and for
        the peer to settle. `settled` sends it settled: then nothing is told of it, and the call waits for credit alone.

        Raises `NotAccepted` where the message was rejected, released or modified; with `raises=False` it answers that.
        Raises `TimedOut`, and the error by which the link ends: `is_unsettled` says whether the message went out, and
        may have been taken. A call that is cancelled before its message went out sends nothing."""
        if self._over is not None or self._attached is None:
            self.check()
            raise RuntimeError("the sender is not open")
        payload = (message if isinstance(message, Message) else Message(message)).encode()
        tag = (next(self._tags) % 2**32).to_bytes(4, "big")
        future: "asyncio.Future[Outcome]" = asyncio.get_running_loop().create_future()
        sending = Sending(self, payload, tag, settled or self._is_settled, future)
        # behind those that wait, for credit or for another reason that `go` is called after
        if self._waiting or self._is_spent or not self._may_send() or not self._sends(sending):
            self._waiting.append(sending)
        if future.done():
            if self._line is not None and self._line.wire.backlog > MUCH:
                # what was sent settled goes out before more is
                await asyncio.sleep(0)
            outcome = future.result()
        elif timeout is not None:
            outcome = await self._outcome(sending, timeout)
        else:
            try:
                outcome = await future
            finally:
                self._waits_no_more(sending)
        if raises and not outcome.is_taken:
            raise NotAccepted(outcome)
        return outcome

    async def _outcome(self, sending: Sending, timeout: float) -> Outcome:
        """What becomes of a message for which somebody waits so long."""
        timer = asyncio.get_running_loop().call_later(timeout, sending.time_out, timeout)
        try:
            return await sending.future
        finally:
            timer.cancel()
            self._waits_no_more(sending)

    def _waits_no_more(self, sending: Sending) -> None:
        """Nobody waits for a message any more: it does not go out, where it has not."""
        if sending.number is None and sending in self._waiting:
            self._waiting.remove(sending)

    @property
    def credit(self) -> int:
        """How many messages the peer takes now."""
        line, session = self._line, self._session
        if line is None or session is None or line.ended.done():
            return 0
        return line.driver.link_credit(session.number, self._handle)

    @property
    def max_message_size(self) -> Optional[int]:
        """How many bytes of a message the peer takes, where it sets a limit."""
        return (self.remote.max_message_size or None) if self.remote is not None else None

    # ---- on a line

    def go(self) -> None:
        """Sends what waits, as far as it may go out."""
        while self._waiting and not self._is_spent and self._may_send():
            sending = self._waiting[0]
            if not sending.future.done() and not self._sends(sending):
                return
            self._waiting.popleft()

    def _may_send(self) -> bool:
        line, session = self._line, self._session
        if line is None or session is None or session.over is not None or self._detached is not None:
            return False
        is_attached = self._attached is not None and self._attached.done()
        return is_attached and not (session.is_held or line.wire.is_paused)

    def _sends(self, sending: Sending) -> bool:
        """Whether a message went out, or will never."""
        line, session = self._line, self._session
        assert line is not None and session is not None
        payload, tag, given = sending.payload, sending.tag, line.given()
        flags = said.TAGGED | said.FORMATTED | (said.SETTLED if sending.is_settled else 0)
        head = HEAD.pack(session.number, self._handle, 0, len(payload), flags, len(tag))
        number, refusal = line.driver.link_send_head(head, tag + payload, given)
        if refusal == WHY_PAYLOAD_TOO_LONG:
            delivery = Delivery(session.number, self._handle, tag, payload, flags & ~said.TAGGED)
            number, refusal, _ = line.driver.link_deliver(delivery, given)
        if refusal:
            return self._not_sent(line, sending, refusal)
        line.sends(session, len(payload))
        sending.number = number
        if sending.is_settled:
            sending.settle(SETTLED_OUTCOME)
        else:
            line.sent[given] = sending
        return True

    def _not_sent(self, line: Line, sending: Sending, refusal: int) -> bool:
        if refusal in (WHY_LINK_NO_CREDIT, WHY_LINK_NOT_ATTACHED):
            self._is_spent = True
            return False
        if refusal == WHY_LINK_TOO_LARGE:
            sending.fail(AmqpError("the message is larger than the peer takes", "amqp:link:message-size-exceeded"))
        else:
            sending.fail(AmqpError(f"the message cannot be sent ({line.driver.refusal_of(refusal).name})"))
        return True

    def _begin(self, line: Line) -> None:
        self._is_spent = False
        self.go()

    def _take(self, line: Line, record: Record, event: LinkEvent, data: bytes) -> None:
        self._is_spent = False
        self.go()
        if event.kind == EVENT_FLOW:
            line.driver.link_respond(event, self._ready())

    def _ready(self) -> int:
        return len(self._waiting)

    def _mine(self, line: Line) -> List[Sending]:
        """What was sent, and is not settled, in the order in which it went out."""
        return [it for it in line.sent.values() if it.sender is self]

    def _left(self, line: Line, why: BaseException, comes_back: bool) -> None:
        """What was not settled goes out again on the next connection, or those that wait are told."""
        mine = self._mine(line)
        for given in [given for given, it in line.sent.items() if it.sender is self]:
            del line.sent[given]
        again = []
        for it in mine:
            if comes_back and self._resend and not it.future.done():
                it.number = None
                again.append(it)
            else:
                it.fail(_unsettled(why))
        self._waiting.extendleft(reversed(again))

    def _wake(self, why: BaseException) -> None:
        waiting, self._waiting = self._waiting, deque()
        for it in waiting:
            it.fail(why)

    async def _finish(self, error: Optional[Error]) -> None:
        """A link is detached once what was sent on it is settled, or the peer does not settle within `Waits.answer`."""
        line, session = self._line, self._session
        if error is not None or line is None or session is None or self._over is not None:
            return
        waiting = [it.future for it in self._mine(line) if not it.future.done()]
        if waiting:
            await asyncio.wait(waiting, timeout=line.waits.answer)


def _unsettled(why: BaseException) -> BaseException:
    """The same error, of a message that went out."""
    if not isinstance(why, AmqpError):
        return why
    error = type(why).__new__(type(why))
    error.__dict__.update(why.__dict__)
    error.args, error.__cause__, error.is_unsettled = why.args, why, True
    return error
