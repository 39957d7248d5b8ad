"""One connection of a client, from its first byte to its last: its sessions, and the links in them. What comes is told
to the link that it is for.

Credit, numbers of deliveries and settlement are the library's: here stands which program waits for what."""

from __future__ import annotations

import asyncio
import itertools
import logging
from typing import TYPE_CHECKING, Any, Callable, Dict, List, Optional, Set

from . import opening as begins
from . import records as said
from .driver import ANSWER_CLOSES, ANSWER_ENDS, ANSWER_REFUSALS, Driver
from .errors import AmqpError, ConnectionClosed, ConnectionLost, LoginRefused, SessionClosed
from .events import Refusal
from .linking import EVENT_BY_PEER, EVENT_NOTHING, EVENT_RECEIVED, EVENT_SETTLED, LinkEvent
from .outcomes import SETTLED_OUTCOME, Outcome, outcome_of
from .performatives import RECEIVER, Attach, Begin, Close, Detach, Disposition, End, Error, Open
from .records import Record
from .stream import Waits
from .transport import condition_of, error_of
from .values import Malformed
from .wire import Wire

if TYPE_CHECKING:
    from .links import Link
    from .sending import Sending

_LOG = logging.getLogger("amqp_engine")
#: The transfers that a session takes before it says that it takes more; credit bounds deliveries
WINDOW = 2**31 - 1
#: So many bytes may wait in the library, and for the loop to go on
MUCH = 65536
#: So many bytes has a frame of a transfer at least, beside its payload
_LEAST = 8
#: How many links a peer may ask for, each of which is refused
_MOST_REFUSED = 100


class Session:
    """A session of a line: its links by this side's handles, and what waits for it."""

    def __init__(self, number: int, is_shared: bool, mapped: "asyncio.Future[None]") -> None:
        #: its number, whether any link may share it, and what is done once it has begun
        self.number, self.is_shared, self.mapped = number, is_shared, mapped
        #: its links by this side's handles
        self.links: Dict[int, "Link"] = {}
        #: whether the peer's window holds transfers back
        self.is_held = False
        #: why it is over, once it is
        self.over: Optional[AmqpError] = None
        #: runs of deliveries that came and are to be settled: first, last, outcome
        self.runs: List[List[int]] = []


class Line:
    """A connection, its sessions and their links."""

    def __init__(self, driver: Driver, waits: Waits, name: str) -> None:
        self._loop = asyncio.get_running_loop()
        #: the library's driver, and how long to wait for the peer
        self.driver, self.waits = driver, waits
        #: the stream that carries its bytes
        self.wire = Wire(driver, self._take, self._lost, waits, name)
        self.wire.before, self.wire.collected, self.wire.resumed = self._settle_runs, self._collected, self._go_all
        #: done once both Opens have passed; and once the line is over, with why
        self.opened: "asyncio.Future[None]" = self._loop.create_future()
        self.ended: "asyncio.Future[BaseException]" = self._loop.create_future()
        self.remote_open: Optional[Open] = None
        #: whether the peer counts wrong where a flow crosses what it sends
        self.counts_late = False
        self.sessions: Dict[int, Session] = {}
        self._numbers = itertools.count()
        #: gives a number for a delivery, by which the library gives it back
        self.given: Callable[[], int] = itertools.count(1).__next__
        #: what was sent and is not settled, by the number that was given with it
        self.sent: Dict[int, "Sending"] = {}
        self._runs: Set[int] = set()
        self._is_closing, self._refused_links = False, 0
        # the session whose transfers were asked for, and not collected yet; and how many bytes they have at least
        self._sending: Optional[Session] = None
        self._least = 0
        driver.open()

    # ---- sessions

    async def session(self, is_own: bool) -> Session:
        """A session that has begun: one that links share, or a new one."""
        shared = [it for it in self.sessions.values() if it.is_shared and it.over is None]
        if shared and not is_own:
            session = shared[0]
        else:
            session = self._begin(not is_own)
        await asyncio.shield(session.mapped)
        if session.over is not None:
            raise session.over
        return session

    def _begin(self, is_shared: bool) -> Session:
        number = next(self._numbers)
        try:
            self.driver.begin(number, Begin(None, 0, WINDOW, WINDOW))
        except Refusal as refusal:
            raise AmqpError(f"no session can begin ({refusal.name})", refusal.condition) from None
        self.sessions[number] = Session(number, is_shared, self._loop.create_future())
        self.wire.ask()
        return self.sessions[number]

    def end_session(self, session: Session) -> None:
        """A session that nobody uses any more is ended."""
        if session.over is None and not self.ended.done():
            session.over = SessionClosed("this side has ended the session")
            self._ask(lambda: self.driver.end(session.number))
            self.wire.ask()

    # ---- what comes

    def _take(self, record: Record, data: bytes) -> None:
        """A record, over the bytes that it came in."""
        kind = record.kind
        if kind in (said.TRANSFER, said.FLOW, said.DISPOSITION, said.ATTACHED, said.DETACHED):
            return self._take_of_link(record, data)
        body = data[record.at : record.at + record.size]
        if begins.SASL_HEADER <= kind <= begins.NOT_OPENED:
            self._opening(begins.event_of(record, data, lambda number: self.driver.refusal_of(number).name))
        elif kind == said.OPENED:
            self.remote_open = Open.decode(body)
            self.counts_late = _counts_late(self.remote_open)
            _done(self.opened)
            self.wire.opened()
        elif kind == said.BEGUN:
            _done(self.sessions[record.session].mapped)
        elif kind == said.ENDED:
            self._session_ended(record, End.decode(body).error)
        elif kind == said.CLOSED:
            self._closed(record, Close.decode(body).error)
        elif kind == said.ATTACH_WANTED:
            self._refuse(record, Attach.decode(body))
        else:
            self._refused(record)

    def _opening(self, event: begins.OpeningEvent) -> None:
        if isinstance(event, begins.NotOpened):
            self._lost(error_of(event))
        elif isinstance(event, begins.Challenged):
            self._lost(LoginRefused("the peer asks for more than a login says"))

    def _take_of_link(self, record: Record, data: bytes) -> None:
        session = self.sessions.get(record.session)
        event = self.driver.link_event(record)
        if session is None:
            return
        if record.kind == said.DISPOSITION:
            return self._disposed(session, record, event, data)
        link = session.links.get(event.link)
        if record.kind == said.FLOW:
            self._let_out(session)
        if link is not None and event.kind != EVENT_NOTHING:
            link.take(self, session, record, event, data)
        elif event.kind != EVENT_NOTHING:
            self.driver.link_respond(event)

    def _let_out(self, session: Session) -> None:
        """The peer's window may have let out what was held back: what links owe behind that is due, and more may go."""
        while (due := self.driver.link_due(session.number)) is not None:
            link = session.links.get(due.link)
            if link is not None:
                link.due(due)
        if session.is_held:
            session.is_held = False
            self._go_of(session)

    def _disposed(self, session: Session, record: Record, event: LinkEvent, data: bytes) -> None:
        """What became of deliveries. A peer that tells an outcome and waits for this side to settle is answered by the
        library (section 2.6.12)."""
        if event.kind != EVENT_SETTLED:
            return
        outcome: Optional[Outcome] = None
        if record.flags & said.OF_RECEIVER:
            outcome = outcome_of(record.outcome, data[record.at : record.at + record.size])
        is_received = event.flags & EVENT_RECEIVED != 0
        for given in self.driver.link_given_back(event.session, is_received, event.first, event.last):
            sending = None if is_received else self.sent.pop(given, None)
            if sending is not None:
                sending.settle(outcome or SETTLED_OUTCOME)
        if not event.flags & EVENT_BY_PEER:
            # the library has settled them in answer: the session's own record of them goes
            self.driver.link_respond(event)

    def _refuse(self, record: Record, attach: Attach) -> None:
        """A client has no nodes: a link that the peer begins is refused (section 2.6.3)."""
        self._refused_links += 1
        if self._refused_links > _MOST_REFUSED:
            raise Refusal("TooManyLinks", "amqp:resource-limit-exceeded")
        handle = self.driver.link_on(record.session, record.input, f"refused {attach.name}", not attach.role)
        self.driver.attach(record.session, Attach(attach.name, handle, not attach.role, initial_delivery_count=0))
        error = Error("amqp:not-allowed", "a client has no nodes")
        self.driver.detach(record.session, Detach(handle, True, error))

    def _refused(self, record: Record) -> None:
        """A frame that the library refused ends its session or the connection, by the condition that answers it."""
        refusal = self.driver.refusal_of(record.refusal)
        _LOG.info("a frame of the peer's was refused: %s", refusal)
        if record.kind == said.BEGIN_WANTED:
            raise Refusal("NoSessions", "amqp:not-allowed", "a client begins its sessions itself")
        if self.driver.answer_of(record.refusal) == "close":
            raise refusal
        self._ask(lambda: self.driver.answer(record, b"", 0, ANSWER_REFUSALS))
        session = self.sessions.get(record.session)
        if session is not None and self.driver.answer_of(record.refusal) == "end":
            why = SessionClosed(f"the peer broke the protocol ({refusal.name})", refusal.condition)
            self._session_over(session, why)

    def _session_ended(self, record: Record, error: Optional[Error]) -> None:
        self._ask(lambda: self.driver.answer(record, b"", 0, ANSWER_ENDS))
        session = self.sessions.pop(record.session, None)
        if session is None:
            return
        why = session.over or SessionClosed.of("the peer ended the session", error)
        self._session_over(session, why)
        self.driver.link_forget(session.number)
        self._ask(lambda: self.driver.let_go(session.number))

    def _session_over(self, session: Session, why: BaseException) -> None:
        session.over = session.over or (why if isinstance(why, AmqpError) else ConnectionLost(str(why)))
        self._runs.discard(session.number)
        if not session.mapped.done():
            session.mapped.set_exception(why)
            # where nobody waits any more
            session.mapped.exception()
        for link in [*session.links.values()]:
            link.lost(why)

    def _closed(self, record: Record, error: Optional[Error]) -> None:
        self._ask(lambda: self.driver.answer(record, b"", 0, ANSWER_CLOSES))
        self.wire.flush()
        if not self._is_closing:
            self._lost(ConnectionClosed.of("the peer closed the connection", error))
        self.wire.close()

    # ---- what goes

    def sends(self, session: Session, size: int) -> None:
        """A delivery of a payload of so many bytes was asked for. Those of one turn of the loop are collected
        together."""
        wire = self.wire
        if self._sending is not session:
            if self._sending is not None:
                wire.collect()
            self._sending = session
        self._least += size + _LEAST
        wire.backlog += size + _LEAST
        if self._least > MUCH:
            wire.collect()
        if not wire.is_asked:
            wire.ask()

    def _collected(self, count: int) -> None:
        """So many bytes were taken from the library. Where the transfers have more, the peer's window holds some of
        them back."""
        session, least, self._sending, self._least = self._sending, self._least, None, 0
        if session is not None and count < least and not self.driver.has_left:
            session.is_held = True

    def settle(self, session: Session, number: int, outcome: int) -> None:
        """A delivery that came is to be settled. Those of one run go out as one disposition."""
        if session.over is not None or self.ended.done():
            return
        run = session.runs[-1] if session.runs else None
        if run is not None and run[2] == outcome and (run[1] + 1) % 2**32 == number:
            run[1] = number
        else:
            session.runs.append([number, number, outcome])
            self._runs.add(session.number)
        self.wire.ask()

    def _settle_runs(self) -> None:
        while self._runs:
            session = self.sessions[self._runs.pop()]
            runs, session.runs = session.runs, []
            for first, last, outcome in runs:
                self._ask(lambda: self.driver.link_settle(session.number, RECEIVER, first, last, True, outcome))
                self.driver.link_given_back(session.number, RECEIVER, first, last)

    def dispose(self, session: Session, disposition: Disposition) -> None:
        """A delivery that came is settled with any state, as rejected with an error."""
        self._settle_runs()
        self.driver.link_dispose(session.number, disposition)
        self.driver.link_given_back(session.number, RECEIVER, disposition.first, disposition.first)
        self.wire.ask()

    def settle_now(self, session: Session) -> None:
        """What was settled so far goes out before what is asked next."""
        if session.number in self._runs:
            self._settle_runs()

    def _go_all(self) -> None:
        for session in [*self.sessions.values()]:
            self._go_of(session)

    def _go_of(self, session: Session) -> None:
        for link in [*session.links.values()]:
            link.go()

    def _ask(self, what: Any) -> None:
        """Asks for what may be refused where the session or the connection has gone meanwhile."""
        try:
            what()
        except Refusal as refusal:
            _LOG.debug("a request was refused: %s", refusal)

    # ---- the end

    def _lost(self, error: BaseException) -> None:
        """The line is over: each that waits is told."""
        if self.ended.done():
            return
        if not isinstance(error, (AmqpError, ConnectionError)):
            if not isinstance(error, (Refusal, Malformed)):
                _LOG.error("a connection ended", exc_info=error)
            error = _broken(error)
        self.ended.set_result(error)
        if not self.opened.done():
            self.opened.set_exception(error)
            self.opened.exception()
        for session in [*self.sessions.values()]:
            self._session_over(session, error)
        self.sessions.clear()
        self.sent.clear()
        self.wire.fail(error)

    async def close(self, error: Optional[Error], seconds: float) -> None:
        """Closes the connection, and waits until the peer's Close has come, at most for so many seconds."""
        if self.ended.done():
            return
        self._is_closing = True
        try:
            self._settle_runs()
            self._ask(lambda: self.driver.close(error))
            self.wire.ask()
            await asyncio.wait({self.ended}, timeout=seconds)
        finally:
            # also where memory is refused, or this is cancelled
            self.wire.close()


def _done(future: "asyncio.Future[None]") -> None:
    if not future.done():
        future.set_result(None)


def _counts_late(theirs: Open) -> bool:
    """RabbitMQ before 4 sends more than its credit, where a flow comes while its queue hands out: what is on the way
    there is not counted."""
    said = theirs.properties or {}
    return said.get("product") == "RabbitMQ" and str(said.get("version", "")).startswith(("2.", "3."))


def _broken(error: BaseException) -> ConnectionLost:
    """The error of a connection that ends for what the peer did, or for a fault of this side's."""
    lost = ConnectionLost(f"the connection was given up ({error})", condition_of(error))
    lost.__cause__ = error
    return lost
