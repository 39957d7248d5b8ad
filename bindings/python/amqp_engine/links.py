"""What a sender and a receiver have in common: how a link is attached, detached, and attached anew on another
connection (AMQP 1.0 part 2, section 2.6)."""

from __future__ import annotations

import asyncio
import logging
import uuid
from typing import TYPE_CHECKING, Any, Callable, Dict, Generator, Optional, Set, TypeVar

from .errors import AlreadyClosed, AmqpError, LinkClosed, TimedOut
from .events import Refusal
from .line import Line, Session
from .linking import EVENT_ATTACHED, EVENT_ENDED, EVENT_FAULT, EVENT_PASSED_OVER, LIFE_ATTACHED, LinkEvent
from .performatives import Attach, Detach, Error, address_of
from .records import Record

if TYPE_CHECKING:
    from .client import Client

_LOG = logging.getLogger("amqp_engine")
_L = TypeVar("_L", bound="Link")
_T = TypeVar("_T")


class Link:
    """One end of a link. Open it by `async with`, or by `await`; `close` ends it."""

    def __init__(
        self, client: "Client", role: bool, name: Optional[str], attach: Dict[str, Any], own_session: bool
    ) -> None:
        self._client, self._role, self._fields, self._own_session = client, role, attach, own_session
        #: the link's name
        self.name = name or f"{client.container_id}-{uuid.uuid4().hex[:12]}"
        #: the peer's Attach, once it has come: with the source and the target as the peer has them
        self.remote: Optional[Attach] = None
        self._line: Optional[Line] = None
        self._session: Optional[Session] = None
        self._handle = 0
        self._attached: Optional["asyncio.Future[None]"] = None
        self._detached: Optional["asyncio.Future[None]"] = None
        # why it is over, once it is
        self._over: Optional[BaseException] = None
        # a Detach that is held back
        self._owed: Optional[Callable[[], Any]] = None

    # ---- what a program calls

    async def open(self: _L, timeout: Optional[float] = None) -> _L:
        """Attaches the link, and waits until the peer has. Raises `LinkClosed` where the peer refuses it, and
        `TimedOut`."""
        if self._attached is not None:
            raise RuntimeError("a link is opened once")
        line = await self._client.line()
        try:
            await before(self._attach(line), timeout, "the link was not attached")
        except BaseException:
            self._give_up()
            raise
        self.check()
        self._client.links.add(self)
        return self

    def check(self) -> None:
        """Raises the error by which the link is over, if it is."""
        if self._over is not None:
            # the same error may be raised often: what called last is told, and not all that called before
            raise self._over.with_traceback(None)

    def _give_up(self) -> None:
        """Nobody waits for the peer's Attach any more."""
        line, session = self._line, self._session
        if self._over is None:
            self._over = AlreadyClosed("the link was not opened")
        if line is not None and session is not None and session.over is None and not line.ended.done():
            self._ask_detach(line, session, None)

    async def close(self, error: Optional[Error] = None, *, waits: bool = True) -> None:
        """Ends the link for good, with an error or without. What waits for it raises `AlreadyClosed`. `waits` for what
        was sent to be settled, and for the peer's answer, each as long as `Waits.answer` says."""
        if isinstance(self._over, AlreadyClosed):
            return
        line, session = self._line, self._session
        if waits:
            await self._finish(error)
        self._client.links.discard(self)
        was_over, self._over = self._over, AlreadyClosed("this side has closed the link")
        self._wake(self._over)
        if line is None or session is None or was_over is not None or session.over is not None or line.ended.done():
            return
        self._detached = asyncio.get_running_loop().create_future()
        if self._ask_detach(line, session, error) and waits:
            either: Set["asyncio.Future[Any]"] = {self._detached, line.ended}
            await asyncio.wait(either, timeout=line.waits.answer, return_when=asyncio.FIRST_COMPLETED)
        self._left(line, self._over, False)
        if waits:
            session.links.pop(self._handle, None)
        if self._own_session:
            line.end_session(session)

    def _ask_detach(self, line: Line, session: Session, error: Optional[Error]) -> bool:
        """Has a Detach go out, behind what the peer's window holds back. Whether one is awaited then."""
        self._owed = None
        line.settle_now(session)
        try:
            asked = line.driver.link_detach(session.number, self._handle, True, error)
        except Refusal as refusal:
            if refusal.name != "HeldBack":
                raise
            asked, self._owed = True, lambda: self._ask_detach(line, session, error)
        line.wire.ask()
        return asked

    def due(self, event: LinkEvent) -> None:
        """What was held back of the link has gone out: what it owes is sent."""
        if self._line is not None:
            self._line.driver.link_respond(event, self._ready())
            if self._owed is not None:
                self._owed()

    def _ready(self) -> int:
        """How many messages are ready to be sent."""
        return 0

    async def __aenter__(self: _L) -> _L:
        return self if self._attached is not None else await self.open()

    async def __aexit__(self, kind: object, *_: object) -> None:
        await self.close(waits=kind is None)

    def __await__(self: _L) -> Generator[Any, None, _L]:
        return self.open().__await__()

    @property
    def address(self) -> Optional[str]:
        """The address of the peer's node: of a dynamic one as the peer gave it."""
        if self.remote is not None:
            found = address_of(self.remote.source if self._role else self.remote.target)
            if found is not None:
                return found
        return address_of(self._fields["source" if self._role else "target"])

    # ---- on a line

    async def _attach(self, line: Line) -> None:
        session = await line.session(self._own_session)
        self.check()
        self._line, self._session, self._attached = line, session, asyncio.get_running_loop().create_future()
        try:
            # of a session's links, whichever way they go, each has a name of its own here
            self._handle = line.driver.link(session.number, self.name, self._role)
            line.driver.link_attach(session.number, Attach(self.name, self._handle, self._role, **self._fields))
        except Refusal as refusal:
            self._line = self._session = None
            raise AmqpError(f"the link cannot be attached ({refusal.name})", refusal.condition) from None
        session.links[self._handle] = self
        line.wire.ask()
        await asyncio.shield(self._attached)

    def take(self, line: Line, session: Session, record: Record, event: LinkEvent, data: bytes) -> None:
        """What came for the link."""
        if event.kind == EVENT_ATTACHED:
            return self._take_attach(line, record, event, data)
        if event.kind == EVENT_ENDED:
            line.driver.link_respond(event)
            self._has_ended(line, session, Detach.decode(data[record.at : record.at + record.size]).error)
        elif event.kind == EVENT_FAULT:
            line.driver.link_respond(event)
            _LOG.info("the peer broke the rules of the link %s (%d)", self.name, event.detail)
            self.lost(LinkClosed("the peer broke the rules of the link"))
        elif event.kind == EVENT_PASSED_OVER:
            line.driver.link_respond(event)
        elif self._line is line:
            self._take(line, record, event, data)

    def _take_attach(self, line: Line, record: Record, event: LinkEvent, data: bytes) -> None:
        """The peer's Attach: a Detach that was asked for before it goes out behind it."""
        if event.detail == LIFE_ATTACHED and self._line is line:
            self.remote = Attach.decode(data[record.at : record.at + record.size])
            self._is_attached(line)
        if self._owed is not None:
            self._owed()

    def _is_attached(self, line: Line) -> None:
        assert self._attached is not None
        if not self._attached.done():
            self._attached.set_result(None)
        if self._over is None:
            self._begin(line)

    def _has_ended(self, line: Line, session: Session, error: Optional[Error]) -> None:
        """Both sides have detached: what the library keeps for the link goes."""
        for _ in line.driver.link_left(session.number, self._handle):
            pass
        line.driver.link_remove(session.number, self._handle)
        session.links.pop(self._handle, None)
        if self._detached is not None:
            if not self._detached.done():
                self._detached.set_result(None)
            return
        what = "the peer refused the link" if self.remote is None else "the peer detached the link"
        self.lost(LinkClosed.of(what, error))

    def lost(self, why: BaseException) -> None:
        """The link, its session or its connection is over."""
        comes_back = self._over is None and self in self._client.links and self._client.comes_back(why)
        line, session, self._line, self._session = self._line, self._session, None, None
        if self._attached is not None and not self._attached.done():
            self._attached.set_exception(why)
            self._attached.exception()
        if self._over is None and not comes_back:
            self._over = why
        if line is not None and session is not None:
            self._left(line, why, comes_back)
        if self._over is not None:
            self._client.links.discard(self)
            self._wake(self._over)

    async def again(self, line: Line) -> None:
        """Attaches the link on another connection."""
        try:
            await self._attach(line)
        except Exception as error:
            if not line.ended.done():
                self.end(error)

    def end(self, why: BaseException) -> None:
        """The link is over, and does not come back."""
        if self._over is None:
            self._over = why
            self._wake(why)

    # ---- what a sender and a receiver do each

    def go(self) -> None:
        """Something may go out that waited."""

    def _begin(self, line: Line) -> None:
        """The link is attached."""

    def _take(self, line: Line, record: Record, event: LinkEvent, data: bytes) -> None:
        raise NotImplementedError

    def _left(self, line: Line, why: BaseException, comes_back: bool) -> None:
        """What was on the link is left."""

    def _wake(self, why: BaseException) -> None:
        """Each that waits is told why the link is over."""

    async def _finish(self, error: Optional[Error]) -> None:
        """What is to be done before this side detaches."""


async def before(what: Any, seconds: Optional[float], otherwise: str) -> Any:
    """What is awaited, or `TimedOut` after so many seconds: then it is cancelled."""
    if seconds is None:
        return await what
    task = asyncio.ensure_future(what)
    try:
        await asyncio.wait({task}, timeout=seconds)
        if task.done():
            return task.result()
    finally:
        task.cancel()
        task.add_done_callback(lambda it: it.cancelled() or it.exception())
    raise TimedOut(f"{otherwise} within {seconds:g} seconds")
