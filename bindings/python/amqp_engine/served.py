"""The connection of a client that is served, its sessions and its links as objects.

    async def handle(connection):
        async for link in connection.links():
            if isinstance(link, IncomingLink):
                link.accept(credit=100)
                connection.create_task(take(link))
            else:
                link.refuse("amqp:not-allowed", "nothing is sent from here")

    async def take(link):
        async for delivery in link:
            print(delivery.payload)
            await delivery.accept()
"""

from __future__ import annotations

import asyncio
import contextlib
import inspect
import time
from collections import deque
from typing import Any, AsyncIterator, Awaitable, Callable, Coroutine, Deque, Dict, List, Optional, Set, Union

from .ends import Link
from .errors import LinkClosed
from .events import Refusal
from .incoming import IncomingLink
from .outgoing import OutgoingLink
from .performatives import SENDER, Error
from .requesting import NoMemory
from .serving import OfLink, Server, ServerEvent, SessionBegan, SessionEnded, Wanted
from .sessions import Limits, ServedSession
from .stream import PeerSilent, within
from .transport import Connection

#: What is called with each link that a client attaches
OnLink = Callable[[Link], Union[None, Awaitable[None]]]

#: After how many turns at the most a client is answered
_TURNS = 8
#: How many times as long as a turn its frames take that are long
_LONG = 4


class Served(Connection):
    """A client's connection, which `serve` gives. `links` or `serve_links` has its links as objects; else it is an
    iterator of events, as each `Connection`. Either way others have their turn while much comes from this client."""

    def __init__(self, *given: Any, limits: Optional[Limits] = None, **how: Any) -> None:
        super().__init__(*given, **how)
        #: what the client may have
        self.limits = limits or Limits()
        #: the sessions of which links are told, by their numbers
        self.sessions: Dict[int, ServedSession] = {}
        #: what is called once both Opens have passed
        self.opened: Callable[[], None] = lambda: None
        #: for the package: bytes of deliveries that are not whole, and of what the client has not settled; links that
        #: may send when the client can take more; whether the connection is to end by an error; and that a link was
        #: accepted or refused
        self.incomplete = self.unsettled = 0
        self.parked: Dict[OutgoingLink, None] = {}
        self.answered = asyncio.Event()
        self._failed: Optional["asyncio.Future[Exception]"] = None
        self._tasks: Set["asyncio.Future[Any]"] = set()
        self._runs: Set["asyncio.Future[Any]"] = set()
        self._is_open = self._pushes = self._is_freed = False
        self._late: Optional[asyncio.TimerHandle] = None
        self._turns, self._spent = 0, 0.0
        self._turn, self._untaken, self._room = 0.0, 0, asyncio.Event()

    # ---- for a program

    async def links(self) -> AsyncIterator[Link]:
        """The links that the client attaches, one after the other, until it has closed: an `IncomingLink` on which it
        sends, or an `OutgoingLink` on which it receives. Each is to be accepted or refused, by any task; what the
        client sends behind it waits for that. Raises the error by which the connection ends: of the client, or of a
        task of `create_task`."""
        coming: Deque[Link] = deque()
        came = asyncio.Event()

        async def wanted(link: Link) -> None:
            self.answered.clear()
            coming.append(link)
            came.set()
            while not link.is_answered:
                await self.answered.wait()
                self.answered.clear()

        serves = asyncio.ensure_future(self.serve_links(wanted))
        serves.add_done_callback(lambda _: came.set())
        self._tasks.add(serves)
        try:
            while not serves.done():
                await came.wait()
                came.clear()
                while coming:
                    yield coming.popleft()
            serves.result()
        finally:
            serves.cancel()
            await asyncio.wait({serves})

    async def serve_links(self, on_link: OnLink) -> None:
        """Serves the client until it has closed. `on_link` is called with each link, and accepts or refuses it before
        it returns, or before it is awaited."""
        self.links_of.tells_links, self.links_of.longest = True, self.limits.performative
        self._failed = asyncio.get_running_loop().create_future()
        with contextlib.suppress(Refusal):
            # the program may have opened
            self.engine.open()
        takes, refills = asyncio.ensure_future(self._take_all(on_link)), asyncio.ensure_future(self._refill())
        refills.add_done_callback(self._is_done)
        self._runs = {takes, refills}
        either: Set["asyncio.Future[Any]"] = {takes, self._failed}
        try:
            await asyncio.wait(either, return_when=asyncio.FIRST_COMPLETED)
            if self._failed.done():
                raise self._failed.result()
            takes.result()
        finally:
            try:
                await self._end_serving()
            finally:
                # also where this is cancelled once more: no link outlives the engine
                await self._drop_all()

    def create_task(self, what: Coroutine[Any, Any, Any]) -> "asyncio.Task[Any]":
        """A task that ends with the connection. Where it raises, but for `LinkClosed`, the connection ends by that
        error."""
        task = asyncio.ensure_future(what)
        self._tasks.add(task)
        task.add_done_callback(self._is_done)
        return task

    def fail_soon(self, error: Exception) -> None:
        """The connection is to end by this error, as if `handle` had raised it."""
        if self._failed is not None and not self._failed.done():
            self._failed.set_result(error)

    @property
    def is_failing(self) -> bool:
        """Whether the connection is to end by an error."""
        return self._failed is not None and self._failed.done()

    # ---- what comes

    async def __anext__(self) -> ServerEvent:
        if time.monotonic() >= self._turn:
            # others have their turn; a client that goes on is answered once in a while
            self._turns += 1
            if self._turns % _TURNS == 0:
                await self.flush()
            # behind frames that took long they have as long: what they wait for takes several rounds of the loop
            await asyncio.sleep(self._spent if self._spent > _LONG * self.limits.turn else 0)
            self._spent, self._turn = 0.0, time.monotonic() + self.limits.turn
        return await super().__anext__()

    def _next(self) -> ServerEvent:
        start = time.monotonic()
        try:
            return super()._next()
        finally:
            self._spent += time.monotonic() - start

    async def _pump(self, until: Optional[float] = None) -> bool:
        if not self._is_open and self.engine.state == "OPENED":
            self._is_open = True
            self.opened()
        return await super()._pump(until)

    async def _take_all(self, on_link: OnLink) -> None:
        async for told in self:
            if isinstance(told, OfLink):
                if (session := self.sessions.get(told.event.session)) is not None:
                    session.hear(told)
            elif isinstance(told, Wanted):
                await self._want(told, on_link)
            elif isinstance(told, SessionBegan):
                self.sessions[told.session] = ServedSession(self, told.session, told.begin)
            elif isinstance(told, SessionEnded):
                self._ended(told.session)
            elif isinstance(told, Refusal):
                raise told
            while self._untaken > self.limits.untaken:
                self._room.clear()
                await self._room.wait()

    async def _want(self, wanted: Wanted, on_link: OnLink) -> None:
        session = self.sessions[wanted.session]
        link = (IncomingLink if wanted.attach.role == SENDER else OutgoingLink)(self, session, wanted)
        session.links[link.handle] = link
        done = on_link(link)
        if inspect.isawaitable(done):
            await done
        if not link.is_answered:
            raise RuntimeError(f"the link {link.name!r} was neither accepted nor refused")

    def _ended(self, number: int) -> None:
        if (session := self.sessions.pop(number, None)) is not None:
            session.over()

    async def _passed_over(self) -> None:
        async for _ in self:
            pass

    # ---- what goes

    @property
    def links_of(self) -> Server:
        """The server's side of the engine."""
        assert self.server is not None
        return self.server

    def ask(self, call: Callable[..., Any], *given: Any) -> None:
        """For the package: asks the engine, whoever's turn it is. What it refuses ends this connection, and no
        other."""
        try:
            call(*given)
        except (Refusal, NoMemory) as error:
            self.fail_soon(error)
        self.push_soon()

    def push_soon(self) -> None:
        """For the package: what was asked goes out once the loop goes on."""
        if not self._pushes:
            self._pushes = True
            asyncio.get_running_loop().call_soon(self._push_now)

    def _push_now(self) -> None:
        self._pushes = False
        if not self._is_freed:
            self.push()

    def takes(self, size: int) -> None:
        """For the package: so many bytes wait for the program, or wait no more."""
        self._untaken += size
        if self._untaken <= self.limits.untaken:
            self._room.set()

    async def _refill(self) -> None:
        """Waits for the client to read, whoever had something sent to it; then its links may send more."""
        with contextlib.suppress(ConnectionError):
            while True:
                await self.went.wait()
                self.went.clear()
                await self.drain()
                parked, self.parked = self.parked, {}
                for link in parked:
                    link.want()

    # ---- the end

    def _is_done(self, task: "asyncio.Future[Any]") -> None:
        self._tasks.discard(task)
        error = None if task.cancelled() else task.exception()
        if isinstance(error, Exception) and not isinstance(error, LinkClosed):
            self.fail_soon(error)

    async def _end_serving(self) -> None:
        """Nothing more is taken for links: who reads is awaited, before another one does."""
        for it in self._runs:
            it.cancel()
        if self._runs:
            await asyncio.wait(self._runs)

    async def close(self, error: Optional[Error] = None) -> None:
        """As `Connection.close`; links are told nothing more."""
        await self._end_serving()
        await super().close(error)

    async def fail(self, error: BaseException) -> None:
        """As `Connection.fail`; links are told nothing more."""
        await self._end_serving()
        await super().fail(error)

    async def _drop_all(self) -> None:
        """All links are over; others have their turn meanwhile."""
        until = time.monotonic() + self.limits.turn
        links: List[Link] = []
        for session in self.sessions.values():
            links += session.links.values()
            # a session and its links refer to each other
            session.links.clear()
        self.sessions.clear()
        try:
            while links:
                links.pop().drop()
                if time.monotonic() >= until:
                    await asyncio.sleep(0)
                    until = time.monotonic() + self.limits.turn
        finally:
            for it in links:
                it.drop()

    def abort(self) -> None:
        """The stream ends at once; nothing more goes out."""
        self._stream.abort()

    def abort_unless(self, is_open: Callable[[], bool], told: Callable[[Exception], None]) -> None:
        """For the package: where both Opens have not passed once a login would be late, the stream ends."""

        def late() -> None:
            if not is_open():
                told(PeerSilent(f"no Open within {self._waits.login:g} seconds"))
                self.abort()

        self._late = asyncio.get_running_loop().call_later(self._waits.login, late)

    async def aclose(self) -> None:
        """As `Connection.aclose`; the tasks of `create_task` are cancelled."""
        tasks = [it for it in self._tasks if it is not asyncio.current_task()]
        for it in tasks:
            it.cancel()
        try:
            if tasks:
                with contextlib.suppress(ConnectionError):
                    await within(self._waits.closing, asyncio.wait(tasks), "tasks of the connection go on")
        finally:
            if self._late is not None:
                self._late.cancel()
            self._is_freed = True
            await super().aclose()
