"""Listening, and taking connections: `serve`. Clients that say nothing, or come by the thousand, keep no other
waiting."""

from __future__ import annotations

import asyncio
import contextlib
import errno
import logging
import os
import socket
import ssl
from typing import Any, Awaitable, Callable, Dict, List, Optional, Sequence, Set, cast

from . import sasl
from .errors import AmqpError
from .events import Refusal
from .performatives import Begin, Open
from .served import Served
from .sessions import Limits
from .stream import Waits, within
from .values import Malformed

_LOG = logging.getLogger("amqp_engine")
#: What says that the process, or the system, has no room for one more socket; and how long a loop waits then, in
#: seconds
_OUT_OF = (errno.EMFILE, errno.ENFILE, errno.ENOBUFS, errno.ENOMEM)
_PAUSE = 0.01


#: What serves a client
Handle = Callable[[Served], Awaitable[None]]
_Client = Callable[[socket.socket, "Door"], Awaitable[None]]


class Crowded(ConnectionError):
    """A client was turned away for others: there are as many connections, or as many that have not begun, as there may
    be (`Limits`)."""


def log(error: Exception) -> None:
    """What is told where nobody else is: a peer's fault as a line of level INFO, a fault of this side with its
    traceback."""
    if isinstance(error, (AmqpError, ConnectionError, TimeoutError, ssl.SSLError, Malformed, Refusal)):
        _LOG.info("a connection ended: %r", error)
    else:
        _LOG.error("a connection ended", exc_info=error)


async def bound(host: Optional[str], port: int, backlog: int) -> List[socket.socket]:
    """Sockets that listen, one for each address of the host; without a host on all of them."""
    loop, found = asyncio.get_running_loop(), []
    infos = await loop.getaddrinfo(host or None, port, type=socket.SOCK_STREAM, flags=socket.AI_PASSIVE)
    try:
        for family, kind, protocol, _, address in dict.fromkeys(infos):
            listener = socket.socket(family, kind, protocol)
            found.append(listener)
            listener.setsockopt(socket.SOL_SOCKET, socket.SO_REUSEADDR, 1)
            if family == socket.AF_INET6:
                listener.setsockopt(socket.IPPROTO_IPV6, socket.IPV6_V6ONLY, 1)
            listener.setblocking(False)
            listener.bind(address)
            listener.listen(backlog)
    except BaseException:
        for it in found:
            it.close()
        raise
    return found


def most_connections() -> int:
    """How many connections there may be at once by the files that the process may have, less a quarter for others."""
    try:
        import resource

        files = resource.getrlimit(resource.RLIMIT_NOFILE)[0]
    except (ImportError, OSError):
        return 1000
    return max(1, min(files * 3 // 4, 10000))


class Listening(asyncio.AbstractServer):
    """A server that listens, as `asyncio.Server`: `close` ends that, and leaves connections alone."""

    def __init__(self, sockets: Sequence[socket.socket], client: "_Client", door: "Door") -> None:
        self._loop = asyncio.get_running_loop()
        #: the sockets that listen
        self.sockets = tuple(sockets)
        self._client, self._door = client, door
        self._loops = [asyncio.ensure_future(self._accept_all(it)) for it in sockets]

    async def _accept_all(self, listener: socket.socket) -> None:
        while True:
            try:
                peer, _ = await self._loop.sock_accept(listener)
            except OSError as error:
                if error.errno in _OUT_OF:
                    self._door.make_room(listener)
                    await asyncio.sleep(_PAUSE)
                elif listener.fileno() < 0:
                    return
            else:
                if self._door.lets_in(peer):
                    self._door.begin(asyncio.ensure_future(self._client(peer, self._door)))
            # a client that waits is taken at once: others have their turn
            await asyncio.sleep(0)

    def close(self) -> None:
        """Listens no more."""
        for task in self._loops:
            task.cancel()
        for it in self.sockets:
            if it.fileno() >= 0:
                self._loop.remove_reader(it.fileno())
            it.close()
        self._door.close()

    async def wait_closed(self) -> None:
        """Waits until it listens no more."""
        await asyncio.wait(self._loops)

    def is_serving(self) -> bool:
        """Whether it listens."""
        return any(it.fileno() >= 0 for it in self.sockets)

    def get_loop(self) -> asyncio.AbstractEventLoop:
        """Its loop."""
        return self._loop

    async def start_serving(self) -> None:
        """It serves from the first on."""

    async def serve_forever(self) -> None:
        """Serves until it is cancelled; then it listens no more."""
        try:
            await asyncio.gather(*self._loops)
        finally:
            self.close()


class Door:
    """Who is let in: so many connections at once, and so many that have not begun. A file is kept in reserve, by which
    a client is turned away where the process may have no more."""

    def __init__(self, limits: Limits, told: Callable[[Exception], None]) -> None:
        self._most = most_connections() if limits.connections is None else limits.connections
        self._most_beginning, self._told = limits.handshakes, told
        self._all: Set["asyncio.Future[None]"] = set()
        self._beginning: Dict["asyncio.Future[None]", None] = {}
        self._spare: Optional[int] = os.open(os.devnull, os.O_RDONLY)

    def lets_in(self, peer: socket.socket) -> bool:
        """Whether there is room for one more; else it is closed. Of those that have not begun the oldest goes for
        it."""
        is_full = len(self._all) >= self._most
        if is_full and not self._end_oldest():
            peer.close()
            self._told(Crowded(f"a client was turned away: {len(self._all)} others are there"))
            return False
        if not is_full and len(self._beginning) >= self._most_beginning:
            self._end_oldest()
        return True

    def begin(self, task: "asyncio.Future[None]") -> None:
        """A connection, by its task, begins."""
        self._all.add(task)
        self._beginning[task] = None
        task.add_done_callback(self._gone)

    def begun(self, task: "asyncio.Future[None]") -> None:
        """Its headers, login and Opens have passed."""
        self._beginning.pop(task, None)

    def late(self, task: "asyncio.Future[None]") -> bool:
        """Whether it has not begun."""
        return task in self._beginning

    def _gone(self, task: "asyncio.Future[None]") -> None:
        self._all.discard(task)
        self._beginning.pop(task, None)

    def _end_oldest(self) -> bool:
        oldest = next(iter(self._beginning), None)
        if oldest is None:
            return False
        del self._beginning[oldest]
        oldest.cancel()
        self._told(Crowded("a client that had not begun was ended for another one"))
        return True

    def make_room(self, listener: socket.socket) -> None:
        """The process may have no more files: the oldest that has not begun goes, or else the next client is turned
        away."""
        if self._end_oldest() or self._spare is None:
            return
        os.close(self._spare)
        self._spare = None
        with contextlib.suppress(OSError):
            listener.accept()[0].close()
            self._told(Crowded("a client was turned away: the process may have no more files"))
        with contextlib.suppress(OSError):
            self._spare = os.open(os.devnull, os.O_RDONLY)

    def close(self) -> None:
        """Nobody is let in any more."""
        if self._spare is not None:
            os.close(self._spare)
            self._spare = None


async def serve(
    host: Optional[str],
    port: int,
    open: Callable[[], Open],
    handle: Handle,
    *,
    begin: Optional[Begin] = None,
    check: Optional[sasl.Check] = None,
    tls: Optional[ssl.SSLContext] = None,
    told: Callable[[Exception], None] = log,
    limits: Optional[Limits] = None,
    backlog: int = 256,
    **how: Any,
) -> Listening:
    """Listens; each client has a connection of its own, whose headers and SASL are done when `handle` is called.
    `begin` is how sessions begin on this side. `check`, if there is one, judges a name and a password (PLAIN), as a
    function or as one that is awaited: it answers `True`, and anything else refuses; else clients are anonymous. An
    error by which a connection ends, of the peer's, of `check` or of `handle`, ends no other: the client is told by a
    Close, and `told` is called with it. `limits` are what clients may have, and `how` are other words of a
    `Connection`, as `waits`."""
    of = limits or Limits()

    async def client(peer: socket.socket, door: Door) -> None:
        try:
            connection = await _made(peer, open, tls, serves=begin or Begin(), limits=of, **how)
        except BaseException as error:
            if isinstance(error, Exception):
                told(error)
            return
        await _served(connection, door, handle, check, told)

    return Listening(await bound(host, port, backlog), client, Door(of, told))


async def _made(peer: socket.socket, open: Callable[[], Open], tls: Optional[ssl.SSLContext], **how: Any) -> Served:
    """A connection over a socket, which is closed where none can be made."""
    loop, reader = asyncio.get_running_loop(), asyncio.StreamReader()
    protocol = asyncio.StreamReaderProtocol(reader)
    transport = await _joined(peer, protocol, tls, (how.get("waits") or Waits()).login)
    try:
        return Served(reader, asyncio.StreamWriter(transport, protocol, reader, loop), open(), **how)
    except BaseException:
        transport.abort()
        raise


async def _joined(
    peer: socket.socket, protocol: asyncio.StreamReaderProtocol, tls: Optional[ssl.SSLContext], limit: float
) -> asyncio.Transport:
    """The transport of a socket, which is closed where there is none within the limit."""
    loop = asyncio.get_running_loop()
    joins = asyncio.ensure_future(loop.connect_accepted_socket(lambda: protocol, peer, ssl=tls))
    try:
        return cast(asyncio.Transport, (await within(limit, joins, "no handshake of TLS"))[0])
    except BaseException:
        # not before asyncio has let go of it: the number of its file may be another client's at once
        joins.cancel()
        joins.add_done_callback(lambda _: loop.call_soon(peer.close))
        raise


async def _served(
    connection: Served, door: Door, handle: Handle, check: Optional[sasl.Check], told: Callable[[Exception], None]
) -> None:
    """Serves a client. Where the loop ends meanwhile, or another takes its place, nobody waits for this task."""
    task: "asyncio.Future[None]" = asyncio.current_task()  # type: ignore[assignment]
    connection.opened = lambda: door.begun(task)
    with contextlib.suppress(asyncio.CancelledError):
        try:
            await connection.accept(check)
            connection.abort_unless(lambda: not door.late(task), told)
            await handle(connection)
        except asyncio.CancelledError:
            connection.abort()
            raise
        except Exception as error:
            told(error)
            await connection.fail(error)
        finally:
            await connection.aclose()
