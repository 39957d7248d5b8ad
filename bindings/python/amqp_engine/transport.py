"""A transport by `asyncio`: protocol headers, SASL, what the engine is to send, and idle time-outs (AMQP 1.0 part 2,
sections 2.2 and 2.4.5).

    async with connect("localhost", 5672, Open("me")) as connection:
        connection.engine.open()
        await connection.session(0)
        async for event in connection:
            ...
        await connection.close()

What is asked of `connection.engine` goes out with the next `await connection.flush()`, or as soon as the next bytes
come. Whatever the peer does, no call waits longer than `Waits` says, but for the next event of a peer that is to be
silent by its own and this side's word (no `idle_time_out`).
"""

from __future__ import annotations

import asyncio
import contextlib
import time
from collections import deque
from typing import Any, AsyncIterator, Deque, Dict, Iterator, Optional

from . import sasl
from . import opening as begins
from .engine import Engine
from .events import Refusal
from .opening import SASL_CLIENT, SASL_SERVER, Challenged, HeaderCame, LoginAsked, NotOpened, Opening
from .performatives import Begin, Error, Open
from .serving import Server, ServerEvent
from .stream import PeerSilent, Stream, Waits, within
from .values import Malformed

#: The least time after which the library is told the time again, in seconds, whatever time-out a peer asks for
_BRIEFEST = 0.05
#: After so many seconds what memory was refused for is handed out again
_AGAIN = 0.05
#: How many events a session that is waited for may leave for the iterator
_MOST_KEPT = 65536
#: The states in which this side's Close went out, and the peer's is awaited
_CLOSING = ("CLOSE_SENT", "DISCARDING", "CLOSE_PIPE", "OC_PIPE")


class HeaderRefused(ConnectionError):
    """The peer speaks another protocol, or another version."""


class SessionRefused(ConnectionError):
    """The peer did not begin a session: it ended it at once, or the connection; `refusal` says why, where the peer
    did."""

    def __init__(self, number: int, refusal: Optional[Refusal]) -> None:
        why = "the stream ended" if refusal is None else ": ".join(filter(None, (str(refusal), refusal.description)))
        super().__init__(f"the peer did not begin session {number}: {why}")
        self.refusal = refusal


class Connection:
    """One connection: an engine, and the stream that carries its bytes. An asynchronous iterator of events and
    refusals; it ends with the stream, or when both sides have closed. A Close of the peer's is answered. `server` is
    there where the connection was accepted. One task at a time iterates, begins a session or closes; any may `push` and
    `flush`."""

    def __init__(
        self,
        reader: asyncio.StreamReader,
        writer: asyncio.StreamWriter,
        open: Open,
        *,
        serves: Optional[Begin] = None,
        waits: Optional[Waits] = None,
        **how: Any,
    ) -> None:
        #: the engine, of which a program asks what it wants to be sent; it is there from `begin` or `accept` on
        self.engine: Engine
        self.server: Optional[Server] = None
        self._own, self._serves, self._how = open, serves, how
        self._waits = waits or Waits()
        self._stream = Stream(reader, writer, self._waits)
        self._own_limit = None if not open.idle_time_out else open.idle_time_out / 1000
        # what came while a session was waited for, and what the engine gives next
        self._kept: Deque[ServerEvent] = deque()
        self._coming: Iterator[ServerEvent] = iter(())
        self._beats: Optional[asyncio.TimerHandle] = None
        self._start = time.monotonic()
        # until when the peer may answer this side's Close
        self._until: Optional[float] = None
        self._is_begun = False
        self._again: Optional[asyncio.TimerHandle] = None
        #: Set where bytes were handed to the stream, for a task that waits for the peer to read them, by `drain`
        self.went = asyncio.Event()

    @property
    def certificate(self) -> Optional[Dict[str, Any]]:
        """The peer's certificate, as `ssl.SSLSocket.getpeercert` tells it, where `tls` asked for one and it was proved;
        else `None`."""
        return self._stream.certificate

    # ---- headers and SASL

    async def begin(self, login: Optional[sasl.Login] = None) -> None:
        """The client's part: SASL, if there is a login, and the protocol header."""
        opening = Opening() if login is None else Opening(SASL_CLIENT, [sasl.said_by(login)])
        await within(self._waits.login, self._open(opening, b"", None), "no protocol header and no answer to a login")

    async def accept(self, check: Optional[sasl.Check] = None) -> None:
        """The server's part. A client need not use SASL where no login is checked. What `check` raises is raised, after
        the login was refused."""
        await within(self._waits.login, self._accept(check), "no protocol header and no login")

    async def _accept(self, check: Optional[sasl.Check]) -> None:
        came = b"" if check else await self._first()
        has_sasl = check is not None or came[4:] == b"\x03"
        opening = Opening(SASL_SERVER, [(sasl.offered_for(check), None)]) if has_sasl else Opening()
        await self._open(opening, came, check)

    async def _first(self) -> bytes:
        """The first bytes of a client: up to the one that says whether it uses SASL."""
        return await self._stream.take(5)

    async def _open(self, opening: Opening, came: bytes, check: Optional[sasl.Check]) -> None:
        self.engine = Engine(self._own, opening=opening, **self._how)
        self.engine.now = self._now
        try:
            while not await self._passes(came, check):
                await self.flush()
                came = await self._some()
        finally:
            # what says why the stream is not opened goes out too
            self.push()
        self._is_begun = True
        if self._serves is not None:
            self.server = Server(self.engine, begin=self._serves)
        self._coming = (self.server or self.engine).receive(b"")

    async def _some(self) -> bytes:
        """What comes next of headers and SASL. It sets no limit of time: `begin` and `accept` have `Waits.login` for
        all of them together."""
        came = await self._stream.read(None, "")
        if not came:
            raise ConnectionError("the peer hung up")
        return came

    async def _passes(self, came: bytes, check: Optional[sasl.Check]) -> bool:
        """Takes what came of headers and SASL, and answers what is to be answered. True once the stream is open; what
        came behind is left to the engine."""
        for event in self.engine.receive(came):
            if isinstance(event, LoginAsked):
                await self._judge(event, check)
            elif isinstance(event, NotOpened):
                raise error_of(event)
            elif isinstance(event, Challenged):
                raise sasl.LoginRefused("the peer asks for more than a login says")
            elif isinstance(event, HeaderCame) and event.is_open:
                return True
        return False

    async def _judge(self, asked: LoginAsked, check: Optional[sasl.Check]) -> None:
        code = sasl.SYS
        try:
            code = sasl.OK if await sasl.judge(asked.mechanism, asked.response, check) else sasl.AUTH
        finally:
            self.engine.login(code)
        if code != sasl.OK:
            raise sasl.LoginRefused("the login was refused")

    # ---- frames

    def push(self) -> int:
        """Hands what the engine is to send to the stream, at once, and answers how many bytes."""
        data = (self.server or self.engine).to_send()
        if data:
            self._stream.write(data)
            self.went.set()
        if self.engine.has_left and self._again is None:
            self._again = asyncio.get_running_loop().call_later(_AGAIN, self._push_again)
        return len(data)

    def _push_again(self) -> None:
        self._again = None
        self.push()

    @property
    def unsent(self) -> int:
        """How many bytes wait for the peer to read."""
        return self._stream.unsent

    async def flush(self) -> None:
        """Sends what the engine is to send, as `push` does, and waits while the peer has much to read."""
        self.push()
        await self.drain()

    async def drain(self) -> None:
        """Waits while the peer has much to read. One that does not read is given up, by `PeerSilent`; sooner where
        nothing comes from it either, and this side has an `idle_time_out`."""
        await self._stream.drain(self._own_limit)

    def __aiter__(self) -> AsyncIterator[ServerEvent]:
        return self

    async def __anext__(self) -> ServerEvent:
        while True:
            try:
                return self._next()
            except StopIteration:
                pass
            if not await self._pump():
                raise StopAsyncIteration

    def _next(self) -> ServerEvent:
        """One at a time: what is asked in answer to an event goes out before the engine takes the next frame."""
        return self._kept.popleft() if self._kept else next(self._coming)

    async def _pump(self, until: Optional[float] = None) -> bool:
        """Sends what waits, and reads what comes next, until a time on the clock of `time.monotonic`, if there is one.
        False where the stream is over, or both sides have closed."""
        self._answer_close()
        await self.flush()
        if self.engine.state == "END":
            return False
        data = await self._receive(until)
        # what the iterator before left is the first that this one gives
        self._coming = (self.server or self.engine).receive(data)
        return bool(data)

    def _answer_close(self) -> None:
        if self.engine.state == "CLOSE_RCVD":
            with contextlib.suppress(Refusal):
                self.engine.close()

    async def session(self, number: int, begin: Optional[Begin] = None) -> None:
        """Begins a session, and waits until the peer's Begin has come. What else comes meanwhile is kept for the
        iterator. Raises `SessionRefused` where the peer ends the session, or the connection, and `PeerSilent` where it
        does not answer."""
        self._keep()
        known = len(self._kept)
        self.engine.begin(number, begin)
        await self._mapped(number)
        if self.engine.session_state(number) != "MAPPED":
            told = [it for it in list(self._kept)[known:] if isinstance(it, Refusal)]
            await self._let_go(number)
            raise SessionRefused(number, told[0] if told else None)

    async def _mapped(self, number: int) -> None:
        """Until the session is mapped, or will never be."""
        until = time.monotonic() + self._waits.answer
        while self.engine.session_state(number) == "BEGIN_SENT" and self.engine.state not in ("CLOSE_RCVD", "END"):
            if not await self._pump(until):
                return
            self._keep()
            if len(self._kept) > _MOST_KEPT:
                raise PeerSilent(f"the peer answers no Begin, and sent {len(self._kept)} other things")

    def _keep(self) -> None:
        """Keeps what came for the iterator."""
        self._kept.extend(self._coming)

    async def _let_go(self, number: int) -> None:
        """The peer's End, or its Close, is answered."""
        self._answer_close()
        with contextlib.suppress(Refusal):
            self.engine.answer_end(number)
        with contextlib.suppress(ConnectionError):
            await self.flush()

    # ---- time

    async def _receive(self, until: Optional[float]) -> bytes:
        self._keep_alive()
        if self._until is None and self.engine.state in _CLOSING:
            # no answer can be read of a stream that is broken; what was said last has a moment to go out
            self._until = time.monotonic() + (self._waits.closing if self.engine.is_broken else self._waits.answer)
        until = min((it for it in (until, self._until) if it is not None), default=None)
        if until is not None:
            return await self._read_until(until)
        try:
            return await self._stream.read(self._own_limit, "nothing came")
        except PeerSilent:
            await self._close_soon(Error("amqp:resource-limit-exceeded", "nothing came within the idle time-out"))
            raise

    async def _read_until(self, until: float) -> bytes:
        """What comes before the time is over. Bytes that keep coming do not put it off."""
        left = until - time.monotonic()
        if left <= 0:
            raise PeerSilent("the peer did not answer in time")
        return await self._stream.read(left, "no answer of the peer's")

    async def _close_soon(self, error: Error) -> None:
        """Has a Close go out, if one still can."""
        with contextlib.suppress(Refusal):
            self.engine.close(error)
        # also where the engine has closed by itself
        with contextlib.suppress(ConnectionError):
            await self.flush()

    def _keep_alive(self) -> None:
        """From both Opens on an empty frame goes out where else nothing would."""
        if (
            self._beats is None
            and self.engine.state == "OPENED"
            and (theirs := self.engine.remote_open)
            and theirs.idle_time_out
        ):
            self._tell_time()

    def _now(self) -> int:
        return int((time.monotonic() - self._start) * 1000)

    def _tell_time(self) -> None:
        """Tells the library the time: an empty frame goes out where one is due, and the peer reads what was sent
        before. Whether the peer is silent says who waits for it to send: it is not where the program takes nothing."""
        if self.engine.has_ended:
            return
        wait = _BRIEFEST
        if not self._stream.drains:
            with contextlib.suppress(MemoryError):
                wait = max(wait, self._ticked(self._now()))
        self._beats = asyncio.get_running_loop().call_later(wait, self._tell_time)

    def _ticked(self, now: int) -> float:
        """In how many seconds the library is to be told the time again."""
        self.engine.heard(now)
        tick = self.engine.tick(now)
        self.push()
        return 0.0 if tick.next is None else (tick.next + 1 - now) / 1000

    # ---- the end

    async def aclose(self) -> None:
        """Closes the stream and frees the engine. A Close of the protocol is the caller's, by `close`."""
        if self._beats is not None:
            self._beats.cancel()
        try:
            if self._again is not None:
                self._again.cancel()
            await self._stream.close()
        finally:
            if hasattr(self, "engine"):
                self.engine.free()

    async def close(self, error: Optional[Error] = None) -> None:
        """Sends a Close, and waits until the peer's has come; what else comes meanwhile is passed over. Raises
        `PeerSilent` where none comes in time."""
        # at a size that no frame may have the engine has closed by itself
        if not self.engine.is_broken:
            self.engine.close(error)
        await self._passed_over()

    async def fail(self, error: BaseException) -> None:
        """Ends the connection for this error, of the peer's or of this side's: the peer is told the condition, where
        protocol headers have passed, and has a moment to read it."""
        if not self._is_begun:
            return
        await self._close_soon(Error(condition_of(error), str(error) if isinstance(error, Refusal) else None))
        with contextlib.suppress(Refusal, OSError):
            await within(self._waits.closing, self._passed_over(), "no answer to a Close")

    async def _passed_over(self) -> None:
        while await self._pump():
            for _ in self._coming:
                pass


def error_of(event: NotOpened) -> Exception:
    """Why a stream is not opened, as an error."""
    if event.why in (begins.OTHER_PROTOCOL, begins.OTHER_HEADER, begins.NOT_AMQP):
        return HeaderRefused(f"the peer begins with another header ({event.name})")
    if event.why in (begins.MALFORMED_SASL, begins.UNEXPECTED_SASL):
        return Malformed(f"no frame of SASL, or not one that was expected ({event.name})")
    return sasl.LoginRefused(f"the login was refused ({event.name})")


def condition_of(error: BaseException) -> str:
    """The condition by which a peer is told of an error: of a refusal its own; of what is this side's fault, that it is
    (AMQP 1.0 part 2, section 2.8.15)."""
    if isinstance(error, Malformed):
        return "amqp:decode-error"
    if isinstance(error, Refusal) and error.condition:
        return error.condition
    return (
        "amqp:frame-size-too-small"
        if isinstance(error, Refusal) and error.name == "TooLarge"
        else "amqp:internal-error"
    )
