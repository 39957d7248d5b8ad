"""One connection's bytes by `asyncio`: what comes is given to the library as it comes, what it has to send goes out,
and it is told the time. No task reads: each call here ends at once, or waits for the peer to read what was written."""

from __future__ import annotations

import asyncio
import time
from collections import deque
from typing import Callable, Deque, List, Optional, cast

from .driver import DUE_OPENING_LATE, DUE_PEER_SILENT, Driver
from .errors import ConnectionLost
from .events import Refusal
from .performatives import Error
from .records import Record
from .stream import Waits
from .tracing import Trace
from .transport import condition_of

#: After so many seconds what memory was refused for is asked for again
_AGAIN = 0.05
#: What is told of a record, over the bytes that it came in
Told = Callable[[Record, bytes], None]


class Wire(asyncio.Protocol):
    """A driver, and the stream that carries its bytes."""

    def __init__(
        self, driver: Driver, told: Told, ended: Callable[[BaseException], None], waits: Waits, name: str
    ) -> None:
        """`told` is called with each record, in order, and `ended` once, with why the stream is over."""
        #: the library's driver
        self.driver = driver
        self._told, self._ended, self._waits = told, ended, waits
        self._loop, self._start = asyncio.get_running_loop(), time.monotonic()
        self._transport: Optional[asyncio.Transport] = None
        # what came of a frame that is not whole, and how many bytes it has, as far as that is known
        self._parts: List[bytes] = []
        self._size = self._wanted = 0
        self._going: List[bytes] = []
        #: How many bytes were asked to be sent since the loop went on last
        self.backlog = 0
        #: Whether what waits goes out once the loop goes on; whether the peer has much to read; whether no Open of its
        #: has come
        self.is_asked, self.is_paused, self.is_opening = False, False, True
        self._is_over = False
        self._timer: Optional[asyncio.TimerHandle] = None
        self._unread: Optional[asyncio.TimerHandle] = None
        self._drained: Deque["asyncio.Future[None]"] = deque()
        self._in, self._out = Trace(name, "<-"), Trace(name, "->")
        #: Called where the peer has read enough that more may be written
        self.resumed: Callable[[], None] = lambda: None
        #: Called before what waits goes out; and with how many bytes were taken from the library
        self.before: Callable[[], None] = lambda: None
        self.collected: Callable[[int], None] = lambda count: None

    # ---- what comes

    def connection_made(self, transport: asyncio.BaseTransport) -> None:
        """The stream is there: the header goes out."""
        self._transport = cast(asyncio.Transport, transport)
        self.flush()
        self._tell_time()

    def data_received(self, data: bytes) -> None:
        """Bytes came."""
        if self._in.is_on:
            self._in.tell(data)
        self._parts.append(data)
        self._size += len(data)
        if self._size < self._wanted:
            self.driver.heard(self._now())
            return
        whole = data if len(self._parts) == 1 else b"".join(self._parts)
        self._parts, self._size = [], 0
        try:
            self._take(whole)
        except Exception as error:
            self.fail(error)
        if not self._is_over:
            self.flush()
            if self.is_opening:
                self._tell_time()

    def _take(self, data: bytes) -> None:
        at, now = 0, self._now()
        while not self._is_over:
            taken = self.driver.take(data, at, now)
            at, self._wanted = at + taken.taken, taken.wanted
            for record in taken.records:
                self._told(record, data)
            if taken.is_bad:
                raise Refusal("BadSize", "amqp:connection:framing-error")
            if taken.wanted or taken.is_over or taken.waits:
                break
        if at < len(data):
            self._parts, self._size = [data[at:]], len(data) - at

    def connection_lost(self, exc: Optional[Exception]) -> None:
        """The stream is over."""
        error = ConnectionLost("the connection was lost" if exc is None else f"the connection was lost ({exc})")
        error.__cause__ = exc
        self._end(error)

    # ---- what goes

    def collect(self) -> None:
        """Takes what was asked for so far from the library; it goes out with what else waits."""
        data = self.driver.to_send()
        self._going.append(data)
        self.collected(len(data))
        if self.driver.has_left:
            self._loop.call_later(_AGAIN, self.ask)

    def ask(self) -> None:
        """Has what waits go out once the loop goes on."""
        if not self.is_asked:
            self.is_asked = True
            self._loop.call_soon(self._go)

    def _go(self) -> None:
        self.is_asked = False
        try:
            self.flush()
        except Exception as error:
            self.fail(error)

    def flush(self) -> None:
        """What waits goes out at once."""
        if self._is_over or self._transport is None:
            return
        self.before()
        self.collect()
        data = b"".join(self._going)
        self._going.clear()
        self.backlog = 0
        if data:
            if self._out.is_on:
                self._out.tell(data)
            self._transport.write(data)

    def pause_writing(self) -> None:
        """The peer has much to read; it is given up where it does not."""
        self.is_paused = True
        self._unread = self._loop.call_later(self._waits.reading, self.fail, ConnectionLost("the peer does not read"))

    def resume_writing(self) -> None:
        """The peer has read enough."""
        self.is_paused = False
        self._stop_unread()
        self._wake()
        try:
            self.resumed()
        except Exception as error:
            self.fail(error)

    async def drain(self) -> None:
        """Waits while the peer has much to read: no longer than `Waits.reading`, after which the connection is over."""
        while self.is_paused and not self._is_over:
            waits: "asyncio.Future[None]" = self._loop.create_future()
            self._drained.append(waits)
            try:
                await waits
            finally:
                if waits in self._drained:
                    self._drained.remove(waits)

    def _wake(self) -> None:
        while self._drained:
            waits = self._drained.popleft()
            if not waits.done():
                waits.set_result(None)

    # ---- the time

    def _now(self) -> int:
        return int((time.monotonic() - self._start) * 1000)

    def opened(self) -> None:
        """Both Opens have passed: from now on what is due is later with each frame, and no earlier."""
        self.is_opening = False
        self._tell_time()

    def _tell_time(self) -> None:
        """Tells the library the time, and asks when it wants to be told again. Idle time-outs are the library's."""
        if self._timer is not None:
            self._timer.cancel()
        try:
            tick = self.driver.tick(self._now())
        except MemoryError:
            # it is told again soon: nothing was done
            self._timer = self._loop.call_later(_AGAIN, self._tell_time)
            return
        if tick.due in (DUE_OPENING_LATE, DUE_PEER_SILENT):
            late = tick.due == DUE_OPENING_LATE
            self.fail(ConnectionLost("the connection was not open in time" if late else "the peer is silent"))
        elif tick.due:
            self.flush()
        if tick.next is not None and not self._is_over:
            # a millisecond later than asked, so that the time is not told too early by a part of one
            self._timer = self._loop.call_later(max(0.0, (tick.next + 1 - self._now()) / 1000), self._tell_time)

    # ---- the end

    def fail(self, error: BaseException) -> None:
        """Ends the connection for this error: the peer is told the condition, where a Close still can."""
        if self._is_over:
            return
        try:
            self.driver.close(Error(condition_of(error), str(error) if isinstance(error, Refusal) else None))
        except (Refusal, MemoryError):
            pass
        self._flush_and_end(error)

    def close(self) -> None:
        """Closes the stream; what was written goes out, if the peer reads it soon."""
        self._flush_and_end(ConnectionLost("this side has closed the connection"))

    def _flush_and_end(self, error: BaseException) -> None:
        try:
            self.flush()
        except MemoryError:
            # what was written does not go out
            pass
        finally:
            self._end(error)

    def _end(self, error: BaseException) -> None:
        if self._is_over:
            return
        self._is_over = True
        for handle in (self._timer, self._unread):
            if handle is not None:
                handle.cancel()
        if self._transport is not None:
            self._transport.close()
            self._loop.call_later(self._waits.closing, self._transport.abort)
        self._wake()
        self._ended(error)

    def _stop_unread(self) -> None:
        if self._unread is not None:
            self._unread.cancel()
            self._unread = None
