"""The bytes of a connection by `asyncio`. Whatever the peer does, each call here ends."""

from __future__ import annotations

import asyncio
import contextlib
import time
from dataclasses import dataclass
from typing import Any, Awaitable, Dict, Optional

#: As many bytes may wait before a call waits for the peer to read them, and so many it has to read within
#: `Waits.reading`
_FEW = 65536
#: How much earlier a time may be over, by the clock
_MOMENT = 0.05


class PeerSilent(ConnectionError):
    """The peer took longer than it may: nothing came within this side's `idle_time_out`, it did not read, or it did not
    answer (`Waits`)."""


@dataclass
class Waits:
    """For how long this side waits for a peer, in seconds."""

    #: for protocol headers and SASL, all of them together
    login: float = 20.0
    #: for the answer to a Begin or a Close
    answer: float = 20.0
    #: for a peer that does not read what waits to be sent
    reading: float = 60.0
    #: for the last bytes to go out, when the stream is closed
    closing: float = 2.0


async def within(seconds: Optional[float], what: Awaitable[Any], otherwise: str) -> Any:
    """What is awaited, or `PeerSilent` after so many seconds. `asyncio.wait_for` would wait on for what does not let
    itself be cancelled, and before Python 3.12 can lose a cancellation of its caller."""
    task = asyncio.ensure_future(what)
    try:
        await asyncio.wait({task}, timeout=seconds)
        if task.done():
            return task.result()
    finally:
        task.cancel()
        # where this call is cancelled, nobody asks how the task ended
        task.add_done_callback(lambda it: it.cancelled() or it.exception())
    raise PeerSilent(f"{otherwise} within {seconds:g} seconds")


class Stream:
    """A reader and a writer of one connection."""

    def __init__(self, reader: asyncio.StreamReader, writer: asyncio.StreamWriter, waits: Waits) -> None:
        self._reader, self._writer, self._waits = reader, writer, waits
        self._loop, self._written = asyncio.get_running_loop(), bytearray()
        # one task reads, whoever waits for it: a call that is cancelled, or whose time is over, takes nothing with it
        self._reading: Optional["asyncio.Task[bytes]"] = None
        self._is_awaited = False
        # before Python 3.10 two tasks may not drain one writer
        self._drains = asyncio.Lock()
        self._failed: Optional[PeerSilent] = None

    async def take(self, count: int) -> bytes:
        """So many bytes. It sets no limit of time: headers and SASL, for which alone it is called, have `Waits.login`
        for all of them together."""
        try:
            return await self._reader.readexactly(count)
        except asyncio.IncompleteReadError:
            raise ConnectionError("the peer hung up") from None

    async def read(self, seconds: Optional[float], otherwise: str) -> bytes:
        """Bytes that came; none where the stream is over. Raises the error of another task that gave the peer up, and
        `PeerSilent` after so many seconds."""
        if self._is_awaited:
            raise RuntimeError("two tasks wait for what comes on one connection")
        reading = self._begin_to_read()
        self._is_awaited = True
        try:
            await asyncio.wait({reading}, timeout=seconds)
        finally:
            self._is_awaited = False
        if not reading.done():
            raise PeerSilent(f"{otherwise} within {seconds:g} seconds")
        self._reading = None
        if self._failed is not None:
            raise self._failed
        return b"" if reading.cancelled() else reading.result()

    def _begin_to_read(self) -> "asyncio.Task[bytes]":
        if self._reading is None:
            self._reading = asyncio.ensure_future(self._reader.read(65536))
        return self._reading

    def write(self, data: bytes) -> None:
        """Has bytes wait to go out. What several calls write before the loop goes on goes out at once."""
        if not self._written:
            self._loop.call_soon(self._write_out)
        self._written += data

    def _write_out(self) -> None:
        if self._written:
            # of a stream that is closing nothing goes out any more, and asyncio says so each time
            if not self._writer.transport.is_closing():
                self._writer.write(bytes(self._written))
            self._written.clear()

    @property
    def certificate(self) -> Optional[Dict[str, Any]]:
        """The peer's certificate, if TLS has proved one."""
        return self._writer.get_extra_info("peercert") or None

    @property
    def unsent(self) -> int:
        """How many bytes wait."""
        return len(self._written) + self._writer.transport.get_write_buffer_size()

    @property
    def drains(self) -> bool:
        """Whether a task waits for the peer to read."""
        return self._drains.locked()

    async def drain(self, idle: Optional[float] = None) -> None:
        """Waits until few bytes wait. A peer that reads too few of them is given up: the stream ends. So is one that
        reads none while nothing comes from it for `idle` seconds."""
        self._write_out()
        if self.unsent <= _FEW:
            return
        async with self._drains:
            before, until = self.unsent, time.monotonic() + self._waits.reading
            while self.unsent > _FEW:
                try:
                    await self._drained(until - time.monotonic(), idle)
                except PeerSilent as error:
                    if self.unsent <= before - _FEW:
                        before, until = self.unsent, time.monotonic() + self._waits.reading
                    elif self._is_silent(idle) or time.monotonic() > until - _MOMENT:
                        raise self._given_up(error) from None

    async def _drained(self, left: float, idle: Optional[float]) -> None:
        if idle is not None:
            # what comes meanwhile shows that the peer is there
            self._begin_to_read()
        await within(min(left, left if idle is None else idle), self._writer.drain(), "the peer did not read")

    def _is_silent(self, idle: Optional[float]) -> bool:
        return idle is not None and self._reading is not None and not self._reading.done()

    def _given_up(self, error: PeerSilent) -> PeerSilent:
        self._failed = error
        self._writer.transport.abort()
        return error

    def abort(self) -> None:
        """Ends the stream at once; what waits does not go out."""
        self._writer.transport.abort()

    async def close(self) -> None:
        """Closes the stream. What waits goes out, if the peer reads it soon; else it does not."""
        if self._reading is not None:
            self._reading.cancel()
        self._write_out()
        self._writer.close()
        try:
            with contextlib.suppress(OSError):
                await within(self._waits.closing, self._writer.wait_closed(), "the stream did not close")
        finally:
            self._writer.transport.abort()
