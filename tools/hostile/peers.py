"""Peers that write any frame they like, for the programs of this folder, and what is measured of a process."""

import asyncio
import contextlib
import dataclasses
import os
import sys
import time
from pathlib import Path

from amqp_engine import Begin, Close, Described, Detach, End, Open, Ulong
from amqp_engine.values import write

ROOT = Path(__file__).resolve().parents[2]
HEADER, SASL = b"AMQP\x00\x01\x00\x00", b"AMQP\x03\x01\x00\x00"
EMPTY = b"\x00\x00\x00\x08\x02\x00\x00\x00"
#: How long a good client may wait while others attack, and how long a test may take, in seconds
PATIENCE, LONGEST = 10.0, 30.0
LARGE = 2**31 - 1


def frame(of, channel=0, payload=b""):
    """A frame of a performative, or of its bytes: a peer does not write by this side's library."""
    body = b"\x02\x00" + channel.to_bytes(2, "big") + (of if isinstance(of, bytes) else write(of.described())) + payload
    return (len(body) + 4).to_bytes(4, "big") + body


def sasl_frame(code, fields):
    """A frame of SASL of a list of values."""
    body = b"\x02\x01\x00\x00" + write(Described(Ulong(code), fields))
    return (len(body) + 4).to_bytes(4, "big") + body


def compound(code, items):
    """A list, a map or an array of parts that are bytes, with four bytes for each number."""
    body = b"".join(items)
    return bytes([code]) + (len(body) + 4).to_bytes(4, "big") + len(items).to_bytes(4, "big") + body


def array(constructor, data=b"", count=1):
    """An array of a constructor, the items' data, and a count that need not be theirs."""
    body = constructor + data
    return b"\xf0" + (len(body) + 4).to_bytes(4, "big") + count.to_bytes(4, "big") + body


def with_bytes(of, **fields):
    """A performative in which some fields are these bytes."""
    names = [it.name for it in dataclasses.fields(of)]
    items = [write(it) for it in of.described().value]
    items += [b"\x40"] * (len(names) - len(items))
    for name, data in fields.items():
        items[names.index(name)] = data
    return b"\x00\x53" + bytes([of.CODE]) + compound(0xD0, items)


class Raw:
    """A client that writes bytes and reads frames."""

    def __init__(self, reader, writer):
        self.reader, self.writer = reader, writer

    @classmethod
    async def to(cls, port, header=HEADER):
        it = cls(*await asyncio.open_connection("127.0.0.1", port))
        it.send(header)
        return it

    @classmethod
    async def opened(cls, port, **how):
        """One whose connection is open, with a session."""
        it = await cls.to(port)
        it.send(frame(Open("raw", **{"max_frame_size": None, **how})), frame(Begin(None, 0, LARGE, LARGE)))
        await it.take(8)
        await it.until(0x11)
        return it

    def send(self, *frames):
        self.writer.write(b"".join(frames))

    async def drain(self):
        await self.writer.drain()

    async def take(self, count):
        return await self.reader.readexactly(count)

    async def frame(self):
        """The next frame without its size."""
        return await self.take(int.from_bytes(await self.take(4), "big") - 4)

    async def until(self, *codes):
        """The next frame of one of these performatives."""
        while True:
            of = await self.frame()
            if of[6:7] and of[6] in codes:
                return of

    async def ended(self):
        """The condition of the Detach, End or Close that comes next; nothing where none has one, or the stream is over."""
        with contextlib.suppress(asyncio.IncompleteReadError, ConnectionError):
            of = await self.until(0x16, 0x17, 0x18)
            error = {0x16: Detach, 0x17: End, 0x18: Close}[of[6]].decode(of[4:]).error
            return error.condition if error else None
        return None

    async def over(self):
        """Until the other side ends the stream."""
        with contextlib.suppress(ConnectionError):
            while await self.reader.read(65536):
                pass

    def gone(self):
        self.writer.transport.abort()


async def ping(port):
    """A good client: how long an open and a begin take it."""
    start = time.monotonic()
    it = await asyncio.wait_for(Raw.opened(port), LONGEST)
    it.gone()
    return time.monotonic() - start


async def listens(script):
    """A server on loopback that does this with each client: its port."""
    server = await asyncio.start_server(lambda reader, writer: script(Raw(reader, writer)), "127.0.0.1", 0)
    return server, server.sockets[0].getsockname()[1]


class Broker:
    """The broker of the examples, as a process of its own."""

    words = [sys.executable, str(ROOT / "examples" / "python" / "broker.py"), "0"]

    async def __aenter__(self):
        self.process = await asyncio.create_subprocess_exec(*self.words, stdout=asyncio.subprocess.PIPE, stderr=asyncio.subprocess.PIPE)
        self.port = int((await self.process.stdout.readline()).rpartition(b":")[2])
        await ping(self.port)
        self.megabytes_before, self.files_before = self.megabytes(), self.files()
        return self

    async def __aexit__(self, kind, *_):
        self.process.terminate()
        _, said = await self.process.communicate()
        assert kind or not said, said.decode()[-2000:]

    def megabytes(self):
        """Resident memory."""
        lines = Path(f"/proc/{self.process.pid}/status").read_text().split("\n")
        return int(next(it for it in lines if it.startswith("VmRSS")).split()[1]) / 1024

    def grown(self):
        return self.megabytes() - self.megabytes_before

    def files(self):
        return len(os.listdir(f"/proc/{self.process.pid}/fd"))

    async def closes_all(self):
        """Whether no socket of a client stays."""
        return await holds(lambda: self.files() <= self.files_before)


async def holds(what, seconds=PATIENCE):
    """Whether it holds before so many seconds have passed."""
    until = time.monotonic() + seconds
    while not what():
        if time.monotonic() > until:
            return False
        await asyncio.sleep(0.02)
    return True
