"""A client of which the broker's bytes are changed or lost on the way: each call ends in time, by an answer or by
one of the client's errors."""

import asyncio
import contextlib
import random

from amqp_engine import AmqpError, Backoff, Malformed, TimedOut, Waits, connect
from hostile.peers import Broker

AT_ONCE, TESTS = 1, []
#: How many connections, and how many of them at once
CONNECTIONS, SIDE_BY_SIDE = 96, 12
WAITS = Waits(login=2.0, answer=0.3, reading=1.0, closing=0.1)


def test(function):
    TESTS.append(function)
    return function


class Changing:
    """A relay to a broker that changes one byte of what the broker sends, and may leave some out behind it."""

    def __init__(self, port, seed):
        self.port, self.chance = port, random.Random(seed)

    async def __aenter__(self):
        self.server = await asyncio.start_server(self.relay, "127.0.0.1", 0)
        return self.server.sockets[0].getsockname()[1]

    async def __aexit__(self, *_):
        self.server.close()

    async def relay(self, reader, writer):
        other, there = await asyncio.open_connection("127.0.0.1", self.port)
        at = self.chance.randrange(20, 900)
        await asyncio.gather(self.pass_on(reader, there, None), self.pass_on(other, writer, at))

    async def pass_on(self, reader, writer, at):
        count = 0
        with contextlib.suppress(ConnectionError):
            while data := bytearray(await reader.read(65536)):
                if at is not None and count <= at < count + len(data):
                    data[at - count] = self.chance.randrange(256)
                    if self.chance.random() < 0.3:
                        del data[at - count : at - count + self.chance.randrange(1, 5)]
                count += len(data)
                writer.write(bytes(data))
                await writer.drain()
        writer.transport.abort()


async def ends(what):
    """What is awaited, or nothing where it raised one of the client's errors."""
    with contextlib.suppress(AmqpError, TimedOut, OSError, Malformed):
        return await what


async def takes(receiver):
    for _ in range(10):
        delivery = await receiver.receive(timeout=0.5)
        with contextlib.suppress(Malformed):
            delivery.message.body
        await delivery.accept()


async def uses(port, seed):
    """Sends and receives over a changed connection, of which each third is made anew once."""
    how = {"waits": WAITS, "resend": seed % 2 == 0}
    if seed % 3 == 0:
        how["reconnect"] = Backoff(0.01, 0.02, attempts=1)
    async with Changing(port, seed) as changing:
        connection = connect(f"amqp://127.0.0.1:{changing}/", **how)
        if await ends(connection.open()) is None:
            return
        sender, receiver = connection.sender("q"), connection.receiver("q", credit=5)
        jobs = []
        if await ends(sender.open(timeout=0.5)):
            jobs += [ends(sender.send(at, timeout=0.7)) for at in range(10)]
        if await ends(receiver.open(timeout=0.5)):
            jobs.append(ends(takes(receiver)))
        await asyncio.gather(*jobs)
        await ends(connection.close())


@test
async def each_call_ends_whatever_bytes_come():
    told = []
    asyncio.get_running_loop().set_exception_handler(lambda loop, context: told.append(context))
    async with Broker() as broker:
        for first in range(0, CONNECTIONS, SIDE_BY_SIDE):
            seeds = range(first, first + SIDE_BY_SIDE)
            await asyncio.gather(*(asyncio.wait_for(uses(broker.port, seed), 20) for seed in seeds))
    asyncio.get_running_loop().set_exception_handler(None)
    assert not told, told[:3]
