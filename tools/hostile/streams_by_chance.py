"""Whole streams of clients with changed bytes, given to the broker's server in memory, by a seed: no exception leaks,
each message is somewhere or was settled, and no task, no link and no memory stays."""

import asyncio
import ctypes
import gc
import random
import resource
import sys
from pathlib import Path

from amqp_engine import (
    ACCEPTED, RECEIVER, RELEASED, SECOND, SENDER, SETTLED, Attach, Begin, Close, Detach, Disposition, End, Error, Flow,
    Limits, Open, Refusal, Symbol, Transfer, Waits, data, source, target,
)  # fmt: skip
from amqp_engine.served import Served
from hostile.peers import HEADER, LARGE, ROOT, frame

sys.path.insert(0, str(ROOT / "examples" / "python"))

from broker import HANDLE_MAX, Broker, opened
from queues import BESIDE

AT_ONCE, LONGEST, TESTS = 1, 200, []
#: How many streams each test gives, and how many of them side by side
STREAMS, AT_A_TIME = 2500, 50
#: How many kilobytes the process may grow by, from the first 1,000 streams to the last 1,000: the least then, and the most before
KILOBYTES = 4096


def test(function):
    TESTS.append(function)
    return function


class Wire:
    """A transport in memory: what is written to it is counted."""

    def __init__(self):
        self.wrote, self.is_closed = 0, False

    @property
    def transport(self):
        return self

    def write(self, said):
        self.wrote += len(said)

    async def drain(self):
        await asyncio.sleep(0)

    async def wait_closed(self):
        pass

    def close(self):
        self.is_closed = True

    abort = close

    def is_closing(self):
        return self.is_closed

    def get_write_buffer_size(self):
        return 0


#: What each stream begins with, behind its Open
FIRST = [
    Begin(None, 0, LARGE, LARGE, HANDLE_MAX, ["a"], None, {Symbol("k"): [1, "a", {1: 2}]}),
    Attach("s", 0, SENDER, source=source(), target=target("q"), initial_delivery_count=0),
    Attach("s", 1, RECEIVER, source=source("q"), target=target()), Flow(0, LARGE, 0, LARGE, 1, 0, 5),
]  # fmt: skip
#: Of these it has some, in any order
OTHERS = [
    Attach("t", 2, SENDER, rcv_settle_mode=SECOND, target=target("p"), initial_delivery_count=9),
    Attach("r", 3, RECEIVER, snd_settle_mode=SETTLED, source=source("q")),
    Attach("u", 4, RECEIVER, source=source("p"), properties={Symbol("k"): b"x"}),
    Flow(0, LARGE, 0, LARGE, 1, 0, 9, drain=True), Flow(0, LARGE, 0, LARGE, 1, 0, 5), Flow(0, 0, 0, LARGE),
    Flow(0, 9, 0, 9, 0, 1, 9, echo=True), Flow(0, LARGE, 0, LARGE, echo=True), Disposition(SENDER, 0, 3, True),
    Disposition(RECEIVER, 0, 3, True, ACCEPTED), Disposition(RECEIVER, 0, 0, True, RELEASED),
    Disposition(RECEIVER, 1, 9, False, ACCEPTED), Detach(0, True), Detach(1, False, Error("a:b", "c")), Detach(1, True),
    End(Error("a:b", "c")), Close(Error("a:b", "c", {Symbol("k"): 1})),
]  # fmt: skip


def transfers(chance, number):
    """A delivery in one frame or in two, which may be aborted."""
    handle, payload = chance.choice((0, 0, 2)), data(bytes(chance.randrange(60)))
    whole = frame(Transfer(handle, number, b"%d" % number, 0, settled=chance.random() < 0.5), 0, payload)
    first = frame(Transfer(handle, number, b"t", 0, more=True), 0, payload)
    rest, aborts = frame(Transfer(handle), 0, payload), frame(Transfer(handle, aborted=True))
    return chance.choice((whole, whole, first + rest, first + aborts, first))


def stream(chance):
    """A client's stream, with changed bytes in some of its frames, and now and then with a byte too many or too few."""
    begins = Open("client", max_frame_size=chance.choice((512, 65536, None)))
    frames, others = [frame(begins), *map(frame, FIRST)], list(OTHERS)
    for number in range(chance.randrange(1, 12)):
        is_other = chance.random() < 0.5
        frames.append(frame(others.pop(chance.randrange(len(others)))) if is_other else transfers(chance, number))
    for _ in range(chance.choice((0, 0, 1, 1, 2, 3))):
        at = chance.randrange(len(frames))
        said = bytearray(frames[at])
        if len(said) < 9:
            continue
        said[chance.randrange(0 if chance.random() < 0.1 else 8, len(said))] = chance.randrange(256)
        frames[at] = bytes(said) if chance.random() < 0.9 else bytes(said[: chance.randrange(len(said))])
    return (HEADER if chance.random() < 0.98 else chance.randbytes(8)) + b"".join(frames)


class Client:
    """A client's stream, which is given to the broker in pieces, and what the broker told."""

    def __init__(self, broker, said, chance):
        self.reader, self.wire, self.told = asyncio.StreamReader(), Wire(), []
        self.said, self.chance = said, chance
        waits, begin = Waits(login=5, answer=5, closing=0.05), Begin(incoming_window=2048, handle_max=HANDLE_MAX)
        self.connection = Served(self.reader, self.wire, opened(), serves=begin, waits=waits, limits=Limits())
        self.task = asyncio.ensure_future(self.serve(broker))

    async def serve(self, broker):
        try:
            await self.connection.accept()
            await broker.handle(self.connection)
        except Exception as error:
            self.told.append(error)
            await self.connection.fail(error)
        finally:
            await self.connection.aclose()

    async def speak(self):
        """Says all of it, and hangs up."""
        at = 0
        while at < len(self.said):
            size = self.chance.choice((1, 7, 60, 1000, 1000))
            self.reader.feed_data(self.said[at : at + size])
            at += size
            await asyncio.sleep(0)
        self.reader.feed_eof()
        await self.task


async def spoken(broker, chance, count):
    """So many streams, a few side by side; answers which errors the broker was told, by their kind."""
    kinds = {}
    for _ in range(count // AT_A_TIME):
        clients = [Client(broker, stream(chance), chance) for _ in range(AT_A_TIME)]
        await asyncio.wait_for(asyncio.gather(*(it.speak() for it in clients)), 20)
        for it in clients:
            assert it.wire.is_closed and not it.connection.sessions and not it.connection.parked
            for error in it.told:
                assert isinstance(error, (Refusal, ConnectionError, ValueError)), (it.said, error)
                kinds[type(error).__name__] = kinds.get(type(error).__name__, 0) + 1
    return kinds


def kilobytes():
    """Resident memory, once what is garbage is gone, and what the C library keeps for later."""
    gc.collect()
    ctypes.CDLL(None).malloc_trim(0)
    return int(Path("/proc/self/statm").read_text().split()[1]) * resource.getpagesize() // 1024


def look_at(queues):
    """What is left are messages, and no link; each message counts once."""
    assert all(not it.links and not it.ready and not it.senders and not it.draining for it in queues.all())
    assert queues.size == sum(it.size for it in queues.all())
    messages = [message for it in queues.all() for message in (*it.messages, *it.returned)]
    assert queues.size == sum(len(it) + BESIDE for it in messages), queues.size


def clear(queues):
    queues.of_address.clear()
    queues.due.clear()
    queues.waiting.clear()
    queues.size = 0


@test
async def streams_with_changed_bytes_leave_nothing():
    await leave_nothing(1)


@test
async def more_streams_with_changed_bytes_leave_nothing():
    await leave_nothing(2)


@test
async def other_streams_with_changed_bytes_leave_nothing():
    await leave_nothing(3)


@test
async def still_other_streams_with_changed_bytes_leave_nothing():
    await leave_nothing(4)


async def leave_nothing(seed):
    chance, broker, kinds, held, tasks = random.Random(seed), Broker(), {}, [], len(asyncio.all_tasks())
    for _ in range(STREAMS // 500):
        for name, count in (await spoken(broker, chance, 500)).items():
            kinds[name] = kinds.get(name, 0) + count
        look_at(broker.queues)
        clear(broker.queues)
        held.append(kilobytes())
    left, objects = min(held[-2:]) - max(held[:2]), sum(isinstance(it, (Served, Client)) for it in gc.get_objects())
    assert (left < KILOBYTES, objects, len(asyncio.all_tasks())) == (True, 0, tasks), (left, objects)
    # the streams reach what they are for: many end by a refusal, and many do not
    assert STREAMS // 10 < kinds["Refusal"] < STREAMS * 9 // 10, kinds
    print(f"{STREAMS} streams: {kinds}, {left} kB more")
