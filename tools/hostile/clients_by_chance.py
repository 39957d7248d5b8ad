"""Whole streams of servers with changed bytes, given to a client in memory, by a seed: each call ends, by an answer or
by one of the client's errors, and no task and no memory stays."""

import asyncio
import contextlib
import gc
import random

from amqp_engine import (
    ACCEPTED, RECEIVER, RELEASED, SENDER, AmqpError, Attach, Begin, Close, Detach, Disposition, End, Error, Flow,
    Malformed, Message, Open, Symbol, TimedOut, Transfer, Waits, rejected, source, target,
)  # fmt: skip
from amqp_engine.client import Client, How
from amqp_engine.connecting import how_of
from amqp_engine.line import Line
from hostile.peers import HEADER, LARGE, frame
from hostile.streams_by_chance import AT_A_TIME, KILOBYTES, Wire, kilobytes

AT_ONCE, LONGEST, TESTS = 1, 200, []
#: How many streams the test gives
STREAMS = 1000
WAITS = Waits(login=5, answer=5, reading=5, closing=0.01)
#: What a client raises
ERRORS = (AmqpError, TimedOut, OSError, Malformed)
#: SASL of a server that lets everybody in: its header, its mechanisms, and its outcome (AMQP 1.0 part 5, section 5.3.3)
SASL = [
    b"AMQP\x03\x01\x00\x00", b"\x00\x00\x00\x19\x02\x01\x00\x00\x00\x53\x40\xc0\x0c\x01\xa3\x09ANONYMOUS",
    b"\x00\x00\x00\x10\x02\x01\x00\x00\x00\x53\x44\xc0\x03\x01\x50\x00",
]  # fmt: skip
PROPERTIES = {Symbol("product"): "a server", Symbol("k"): [1, "a", {1: 2}]}


def test(function):
    TESTS.append(function)
    return function


def begins(chance):
    """Both Opens have passed then."""
    opens = frame(Open("server", max_frame_size=chance.choice((512, 65536)), properties=PROPERTIES))
    return [*SASL, HEADER, opens]


def attaches(chance):
    """A session, a link on which the client sends, with credit, and one on which it receives."""
    most = chance.choice((None, None, 10))
    return [
        frame(Begin(0, 0, LARGE, LARGE, 255, ["a"])),
        frame(Attach("s", 0, RECEIVER, source=source(), target=target("q"), max_message_size=most)),
        frame(Flow(0, LARGE, 0, LARGE, 0, 0, 5)),
        frame(Attach("r", 1, SENDER, source=source("q"), target=target(), initial_delivery_count=0)),
    ]


def settles(chance):
    """What becomes of what the client sends."""
    states = [chance.choice((ACCEPTED, RELEASED, rejected(Error("a:b", "c")))) for _ in range(5)]
    return [frame(Disposition(RECEIVER, at, at, chance.random() < 0.8, it)) for at, it in enumerate(states)]


def delivers(chance):
    """Deliveries in one frame or in two, which may be aborted."""
    found = []
    for number in range(5):
        payload = Message(bytes(chance.randrange(60)), properties={"k": number}).encode()
        whole = frame(Transfer(1, number, b"%d" % number, 0, settled=chance.random() < 0.3), 0, payload)
        first = frame(Transfer(1, number, b"t", 0, more=True), 0, payload[:9])
        rest, aborts = frame(Transfer(1), 0, payload[9:]), frame(Transfer(1, aborted=True))
        found += chance.choice(([whole], [whole], [first, rest], [first, aborts]))
    return found


def others(chance):
    """What may stand anywhere behind the Begin."""
    error = Error("a:b", "c", {Symbol("k"): 1})
    return chance.sample([
        frame(Flow(0, LARGE, 0, LARGE, 0, 0, 9, drain=True)), frame(Flow(0, 0, 0, LARGE)),
        frame(Flow(0, LARGE, 0, LARGE, echo=True)), frame(Disposition(SENDER, 0, 3, True)),
        frame(Detach(0, True, error)), frame(Detach(1, False)), frame(End(error)), frame(Close(error)),
        frame(Attach("own", 2, SENDER, initial_delivery_count=0)), b"\x00\x00\x00\x08\x02\x00\x00\x00",
    ], chance.choice((0, 0, 1, 2)))  # fmt: skip


def stream(chance):
    """A server's stream, in frames with changed bytes in some: what the client waits for, step by step."""
    goes_on = [*settles(chance), *delivers(chance)]
    for it in others(chance):
        goes_on.insert(chance.randrange(len(goes_on) + 1), it)
    ends = [frame(Detach(0, True)), frame(Detach(1, True)), frame(Close())]
    steps = [begins(chance), *([it] for it in attaches(chance)), goes_on, *([it] for it in ends)]
    for _ in range(chance.choice((0, 1, 1, 2, 3))):
        # mostly behind the opening, so that there is something to break
        step = steps[0 if chance.random() < 0.1 else chance.randrange(1, len(steps))]
        at = chance.randrange(len(step))
        said = bytearray(step[at]) or bytearray(9)
        said[chance.randrange(0 if chance.random() < 0.1 else min(8, len(said) - 1), len(said))] = chance.randrange(256)
        step[at] = bytes(said) if chance.random() < 0.9 else bytes(said[: chance.randrange(len(said))])
    return steps


class Fed(How):
    """A client's connections lead to a stream in memory."""

    async def _connected(self, line):
        self.wire = line.wire
        self.transport = Wire()
        line.wire.connection_made(self.transport)


async def ended(what, kinds):
    """What is awaited, or nothing where it raised one of the client's errors, which is counted."""
    try:
        return await what
    except ERRORS as error:
        kinds[type(error).__name__] = kinds.get(type(error).__name__, 0) + 1


async def takes(receiver, kinds):
    for _ in range(5):
        delivery = await receiver.receive(timeout=10)
        with contextlib.suppress(Malformed):
            delivery.message.body, delivery.message.properties
        await delivery.accept()
        kinds["taken"] = kinds.get("taken", 0) + 1


async def uses(client, kinds):
    """Sends and receives."""
    if await ended(client.open(), kinds) is None:
        return
    sender, receiver = client.sender("q", name="s"), client.receiver("q", name="r", credit=5)
    if await ended(sender.open(timeout=10), kinds):
        jobs = [ended(sender.send(at, timeout=10, raises=False), kinds) for at in range(5)]
        if await ended(receiver.open(timeout=10), kinds):
            jobs.append(ended(takes(receiver, kinds), kinds))
        for it in await asyncio.gather(*jobs):
            kinds["told"] = kinds.get("told", 0) + (it is not None)
    await ended(client.close(), kinds)


async def feeds(how, steps, chance):
    """Gives the stream, a frame at a time or more, while the client goes on, and hangs up."""
    while not hasattr(how, "wire"):
        await asyncio.sleep(0)
    for frames in steps:
        at = 0
        while at < len(frames) and not how.transport.is_closed:
            count = chance.choice((1, 1, 2, 9))
            how.wire.data_received(b"".join(frames[at : at + count]))
            at += count
            await asyncio.sleep(0)
        for _ in range(chance.choice((2, 20, 20, 20))):
            await asyncio.sleep(0)
    how.wire.connection_lost(None)


async def streamed(seed, kinds):
    chance, made = random.Random(seed), how_of("amqp://here", waits=WAITS, container_id="client")
    how = Fed(**{name: getattr(made, name) for name in How.__dataclass_fields__})
    client = Client(how)
    await asyncio.gather(uses(client, kinds), feeds(how, stream(chance), chance))
    assert how.transport.is_closed and not client.is_open and not client.links, seed
    return seed


async def parts_of(seed, kinds):
    """All streams, a few side by side, in five parts: how many kilobytes the process has after each."""
    held = []
    for part in range(5):
        for first in range(0, STREAMS // 5, AT_A_TIME):
            seeds = [f"{seed} {part} {first + at}" for at in range(AT_A_TIME)]
            await asyncio.wait_for(asyncio.gather(*(streamed(it, kinds) for it in seeds)), 20)
        await asyncio.sleep(4 * WAITS.closing)
        held.append(kilobytes())
    return held


async def leave_nothing(seed):
    loop, kinds, told, tasks = asyncio.get_running_loop(), {}, [], len(asyncio.all_tasks())
    loop.set_exception_handler(lambda loop, context: told.append(context))
    held = await parts_of(seed, kinds)
    loop.set_exception_handler(None)
    left, objects = min(held[-2:]) - max(held[:2]), sum(isinstance(it, (Client, Line)) for it in gc.get_objects())
    assert not told, told[:3]
    assert (left < KILOBYTES, objects, len(asyncio.all_tasks())) == (True, 0, tasks), (left, objects)
    # the streams reach what they are for: of many the client's calls fail, and of many they do not
    assert STREAMS < kinds["told"] and STREAMS < kinds["taken"] and STREAMS // 4 < kinds["ConnectionLost"], kinds
    print(f"{STREAMS} streams: {kinds}, {left} kB more")


@test
async def streams_of_servers_with_changed_bytes_leave_nothing():
    await leave_nothing(1)
