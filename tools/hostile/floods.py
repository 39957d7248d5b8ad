"""Floods: whatever one client sends, and however many connect, others have their turn within a moment, and what is
filled is bounded."""

import asyncio
import contextlib
import os
import signal
import sys
from pathlib import Path

from amqp_engine import (
    RECEIVER, SENDER, Attach, Begin, Close, Detach, Disposition, End, Flow, Limits, Open, PeerSilent, Transfer, Waits,
    serve, source, target,
)  # fmt: skip
from amqp_engine.accepting import Crowded
from hostile.brokers import credited, receives, sends, sends_all, transfer
from hostile.peers import HEADER, LARGE, PATIENCE, ROOT, Broker, Raw, compound, frame, holds, ping, with_bytes

AT_ONCE, LONGEST, TESTS = 1, 400, []
#: The longest turn of the loop in which nobody else is served, in milliseconds of processor time; and megabytes,
#: whatever a client sends
TURN, MEGABYTES = 50.0, 160
#: The channels of a client beside its first, and the links of each
CHANNELS, LINKS = 26, 256


def test(function):
    TESTS.append(function)
    return function


class Watched(Broker):
    """The broker, and a look at its turns."""

    def __init__(self, files=""):
        self.words = [sys.executable, str(ROOT / "tools" / "hostile" / "turns.py"), *([str(files)] if files else [])]

    async def worst(self):
        """Its longest turn since the last look."""
        self.process.send_signal(signal.SIGUSR1)
        return float(await self.patiently(self.process.stdout.readline()))

    def used(self):
        """The processor time that it has used, in seconds."""
        stat = Path(f"/proc/{self.process.pid}/stat").read_text().rpartition(")")[2].split()
        return (int(stat[11]) + int(stat[12])) / os.sysconf("SC_CLK_TCK")

    async def patiently(self, what, seconds=PATIENCE):
        """What is awaited, or `TimeoutError` once the broker has used so many seconds of processor time since: a loaded
        machine is no fault. What waits for a broker that does nothing has the time of its test."""
        task, until = asyncio.ensure_future(what), self.used() + seconds
        while not task.done() and self.used() < until:
            await asyncio.wait({task}, timeout=0.1)
        if not task.done():
            task.cancel()
            raise TimeoutError(f"the broker used {seconds:g} seconds of processor time")
        return task.result()


async def reads_until(peer, code, count):
    for _ in range(count):
        await peer.until(code)


def flow(handle, credit, **how):
    return Flow(0, LARGE, 0, LARGE, handle=handle, delivery_count=0, link_credit=credit, **how)


async def attaches(port, address):
    """A client with 6,912 receivers, without credit: their Attaches as fast as the broker reads them, and then its
    answers."""
    peer = await Raw.opened(port)
    peer.send(*[frame(Begin(None, 0, LARGE, LARGE), at) for at in range(1, CHANNELS + 1)])
    reads = asyncio.ensure_future(reads_until(peer, 0x12, LINKS * (CHANNELS + 1)))
    for channel in range(CHANNELS + 1):
        for at in range(LINKS):
            attach, shut = Attach(f"l{at}", at, RECEIVER, source=source(address(channel, at))), flow(at, 0)
            peer.send(frame(attach, channel), frame(shut, channel))
        await peer.drain()
    await reads
    return peer


@test
async def twenty_thousand_attaches_hold_nobody_up():
    async with Watched() as broker:
        clients = (attaches(broker.port, lambda channel, at, of=of: f"{of}-{channel}-{at}") for of in range(3))
        peers = await asyncio.gather(*clients)
        assert await broker.worst() < TURN and broker.grown() < MEGABYTES, broker.grown()
        for it in peers:
            it.gone()
        assert await ping(broker.port) < PATIENCE and await broker.closes_all()
        assert await broker.worst() < TURN


async def settled(peer, count):
    """Until so many deliveries of a client are settled."""
    while count > 0:
        said = Disposition.decode((await peer.until(0x15))[4:])
        count -= (said.last or said.first) - said.first + 1


@test
async def receivers_without_credit_cost_a_sender_nothing():
    async with Watched() as broker:
        peers = await asyncio.gather(*(attaches(broker.port, lambda channel, at: "q") for _ in range(3)))
        await broker.worst()
        sender = await Raw.opened(broker.port)
        sender.send(sends())
        await credited(sender)
        sender.send(*[transfer(at, b"x") for at in range(200)])
        await broker.patiently(settled(sender, 200))
        assert await broker.worst() < TURN
        for it in (*peers, sender):
            it.gone()
        assert await broker.closes_all()


DEAREST = with_bytes(
    Attach("d", 9, SENDER, target=target("q"), initial_delivery_count=0),
    properties=compound(0xD1, [b"\x45", b"\x40"] * 7900),
)  # fmt: skip
COMES_AND_GOES = [
    frame(Attach(f"l{at}", 5, SENDER, target=target(f"q{at}"), initial_delivery_count=0)) + frame(Detach(5, True))
    for at in range(200)
]  # fmt: skip
FLOODS = {
    "echoes": frame(flow(1, 0, echo=True)) * 500,
    "sessions": (frame(Begin(None, 0, 8, 8), 1) + frame(End(), 1)) * 200,
    "links": b"".join(COMES_AND_GOES),
    "performatives": (frame(DEAREST) + frame(Detach(9, True))) * 10,
    "drains": frame(flow(1, 9, drain=True)) * 500,
}


@test
async def floods_of_each_kind_hold_nobody_up():
    async with Watched() as broker:
        for name, said in FLOODS.items():
            peer = await Raw.opened(broker.port)
            peer.send(receives(credit=0))
            reads = asyncio.ensure_future(peer.over())
            await broker.worst()
            for _ in range(20):
                peer.send(said)
                await peer.drain()
            peer.send(frame(Close()))
            await broker.patiently(reads, 9 * PATIENCE)
            worst = await broker.worst()
            assert worst < TURN and broker.grown() < MEGABYTES, (name, worst, broker.grown())
            peer.gone()
        assert await broker.closes_all()


@test
async def messages_that_come_at_once_go_to_many_in_turn():
    async with Watched() as broker:
        peer = await Raw.opened(broker.port)
        for at in range(LINKS):
            attach = Attach(f"r{at}", at, RECEIVER, snd_settle_mode=1, source=source("q"))
            peer.send(frame(attach), frame(flow(at, 50)))
        reads = asyncio.ensure_future(reads_until(peer, 0x14, 10000))
        await sends_all(broker, 10000)
        await broker.patiently(reads, 6 * PATIENCE)
        assert await broker.worst() < TURN
        peer.gone()
        assert await broker.closes_all()


@test
async def who_goes_on_behind_the_brokers_close_fills_nothing():
    async with Watched() as broker:
        peer = await Raw.opened(broker.port)
        peer.reader._transport.pause_reading()
        peer.send(frame(Transfer(7, 0, b"t", 0)))
        with contextlib.suppress(ConnectionError):
            for at in range(2000):
                for it in range(200):
                    peer.send(frame(Attach(f"{at}-{it}", it, RECEIVER, source=source(f"{at}-{it}"))))
                await broker.patiently(peer.drain())
        worst = await broker.worst()
        assert broker.grown() < 20 and worst < TURN, (broker.grown(), worst)
        peer.gone()
        assert await ping(broker.port) < PATIENCE and await broker.closes_all()


async def joins(port):
    """A client that connects and says nothing; `None` where it is turned away at once."""
    with contextlib.suppress(OSError):
        return await Raw.to(port, b"")


@test
async def a_server_without_files_serves_others():
    async with Watched(128) as broker:
        silent = [await joins(broker.port) for _ in range(400)]
        for _ in range(20):
            assert await ping(broker.port) < PATIENCE / 2
        assert broker.files() <= 128
        for it in filter(None, silent):
            it.gone()
        assert await broker.closes_all() and await ping(broker.port) < PATIENCE / 2


@test
async def a_server_whose_files_others_take_serves_on():
    """Clients that have opened are kept: who comes then is turned away at once, until there is room."""
    async with Watched(64) as broker:
        inside, refused = [], 0
        for _ in range(80):
            try:
                inside.append(await asyncio.wait_for(Raw.opened(broker.port), PATIENCE))
            except (ConnectionError, asyncio.IncompleteReadError):
                refused += 1
        assert len(inside) == 48 and refused == 32, (len(inside), refused)
        inside.pop().gone()
        assert await holds_of(lambda: opens(broker.port))
        for it in inside:
            it.gone()
        assert await broker.closes_all()


async def opens(port):
    try:
        (await Raw.opened(port)).gone()
    except (ConnectionError, asyncio.IncompleteReadError):
        return False
    return True


async def holds_of(what):
    """Whether it holds soon."""
    for _ in range(100):
        if await what():
            return True
        await asyncio.sleep(0.02)
    return False


@test
async def a_flood_of_connections_holds_nobody_up():
    async with Watched() as broker:

        async def comes_and_goes():
            for _ in range(500):
                if (it := await joins(broker.port)) is not None:
                    it.gone()

        floods, worst = asyncio.gather(*(comes_and_goes() for _ in range(4))), 0.0
        while not floods.done():
            worst = max(worst, await ping(broker.port))
            await asyncio.sleep(0.01)
        assert worst < PATIENCE and await broker.worst() < TURN, worst
        assert await broker.closes_all()


async def served(limits, waits=Waits(closing=0.3), **how):
    """A server of this process, with limits, and what it is told."""
    told = []

    async def handle(connection):
        await connection.serve_links(lambda link: link.accept())

    how.update(limits=limits, waits=waits, told=told.append)
    server = await serve("127.0.0.1", 0, lambda: Open("server"), handle, **how)
    return server, server.sockets[0].getsockname()[1], told


@test
async def so_many_connections_and_no_more_are_served():
    server, port, told = await served(Limits(connections=3))
    inside = [await Raw.opened(port) for _ in range(3)]
    for _ in range(5):
        peer = await Raw.to(port)
        assert await peer.reader.read(8) == b""
    assert [type(it) for it in told] == [Crowded] * 5, told
    inside.pop().gone()
    assert await holds_of(lambda: opens(port))
    for it in inside:
        it.gone()
    server.close()


@test
async def the_oldest_that_has_not_begun_goes_for_one_more():
    server, port, told = await served(Limits(handshakes=4))
    slow = [await Raw.to(port, HEADER[:at]) for at in range(4)]
    await asyncio.sleep(0.1)
    good = await Raw.opened(port)
    assert await slow[0].reader.read(8) == b"" and [type(it) for it in told] == [Crowded], told
    # who has opened is no longer among them
    more = [await Raw.to(port, HEADER[:2]) for _ in range(8)]
    good.send(frame(Attach("l", 0, SENDER, target=target("q"), initial_delivery_count=0)))
    await asyncio.wait_for(good.until(0x12), PATIENCE)
    for it in (*slow, *more, good):
        it.gone()
    server.close()


@test
async def who_never_opens_goes_with_the_logins_time():
    server, port, told = await served(Limits(), Waits(login=0.5, closing=0.3))
    quiet, good = [await Raw.to(port) for _ in range(20)], await Raw.opened(port)
    await asyncio.wait_for(asyncio.gather(*(it.over() for it in quiet)), PATIENCE)
    assert [type(it) for it in told if not isinstance(it, ConnectionError)] == [], told
    assert sum(isinstance(it, PeerSilent) for it in told) == 20, told
    good.send(frame(Attach("l", 0, SENDER, target=target("q"), initial_delivery_count=0)))
    await asyncio.wait_for(good.until(0x12), PATIENCE)
    good.gone()
    server.close()
    assert await holds(lambda: len(told) == 20)
