"""The broker of the examples, as a process: what a client does ends in a Close or a Detach that says why, holds up no other, and fills no memory."""

import asyncio
import contextlib

from amqp_engine import (
    ACCEPTED, RECEIVER, RELEASED, SECOND, SENDER, SETTLED, Attach, Begin, Close, Described, Detach, Disposition, Flow, Open, Symbol, Transfer, Ulong, data,
    source, target,
)  # fmt: skip
from amqp_engine.values import write
from hostile.peers import EMPTY, HEADER, LARGE, PATIENCE, Broker, Raw, array, compound, frame, holds, ping, with_bytes

AT_ONCE, TESTS = 3, []
#: How many megabytes a broker may grow by, whatever a client does: 64 for messages, and as much for all else
MEGABYTES = 160
#: How many deliveries the broker leaves open: its events have room for twice as many
OPEN_MOST = 1024


def test(function):
    TESTS.append(function)
    return function


def sends(handle=0, address="q", name="s", **how):
    return frame(Attach(name, handle, SENDER, target=target(address), initial_delivery_count=0, **how))


def receives(handle=1, address="q", credit=10, name="r", **how):
    """A receiver with credit."""
    attach = frame(Attach(name, handle, RECEIVER, source=source(address), **how))
    return attach + frame(Flow(0, LARGE, 0, LARGE, handle=handle, delivery_count=0, link_credit=credit))


def transfer(number, payload, handle=0, **how):
    return frame(Transfer(handle, number, number.to_bytes(4, "big"), 0, **how), 0, payload)


async def credited(peer):
    """A flow that gives credit."""
    while True:
        if Flow.decode((await peer.until(0x13))[4:]).link_credit:
            return


def keyed(value):
    return compound(0xD1, [b"\xa3\x01k", value])


ATTACH = Attach("l", 0, SENDER, target=target("q"), initial_delivery_count=0)
DECODE = "amqp:decode-error"
ARRAYS = [
    (b"\x56", b"\x01"), (b"\xa0", b"\x01a"), (b"\x72", bytes(4)), (b"\x98", bytes(16)), (b"\x00\x43\xa3", b"\x01a"), (b"\x45",),
    (b"\x40", b"", 2**32 - 1),
]  # fmt: skip
#: What a client with a session sends, and the condition of what ends it; None where nothing is wrong with it
FRAMES = [
    *[(frame(with_bytes(ATTACH, properties=keyed(array(*it)))), None) for it in ARRAYS],
    (frame(with_bytes(ATTACH, properties=keyed(compound(0xD0, [array(b"\x40", count=65536)] * 100)))), None),
    (frame(with_bytes(ATTACH, properties=compound(0xD1, [write([1]), b"\x43"]))), None),
    (frame(with_bytes(ATTACH, source=b"\x73\x00\x11\x00\x00")), DECODE),
    (frame(with_bytes(ATTACH, rcv_settle_mode=b"\x50\x07")), DECODE),
    (frame(Attach("l", 256, RECEIVER, source=source("q"))), "amqp:connection:framing-error"),
    (frame(Attach("l", 0, SENDER, initial_delivery_count=0)), "amqp:not-found"),
    (frame(Attach("l", 0, SENDER, target=Described(Ulong(0x30), [Symbol("amqp:local-transactions")]), initial_delivery_count=0)), None),
    (frame(with_bytes(Begin(None, 0, 9, 9), properties=keyed(array(b"\x56", b"\x01"))), 3), None),
    (frame(Begin(None, 0, 9, 9)), "amqp:not-allowed"),
    (b"".join(frame(Begin(None, 0, 9, 9), at) for at in range(1, 40)), "amqp:connection:framing-error"),
    (frame(Transfer(7, 0, b"t", 0)), "amqp:session:unattached-handle"),
    (bytes(4), "amqp:connection:framing-error"),
    (b"\xff\xff\xff\xff", "amqp:connection:framing-error"),
    (frame(b"\x00\x53\x99\x45"), DECODE),
    (sends() + sends(5), "amqp:not-allowed"),
    (sends(address="q" * 2000), "amqp:not-allowed"),
]
#: What a client sends that has a sender and a receiver, and one message from each side
LINKED = [
    (frame(with_bytes(Disposition(RECEIVER, 0, settled=True), state=compound(0xD0, [b"\x43"]))), DECODE),
    (frame(with_bytes(Disposition(RECEIVER, 0, settled=True), state=b"\x43")), DECODE),
    (frame(with_bytes(Disposition(RECEIVER, 0), state=b"\x00\x53\x24" + compound(0xD0, [b"\x73\x00\x11\x00\x00"]))), DECODE),
    (frame(Disposition(SENDER, 0, 99, settled=True)), None),
    (frame(Transfer(0, None, None, 0), 0, b"x"), "amqp:invalid-field"),
    (frame(Transfer(0, 1, bytes(33), 0), 0, b"x"), "amqp:invalid-field"),
    (b"".join(frame(Transfer(0, None if at else 1, b"t", 0, more=True), 0, bytes(60000)) for at in range(20)), "amqp:link:message-size-exceeded"),
    (frame(Transfer(0, 1, b"t", 0, more=True)) * 20 + frame(Transfer(0, 1, b"t", aborted=True)), None),
]


async def condition_after(peer, said):
    """By which condition it ends; where the broker has nothing to say, it answers a Close."""
    peer.send(said, frame(Close()))
    return await asyncio.wait_for(peer.ended(), PATIENCE)


@test
async def single_frames_end_as_they_should():
    async with Broker() as broker:
        for said, condition in FRAMES:
            await ends(broker, await Raw.opened(broker.port), said, condition)
        assert await broker.closes_all()


async def ends(broker, peer, said, condition):
    """The peer's connection ends by this condition, and others do not wait."""
    assert (came := await condition_after(peer, said)) == condition, (said[:80], came, condition)
    peer.gone()
    assert await ping(broker.port) < PATIENCE, said[:80]


@test
async def frames_of_links_end_as_they_should():
    async with Broker() as broker:
        for at, (said, condition) in enumerate(LINKED):
            peer = await Raw.opened(broker.port)
            peer.send(sends(address=f"q{at}"), receives(address=f"q{at}", credit=1))
            await credited(peer)
            peer.send(transfer(0, data(b"x"), settled=True))
            await peer.until(0x14)
            await ends(broker, peer, said, condition)
        assert await broker.closes_all()


@test
async def what_does_not_fit_the_clients_frames_ends_by_a_condition():
    async with Broker() as broker:
        peer = await Raw.opened(broker.port, max_frame_size=512)
        peer.send(frame(with_bytes(ATTACH, source=write(source("s" * 5000)))))
        assert await asyncio.wait_for(peer.ended(), PATIENCE) == "amqp:frame-size-too-small"
        peer.gone()
        assert await broker.closes_all()


@test
async def a_client_that_does_not_read_holds_nobody_up():
    async with Broker() as broker:
        slow = await Raw.opened(broker.port)
        slow.send(receives(address="slow", credit=LARGE, snd_settle_mode=SETTLED))
        await slow.until(0x12)
        slow.reader._transport.pause_reading()
        for address in ("slow", "other"):
            good, message = await Raw.opened(broker.port), data(bytes(60000))
            good.send(sends(address=address))
            await credited(good)
            for at in range(100):
                good.send(transfer(at, message))
                await good.drain()
                assert Disposition.decode((await asyncio.wait_for(good.until(0x15), PATIENCE))[4:]).state == ACCEPTED
            good.gone()
        other = await Raw.opened(broker.port)
        other.send(receives(address="slow", credit=1))
        await asyncio.wait_for(other.until(0x14), PATIENCE)
        assert broker.grown() < MEGABYTES, broker.grown()
        other.gone()
        slow.gone()
        assert await broker.closes_all()


async def fills(peer, count, said):
    """Sends until the broker ends it, or so many times; reads what comes."""
    reads = asyncio.ensure_future(peer.ended())
    with contextlib.suppress(ConnectionError):
        for at in range(count):
            peer.send(said(at))
            await peer.drain()
            if reads.done():
                break
    return await asyncio.wait_for(reads, 2 * PATIENCE)


@test
async def a_sender_past_its_credit_is_detached():
    async with Broker() as broker:
        for settled in (True, False):
            peer, message = await Raw.opened(broker.port), data(bytes(60000))
            peer.send(sends())
            assert await fills(peer, 1000, lambda at: transfer(at, message, settled=settled)) == "amqp:link:transfer-limit-exceeded"
            # what it sends on is passed over
            for at in range(100):
                peer.send(transfer(at, message))
                await peer.drain()
            peer.gone()
        assert broker.grown() < MEGABYTES, broker.grown()
        assert await ping(broker.port) < PATIENCE and await broker.closes_all()


class Sender:
    """A client that keeps to its credit."""

    def __init__(self, peer):
        self.peer, self.sent, self.credit = peer, 0, 0

    async def frame(self):
        """The code of the next frame, and what it says; credit is noted."""
        of = await asyncio.wait_for(self.peer.until(0x13, 0x15), PATIENCE)
        said = (Flow if of[6] == 0x13 else Disposition).decode(of[4:])
        if isinstance(said, Flow) and said.link_credit is not None:
            self.credit = (said.delivery_count or 0) + said.link_credit - self.sent
        return said

    async def send(self, message):
        """Sends a message, and answers what became of it."""
        while self.credit == 0:
            await self.frame()
        self.peer.send(transfer(self.sent, message))
        self.sent, self.credit = self.sent + 1, self.credit - 1
        while True:
            said = await self.frame()
            if isinstance(said, Disposition):
                return said.state


@test
async def a_queue_that_is_full_takes_no_more():
    async with Broker() as broker:
        sender, states = Sender(await Raw.opened(broker.port)), []
        sender.peer.send(sends())
        while not states or sender.credit:
            states.append(await sender.send(data(bytes(60000))))
        assert len(states) < 600 and states[0] == ACCEPTED != states[-1] and broker.grown() < MEGABYTES, (len(states), broker.grown())
        # a receiver makes room, and the sender has credit again
        other = await Raw.opened(broker.port)
        other.send(receives(credit=LARGE, snd_settle_mode=SETTLED))
        reads = asyncio.ensure_future(other.over())
        assert await sender.send(data(b"x")) == ACCEPTED
        other.gone()
        sender.peer.gone()
        await reads
        assert await broker.closes_all()


@test
async def messages_that_are_never_whole_are_bounded():
    async with Broker() as broker:
        peer = await Raw.opened(broker.port)
        peer.send(*[sends(at, f"q{at}", f"s{at}") for at in range(200)])
        said = [frame(Transfer(at % 200, at % 200 if at < 200 else None, b"t", 0, more=True), 0, bytes(60000)) for at in range(3000)]
        assert await fills(peer, 3000, said.__getitem__) in ("amqp:resource-limit-exceeded", "amqp:link:message-size-exceeded")
        assert broker.grown() < MEGABYTES and await ping(broker.port) < PATIENCE
        peer.gone()
        assert await broker.closes_all()


@test
async def a_window_that_stays_shut_is_filled_with_little():
    async with Broker() as broker:
        shut, good = await Raw.to(broker.port), await Raw.opened(broker.port)
        shut.send(frame(Open("shut", max_frame_size=None)), frame(Begin(None, 0, 1, LARGE)))
        shut.send(frame(Attach("r", 1, RECEIVER, snd_settle_mode=SETTLED, source=source("q"))), frame(Flow(0, 1, 0, LARGE, handle=1, delivery_count=0, link_credit=LARGE)))
        await shut.take(8)
        await shut.until(0x12)
        good.send(sends())
        await credited(good)
        for at in range(100):
            good.send(transfer(at, data(bytes(60000))))
            await good.until(0x15)
        got, other = 0, await Raw.opened(broker.port)
        other.send(receives(credit=100, snd_settle_mode=SETTLED))
        while got < 97:
            await asyncio.wait_for(other.until(0x14), PATIENCE)
            got += 1
        for it in (shut, good, other):
            it.gone()
        assert await broker.closes_all()


@test
async def messages_that_one_disposition_accepts_do_not_come_again():
    async with Broker() as broker:
        peer, count = await Raw.opened(broker.port), 2500
        peer.send(sends(), receives(credit=LARGE))
        sender = asyncio.ensure_future(sends_all(broker, count))
        got, first = 0, 0
        while got < count:
            # as many as come, and then one disposition of all of them
            wait = PATIENCE
            with contextlib.suppress(asyncio.TimeoutError):
                while got < count:
                    of = await asyncio.wait_for(peer.until(0x14, 0x18), wait)
                    assert of[6] == 0x14, Close.decode(of[4:])
                    got, wait = got + 1, 1
            assert first < got <= first + OPEN_MOST, (got, first)
            peer.send(frame(Disposition(RECEIVER, first, got - 1, settled=True, state=ACCEPTED)))
            first = got
        await sender
        peer.send(frame(Close()))
        assert await peer.ended() is None
        other = await Raw.opened(broker.port)
        other.send(receives(credit=10), frame(Flow(0, LARGE, 0, LARGE, handle=1, delivery_count=0, link_credit=10, drain=True)))
        assert Flow.decode((await other.until(0x14, 0x13))[4:]).drain
        other.gone()
        peer.gone()


async def sends_all(broker, count):
    peer, sent, credit = await Raw.opened(broker.port), 0, 0
    peer.send(sends())
    while sent < count:
        while not credit:
            flow = Flow.decode((await peer.until(0x13))[4:])
            credit = ((flow.delivery_count or 0) + (flow.link_credit or 0) - sent) if flow.handle is not None else 0
        some = min(credit, count - sent)
        peer.send(*[transfer(sent + at, data(b"x"), settled=True) for at in range(some)])
        sent, credit = sent + some, credit - some
    await peer.drain()
    peer.send(frame(Close()))
    await peer.ended()
    peer.gone()


@test
async def links_and_queues_by_the_thousand_hold_nobody_up():
    async with Broker() as broker:
        peer = await Raw.opened(broker.port)
        peer.send(*[frame(Begin(None, 0, LARGE, LARGE), at) for at in range(1, 6)])
        reads = asyncio.ensure_future(peer.over())
        for channel in range(4):
            peer.send(*[frame(Attach(f"l{at}", at, RECEIVER, source=source(f"{channel}-{at}")), channel) for at in range(256)])
            await peer.drain()
            assert await ping(broker.port) < PATIENCE
        assert broker.grown() < MEGABYTES, broker.grown()
        peer.gone()
        await reads
        assert await ping(broker.port) < PATIENCE and await broker.closes_all()


@test
async def links_that_come_and_go_leave_nothing():
    async with Broker() as broker:
        for turn in range(3):
            peer = await Raw.opened(broker.port)
            for at in range(200):
                peer.send(sends(0, f"q{turn}-{at}", f"n{at}"), frame(Detach(0, True)))
            for _ in range(200):
                await peer.until(0x16)
            peer.gone()
            if turn == 0:
                before = broker.megabytes()
        assert broker.megabytes() < before + 10, (before, broker.megabytes())
        assert await broker.closes_all()


@test
async def deliveries_that_nobody_settles_are_bounded():
    async with Broker() as broker:
        peer = await Raw.opened(broker.port)
        peer.send(sends(rcv_settle_mode=SECOND))
        await credited(peer)
        reads, count = asyncio.ensure_future(peer.ended()), 0
        while count < 20000 and not reads.done():
            peer.send(*[transfer(count + at, data(b"x")) for at in range(100)])
            count += 100
            # no faster than the broker, which gives credit as it takes
            await holds(reads.done, 0.05)
        assert await asyncio.wait_for(reads, PATIENCE) == "amqp:resource-limit-exceeded", count
        peer.gone()
        assert await broker.closes_all()


@test
async def who_goes_on_after_its_close_is_left():
    async with Broker() as broker:
        peer = await Raw.opened(broker.port)
        peer.send(bytes(4))
        assert await peer.ended() == "amqp:connection:framing-error"
        assert await ping(broker.port) < PATIENCE
        peer.gone()
        half = [await Raw.to(broker.port, HEADER[:3]) for _ in range(100)]
        assert await ping(broker.port) < PATIENCE
        for it in half:
            it.gone()
        assert await broker.closes_all()


@test
async def released_messages_come_again_in_their_order():
    async with Broker() as broker:
        peer = await Raw.opened(broker.port)
        peer.send(sends(), receives(credit=3))
        await credited(peer)
        peer.send(*[transfer(at, data(b"%d" % at), settled=True) for at in range(3)], EMPTY)
        for _ in range(3):
            await peer.until(0x14)
        named = Described(Symbol("amqp:released:list"), [])
        peer.send(*[frame(Disposition(RECEIVER, at, settled=True, state=it)) for at, it in enumerate((RELEASED, named))])
        peer.send(frame(Disposition(RECEIVER, 2, settled=True, state=ACCEPTED)), frame(Detach(1, True)), receives(2, name="again", credit=3))
        came = [(await asyncio.wait_for(peer.until(0x14), PATIENCE))[-1:] for _ in range(2)]
        assert sorted(came) == [b"0", b"1"], came
        peer.gone()
