"""What try_c.py tries of the links of a server's clients: how they are accepted, refused and detached, and what is sent
on them."""

import asyncio
import sys
from pathlib import Path

sys.path.insert(0, str(Path(__file__).resolve().parents[2] / "bindings" / "python"))

from amqp_engine import (
    ACCEPTED, RECEIVER, RELEASED, Attach, Begin, Close, Detach, Disposition, End, Error, Flow, IncomingLink, Limits,
    LinkClosed, LinkHandler, Message, Open, OutgoingLink, Transfer, source,
)  # fmt: skip
from amqp_engine.driver import STATE_ACCEPTED, STATE_MODIFIED, STATE_REJECTED, STATE_RELEASED
from amqp_engine.values import Described, Symbol, Ulong
from hostile.peers import HEADER, LARGE, Raw, frame
from try_c.try_c_serving import Served, flow, next_of, receives, run_of, sends, transfer

TESTS = []


def test(function):
    TESTS.append(run_of(function))
    return function


@test
async def messages_go_out_by_credit_and_outcomes_come_back():
    outcomes, errors = [], []

    async def handle(connection):
        async for link in connection.links():
            assert isinstance(link, OutgoingLink) and link.credit == 0
            too_early(lambda: link.try_send(b"x"), lambda: link.detach())
            link.accept()
            sent = [await link.send(b"m%d" % at) for at in range(4)]
            assert [(it.number, it.payload) for it in sent] == [(at, b"m%d" % at) for at in range(4)]
            outcomes.extend([await it.settled() for it in sent])
            errors.append(sent[1].state.value[0].value[0])
            last = await link.send(b"settled", settled=True)
            outcomes.append((last.is_settled, await last.settled()))

    async with Served(handle) as served:
        peer = served.peer
        # a receiver need not say its target
        peer.send(frame(Attach("l", 1, RECEIVER, source=source("a"))), flow(1, 2))
        tags = [(await next_of(peer, Transfer)).delivery_tag for _ in range(2)]
        peer.send(flow(1, 3, 2))
        tags += [(await next_of(peer, Transfer)).delivery_tag for _ in range(2)]
        assert len(set(tags)) == 4 and (await served_credit(peer, 1)) == 1
        rejected = Described(Ulong(0x25), [Error("a:b").described()])
        named = Described(Symbol("amqp:released:list"), [])
        for at, state in ((0, ACCEPTED), (1, rejected), (2, named), (3, Described(Ulong(0x27), [True]))):
            peer.send(frame(Disposition(RECEIVER, at, settled=True, state=state)))
        last = await next_of(peer, Transfer)
        assert last.settled is True and last.delivery_id == 4, last
        peer.send(frame(Close()))
        await peer.until(0x18)
    assert outcomes == [STATE_ACCEPTED, STATE_REJECTED, STATE_RELEASED, STATE_MODIFIED, (True, 0)], outcomes
    assert errors == ["a:b"], errors


def too_early(*calls):
    for call in calls:
        try:
            call()
        except RuntimeError:
            continue
        raise AssertionError(call)


async def served_credit(peer, handle):
    """The credit that the server has, as it says when it is asked."""
    peer.send(flow(handle, 1, 4, echo=True))
    return (await next_of(peer, Flow)).link_credit


@test
async def a_drain_uses_the_credit_up_once_what_waits_is_sent():
    class Two(LinkHandler):
        """Has two messages, and sends them as it is told of credit."""

        left = 2

        def credited(self, link):
            while self.left and link.try_send(b"x") is not None:
                self.left -= 1
            return self.left

    async def handle(connection):
        await connection.serve_links(lambda link: link.accept(handler=Two()))

    async with Served(handle) as served:
        peer = served.peer
        peer.send(receives(), flow(1, 1, drain=True))
        await next_of(peer, Transfer)
        # the one of credit is used up by a message
        peer.send(flow(1, 5, 1, drain=True))
        await next_of(peer, Transfer)
        drained = await next_of(peer, Flow)
        assert (drained.link_credit, drained.delivery_count, drained.drain) == (0, 6, True), drained
        assert await served.ends() is None


@test
async def links_are_refused_and_detached_on_either_side():
    left = []

    async def handle(connection):
        async for link in connection.links():
            if link.address != "a":
                link.refuse("amqp:not-found", "no such address")
            elif isinstance(link, OutgoingLink):
                link.accept()
                connection.create_task(sends_one(link))
            else:
                link.accept(credit=1)
                link.detach(Error("amqp:resource-deleted"))

    async def sends_one(link):
        delivery = await link.send(b"x")
        try:
            await delivery.settled()
        except LinkClosed as error:
            left.append((error.condition, error.description, link.is_over))
        try:
            await link.send(b"y")
        except LinkClosed:
            left.append(link.try_send(b"y"))
            raise

    async with Served(handle) as served:
        peer = served.peer
        peer.send(sends(0, "one", "elsewhere"))
        answer, detach = await next_of(peer, Attach), await next_of(peer, Detach)
        assert (answer.target, answer.role, detach.closed) == (None, RECEIVER, True), (answer, detach)
        assert detach.error == Error("amqp:not-found", "no such address"), detach
        peer.send(frame(Detach(0, True)), sends(0, "one"))
        detach = await next_of(peer, Detach)
        assert detach.error == Error("amqp:resource-deleted"), detach
        # both names are free again
        peer.send(frame(Detach(0, True)), sends(0, "one"), receives(1, "one"), flow(1, 1))
        await next_of(peer, Transfer)
        peer.send(frame(Detach(1, True, Error("a:b", "enough"))))
        while (await next_of(peer, Detach)).error is not None:
            pass
        assert left == [("a:b", "enough", True), None], left
        assert await served.ends() is None and served.told == []


@test
async def handlers_are_called_as_it_comes():
    told = []

    class Notes(LinkHandler):
        def delivered(self, link, delivery):
            told.append(("delivered", link.name, delivery.payload, link.credit))
            delivery.accept()
            link.renew()

        def credited(self, link):
            delivery = link.try_send(b"out")
            told.append(("credited", delivery is not None))
            return 0

        def settled(self, link, delivery):
            told.append(("settled", delivery.number, delivery.outcome))

        def ended(self, link, left):
            told.append(("ended", link.name, [it.number for it in left]))

    def wanted(link):
        link.accept(handler=Notes())
        if isinstance(link, IncomingLink):
            assert link.credit == 0
            link.renew()

    async with Served(lambda connection: connection.serve_links(wanted)) as served:
        peer = served.peer
        peer.send(sends(0, "in"))
        assert (await next_of(peer, Flow)).link_credit == 100
        peer.send(transfer(0, b"came"), receives(1, "out"), flow(1, 1))
        await next_of(peer, Transfer)
        peer.send(frame(Disposition(RECEIVER, 0, settled=True, state=RELEASED)), flow(1, 1, 1))
        await next_of(peer, Transfer)
        peer.send(frame(Detach(1, True)), frame(End()))
        await peer.until(0x17)
        assert await served.ends() is None
    assert told == [
        ("delivered", "in", b"came", 99), ("credited", True), ("settled", 0, STATE_RELEASED), ("credited", True),
        ("ended", "out", [1]), ("ended", "in", []),
    ], told  # fmt: skip


async def with_a_shut_window(served):
    """A client whose session takes no transfer, with a receiver that has credit, to which the server has sent one."""
    peer = await Raw.to(served.port, HEADER)
    peer.send(frame(Open("shut", max_frame_size=None)), frame(Begin(None, 0, 0, LARGE)))
    await peer.take(8)
    await peer.until(0x11)
    peer.send(receives(), frame(Flow(0, 0, 0, LARGE, handle=1, delivery_count=0, link_credit=5)))
    await next_of(peer, Attach)
    return peer


async def opened_then(peer, kind):
    """Opens the window: the transfer that was held back comes, and what may not overtake it behind it."""
    peer.send(frame(Flow(0, LARGE, 0, LARGE)))
    first = await peer.until(0x14, 0x13, 0x16)
    assert first[6] == 0x14, first
    return await next_of(peer, kind)


@test
async def the_answer_to_a_drain_waits_for_the_clients_window():
    sent = []

    async def handle(connection):
        async for link in connection.links():
            link.accept()
            sent.append(await link.send(Message("x", subject="y")))

    async with Served(handle) as served:
        peer = await with_a_shut_window(served)
        peer.send(frame(Flow(0, 0, 0, LARGE, handle=1, delivery_count=0, link_credit=5, drain=True)))
        drained = await opened_then(peer, Flow)
        message = Message.decode(sent[0].payload)
        assert (message.body, message.subject) == ("x", "y"), message
        assert (drained.drain, drained.link_credit, drained.delivery_count, sent[0].number) == (True, 0, 5, 0), drained
        peer.gone()


@test
async def a_detach_waits_for_the_clients_window():
    async def handle(connection):
        async for link in connection.links():
            link.accept()
            await link.send(b"x")
            link.detach(Error("amqp:resource-deleted"))

    async with Served(handle) as served:
        peer = await with_a_shut_window(served)
        detach = await opened_then(peer, Detach)
        assert (detach.error, detach.closed) == (Error("amqp:resource-deleted"), True), detach
        peer.gone()


@test
async def a_message_that_waits_for_the_window_holds_back_the_next():
    said = []

    async def handle(connection):
        async for link in connection.links():
            link.accept()
            await link.send(b"x")
            said.append(link.try_send(b"y"))
            said.append((await link.send(b"z")).number)

    async with Served(handle) as served:
        peer = await with_a_shut_window(served)
        first = await opened_then(peer, Transfer)
        assert (first.delivery_id, said) == (1, [None, 1]), (first, said)
        peer.gone()


@test
async def a_link_whose_deliveries_nobody_settles_sends_no_more():
    async def handle(connection):
        async for link in connection.links():
            link.accept()
            while True:
                await link.send(b"x")

    async with Served(handle, limits=Limits(deliveries=3)) as served:
        peer = served.peer
        peer.send(receives(), flow(1, 100))
        assert [(await next_of(peer, Transfer)).delivery_id for _ in range(3)] == [0, 1, 2]
        peer.send(flow(1, 100, 3, echo=True))
        # the next frame is no transfer
        assert (await peer.until(0x13, 0x14))[6] == 0x13
        peer.send(frame(Disposition(RECEIVER, 0, settled=True, state=ACCEPTED)))
        assert (await next_of(peer, Transfer)).delivery_id == 3


@test
async def a_handler_answers_a_drain_once_its_messages_are_sent():
    links = []

    class Later(LinkHandler):
        """Has a message, and sends it later."""

        def credited(self, link):
            links.append((link, link.credit))
            return 1

    async with Served(lambda connection: connection.serve_links(lambda link: link.accept(handler=Later()))) as served:
        peer = served.peer
        peer.send(receives(), flow(1, 5, drain=True), sends(2, "then"))
        # nothing is answered but the Attaches
        assert [(await peer.until(0x12, 0x13, 0x14))[6] for _ in range(2)] == [0x12, 0x12]
        (link, credit), *_ = links
        assert credit == 5 and link.try_send(b"x").number == 0
        link.answer()
        await next_of(peer, Transfer)
        drained = await next_of(peer, Flow)
        assert (drained.link_credit, drained.delivery_count, link.credit) == (0, 5, 0), drained


@test
async def bytes_that_nobody_settles_or_reads_hold_back_the_next():
    said = []

    async def handle(connection):
        async for link in connection.links():
            link.accept()
            await link.send(bytes(600))
            said.append((link.try_send(b"y"), connection.unsettled))
            await link.send(b"z")

    async with Served(handle, limits=Limits(unsettled=500)) as served:
        peer = served.peer
        peer.send(receives(), flow(1, 100))
        assert (await next_of(peer, Transfer)).delivery_id == 0
        peer.send(frame(Disposition(RECEIVER, 0, settled=True, state=ACCEPTED)))
        assert (await next_of(peer, Transfer)).delivery_id == 1 and said == [(None, 600)], said

    async def writes(connection):
        async for link in connection.links():
            link.accept()
            while True:
                await link.send(bytes(60000), settled=True)
                said.append(connection.unsent)

    async with Served(writes, limits=Limits(unread=200000)) as served:
        peer = served.peer
        peer.reader._transport.pause_reading()
        peer.send(receives(), flow(1, 10000))
        await asyncio.sleep(0.3)
        # as much as the sockets take, and not much more
        count, most = len(said), max(it for it in said[1:])
        await asyncio.sleep(0.3)
        assert most < 300000 and len(said) == count, (most, count, len(said))
        peer.reader._transport.resume_reading()
        for _ in range(count + 10):
            await next_of(peer, Transfer)
