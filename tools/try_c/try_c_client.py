"""What try_c.py tries of the client: senders, receivers and deliveries, with the broker of the examples as a process of
its own."""

import asyncio
import os
import sys
from pathlib import Path

sys.path.insert(0, str(Path(__file__).resolve().parents[2] / "bindings" / "python"))

from amqp_engine import (
    Accepted, AlreadyClosed, AmqpError, Client, Message, NotAccepted, Rejected, Settled, TimedOut, connect,
)  # fmt: skip
from hostile.peers import Broker

TESTS = []


def test(function):
    """A test over a connection of its own to a broker of its own."""

    def run():
        async def both():
            async with Broker() as broker, connect(f"amqp://127.0.0.1:{broker.port}/") as connection:
                await function(connection, broker)

        asyncio.run(asyncio.wait_for(both(), 60))

    run.__name__ = function.__name__
    TESTS.append(run)
    return function


async def raised(what, kind):
    """The error of this kind that is raised by what is awaited."""
    try:
        await what
    except kind as error:
        return error
    raise AssertionError(f"no {kind.__name__}")


async def put(connection, address, *bodies):
    async with connection.sender(address) as sender:
        return [await sender.send(Message(it)) for it in bodies]


@test
async def messages_go_there_and_come_back(connection, broker):
    assert connection.remote.container_id == "broker" and connection.is_open and isinstance(connection, Client)
    async with connection.sender("queue") as sender:
        assert (sender.address, sender.credit, sender.max_message_size) == ("queue", 200, 1 << 20)
        assert await sender.send(Message("hello", subject="s", properties={"k": 1})) == Accepted()
        assert await sender.send("a body", settled=True) == Settled()
        assert await sender.send(b"x" * 300000) == Accepted()
    async with connection.receiver("queue") as receiver:
        assert receiver.address == "queue"
        first = await receiver.receive(timeout=5)
        assert (first.message.body, first.message.subject, first.message.properties) == ("hello", "s", {"k": 1})
        assert (first.settled, first.number, len(first.tag)) == (False, 0, 8)
        await first.accept()
        assert first.settled
        await first.accept()
        rest = [await receiver.receive(timeout=5) for _ in range(2)]
        assert [it.message.body for it in rest] == ["a body", b"x" * 300000]
        for it in rest:
            await it.accept()
        assert str(await raised(receiver.receive(timeout=0.05), TimedOut)) == "no message came within 0.05 seconds"
        assert isinstance(await raised(receiver.receive(timeout=0), TimeoutError), TimedOut)


@test
async def many_tasks_send_on_one_sender_in_the_order_of_their_calls(connection, broker):
    async with connection.sender("queue") as sender, connection.receiver("queue", credit=7) as receiver:
        sent = asyncio.gather(*(sender.send(Message(at)) for at in range(1000)))
        came = []
        async for delivery in receiver:
            await delivery.accept()
            came.append(delivery.message.body)
            if len(came) == 1000:
                break
        assert came == list(range(1000)) and await sent == [Accepted()] * 1000


@test
async def what_is_released_or_modified_comes_again_and_what_is_rejected_does_not(connection, broker):
    await put(connection, "queue", 1, 2, 3)
    async with connection.receiver("queue", credit=0) as receiver:
        async def next_body(settle):
            receiver.grant(1)
            delivery = await receiver.receive(timeout=5)
            await settle(delivery)
            return delivery.message.body

        assert await next_body(lambda it: it.release()) == 1
        assert await next_body(lambda it: it.modify(undeliverable=True, annotations={"x-opt-a": 1})) == 1
        assert await next_body(lambda it: it.reject("amqp:decode-error", "no")) == 1
        assert await next_body(lambda it: it.accept()) == 2
        assert await next_body(lambda it: it.reject()) == 3
        await raised(receiver.receive(timeout=0.1), TimedOut)


@test
async def a_message_that_is_not_accepted_raises_or_is_answered(connection, broker):
    async with connection.sender("queue") as sender:
        body = bytes(1 << 19)
        # the broker keeps 16 MB in a queue
        outcomes = [await sender.send(body, raises=False) for _ in range(15)]
        more = (sender.send(body, raises=False, timeout=5) for _ in range(20))
        outcomes += await asyncio.gather(*more, return_exceptions=True)
        rejected = [it for it in outcomes if isinstance(it, Rejected)]
        assert rejected and rejected[0].why.condition == "amqp:resource-limit-exceeded", outcomes
        assert not rejected[0].is_taken
        many = await asyncio.gather(*(sender.send(body, timeout=1) for _ in range(3)), return_exceptions=True)
        kinds = {type(it) for it in many}
        assert kinds <= {NotAccepted, TimedOut}, many
        for it in many:
            if isinstance(it, NotAccepted):
                wanted = ("amqp:resource-limit-exceeded", "the queue is full", "rejected")
                assert (it.condition, it.description, it.outcome.name) == wanted, it


@test
async def a_message_that_is_too_large_is_not_sent(connection, broker):
    async with connection.sender("queue") as sender:
        error = await raised(sender.send(bytes(1 << 20)), AmqpError)
        assert (error.condition, error.is_unsettled) == ("amqp:link:message-size-exceeded", False)
        assert await sender.send("small") == Accepted()


@test
async def a_send_that_is_cancelled_before_it_goes_out_sends_nothing(connection, broker):
    async with connection.sender("queue") as sender, connection.receiver("queue", credit=0) as receiver:
        # as many as the credit go out, and the others wait
        credit = sender.credit
        sends = [asyncio.ensure_future(sender.send(Message(at))) for at in range(credit + 5)]
        await asyncio.sleep(0)
        for it in sends[credit + 1 : credit + 3]:
            it.cancel()
        done = await asyncio.gather(*sends, return_exceptions=True)
        names = [type(it).__name__ for it in done[credit:]]
        assert names == ["Accepted", "CancelledError", "CancelledError", "Accepted", "Accepted"], names
        receiver.grant(1000)
        came = [(await receiver.receive(timeout=5)).message.body for _ in range(credit + 3)]
        assert came == [at for at in range(credit + 5) if at not in (credit + 1, credit + 2)]


@test
async def a_receive_that_is_cancelled_takes_nothing(connection, broker):
    async with connection.receiver("queue", credit=10) as receiver, connection.sender("queue") as sender:
        for at in range(200):
            waits = [asyncio.ensure_future(receiver.receive()) for _ in range(3)]
            await asyncio.sleep(0)
            await sender.send(Message(at))
            # it is cancelled in the moment in which the message is there for it, or before, or after
            for _ in range(at % 4):
                await asyncio.sleep(0)
            for it in waits[:2]:
                it.cancel()
            done = await asyncio.gather(*waits[:2], return_exceptions=True)
            came = [it for it in done if not isinstance(it, asyncio.CancelledError)]
            delivery = came[0] if came else await waits[2]
            assert delivery.message.body == at and len(came) <= 1
            waits[2].cancel()
            await delivery.accept()


@test
async def credit_bounds_what_waits(connection, broker):
    await put(connection, "queue", *range(50))
    async with connection.receiver("queue", credit=8) as receiver:
        await asyncio.sleep(0.2)
        assert receiver.waiting == 8
        for at in range(50):
            delivery = await receiver.receive(timeout=5)
            assert delivery.message.body == at and receiver.waiting <= 8
            await delivery.accept()
            await asyncio.sleep(0.001)


@test
async def a_drain_gives_what_is_there_and_takes_the_credit_back(connection, broker):
    await put(connection, "queue", 1, 2, 3)
    async with connection.receiver("queue", credit=0) as receiver:
        await raised(receiver.receive(timeout=0.05), TimedOut)
        receiver.grant(2)
        assert [(await receiver.receive(timeout=5)).message.body for _ in range(2)] == [1, 2]
        receiver.grant(10)
        assert await receiver.drain(timeout=5) == 1
        assert await receiver.drain(timeout=5) == 1
        assert (await receiver.receive()).message.body == 3
        await put(connection, "queue", 4)
        await raised(receiver.receive(timeout=0.1), TimedOut)
        receiver.grant(1)
        assert (await receiver.receive(timeout=5)).message.body == 4


@test
async def presettled_messages_come_settled(connection, broker):
    await put(connection, "queue", 1, 2)
    async with connection.receiver("queue", settled=True) as receiver:
        came = [await receiver.receive(timeout=5) for _ in range(2)]
        assert [(it.message.body, it.settled) for it in came] == [(1, True), (2, True)]
        await came[0].accept()
    async with connection.receiver("queue") as receiver:
        await raised(receiver.receive(timeout=0.1), TimedOut)


@test
async def a_sender_can_send_all_settled(connection, broker):
    async with connection.sender("queue", settled=True) as sender:
        assert [await sender.send(at) for at in range(3)] == [Settled()] * 3
    async with connection.receiver("queue") as receiver:
        assert [(await receiver.receive(timeout=5)).message.body for _ in range(3)] == [0, 1, 2]


@test
async def many_clients_and_many_links_go_at_once(connection, broker):
    async def one(at):
        async with connect(f"amqp://127.0.0.1:{broker.port}/") as own, own.receiver(f"q{at}", credit=3) as receiver:
            async with connection.sender(f"q{at}") as sender:
                sent = [asyncio.ensure_future(sender.send((at, it))) for it in range(50)]
                for it in range(50):
                    delivery = await receiver.receive(timeout=20)
                    assert delivery.message.body == [at, it]
                    await delivery.accept()
                assert await asyncio.gather(*sent) == [Accepted()] * 50

    await asyncio.gather(*(one(at) for at in range(20)))


@test
async def a_name_serves_one_link_of_a_session(connection, broker):
    receiver = await connection.receiver("queue", name="mine", own_session=True)
    async with connection.sender("queue", name="mine") as sender:
        error = await raised(connection.sender("queue", name="mine").open(), AmqpError)
        assert str(error) == "the link cannot be attached (DuplicatedLinkName)", error
        assert await sender.send("x") == Accepted()
        assert (await receiver.receive(timeout=5)).message.body == "x"
    await receiver.close()
    # the broker takes 32 sessions
    links = [connection.sender("queue", own_session=True) for _ in range(40)]
    opened = await asyncio.gather(*(it.open(timeout=5) for it in links), return_exceptions=True)
    refused = [it for it in opened if isinstance(it, AmqpError)]
    assert refused and str(refused[0]).startswith("no session can begin"), opened
    assert await (await connection.sender("other").open()).send("y") == Accepted()


@test
async def what_was_not_settled_when_a_receiver_closes_comes_to_another(connection, broker):
    await put(connection, "queue", 1, 2)
    async with connection.receiver("queue") as receiver:
        first, second = [await receiver.receive(timeout=5) for _ in range(2)]
        await first.accept()
    await raised(second.accept(), AlreadyClosed)
    async with connection.receiver("queue") as receiver:
        assert (await receiver.receive(timeout=5)).message.body == 2


@test
async def an_iterator_ends_where_this_side_closes_and_what_waits_is_told(connection, broker):
    receiver, sender = await connection.receiver("queue"), await connection.sender("queue")

    async def takes():
        return [it async for it in receiver]

    taking, waiting = asyncio.ensure_future(takes()), asyncio.ensure_future(receiver.receive())
    await asyncio.sleep(0)
    await receiver.close()
    assert await taking == [] and isinstance(await raised(waiting, AlreadyClosed), AmqpError)
    await connection.close()
    await raised(sender.send("x"), AlreadyClosed)
    await raised(connection.sender("y").open(), AlreadyClosed)
    await connection.close()


@test
async def a_link_that_is_refused_says_why(connection, broker):
    error = await raised(connection.sender(None).open(timeout=5), AmqpError)
    assert (type(error).__name__, error.condition, error.description) == ("LinkClosed", "amqp:not-found", "no address")
    error = await raised(connection.receiver(None).open(timeout=5), AmqpError)
    assert error.condition == "amqp:not-found"
    assert await put(connection, "queue", 1) == [Accepted()]


@test
async def links_have_sessions_of_their_own_where_that_is_wanted(connection, broker):
    async with connection.sender("a", own_session=True) as one, connection.sender("a", own_session=True) as two:
        assert await one.send(1) == await two.send(2) == Accepted()
    for _ in range(100):
        async with connection.receiver("a", own_session=True, settled=True) as receiver:
            delivery = await receiver.receive(0.01) if receiver.waiting else None
            assert delivery is None or delivery.message.body in (1, 2)


@test
async def memory_is_flat_over_ten_thousand_messages(connection, broker):
    async with connection.sender("queue") as sender, connection.receiver("queue", credit=100) as receiver:
        async def round(count):
            sent = [asyncio.ensure_future(sender.send(Message(b"x" * 64))) for _ in range(count)]
            for _ in range(count):
                await (await receiver.receive(timeout=10)).accept()
            assert set(await asyncio.gather(*sent)) == {Accepted()}

        for _ in range(20):
            await round(100)
        before = resident()
        for _ in range(100):
            await round(100)
        line = connection._line
        assert len(line.sent) == 0
        assert resident() - before < 1.0, (before, resident())


def resident():
    """This process's memory in megabytes."""
    return int(Path("/proc/self/statm").read_text().split()[1]) * os.sysconf("SC_PAGE_SIZE") / 1e6
