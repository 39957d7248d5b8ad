"""What try_c.py tries of the client: peers that close, refuse, or break the rules."""

import asyncio
import sys
from pathlib import Path

sys.path.insert(0, str(Path(__file__).resolve().parents[2] / "bindings" / "python"))

from amqp_engine import (
    ACCEPTED, RECEIVER, SENDER, Accepted, AlreadyClosed, Attach, Begin, Close, ConnectionClosed, ConnectionLost, Detach,
    End, Error, LinkClosed, Message, SessionClosed, TimedOut, Transfer, Waits, source, target,
)  # fmt: skip
from hostile.peers import LARGE, frame
from try_c.try_c_client_peers import against, attach, raised, settles, tests

TESTS, test = tests()


@test
async def a_peer_that_closes_says_why():
    async def script(peer):
        await attach(peer, credit=5)
        await peer.until(0x14)
        peer.send(frame(Close(Error("amqp:not-allowed", "enough"))))

    async with against(script) as connection:
        sender = await connection.sender("q")
        receiver = connection.receiver("q")
        waits = asyncio.ensure_future(receiver.open())
        error = await raised(sender.send("x"), ConnectionClosed)
        assert (error.condition, error.description, error.is_unsettled) == ("amqp:not-allowed", "enough", True)
        assert not isinstance(error, ConnectionError)
        await raised(waits, ConnectionClosed)
        error = await raised(sender.send("x"), ConnectionClosed)
        assert not error.is_unsettled and not connection.is_open
        await raised(connection.sender("r").open(), ConnectionClosed)


@test
async def a_stream_that_ends_is_lost_and_not_closed():
    async def script(peer):
        await attach(peer, credit=5)
        await peer.until(0x14)
        peer.gone()

    async with against(script) as connection:
        sender = await connection.sender("q")
        sent = asyncio.ensure_future(sender.send("x"))
        error = await raised(sent, ConnectionLost)
        assert isinstance(error, ConnectionError) and error.condition is None and error.is_unsettled


@test
async def a_session_that_ends_ends_its_links_and_others_can_be_opened():
    async def script(peer):
        await attach(peer, credit=5)
        await peer.until(0x14)
        peer.send(frame(End(Error("amqp:resource-locked", "mine"))))
        await peer.until(0x17)
        await peer.until(0x11)
        peer.send(frame(Begin(0, 0, LARGE, LARGE)))
        await attach(peer, credit=5)
        await peer.until(0x14)
        peer.send(settles(0, ACCEPTED))

    async with against(script) as connection:
        sender = await connection.sender("q")
        error = await raised(sender.send("x"), SessionClosed)
        assert (error.condition, error.description, error.is_unsettled) == ("amqp:resource-locked", "mine", True)
        async with connection.sender("q") as sender:
            assert await sender.send("y") == Accepted()


@test
async def a_link_that_the_peer_detaches_is_over_and_no_other():
    async def script(peer):
        await attach(peer, 0, credit=5)
        await attach(peer, 1)
        await peer.until(0x14)
        peer.send(frame(Detach(1, True, Error("amqp:resource-deleted"))))
        peer.send(frame(Detach(0, True, Error("amqp:link:stolen", "by me"))))
        answers.extend([Detach.decode((await peer.until(0x16))[4:]) for _ in range(2)])
        await attach(peer, 2, credit=1)
        await peer.until(0x14)
        peer.send(settles(1, ACCEPTED))

    answers = []
    async with against(script) as connection:
        sender, receiver = await connection.sender("q"), await connection.receiver("q")
        waits = asyncio.ensure_future(receiver.receive())
        error = await raised(sender.send("x"), LinkClosed)
        assert (error.condition, error.description, error.is_unsettled) == ("amqp:link:stolen", "by me", True)
        assert (await raised(waits, LinkClosed)).condition == "amqp:resource-deleted"
        async with connection.sender("q") as other:
            assert await other.send("y") == Accepted()
        await sender.close()
        await receiver.close()
    assert [it.closed for it in answers] == [True, True]


@test
async def a_peer_that_passes_its_credit_is_detached():
    async def script(peer):
        await attach(peer)
        await peer.until(0x13)
        for number in range(3):
            peer.send(frame(Transfer(0, number, bytes([number]), 0, settled=True), payload=Message(number).encode()))
        answers.append(await peer.ended())

    answers = []
    async with against(script) as connection:
        receiver = await connection.receiver("q", credit=2)
        assert (await receiver.receive(timeout=5)).message.body == 0
        assert (await receiver.receive(timeout=5)).message.body == 1
        await raised(receiver.receive(timeout=5), LinkClosed)
        await asyncio.sleep(0.05)
    assert answers == ["amqp:link:transfer-limit-exceeded"]


@test
async def frames_that_are_none_end_the_connection_with_a_condition():
    for of, wanted in [
        (b"\x00\x00\x00\x07", "amqp:connection:framing-error"), (frame(b"\x00\x53\x99\x45"), "amqp:decode-error"),
        (frame(Begin(None, 0, LARGE, LARGE), 5), "amqp:not-allowed"),
    ]:  # fmt: skip
        async def script(peer):
            peer.send(of)
            answers.append(await peer.ended())

        answers = []
        async with against(script) as connection:
            error = await raised(connection.sender("q").open(timeout=5), Exception)
            await asyncio.sleep(0.05)
        assert answers == [wanted] and not isinstance(error, TimedOut), (of, answers, error)


@test
async def a_message_that_is_too_large_detaches_the_peer():
    async def script(peer):
        theirs = await attach(peer)
        sizes.append(theirs.max_message_size)
        await peer.until(0x13)
        peer.send(frame(Transfer(0, 0, b"a", 0, more=True), payload=bytes(300)))
        peer.send(frame(Transfer(0, more=True), payload=bytes(300)))
        answers.append(await peer.ended())

    sizes, answers = [], []
    async with against(script) as connection:
        receiver = await connection.receiver("q", max_message_size=500)
        await raised(receiver.receive(timeout=5), LinkClosed)
        await asyncio.sleep(0.05)
    assert (sizes, answers) == ([500], ["amqp:link:message-size-exceeded"])

    async def defaults(peer):
        sizes.append((await attach(peer)).max_message_size)

    async with against(defaults) as connection:
        await connection.receiver("q")
    assert sizes == [500, 64 << 20]


@test
async def a_peer_that_begins_many_links_is_closed():
    async def script(peer):
        for handle in range(200):
            peer.send(frame(Attach(f"theirs {handle}", handle, SENDER, source=source("a"), initial_delivery_count=0)))
        of = await peer.until(0x18)
        answers.append(Close.decode(of[4:]).error.condition)

    answers = []
    async with against(script) as connection:
        await raised(connection.sender("q").open(timeout=5), ConnectionLost)
        await asyncio.sleep(0.05)
    assert answers == ["amqp:resource-limit-exceeded"]


@test
async def a_block_that_fails_waits_for_no_answer():
    async def script(peer):
        await attach(peer, credit=5)
        await peer.until(0x14)

    start = asyncio.get_running_loop().time()
    try:
        how = {"waits": Waits(answer=30.0, closing=0.2)}
        async with against(script, how) as connection, connection.sender("q") as sender:
            waits = asyncio.ensure_future(sender.send("x"))
            await asyncio.sleep(0.05)
            raise KeyError("enough")
    except KeyError:
        pass
    assert asyncio.get_running_loop().time() - start < 10
    assert isinstance(waits.exception(), AlreadyClosed) and waits.exception().is_unsettled


@test
async def a_call_ends_whose_message_is_not_settled_before_the_link_is_closed():
    async def script(peer):
        await attach(peer, credit=5)
        await peer.until(0x14)
        await peer.until(0x16)
        peer.send(frame(Detach(0, True)))

    async with against(script, {"waits": Waits(answer=0.2, closing=0.2)}) as connection:
        sender = await connection.sender("q")
        waits = asyncio.ensure_future(sender.send("x"))
        await asyncio.sleep(0.05)
        await sender.close()
        error = await raised(asyncio.wait_for(waits, 5), AlreadyClosed)
        assert error.is_unsettled and len(connection._line.sent) == 0


@test
async def a_link_that_the_peer_begins_is_refused():
    async def script(peer):
        peer.send(frame(Attach("theirs", 3, SENDER, source=source("a"), target=target("b"), initial_delivery_count=0)))
        theirs = Attach.decode((await peer.until(0x12))[4:])
        detach = Detach.decode((await peer.until(0x16))[4:])
        answers.append((theirs.name, theirs.role, theirs.source, theirs.target, detach.closed, detach.error.condition))
        peer.send(frame(Detach(3, True)))
        await attach(peer, credit=1)
        await peer.until(0x14)
        peer.send(settles(0, ACCEPTED))

    answers = []
    async with against(script) as connection:
        # the session begins with the first link
        async with connection.sender("q") as sender:
            assert await sender.send("x") == Accepted()
    assert answers == [("theirs", RECEIVER, None, None, True, "amqp:not-allowed")], answers
