"""What try_c.py tries of the client: peers that are slow or silent, or hold back."""

import asyncio
import itertools
import sys
from pathlib import Path

sys.path.insert(0, str(Path(__file__).resolve().parents[2] / "bindings" / "python"))

from amqp_engine import ACCEPTED, Accepted, ConnectionLost, Detach, Flow, Settled, TimedOut, Waits, connect
from hostile.peers import LARGE, frame, listens
from try_c.try_c_client_peers import against, attach, grants, raised, settles, tests

TESTS, test = tests()


@test
async def a_peer_without_a_word_times_out():
    async def mute(peer):
        await peer.over()

    server, port = await listens(mute)
    async with server:
        start = asyncio.get_running_loop().time()
        await raised(connect(f"amqp://127.0.0.1:{port}/", waits=Waits(login=0.3, closing=0.2)).open(), ConnectionLost)
        assert 0.2 < asyncio.get_running_loop().time() - start < 10

    async def script(peer):
        await peer.until(0x12)

    async with against(script) as connection:
        await raised(connection.sender("q").open(timeout=0.1), TimedOut)


@test
async def a_peer_that_falls_silent_is_lost_and_empty_frames_keep_one():
    async def script(peer):
        await attach(peer, credit=5)

    async with against(script, {"idle_time_out": 0.4}) as connection:
        sender = await connection.sender("q")
        start = asyncio.get_running_loop().time()
        await raised(sender.send("x"), ConnectionLost)
        assert 0.2 < asyncio.get_running_loop().time() - start < 10

    beats = []

    async def counts(peer):
        await attach(peer, credit=5)
        while True:
            beats.append(len(await peer.frame()))

    async with against(counts, idle_time_out=400) as connection:
        await connection.sender("q")
        await asyncio.sleep(1.0)
        assert connection.is_open and 3 <= beats.count(4) <= 10, beats


@test
async def a_send_waits_for_credit_and_for_the_window():
    async def script(peer):
        await attach(peer)
        seen.append("attached")
        await asyncio.sleep(0.1)
        peer.send(grants(0, 2))
        for _ in range(2):
            await peer.until(0x14)
        peer.send(settles(0, ACCEPTED, last=1))
        # credit for many, and a window of one transfer
        peer.send(grants(0, 50, 2, incoming=1, next_incoming=2))
        for _ in range(1):
            await peer.until(0x14)
        await asyncio.sleep(0.1)
        seen.append(len(peer.reader._buffer))
        peer.send(settles(2, ACCEPTED))
        peer.send(grants(0, 50, 3, incoming=LARGE, next_incoming=3))
        for number in range(3, 20):
            await peer.until(0x14)
            peer.send(settles(number, ACCEPTED))

    seen = []
    async with against(script) as connection, connection.sender("q") as sender:
        error = await raised(sender.send("x", timeout=0.02), TimedOut)
        assert not error.is_unsettled and str(error) == "the message was not sent within 0.02 seconds"
        assert await asyncio.gather(*(sender.send(at) for at in range(20))) == [Accepted()] * 20
    assert seen == ["attached", 0]


@test
async def a_message_that_is_not_settled_in_time_may_have_been_taken():
    async def script(peer):
        await attach(peer, credit=5)
        await peer.until(0x14)
        await asyncio.sleep(0.2)
        peer.send(settles(0, ACCEPTED))
        await peer.until(0x14)
        peer.send(settles(1, ACCEPTED))

    async with against(script) as connection, connection.sender("q") as sender:
        error = await raised(sender.send("x", timeout=0.05), TimedOut)
        assert error.is_unsettled and str(error) == "the message was sent, and not settled within 0.05 seconds"
        assert await sender.send("y") == Accepted()
        assert len(connection._line.sent) == 0


@test
async def presettled_messages_stop_where_the_peer_does_not_read():
    async def script(peer):
        await attach(peer, credit=10**6)
        await asyncio.sleep(60)

    async with against(script, {"waits": Waits(reading=0.5, answer=0.2, closing=0.2)}) as connection:
        sender = await connection.sender("q")
        count = itertools.count()

        async def sends():
            while True:
                await sender.send(bytes(10000), settled=True)
                next(count)

        error = await raised(sends(), ConnectionLost)
        assert str(error) == "the peer does not read"
        assert next(count) < 2000, count


@test
async def a_peer_asks_a_sender_to_drain():
    async def script(peer):
        await attach(peer)
        peer.send(grants(0, 10, drain=True))
        told.append(Flow.decode((await peer.until(0x13))[4:]))

    told = []
    async with against(script) as connection, connection.sender("q"):
        await asyncio.sleep(0.1)
    assert [(it.delivery_count, it.link_credit, it.drain) for it in told] == [(10, 0, True)], told


@test
async def little_waits_in_the_library_for_the_window_and_all_of_it_goes_in_order():
    came = []

    async def script(peer):
        await attach(peer)
        # credit for all, and a window of five transfers
        peer.send(grants(0, 1000, incoming=5))
        await asyncio.sleep(0.3)
        waited.append(len(senders[0]._waiting))
        peer.send(grants(0, 1000, incoming=LARGE))
        while len(came) < 1000:
            of = await peer.until(0x14)
            came.append(int(of[-4:]))
        peer.send(settles(0, ACCEPTED, last=999))

    waited, senders = [], []
    async with against(script) as connection, connection.sender("q") as sender:
        senders.append(sender)
        told = await asyncio.gather(*(sender.send(b"%0300d" % at, timeout=20) for at in range(1000)))
    # as much as one turn of the loop asks for, twice: some 130 kB of 300
    assert came == list(range(1000)) and told == [Accepted()] * 1000 and 550 < waited[0] < 996, (came[:10], waited)


@test
async def a_detach_does_not_overtake_what_the_window_holds_back():
    async def script(peer):
        await attach(peer)
        # credit for many, and a window of one transfer
        peer.send(grants(0, 50, incoming=1))
        seen.append((await peer.until(0x14, 0x16))[6])
        await asyncio.sleep(0.2)
        seen.append(len(peer.reader._buffer))
        peer.send(grants(0, 50, 1, next_incoming=1, drain=True))
        seen.extend([(await peer.until(0x13, 0x14, 0x16))[6] for _ in range(3)])
        peer.send(frame(Detach(0, True)))

    seen = []
    async with against(script) as connection:
        sender = await connection.sender("q")
        assert await asyncio.gather(*(sender.send(at, settled=True) for at in range(2))) == [Settled()] * 2
        await sender.close()
    assert seen[:3] == [0x14, 0, 0x14] and sorted(seen[3:]) == [0x13, 0x16], seen
