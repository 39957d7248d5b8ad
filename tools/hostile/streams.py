"""Peers that are slow, silent or gone at the wrong moment: nothing that came is lost, and each call ends."""

import asyncio
import os
import time

from amqp_engine import (
    ACCEPTED, RECEIVER, SENDER, Attach, Attached, Begin, Close, Disposed, Disposition, End, Error, Flow, Open, PeerSilent, Refusal,
    SessionRefused, Transfer, Transferred, Waits, connect, data, serve, source, target,
)  # fmt: skip
from hostile.peers import EMPTY, HEADER, LARGE, PATIENCE, Raw, frame, holds, listens

AT_ONCE, TESTS = 8, []
#: For peers that are given up, and for those that are not
WAITS, LONG = Waits(login=20.0, answer=1.0, reading=1.0, closing=0.5), Waits(closing=0.5)
OPEN, BEGIN = frame(Open("peer")), frame(Begin(0, 0, LARGE, LARGE))


def test(function):
    TESTS.append(function)
    return function


async def against(script, client, waits=WAITS, **how):
    """What a client makes of a peer that does this after both headers. The peer goes when the client has."""
    peers = []

    async def begins(peer):
        peers.append(asyncio.current_task())
        peer.send(HEADER)
        try:
            await peer.take(8)
            await script(peer)
            await peer.over()
        except (ConnectionError, asyncio.IncompleteReadError, asyncio.CancelledError):
            pass
        finally:
            peer.gone()

    server, port = await listens(begins)
    try:
        async with connect("127.0.0.1", port, login=None, waits=waits, **{"open": Open("client"), **how}) as connection:
            connection.engine.open()
            return await client(connection)
    finally:
        server.close()
        for it in peers:
            it.cancel()


def transfers(*numbers):
    return b"".join(frame(Transfer(0, at, bytes([at]), 0, settled=True), 0, b"%d" % at) for at in numbers)


async def five_at_once(peer):
    """A link and five transfers in one write; then the answer to a second Begin."""
    peer.send(OPEN, BEGIN)
    await peer.until(0x12)
    peer.send(frame(Attach("l", 0, SENDER, source=source("a"), initial_delivery_count=0)) + transfers(0, 1, 2, 3, 4))
    await peer.until(0x11)
    peer.send(frame(Begin(1, 0, LARGE, LARGE), 1), transfers(5, 6))
    await peer.drain()
    peer.writer.write_eof()


async def takes_seven(connection, begins):
    await connection.session(0)
    connection.engine.attach(0, Attach("l", connection.engine.link(0, "l", RECEIVER), RECEIVER, source=source("a")))
    came = []
    async for event in connection:
        assert not isinstance(event, Refusal), event
        if isinstance(event, Attached):
            await begins(connection)
        if isinstance(event, Transferred):
            came.append(event.payload)
    assert came == [b"%d" % at for at in range(7)], came


@test
async def a_session_begun_in_the_middle_loses_nothing():
    await against(five_at_once, lambda connection: takes_seven(connection, lambda it: it.session(1)), LONG)


@test
async def a_session_that_is_cancelled_loses_nothing():
    async def begins(connection):
        task = asyncio.ensure_future(connection.session(1))
        await asyncio.sleep(0)
        task.cancel()
        await asyncio.wait([task])
        assert task.cancelled()

    await against(five_at_once, lambda connection: takes_seven(connection, begins), LONG)


@test
async def two_tasks_that_read_are_told():
    async def client(connection):
        await connection.session(0)
        first = asyncio.ensure_future(connection.__anext__())
        await asyncio.sleep(0)
        try:
            await connection.__anext__()
        except RuntimeError:
            first.cancel()
            return
        raise AssertionError("two tasks read")

    async def script(peer):
        peer.send(OPEN, BEGIN)

    await against(script, client, LONG)


@test
async def an_iterator_that_is_left_loses_nothing():
    async def client(connection):
        await connection.session(0)
        connection.engine.attach(0, Attach("l", connection.engine.link(0, "l", RECEIVER), RECEIVER, source=source("a")))
        came = []
        while len(came) < 5:
            async for event in connection:
                came += [event.payload] if isinstance(event, Transferred) else []
                break
        assert came == [b"%d" % at for at in range(5)], came

    await against(five_at_once, client, LONG)


@test
async def a_session_that_is_refused_ends_its_call():
    forced = Error("amqp:connection:forced", "down")
    for answer, condition in (
        (BEGIN + frame(End(Error("amqp:unauthorized-access", "no"))), "amqp:unauthorized-access"), (BEGIN + frame(End()), None), (frame(Close(forced)), forced.condition),
        (frame(Close()), None), (frame(b"\x00\x53\x11\x45"), "amqp:decode-error"),
    ):  # fmt: skip

        async def script(peer, answer=answer):
            peer.send(OPEN)
            await peer.until(0x11)
            peer.send(answer)
            await peer.until(0x17, 0x18)

        async def client(connection, condition=condition):
            try:
                await connection.session(0)
            except (SessionRefused, PeerSilent) as error:
                assert condition is None or isinstance(error, PeerSilent) or error.refusal.condition == condition, error
                return
            raise AssertionError("a session")

        await asyncio.wait_for(against(script, client), PATIENCE)


@test
async def a_session_that_nobody_answers_ends_its_call():
    async def silent(peer):
        peer.send(OPEN)
        while True:
            peer.send(EMPTY)
            await peer.drain()
            await asyncio.sleep(0.05)

    async def hangs_up(peer):
        peer.send(OPEN)
        await peer.until(0x11)
        peer.gone()

    for script, wanted in ((silent, PeerSilent), (hangs_up, ConnectionError)):
        try:
            await asyncio.wait_for(against(script, lambda connection: connection.session(0)), PATIENCE)
        except wanted:
            continue
        raise AssertionError(script)


@test
async def a_close_that_nobody_answers_ends_its_call():
    async def empty(peer):
        while True:
            peer.send(EMPTY)
            await peer.drain()
            await asyncio.sleep(0.05)

    async def flood(peer):
        while True:
            peer.send(EMPTY * 2000)
            await peer.drain()

    async def silent(peer):
        pass

    async def broken(peer):
        peer.send(b"\x00\x00\x00\x00")
        await flood(peer)

    for then in (empty, flood, silent, broken):

        async def script(peer, then=then):
            peer.send(OPEN, BEGIN)
            await then(peer)

        async def client(connection):
            await connection.session(0)
            await connection.close()

        try:
            await asyncio.wait_for(against(script, client), PATIENCE)
        except PeerSilent:
            continue
        raise AssertionError(then)


async def never_reads(peer):
    """One that gives a sender endless credit, and reads nothing more."""
    peer.send(OPEN, BEGIN)
    await peer.until(0x12)
    peer.send(frame(Attach("a", 0, RECEIVER, target=target("q"))), frame(Flow(0, LARGE, 0, LARGE, handle=0, delivery_count=0, link_credit=LARGE)))
    peer.reader._transport.pause_reading()
    await asyncio.sleep(2 * PATIENCE)


async def writes_much(connection):
    await connection.session(0)
    handle = connection.engine.link(0, "a", SENDER)
    connection.engine.attach(0, Attach("a", handle, SENDER, target=target("q"), initial_delivery_count=0))
    async for event in connection:
        if isinstance(event, Attached):
            for at in range(200):
                connection.engine.deliver(0, Transfer(handle, delivery_tag=b"%d" % at, message_format=0), data(bytes(100000)))


@test
async def a_peer_that_does_not_read_is_given_up():
    for waits, how in ((WAITS, {}), (WAITS, {"open": Open("client", idle_time_out=9000)}), (LONG, {"open": Open("client", idle_time_out=1000)})):
        try:
            await asyncio.wait_for(against(never_reads, writes_much, waits, **how), 2 * PATIENCE)
        except PeerSilent:
            continue
        raise AssertionError("it was waited for")


@test
async def a_time_out_round_a_connection_returns():
    start = time.monotonic()
    try:
        await asyncio.wait_for(against(never_reads, writes_much), 0.2)
    except (asyncio.TimeoutError, PeerSilent):
        assert time.monotonic() - start < PATIENCE
        return
    raise AssertionError("it was waited for")


@test
async def a_connection_is_left_by_an_exception():
    async def client(connection):
        await connection.session(0)
        connection._stream.write(EMPTY * 2_000_000)
        raise KeyError("the application ends")

    try:
        await asyncio.wait_for(against(never_reads, client), PATIENCE)
    except KeyError:
        return
    raise AssertionError("it was not left")


@test
async def two_that_only_write_end():
    async def script(peer):
        peer.send(OPEN, BEGIN)
        peer.send(EMPTY * 2_000_000)
        await asyncio.sleep(2 * PATIENCE)

    async def client(connection):
        await connection.session(0)
        connection._stream.write(EMPTY * 2_000_000)
        await connection.flush()

    try:
        await asyncio.wait_for(against(script, client), 2 * PATIENCE)
    except PeerSilent:
        return
    raise AssertionError("it was waited for")


@test
async def many_flush_and_the_heart_beats():
    async def script(peer):
        peer.send(frame(Open("peer", idle_time_out=200)), BEGIN)
        await peer.until(0x11)
        peer.reader._transport.pause_reading()
        await asyncio.sleep(0.3)
        peer.reader._transport.resume_reading()
        for _ in range(3):
            await peer.reader.read(1 << 20)

    async def client(connection):
        await connection.session(0)
        reads = asyncio.ensure_future(connection.__anext__())
        for _ in range(4):
            connection._stream.write(EMPTY * 300_000)
            await asyncio.gather(*(connection.flush() for _ in range(5)))
        await asyncio.sleep(0.5)
        beats = connection._beats
        assert not beats.cancelled() and beats.when() > asyncio.get_running_loop().time() - 1, beats
        reads.cancel()

    await against(script, client, LONG)


@test
async def a_disposition_of_many_is_one_event():
    async def script(peer):
        peer.send(OPEN, BEGIN)
        await peer.until(0x12)
        peer.send(frame(Attach("a", 0, RECEIVER, target=target("q"))), frame(Flow(0, LARGE, 0, LARGE, handle=0, delivery_count=0, link_credit=100)))
        for _ in range(100):
            await peer.until(0x14)
        for first, last in ((0, 2**32 - 1), (5, 4), (0, 99)):
            peer.send(frame(Disposition(RECEIVER, first, last, settled=True, state=ACCEPTED)))
        await peer.over()

    async def client(connection):
        await connection.session(0)
        handle, left, came = connection.engine.link(0, "a", SENDER), set(), 0
        connection.engine.attach(0, Attach("a", handle, SENDER, target=target("q"), initial_delivery_count=0))
        async for event in connection:
            if isinstance(event, Attached):
                left = {connection.engine.deliver(0, Transfer(handle, delivery_tag=b"%d" % at, message_format=0), b"x") for at in range(100)}
                assert left == set(range(100)), left
            elif isinstance(event, Disposed):
                came += 1
                left -= set(event.among(left))
            if came == 3:
                assert not left, left
                return

    await against(script, client, LONG)


@test
async def no_socket_stays_where_no_connection_can_be_made():
    gone, kept, told = [], [], []

    async def quiet(peer):
        await peer.over()
        gone.append(peer)
        peer.gone()

    server, port = await listens(quiet)
    before = len(os.listdir("/proc/self/fd"))
    for _ in range(5):
        try:
            async with connect("127.0.0.1", port, Open("client"), key=b"short"):
                pass
        except ValueError as error:
            # an error that is kept keeps the stream, if nobody closed it
            kept.append(error)
    assert len(kept) == 5 and await holds(lambda: len(gone) == 5), (kept, gone)
    for fails in (lambda: 1 / 0, lambda: Open("x" * 300, max_frame_size=1)):
        served = await serve("127.0.0.1", 0, fails, quiet, told=told.append, key=b"short")
        peer = await Raw.to(served.sockets[0].getsockname()[1])
        await asyncio.wait_for(peer.over(), PATIENCE)
        peer.gone()
        served.close()
    assert [type(it) for it in told] == [ZeroDivisionError, ValueError], told
    server.close()
    assert await holds(lambda: len(os.listdir("/proc/self/fd")) <= before + AT_ONCE * 4)


@test
async def a_thousand_sessions_come_and_go():
    served, each = [], 100

    async def handle(connection):
        connection.engine.open()
        async for event in connection:
            served.append(type(event).__name__)

    server = await serve("127.0.0.1", 0, lambda: Open("server"), handle, waits=LONG)
    peer = await Raw.opened(server.sockets[0].getsockname()[1])
    for _ in range(1000 // each):
        peer.send(*[frame(Begin(None, 0, 8, 8), 1) + frame(End(), 1)] * each)
        for _ in range(each):
            await peer.until(0x17)
    peer.send(frame(Close()))
    assert await peer.ended() is None and served.count("SessionEnded") == 1000 and "Refusal" not in served
    peer.gone()
    server.close()
