"""What try_c.py tries over sockets on loopback: the transport by `asyncio`, logins, idle time-outs, and tools/watch.py."""

import asyncio
import subprocess
import sys
from pathlib import Path

ROOT = Path(__file__).resolve().parents[2]
sys.path.insert(0, str(ROOT / "bindings" / "python"))

from amqp_engine import (
    ACCEPTED, RECEIVER, SENDER, Anonymous, Attach, Attached, Begin, Close, Disposed, Disposition, External, Flow, Flowed, HeaderRefused, LoginRefused, Open, PeerSilent,
    Plain, Refusal, Transfer, Transferred, Waits, connect, serve,
)  # fmt: skip
from hostile.peers import EMPTY, HEADER, frame

OPEN = Open("client", hostname="here", max_frame_size=512, channel_max=7)
TESTS = []


def test(function):
    TESTS.append(function)
    return function


async def echo(connection):
    """A server whose links give back what they take."""
    connection.engine.open()
    async for event in connection:
        if isinstance(event, Attached):
            theirs, mine = event.attach, connection.server.output_of(event)
            answer = Attach(theirs.name, mine, not theirs.role, initial_delivery_count=0 if theirs.role else None)
            connection.server.attach(event.session, answer)
            if not theirs.role:
                connection.engine.flow(event.session, Flow(handle=mine, delivery_count=0, link_credit=1000))
        elif isinstance(event, Transferred) and not event.transfer.settled:
            said = Disposition(RECEIVER, event.transfer.delivery_id, settled=True, state=ACCEPTED)
            connection.engine.disposition(event.session, said)


async def talk(port, **how):
    async with connect("127.0.0.1", port, OPEN, **how) as connection:
        engine, settled, link = connection.engine, 0, None
        engine.open()
        await connection.session(0)
        handle = engine.link(0, "l", SENDER)
        engine.attach(0, Attach("l", handle, SENDER, initial_delivery_count=0))
        async for event in connection:
            assert not isinstance(event, Refusal), event
            if isinstance(event, Flowed):
                for at in range(100):
                    engine.transfer(0, Transfer(handle, delivery_tag=bytes([at]), settled=False), b"x" * at)
            settled += len(event.among(range(100))) if isinstance(event, Disposed) else 0
            if settled == 100:
                break
        await connection.close()
        return engine.state


def over_sockets(client, **how):
    async def both():
        server = await serve("127.0.0.1", 0, lambda: Open("server", max_frame_size=512), echo, **how)
        async with server:
            return await client(server.sockets[0].getsockname()[1])

    return asyncio.run(both())


@test
def a_hundred_messages_go_over_a_socket():
    assert over_sockets(talk) == "END"
    assert over_sockets(lambda port: talk(port, login=None)) == "END"


@test
def a_login_is_judged():
    def check(user, password):
        return (user, password) == ("me", "right")

    assert over_sockets(lambda port: talk(port, login=Plain("me", "right")), check=check) == "END"
    for login, wanted in ((Plain("me", "wrong"), LoginRefused), (Anonymous(), LoginRefused), (External(), LoginRefused), (None, HeaderRefused)):
        try:
            over_sockets(lambda port: talk(port, login=login), check=check)
        except wanted:
            continue
        raise AssertionError(login)


@test
def a_silent_peer_is_ended_and_a_quiet_one_is_kept():
    async def quiet(connection):
        connection.engine.open()
        async for _ in connection:
            pass

    async def both(limit):
        """A server whose Open asks for frames, and a client that asks for some itself."""
        server = await serve("127.0.0.1", 0, lambda: Open("s", idle_time_out=limit), quiet)
        async with server, connect("127.0.0.1", server.sockets[0].getsockname()[1], Open("c", idle_time_out=800)) as connection:
            connection.engine.open()
            waited = asyncio.ensure_future(connection.__anext__())
            done, _ = await asyncio.wait([waited], timeout=2)
            return [type(it.exception()) for it in done] or waited.cancel()

    # the client is kept alive by its own empty frames, and hears the server's as long as that beats too
    assert asyncio.run(both(800)) is True
    assert asyncio.run(both(None)) is True

    async def mute():
        async def hold(reader, writer):
            while await reader.read(1000):
                pass

        async def answer(reader, writer):
            await reader.readexactly(8)
            writer.write(b"AMQP\x00\x01\x00\x00")
            await hold(reader, writer)

        server = await asyncio.start_server(answer, "127.0.0.1", 0)
        async with server, connect("127.0.0.1", server.sockets[0].getsockname()[1], Open("c", idle_time_out=200), login=None) as connection:
            connection.engine.open()
            async for _ in connection:
                pass

    try:
        asyncio.run(mute())
    except PeerSilent:
        return
    raise AssertionError("a silent peer was waited for")


async def hears_nothing(connection):
    """Waits for an event for a while; none comes."""
    try:
        raise AssertionError(await asyncio.wait_for(connection.__anext__(), 0.5))
    except asyncio.TimeoutError:
        pass


@test
def no_empty_frame_comes_before_an_open_or_behind_a_close():
    came = bytearray()

    async def asks(reader, writer):
        """A peer that asks for a frame each 100 ms, and answers no Close."""
        writer.write(HEADER + frame(Open("s", idle_time_out=200)))
        while part := await reader.read(1000):
            came.extend(part)

    async def client():
        server = await asyncio.start_server(asks, "127.0.0.1", 0)
        how = {"login": None, "waits": Waits(answer=0.6)}
        async with server, connect("127.0.0.1", server.sockets[0].getsockname()[1], Open("c"), **how) as connection:
            await hears_nothing(connection)
            assert came == HEADER, came
            connection.engine.open()
            await hears_nothing(connection)
            try:
                await connection.close()
            except PeerSilent:
                return
            raise AssertionError("a Close was answered")

    asyncio.run(client())
    opened, close = 8 + int.from_bytes(came[8:12], "big"), frame(Close())
    beats = bytes(came[opened : -len(close)])
    assert came[18] == 0x10 and beats == EMPTY * (len(beats) // 8) != b"" and came.endswith(close), came


@test
def a_watcher_tells_what_breaks_the_protocol():
    async def rogue(port):
        reader, writer = await asyncio.open_connection("127.0.0.1", port)
        writer.write(b"AMQP\x00\x01\x00\x00")
        for of in (OPEN, Begin(), Flow(0, 8, 0, 8, handle=5)):
            writer.write(frame(of))
            await asyncio.sleep(0.3)
        writer.close()

    async def both():
        server = await serve("127.0.0.1", 0, lambda: Open("server"), echo)
        async with server:
            words = [sys.executable, str(ROOT / "tools" / "watch.py"), "0", "127.0.0.1", str(server.sockets[0].getsockname()[1]), "--connections", "1", "--quiet"]
            watcher = await asyncio.create_subprocess_exec(*words, stdout=subprocess.PIPE)
            try:
                line = (await watcher.stdout.readline()).decode()
                await rogue(int(line.rpartition(":")[2]))
                return (await asyncio.wait_for(watcher.stdout.read(), 10)).decode()
            finally:
                if watcher.returncode is None:
                    watcher.kill()
                await watcher.wait()

    told = asyncio.run(both())
    assert "connection 1, client, frame 5, Flow: UnattachedHandle\n" in told, told
