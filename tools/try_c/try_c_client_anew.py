"""What try_c.py tries of the client: a connection that is made anew in the place of a lost one."""

import asyncio
import contextlib
import itertools
import sys
from pathlib import Path

sys.path.insert(0, str(Path(__file__).resolve().parents[2] / "bindings" / "python"))

from amqp_engine import ACCEPTED, Accepted, Backoff, Begin, ConnectionLost, Message, Open, TimedOut, connect
from hostile.peers import HEADER, LARGE, ROOT, frame, listens
from try_c.try_c_client_peers import WAITS, attach, grants, raised, settles, tests

TESTS, test = tests()


class Brokers:
    """The broker of the examples on one port, ended and started again."""

    def __init__(self):
        self.port, self.process = 0, None

    async def start(self):
        words = [sys.executable, str(ROOT / "examples" / "python" / "broker.py"), str(self.port)]
        pipes = {"stdout": asyncio.subprocess.PIPE, "stderr": asyncio.subprocess.DEVNULL}
        self.process = await asyncio.create_subprocess_exec(*words, **pipes)
        self.port = int((await self.process.stdout.readline()).rpartition(b":")[2])

    async def kill(self):
        self.process.kill()
        await self.process.wait()

    async def __aenter__(self):
        await self.start()
        return self

    async def __aexit__(self, *_):
        await self.kill()


async def across(brokers, resend, count=2000):
    """Sends so many messages while the broker is killed and started again: what came, what sends told, and which of
    them had told by then."""
    came, told = [], {}
    url = f"amqp://127.0.0.1:{brokers.port}/"
    how = {"reconnect": Backoff(0.05, 0.2), "resend": resend}
    async with connect(url, **how) as connection, connection.sender("q") as sender:
        receiver, lost = await connection.receiver("q", credit=20), asyncio.Event()
        connection.on_lost = lambda error: lost.set()

        async def takes():
            while True:
                delivery = await receiver.receive()
                came.append(delivery.message.body)
                with contextlib.suppress(ConnectionLost, Exception):
                    await delivery.accept()

        async def sends(at):
            try:
                told[at] = await sender.send(at)
            except ConnectionLost as error:
                told[at] = error

        taking = asyncio.ensure_future(takes())
        sending = [asyncio.ensure_future(sends(at)) for at in range(count)]
        while len(told) < count // 2:
            await asyncio.sleep(0.001)
        await brokers.kill()
        await lost.wait()
        await asyncio.sleep(0.1)
        before = set(told)
        await brokers.start()
        await asyncio.gather(*sending)
        with contextlib.suppress(asyncio.TimeoutError):
            await asyncio.wait_for(idle(came), 20)
        taking.cancel()
    return came, told, before


async def idle(came):
    """Until nothing more comes."""
    count = -1
    while count < len(came):
        count = len(came)
        await asyncio.sleep(0.3)


@test
async def messages_are_sent_anew_on_another_connection():
    async with Brokers() as brokers:
        came, told, before = await across(brokers, True)
    # what the broker had accepted and had not handed out went with it: it keeps its queues in memory
    kinds = set(map(type, told.values()))
    assert sorted(told) == list(range(2000)) and kinds == {Accepted}, kinds
    assert set(range(2000)) - before <= set(came) <= set(range(2000)), (len(came), len(before))


@test
async def each_message_arrives_at_least_once_at_a_server_that_keeps_them():
    kept, settled, killed = [], set(), asyncio.Event()
    connections = itertools.count()

    async def begins(peer):
        number = next(connections)
        try:
            await peer.take(8)
            peer.send(HEADER, frame(Open("peer")))
            await peer.until(0x11)
            peer.send(frame(Begin(0, 0, LARGE, LARGE)))
            await attach(peer, credit=100000)
            for at in itertools.count():
                of = await peer.until(0x14)
                body = Message.decode(of[of.index(b"\x00\x53\x77") :]).body
                kept.append(body)
                if number == 0 and len(kept) == 1000:
                    # it was taken, and the client is not told
                    killed.set()
                    return
                if number or len(kept) % 2:
                    settled.add(body)
                    peer.send(settles(at, ACCEPTED))
        except (ConnectionError, asyncio.IncompleteReadError):
            pass
        finally:
            peer.gone()

    server, port = await listens(begins)
    async with server:
        how = {"login": None, "reconnect": Backoff(0.02, 0.1), "waits": WAITS}
        async with connect(f"amqp://127.0.0.1:{port}/", resend=True, **how) as connection:
            lost = []
            connection.on_lost = lost.append
            sender = await connection.sender("q")
            told = await asyncio.gather(*(sender.send(at) for at in range(2000)))
        assert told == [Accepted()] * 2000 and set(kept) == set(range(2000)) and settled == set(range(2000))
        assert len(lost) == 1 and isinstance(lost[0], ConnectionLost) and len(kept) > 2000


@test
async def what_is_not_sent_anew_is_told_and_nothing_else_is_told_as_settled():
    kept, settled = [], set()
    connections = itertools.count()

    async def begins(peer):
        number = next(connections)
        try:
            await peer.take(8)
            peer.send(HEADER, frame(Open("peer")))
            await peer.until(0x11)
            peer.send(frame(Begin(0, 0, LARGE, LARGE)))
            await attach(peer, credit=1000)
            for at in itertools.count():
                of = await peer.until(0x14)
                kept.append(Message.decode(of[of.index(b"\x00\x53\x77") :]).body)
                if number == 0 and len(kept) == 1000:
                    await peer.drain()
                    await asyncio.sleep(0.1)
                    return
                if number or len(kept) % 2:
                    settled.add(kept[-1])
                    peer.send(settles(at, ACCEPTED))
                if number and at % 500 == 499:
                    peer.send(grants(0, 1000, at + 1, next_incoming=at + 1))
        except (ConnectionError, asyncio.IncompleteReadError):
            pass
        finally:
            peer.gone()

    server, port = await listens(begins)
    async with server:
        how = {"login": None, "reconnect": Backoff(0.02, 0.1), "waits": WAITS}
        async with connect(f"amqp://127.0.0.1:{port}/", **how) as connection:
            sender = await connection.sender("q")
            told = await asyncio.gather(*(sender.send(at) for at in range(2000)), return_exceptions=True)
    lost = {at for at, it in enumerate(told) if isinstance(it, ConnectionLost)}
    assert {at for at, it in enumerate(told) if it == Accepted()} == settled and lost == set(range(2000)) - settled
    assert len(lost) == 500 and all(told[at].is_unsettled for at in lost) and len(kept) == len(set(kept)) == 2000


@test
async def a_client_gives_up_after_so_many_attempts_and_without_the_wish_at_once():
    async def goes(peer):
        await peer.take(8)
        peer.send(HEADER, frame(Open("peer")))
        await peer.until(0x11)
        peer.send(frame(Begin(0, 0, LARGE, LARGE)))
        await attach(peer)
        peer.gone()

    for how, wanted in (({}, ConnectionLost), ({"reconnect": Backoff(0.01, 0.02, attempts=3)}, ConnectionRefusedError)):
        server, port = await listens(goes)
        async with connect(f"amqp://127.0.0.1:{port}/", login=None, waits=WAITS, **how) as connection:
            receiver = await connection.receiver("q")
            server.close()
            await server.wait_closed()
            await raised(receiver.receive(timeout=5), wanted)
            await raised(connection.sender("q").open(), wanted)


@test
async def what_is_asked_while_no_connection_is_there_waits_for_the_next_one():
    async with Brokers() as brokers:
        async with connect(f"amqp://127.0.0.1:{brokers.port}/", reconnect=Backoff(0.05, 0.1)) as connection:
            sender, receiver = await connection.sender("q"), await connection.receiver("q")
            await brokers.kill()
            await asyncio.sleep(0.1)
            assert not connection.is_open
            await raised(sender.send("never", timeout=0.05), TimedOut)
            waits = [asyncio.ensure_future(it) for it in (sender.send("later"), connection.receiver("other").open())]
            await asyncio.sleep(0.05)
            await brokers.start()
            assert (await asyncio.gather(*waits))[0] == Accepted()
            delivery = await receiver.receive(timeout=5)
            await delivery.accept()
            assert delivery.message.body == "later"
