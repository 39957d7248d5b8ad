"""What try_c.py tries of serving by objects: connections, sessions, links and deliveries, each call with its values."""

import asyncio
import sys
from pathlib import Path

sys.path.insert(0, str(Path(__file__).resolve().parents[2] / "bindings" / "python"))

from amqp_engine import (
    ACCEPTED, FIRST, RECEIVER, SECOND, SENDER, Attach, Begin, Close, Detach, Disposition, End, Error, Flow,
    IncomingLink, Limits, Open, Refusal, Transfer, Waits, data, serve, source, target,
)  # fmt: skip
from amqp_engine.values import Symbol, read
from hostile.peers import LARGE, Raw, frame
from try_c.heap import taken

TESTS = []
WAITS = Waits(login=5.0, answer=2.0, closing=0.5)
BEGIN = Begin(incoming_window=100, outgoing_window=100)


def run_of(function):
    """A test that is awaited, as one that is called."""

    def run():
        asyncio.run(asyncio.wait_for(function(), 30))

    run.__name__ = function.__name__
    return run


def test(function):
    TESTS.append(run_of(function))
    return function


class Served:
    """A server, the errors that it was told, and a client of it that writes frames."""

    def __init__(self, handle, **how):
        self.handle, self.how, self.told = handle, {"waits": WAITS, "begin": BEGIN, "told": self.tell, **how}, []

    def tell(self, error):
        self.told.append(error)

    async def __aenter__(self):
        self.server = await serve("127.0.0.1", 0, lambda: Open("server"), self.handle, **self.how)
        self.port = self.server.sockets[0].getsockname()[1]
        self.peer = await Raw.opened(self.port)
        return self

    async def __aexit__(self, *_):
        self.peer.gone()
        self.server.close()
        await self.server.wait_closed()

    async def ends(self, code=0x18):
        """The client closes, and the server answers: by which condition."""
        self.peer.send(frame(Close()))
        return Close.decode((await self.peer.until(code))[4:]).error


def sends(handle=0, name="l", address="a", **how):
    return frame(Attach(name, handle, SENDER, source=source(), target=target(address), initial_delivery_count=0, **how))


def receives(handle=1, name="l", address="a", **how):
    return frame(Attach(name, handle, RECEIVER, source=source(address), target=target(), **how))


def flow(handle, credit, count=0, **how):
    return frame(Flow(0, LARGE, 0, LARGE, handle=handle, delivery_count=count, link_credit=credit, **how))


def transfer(number, payload=b"x", handle=0, **how):
    return frame(Transfer(handle, number, b"t%d" % number, 0, **how), 0, payload)


async def next_of(peer, kind):
    return kind.of(read(await peer.until(kind.CODE), 4)[0])


@test
async def deliveries_come_and_are_settled_in_each_way():
    seen = []

    async def handle(connection):
        async for link in connection.links():
            assert (type(link), link.name, link.address, link.session.number) == (IncomingLink, "l", "a", 0)
            assert link.session.begin.incoming_window == LARGE and link.session.connection is connection
            link.accept(credit=10, max_message_size=1000, properties={Symbol("k"): 1})
            async for it in link:
                seen.append((it.payload, it.tag, it.number, it.format, it.is_settled))
                says = (it.accept, it.release, lambda: it.reject(Error("a:b", "no")), it.modify)
                if not it.is_settled:
                    await says[it.number]()
                    # a second word on it does nothing
                    it.accept()

    async with Served(handle) as served:
        peer = served.peer
        peer.send(sends())
        attach, granted = await next_of(peer, Attach), await next_of(peer, Flow)
        assert (attach.name, attach.role, attach.max_message_size) == ("l", RECEIVER, 1000), attach
        assert attach.properties == {"k": 1}, attach
        assert (granted.link_credit, granted.delivery_count) == (10, 0), granted
        peer.send(*[transfer(at, b"m%d" % at) for at in range(4)], transfer(4, b"m4", settled=True))
        states = [await next_of(peer, Disposition) for _ in range(4)]
        assert [(it.role, it.first, it.settled) for it in states] == [(RECEIVER, at, True) for at in range(4)], states
        said = [(it.state.descriptor, list(it.state.value)) for it in states]
        assert said == [(36, []), (38, []), (37, [Error("a:b", "no").described()]), (39, [True, False])], said
        assert await served.ends() is None and served.told == []
    assert seen == [(b"m%d" % at, b"t%d" % at, at, 0, at == 4) for at in range(5)], seen


@test
async def credit_is_renewed_as_deliveries_are_taken():
    taken, more = [], asyncio.Event()

    async def handle(connection):
        async for link in connection.links():
            link.accept(credit=4)
            await more.wait()
            async for delivery in link:
                taken.append(delivery.number)
                delivery.accept()

    async with Served(handle) as served:
        peer = served.peer
        peer.send(sends())
        assert (await next_of(peer, Flow)).link_credit == 4
        peer.send(*[transfer(at) for at in range(4)])
        await asyncio.sleep(0.1)
        more.set()
        # nothing was granted before the program took some: the first flow that follows counts them
        renewed = await next_of(peer, Flow)
        assert (renewed.link_credit, renewed.delivery_count) == (4, 4), renewed
        peer.send(*[transfer(at) for at in range(4, 8)])
        while len(taken) < 8:
            await asyncio.sleep(0.01)
        assert taken == list(range(8)) and await served.ends() is None


@test
async def a_delivery_of_parts_is_one_and_an_aborted_one_is_none():
    seen = []

    async def handle(connection):
        async for link in connection.links():
            link.accept(credit=10)
            async for delivery in link:
                seen.append(delivery.payload)
                if delivery.number == 2:
                    seen.append(delivery.message.body)
                delivery.accept()

    async with Served(handle) as served:
        peer = served.peer
        peer.send(sends())
        await next_of(peer, Flow)
        peer.send(transfer(0, b"ab", more=True), frame(Transfer(0, more=True), 0, b"cd"), frame(Transfer(0), 0, b"ef"))
        peer.send(transfer(1, b"gone", more=True), frame(Transfer(0, aborted=True)), transfer(2, data(b"last")))
        assert [(await next_of(peer, Disposition)).first for _ in range(2)] == [0, 2]
        assert seen == [b"abcdef", data(b"last"), b"last"] and await served.ends() is None


@test
async def of_a_delivery_that_a_later_part_ends_nothing_stays():
    count, seen = 5000, []

    async def handle(connection):
        async for link in connection.links():
            link.accept(credit=count)
            async for delivery in link:
                seen.append(delivery.is_settled)

    async with Served(handle) as served:
        peer = served.peer
        # of what it settles second the session has a record
        peer.send(sends(rcv_settle_mode=SECOND))
        await next_of(peer, Flow)
        before = taken()
        for at in range(count):
            ends = {"aborted": True} if at % 2 else {"settled": True}
            peer.send(transfer(at, b"", more=True), frame(Transfer(0, **ends)))
        await peer.drain()
        while len(seen) < count // 2:
            await asyncio.sleep(0.01)
        # which has some 120 bytes
        assert all(seen) and taken() - before < 40 * count, taken() - before
        assert await served.ends() is None


@test
async def who_settles_second_is_waited_for():
    links = []

    async def handle(connection):
        async for link in connection.links():
            links.append(link)
            link.accept(credit=10, settles=None if link.address == "a" else True)
            connection.create_task(takes(link))

    async def takes(link):
        async for delivery in link:
            delivery.accept()

    async with Served(handle) as served:
        peer = served.peer
        peer.send(sends(rcv_settle_mode=SECOND))
        await next_of(peer, Flow)
        peer.send(transfer(0))
        said = await next_of(peer, Disposition)
        assert (bool(said.settled), said.state) == (False, ACCEPTED), said
        assert (links[0].settles, links[0].session.owed) == (False, 1)
        # on the other link the server settles, whatever the client wishes
        peer.send(frame(Disposition(SENDER, 0, settled=True)), sends(5, "other", "b", rcv_settle_mode=SECOND))
        attach = await next_of(peer, Attach)
        assert (attach.rcv_settle_mode or FIRST) == FIRST, attach
        await next_of(peer, Flow)
        peer.send(transfer(1, handle=5))
        said = await next_of(peer, Disposition)
        assert (said.first, said.settled, links[0].session.owed) == (1, True, 0) and await served.ends() is None, said


@test
async def a_session_is_ended_by_the_server():
    async def handle(connection):
        async for link in connection.links():
            link.accept()
            link.session.end(Error("amqp:resource-deleted", "enough"))

    async with Served(handle) as served:
        served.peer.send(sends())
        end = await next_of(served.peer, End)
        assert end.error == Error("amqp:resource-deleted", "enough"), end
        served.peer.send(frame(End()))
        assert await served.ends() is None


@test
async def an_error_of_a_handler_or_a_task_ends_the_connection_with_a_close():
    async def raises(connection):
        async for link in connection.links():
            link.accept()
            raise KeyError("of the program")

    async def in_a_task(connection):
        async for link in connection.links():
            link.accept()
            connection.create_task(fails())

    async def fails():
        raise KeyError("of a task")

    async def unanswered(connection):
        await connection.serve_links(lambda link: None)

    async def soon(connection):
        async for link in connection.links():
            link.accept()
            connection.fail_soon(Refusal("Enough", "a:b"))

    for handle, condition, kind in (
        (raises, "amqp:internal-error", KeyError), (in_a_task, "amqp:internal-error", KeyError),
        (unanswered, "amqp:internal-error", RuntimeError), (soon, "a:b", Refusal),
    ):  # fmt: skip
        async with Served(handle) as served:
            served.peer.send(sends())
            close = await next_of(served.peer, Close)
            assert close.error.condition == condition, close
            served.peer.send(frame(Close()))
            await served.peer.over()
            assert [type(it) for it in served.told] == [kind], served.told


@test
async def a_program_closes_and_leaves():
    async def handle(connection):
        async for link in connection.links():
            link.accept()
            break
        await connection.close(Error("amqp:connection:forced", "good night"))

    async with Served(handle) as served:
        served.peer.send(sends())
        close = await next_of(served.peer, Close)
        assert close.error == Error("amqp:connection:forced", "good night"), close
        served.peer.send(frame(Close()))
        await served.peer.over()
        assert served.told == []


@test
async def what_a_client_has_too_much_of_ends_its_link_or_its_connection():
    async def handle(connection):
        async for link in connection.links():
            link.accept(credit=100)

    limits = Limits(incomplete=1000, performative=500)
    async with Served(handle, limits=limits) as served:
        peer = served.peer
        peer.send(sends())
        await next_of(peer, Flow)
        peer.send(transfer(0, bytes(900), more=True), frame(Transfer(0, more=True), 0, bytes(200)))
        detach = await next_of(peer, Detach)
        assert detach.error.condition == "amqp:resource-limit-exceeded", detach
        peer.send(frame(Detach(0, True)), sends(0, "n" * 600))
        close = await next_of(peer, Close)
        assert close.error.condition == "amqp:resource-limit-exceeded", close


@test
async def what_is_not_taken_stops_the_client_and_no_other():
    go, slow_one = asyncio.Event(), []

    async def handle(connection):
        async for link in connection.links():
            link.accept(credit=1000)
            if link.address == "slow":
                slow_one.append(connection)
                await go.wait()
            async for delivery in link:
                delivery.accept()

    async with Served(handle, limits=Limits(untaken=100000)) as served:
        slow, good = served.peer, await Raw.opened(served.port)
        slow.send(sends(0, "l", "slow"))
        await next_of(slow, Flow)
        slow.send(*[transfer(at, bytes(50000)) for at in range(100)])
        good.send(sends())
        await next_of(good, Flow)
        good.send(transfer(0))
        assert (await next_of(good, Disposition)).first == 0
        assert 100000 < slow_one[0]._untaken <= 200000, slow_one[0]._untaken
        go.set()
        assert [(await next_of(slow, Disposition)).first for _ in range(100)] == list(range(100))
        good.gone()
        assert await served.ends() is None


@test
async def a_server_listens_and_ends():
    async def handle(connection):
        await connection.serve_links(lambda link: link.accept())

    async with Served(handle) as served:
        server, peer = served.server, served.peer
        assert server.is_serving() and server.get_loop() is asyncio.get_running_loop()
        await server.start_serving()
        forever = asyncio.ensure_future(server.serve_forever())
        await asyncio.sleep(0)
        forever.cancel()
        await asyncio.wait([forever])
        assert not server.is_serving() and forever.cancelled()
        await server.wait_closed()
        # who is served is served on
        peer.send(sends())
        assert (await next_of(peer, Attach)).name == "l"
        try:
            await Raw.to(served.port)
        except ConnectionRefusedError:
            assert await served.ends() is None
            return
        raise AssertionError("it listens on")
