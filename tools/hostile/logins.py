"""Before the protocol begins: logins, and clients that never come to one."""

import asyncio
import contextlib
import time

from amqp_engine import Anonymous, LoginRefused, Malformed, Open, PeerSilent, Plain, Symbol, Waits, connect, serve
from amqp_engine.values import write
from hostile.peers import HEADER, PATIENCE, SASL, Raw, array, compound, holds, listens, ping, sasl_frame

AT_ONCE, TESTS = 8, []
LOGIN = Plain("eve", "wrong")


def test(function):
    TESTS.append(function)
    return function


class Served:
    """A server, what it was told, and who got in."""

    def __init__(self, check=None, login=20.0, **how):
        self.how, self.told, self.inside = {"check": check, "waits": Waits(login=login, answer=1.0, closing=0.5), "told": self.tell, **how}, [], 0

    def tell(self, error):
        self.told.append(error)

    async def handle(self, connection):
        self.inside += 1
        connection.engine.open()
        async for _ in connection:
            pass

    async def __aenter__(self):
        self.server = await serve("127.0.0.1", 0, lambda: Open("server"), self.handle, **self.how)
        self.port = self.server.sockets[0].getsockname()[1]
        return self

    async def __aexit__(self, *_):
        self.server.close()


async def gets_in(served, login=LOGIN):
    try:
        async with connect("127.0.0.1", served.port, Open("client"), login=login):
            return await holds(lambda: served.inside > 0)
    except LoginRefused:
        return False


@test
async def a_check_that_is_awaited_judges():
    for answer in (True, False):

        async def check(user, password):
            await asyncio.sleep(0)
            return answer

        async with Served(check) as served:
            assert await gets_in(served) is answer and (served.inside > 0) is answer


@test
async def true_alone_lets_in():
    async def never():
        return True

    for answer in (1, "yes", [0], object(), never, None):
        async with Served(lambda *_: answer) as served:
            assert not await gets_in(served) and served.inside == 0, answer


@test
async def a_check_that_raises_refuses_and_is_told():
    async def later(user, password):
        raise KeyError("later")

    def now(user, password):
        raise KeyError("now")

    for check in (later, now):
        async with Served(check) as served:
            assert not await gets_in(served) and served.inside == 0
            assert await holds(lambda: [type(it) for it in served.told] == [KeyError]), served.told


@test
async def a_check_that_never_answers_ends_with_the_logins_time():
    async def check(user, password):
        while True:
            with contextlib.suppress(asyncio.CancelledError):
                await asyncio.sleep(1.5)
                return True

    async with Served(check, login=0.3) as served:
        with contextlib.suppress(ConnectionError):
            await asyncio.wait_for(gets_in(served), PATIENCE)
        assert served.inside == 0 and [type(it) for it in served.told] == [PeerSilent], served.told


@test
async def a_login_of_one_byte_at_a_time_has_its_time_too():
    async with Served(lambda *_: True, login=1.0) as served:
        start, peer = time.monotonic(), await Raw.to(served.port, b"")
        with contextlib.suppress(ConnectionError):
            for byte in SASL + sasl_frame(0x41, [Symbol("PLAIN"), b"\0a\0" + b"b" * 400]):
                peer.send(bytes([byte]))
                await asyncio.sleep(0.05)
                if served.told:
                    break
        await peer.over()
        assert time.monotonic() - start < PATIENCE and served.inside == 0 and [type(it) for it in served.told] == [PeerSilent], served.told


@test
async def clients_that_say_nothing_go_with_the_logins_time():
    async with Served(login=1.0) as served:
        silent = [await Raw.to(served.port, b"AM" if at % 2 else b"") for at in range(200)]
        assert await ping(served.port) < PATIENCE
        await asyncio.wait_for(asyncio.gather(*(it.over() for it in silent)), 2 * PATIENCE)
        assert await holds(lambda: sum(isinstance(it, PeerSilent) for it in served.told) == 200), len(served.told)


@test
async def arrays_before_a_login_hold_nobody_up():
    async with Served(lambda *_: True) as served:
        for count in (65536, 2**32 - 1):
            peer, start = await Raw.to(served.port, SASL), time.process_time()
            body = b"\x02\x01\x00\x00\x00\x53\x41" + compound(0xD0, [array(b"\x40", count=count)] * 48)
            peer.send((len(body) + 4).to_bytes(4, "big") + body)
            await peer.over()
            assert time.process_time() - start < 1.0 and served.inside == 0


@test
async def a_long_frame_of_sasl_is_refused_at_its_size():
    for size in (7, 513, 2**32 - 1):
        async with Served(lambda *_: True) as served:
            peer = await Raw.to(served.port, SASL)
            peer.send(size.to_bytes(4, "big"))
            await asyncio.wait_for(peer.over(), PATIENCE)
            assert [type(it) for it in served.told] == [Malformed], served.told


@test
async def names_that_are_no_text_are_no_login():
    async with Served(lambda *_: True) as served:
        peer = await Raw.to(served.port, SASL)
        peer.send(sasl_frame(0x41, [Symbol("PLAIN"), b"\0\xff\0\xff"]))
        await asyncio.wait_for(peer.over(), PATIENCE)
        assert [type(it) for it in served.told] == [LoginRefused], served.told


@test
async def a_server_that_offers_too_much_is_refused():
    for offered in (array(b"\x40", count=2**32 - 1), write(Symbol("EXTERNAL")), write([1]), b"\x45"):

        async def offers(peer, offered=offered):
            body = b"\x02\x01\x00\x00\x00\x53\x40" + compound(0xD0, [offered])
            peer.send(SASL, (len(body) + 4).to_bytes(4, "big") + body)
            await peer.over()

        server, port = await listens(offers)
        try:
            async with connect("127.0.0.1", port, Open("client"), login=Anonymous()):
                raise AssertionError("a login")
        except (LoginRefused, Malformed):
            server.close()


@test
async def a_server_that_stops_in_a_login_is_given_up():
    for said in (b"", b"AMQ", SASL, SASL + b"\0\0", HEADER):

        async def stops(peer, said=said):
            peer.send(said)
            await peer.over()

        server, port = await listens(stops)
        try:
            async with connect("127.0.0.1", port, Open("client"), login=Anonymous(), waits=Waits(login=0.3, closing=0.3)):
                raise AssertionError("a login")
        except ConnectionError:
            server.close()
