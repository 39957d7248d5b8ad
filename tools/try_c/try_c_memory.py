"""What try_c.py tries of memory that the library is refused: each call in turn, of a client and of a server. A call
raises `MemoryError` and goes on, or that connection ends, and no other."""

import asyncio
import collections
import contextlib
import ctypes
import gc
import logging
import sys
from pathlib import Path

sys.path.insert(0, str(Path(__file__).resolve().parents[2] / "bindings" / "python"))

from amqp_engine import (
    Accepted, AmqpError, Attach, IncomingLink, LinkHandler, Message, NoMemory, Open, OutgoingLink, PeerSilent, Waits,
    connect, library, serve, source, target,
)  # fmt: skip
from hostile.peers import Raw, frame, holds
from try_c.try_c_client_peers import tests

TESTS, test = tests(600)
WAITS = Waits(login=2.0, answer=0.3, reading=1.0, closing=0.1)
#: What never asks for memory, or tells no status
NEVER = ("amqp1_free", "amqp1_written")
COUNT, LONGEST = 4, 60.0


class Refusing:
    """A library that is refused memory for one call, the first of which has the number 0."""

    def __init__(self, at=None):
        self.real, self.at, self.calls = library.load(), at, 0

    def __getattr__(self, name):
        call = getattr(self.real, name)
        if name in NEVER or name.startswith(("amqp1_put", "amqp1_begin_list", "amqp1_end_list")):
            return call
        return lambda *given: self.called(call, given)

    def called(self, call, given):
        self.calls += 1
        if self.calls - 1 != self.at:
            return call(*given)
        # what says how much was done says nothing
        told = getattr(given[-1], "_obj", None)
        if told is not None:
            ctypes.memset(ctypes.addressof(told), 0, ctypes.sizeof(told))
        return library.NO_MEMORY


@contextlib.contextmanager
def refusing(at):
    """A name under which a program finds such a library."""
    it = library._LOADED["refusing"] = Refusing(at)
    try:
        yield it
    finally:
        del library._LOADED["refusing"]


class Queues(LinkHandler):
    """What a server has: it keeps what comes to an address, and hands it out."""

    def __init__(self):
        self.kept = collections.defaultdict(list)

    def attached(self, link):
        if isinstance(link, IncomingLink):
            link.accept(COUNT, handler=self)
            link.renew()
        else:
            link.accept(handler=self)

    def delivered(self, link, delivery):
        self.kept[link.address].append(delivery.message.body)
        delivery.accept()
        link.renew()

    def credited(self, link):
        kept = self.kept[link.address]
        while kept and link.try_send(Message(kept[0])) is not None:
            kept.pop(0)
        return len(kept)


class Server:
    """A server on loopback, and what it was told."""

    def __init__(self, **how):
        self.queues, self.told, self.how = Queues(), [], how

    async def __aenter__(self):
        async def handle(connection):
            await connection.serve_links(self.queues.attached)

        how = {"told": self.told.append, "waits": WAITS, **self.how}
        self.server = await serve("127.0.0.1", 0, lambda: Open("s"), handle, **how)
        self.url = f"amqp://127.0.0.1:{self.server.sockets[0].getsockname()[1]}/"
        return self

    async def __aexit__(self, *_):
        self.server.close()
        await self.server.wait_closed()


async def exchange(url, address, **how):
    """A client sends some messages, and takes as many: what became of each step."""
    found = []
    async with connect(url, waits=WAITS, **how) as connection:
        async with connection.sender(address) as sender:
            sent = (sender.send(at) for at in range(COUNT))
            found += await asyncio.gather(*sent, return_exceptions=True)
        async with connection.receiver(address, credit=2) as receiver:
            for _ in range(found.count(Accepted())):
                delivery = await receiver.receive(timeout=20)
                found.append(delivery.message.body)
                await delivery.accept()
    return found


async def tried(url, address, **how):
    """The same, or the error by which it ended."""
    try:
        return await asyncio.wait_for(exchange(url, address, **how), LONGEST)
    except (NoMemory, AmqpError, PeerSilent) as error:
        return [error]


def whole(found):
    """Whether nothing was refused."""
    return found == [Accepted()] * COUNT + list(range(COUNT))


def lawful(found):
    """Whether each step was done, or tells why not."""
    return all(isinstance(it, (Accepted, int, NoMemory, AmqpError, PeerSilent)) for it in found)


async def each_call(once):
    """Refuses each call in turn, until there are no more; how often the exchange was done all the same."""
    loud, wholes, at = [], 0, 0
    asyncio.get_running_loop().set_exception_handler(lambda _, what: loud.append(what))
    logging.getLogger("amqp_engine").setLevel(logging.CRITICAL)
    while True:
        with refusing(at) as of:
            found, is_well = await once()
        assert lawful(found) and is_well and not loud, (at, found, is_well, loud)
        wholes += whole(found)
        if of.calls <= at:
            break
        at += 1
    stays = [it for it in asyncio.all_tasks() if "amqp_engine" in repr(it)]
    _, stays = await asyncio.wait(stays, timeout=LONGEST) if stays else ((), ())
    assert not stays and at > 50 and wholes > 1, (at, wholes, stays)


@test
async def a_client_that_is_refused_memory_is_told_or_loses_its_connection():
    async def once():
        async with Server() as server:
            found = await tried(server.url, "one", library="refusing")
            return found, whole(await tried(server.url, "other"))

    await each_call(once)


@test
async def what_a_client_leaves_goes_without_a_search_for_garbage():
    async with Server() as server:
        gc.collect()
        gc.disable()
        try:
            peer = await Raw.opened(int(server.url.split(":")[2].strip("/")))
            for at in range(200):
                ends, count = {"source": source(f"a{at}"), "target": target(f"a{at}")}, None if at % 2 else 0
                peer.send(frame(Attach(f"l{at}", at, at % 2 == 1, initial_delivery_count=count, **ends)))
            for _ in range(200):
                await peer.until(0x12)
            assert count_of(OutgoingLink) == count_of(IncomingLink) == 100
            peer.gone()
            assert await holds(lambda: count_of(OutgoingLink) == count_of(IncomingLink) == 0)
        finally:
            gc.enable()


def count_of(kind):
    return sum(type(it) is kind for it in gc.get_objects())


@test
async def a_server_that_is_refused_memory_ends_one_connection_at_most():
    async def once():
        async with Server(library="refusing") as server:
            found, of = await tried(server.url, "one"), library._LOADED["refusing"]
            # memory is refused once: the next client finds all as it was
            return found, of.calls <= of.at or whole(await tried(server.url, "other"))

    await each_call(once)
