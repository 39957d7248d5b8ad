#!/usr/bin/env python3
"""A broker in memory: one queue for each address, credit, settlement, both settle modes, messages of up to a million
bytes.

    examples/python/broker.py PORT [--user USER:PASSWORD] [--clients N] [--tls CERTIFICATE KEY] [--first]

It listens on loopback, and serves any client of AMQP 1.0. A message goes back to its queue where its receiver releases
it, or goes without settling it. Where a queue is full, its senders get no credit, and what they send all the same is
rejected. With `--clients N` it ends when so many have come and gone. With `--first` it settles what it takes at once,
for clients that ask to settle first, and do not, as uAMQP.

Frames, sessions, credit and settlement are the library's; what a client may have is `Limits` of the package.
"""

import argparse
import asyncio
import gc
import hmac
import ssl
import sys
from pathlib import Path

sys.path.insert(0, str(Path(__file__).resolve().parents[2] / "bindings" / "python"))

from amqp_engine import Begin, Error, IncomingLink, LinkHandler, Open, Refusal, serve
from amqp_engine.driver import STATE_MODIFIED, STATE_RELEASED
from queues import MESSAGE_MOST, Queues

CREDIT, WINDOW = 200, 2048
CHANNEL_MAX, HANDLE_MAX, NAME_MOST = 31, 255, 1024


class Sender(LinkHandler):
    """A link on which a client sends."""

    def __init__(self, queue, link, settles=None):
        self.queue, self.link = queue, link
        link.accept(CREDIT, handler=self, settles=settles, max_message_size=MESSAGE_MOST)
        self.renew()

    def renew(self):
        if self.queue.has_room():
            self.link.renew()
        else:
            self.queue.wait_for_room(self)

    def delivered(self, link, delivery):
        if self.queue.put(delivery.payload):
            delivery.accept()
        else:
            delivery.reject(Error("amqp:resource-limit-exceeded", "the queue is full"))
        self.renew()

    def ended(self, link, left):
        self.queue.leave(self)
        self.queue.detach()


class Receiver(LinkHandler):
    """A link on which a client receives."""

    def __init__(self, queue, link):
        self.queue, self.link = queue, link
        link.accept(handler=self, max_message_size=MESSAGE_MOST)

    def credited(self, link):
        if link.credit:
            self.queue.wait_for_messages(self)
        else:
            self.queue.leave(self)
        return len(self.queue)

    def sends(self, message):
        """Sends a message, if the client can take it. Where that is refused, the client is closed."""
        try:
            delivery = self.link.try_send(message)
        except Refusal as refusal:
            self.link.connection.fail_soon(refusal)
            return False
        if delivery is not None and delivery.is_settled:
            self.queue.forget(message)
        return delivery is not None

    def settled(self, link, delivery):
        if delivery.outcome in (STATE_RELEASED, STATE_MODIFIED):
            self.queue.put_back(delivery.payload)
        else:
            self.queue.forget(delivery.payload)

    def ended(self, link, left):
        self.queue.leave(self)
        self.queue.put_back(*(it.payload for it in left))
        self.queue.detach()


class Broker:
    """Queues, and what clients attach to them."""

    def __init__(self, settles=None):
        self.queues, self.gone, self.settles = Queues(), asyncio.Semaphore(0), settles

    async def handle(self, connection):
        """Serves a client."""
        try:
            await connection.serve_links(self.attached)
        finally:
            self.gone.release()

    def attached(self, link):
        address = link.address
        if len(link.name) + len(address or "") > NAME_MOST:
            raise Refusal("NameTooLong", "amqp:not-allowed")
        if address is None:
            link.refuse("amqp:not-found", "no address")
            return
        queue = self.queues[address]
        queue.attach()
        if isinstance(link, IncomingLink):
            Sender(queue, link, self.settles)
        else:
            Receiver(queue, link)


def opened():
    return Open("broker", max_frame_size=65536, channel_max=CHANNEL_MAX, idle_time_out=60000)


async def main():
    parser = argparse.ArgumentParser(description=__doc__, formatter_class=argparse.RawDescriptionHelpFormatter)
    parser.add_argument("port", type=int)
    parser.add_argument("--user")
    parser.add_argument("--clients", type=int)
    parser.add_argument("--tls", nargs=2, metavar=("CERTIFICATE", "KEY"))
    parser.add_argument("--first", action="store_true")
    said = parser.parse_args()
    broker, tls = Broker(True if said.first else None), None
    # A full look for what is garbage takes 100 ms with 20,000 links, and no client is served meanwhile. What a client
    # leaves goes without it: nothing of a link or a connection that is over refers to itself.
    gc.set_threshold(700, 10, 1 << 30)
    if said.tls:
        tls = ssl.create_default_context(ssl.Purpose.CLIENT_AUTH)
        tls.load_cert_chain(*said.tls)

    def check(user, password):
        return hmac.compare_digest(f"{user}:{password}".encode(), said.user.encode())

    begin = Begin(incoming_window=WINDOW, outgoing_window=WINDOW, handle_max=HANDLE_MAX)
    how = {"begin": begin, "check": check if said.user else None, "tls": tls}
    async with await serve("127.0.0.1", said.port, opened, broker.handle, **how) as server:
        print(f"listens on 127.0.0.1:{server.sockets[0].getsockname()[1]}", flush=True)
        for _ in range(said.clients or sys.maxsize):
            await broker.gone.acquire()


if __name__ == "__main__":
    asyncio.run(main())
