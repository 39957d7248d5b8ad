#!/usr/bin/env python3
"""Sends messages to an address of a broker, receives them back, settles them, and closes.

    examples/python/send_receive.py HOST PORT ADDRESS [--sasl USER:PASSWORD] [--messages N] [--size BYTES]

The package `amqp_engine` is in `bindings/python`; AMQP_LIBRARY names `libamqp1.so` (`tools/build_c.sh`).
"""

import argparse
import asyncio
import sys
from pathlib import Path

sys.path.insert(0, str(Path(__file__).resolve().parents[2] / "bindings" / "python"))

from amqp_engine import (
    ACCEPTED, RECEIVER, SENDER, Anonymous, Attach, Attached, Delivery, Detached, Disposed, Flowed, Open, Plain, Refusal,
    Transferred, body_of, connect, data, source, target,
)  # fmt: skip
from amqp_engine.driver import FORMATTED
from amqp_engine.linking import EVENT_FAULT, EVENT_LAST, EVENT_SETTLED, WISH_GRANT

SESSION = 0
#: How many messages may be unsettled
UNSETTLED_MOST = 1024


class Link:
    """A link of this side, by its handle."""

    def __init__(self, connection, name, role, address):
        self.engine = connection.engine
        self.output = self.engine.link(SESSION, name, role)
        ends = (source(), target(address)) if role == SENDER else (source(address), target())
        self.engine.link_attach(SESSION, Attach(name, self.output, role, source=ends[0], target=ends[1]))

    def sends(self, number, message):
        """Whether a message goes out: the link may have no credit for it."""
        return not self.engine.link_deliver(
            Delivery(SESSION, self.output, number.to_bytes(4, "big"), data(message), FORMATTED)
        ).refusal

    def left(self):
        """How many messages are left unsettled where the peer has gone, as text."""
        count = len(list(self.engine.link_left_of(SESSION, SENDER)))
        return f"; messages left unsettled: {count}" if count else ""


async def next_event(connection, kind, link):
    """The next event of this kind for the link; what else comes is passed over, but for a refusal."""
    async for event in connection:
        if isinstance(event, Refusal):
            raise event
        if isinstance(event, Detached) and event.detach.error:
            sys.exit(
                f"the peer detached: {event.detach.error.condition}: {event.detach.error.description}{link.left()}"
            )
        if event.link.kind == EVENT_FAULT:
            # the peer did what it may not do, as to send past its credit: it is told by a Detach
            link.engine.link_respond(event.link)
            await connection.flush()
            sys.exit("the peer broke the rules of the link")
        if isinstance(event, kind) and (isinstance(event, Disposed) or link.output == event.output_handle):
            return event
    sys.exit(f"the peer closed: {connection.engine.state}{link.left()}")


async def send(connection, address, messages):
    """Sends the messages, each unsettled, and waits until the peer has settled all."""
    link = Link(connection, "sender", SENDER, address)
    await next_event(connection, Attached, link)
    sent = settled = 0
    while settled < len(messages):
        while sent < len(messages) and sent - settled < UNSETTLED_MOST and link.sends(sent, messages[sent]):
            sent += 1
        event = await next_event(connection, (Flowed, Disposed), link)
        if isinstance(event, Disposed) and event.state not in (None, ACCEPTED):
            sys.exit(f"the peer does not take a message: {event.state}")
        if event.link.kind == EVENT_SETTLED:
            settled += len(list(link.engine.link_settled_of(event.link)))
        link.engine.link_respond(event.link, len(messages) - sent)
    print(f"sent {sent} messages, all settled by the peer")
    return link


async def receive(connection, address, wanted):
    """Receives the messages in order, and settles each."""
    link = Link(connection, "receiver", RECEIVER, address)
    await next_event(connection, Attached, link)
    link.engine.link_flow(SESSION, link.output, WISH_GRANT, len(wanted))
    parts, came = b"", 0
    while came < len(wanted):
        event = await next_event(connection, Transferred, link)
        parts += event.payload
        if event.link.flags & EVENT_LAST:
            if body_of(parts) != wanted[came]:
                sys.exit(f"message {came} is another one")
            link.engine.link_accept(event.link)
            parts, came = b"", came + 1
    print(f"received {came} messages in order, and settled them")
    return link


async def main():
    parser = argparse.ArgumentParser(description=__doc__, formatter_class=argparse.RawDescriptionHelpFormatter)
    parser.add_argument("host")
    parser.add_argument("port", type=int)
    parser.add_argument("address")
    parser.add_argument("--sasl")
    parser.add_argument("--messages", type=int, default=20)
    parser.add_argument("--size", type=int, default=64)
    said = parser.parse_args()
    login = Plain(*said.sasl.split(":", 1)) if said.sasl else Anonymous()
    messages = [b"%08d" % at + bytes(max(0, said.size - 8)) for at in range(said.messages)]
    async with connect(
        said.host, said.port, Open("send_receive", hostname=said.host, idle_time_out=60000), login=login
    ) as connection:
        connection.engine.open()
        await connection.session(SESSION)
        for link in (await send(connection, said.address, messages), await receive(connection, said.address, messages)):
            link.engine.link_detach(SESSION, link.output, closed=True)
        connection.engine.end(SESSION)
        await connection.close()
        print(f"closed: {connection.engine.state}")


if __name__ == "__main__":
    try:
        asyncio.run(main())
    except (OSError, Refusal) as error:
        sys.exit(f"send_receive: {error}")
