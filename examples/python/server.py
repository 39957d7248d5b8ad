#!/usr/bin/env python3
"""Serves clients without a broker: server.py PORT. It prints what they send, and gives who receives three greetings."""

import asyncio
import sys
from pathlib import Path

sys.path.insert(0, str(Path(__file__).resolve().parents[2] / "bindings" / "python"))

from amqp_engine import IncomingLink, Message, Open, serve


async def takes(link):
    link.accept(100)
    async for delivery in link:
        print(delivery.message.body, flush=True)
        delivery.accept()


async def greets(link):
    link.accept()
    for number in range(3):
        await link.send(Message(f"hello {number}"))


async def handle(connection):
    async for link in connection.links():
        connection.create_task(takes(link) if isinstance(link, IncomingLink) else greets(link))


async def main(port):
    async with await serve("127.0.0.1", int(port), lambda: Open("server"), handle) as server:
        print(f"serving on 127.0.0.1:{server.sockets[0].getsockname()[1]}", flush=True)
        await server.serve_forever()


asyncio.run(main(*sys.argv[1:]))
