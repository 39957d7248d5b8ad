#!/usr/bin/env python3
"""Asks a service, and answers as one: request_reply.py URL ADDRESS [REPLIES], where the broker gives no address."""

import asyncio
import sys
from pathlib import Path

sys.path.insert(0, str(Path(__file__).resolve().parents[2] / "bindings" / "python"))

from amqp_engine import Message, connect


async def ask(connection, address, body, *own):
    async with connection.sender(address) as sender, connection.receiver(*own, dynamic=not own) as replies:
        await sender.send(Message(body, reply_to=replies.address, correlation_id="1"))
        reply = await replies.receive(timeout=10)
        await reply.accept()
        return reply.message.body


async def serve(connection, address):
    async with connection.receiver(address) as requests:
        async for delivery in requests:
            asked = delivery.message
            async with connection.sender(asked.reply_to) as replies:
                await replies.send(Message(asked.body.upper(), correlation_id=asked.correlation_id))
            await delivery.accept()


async def main(url, address, *own):
    async with connect(url) as connection:
        service = asyncio.ensure_future(serve(connection, address))
        try:
            print(await ask(connection, address, "hello", *own))
        finally:
            service.cancel()
            await asyncio.gather(service, return_exceptions=True)


asyncio.run(main(*sys.argv[1:]))
