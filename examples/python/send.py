#!/usr/bin/env python3
"""Sends messages to an address: send.py URL ADDRESS [TEXT..], as send.py amqp://localhost/ queue hello"""

import asyncio
import sys
from pathlib import Path

sys.path.insert(0, str(Path(__file__).resolve().parents[2] / "bindings" / "python"))

from amqp_engine import AmqpError, Message, NotAccepted, connect


async def main(url, address, *texts):
    async with connect(url) as connection, connection.sender(address) as sender:
        for at, text in enumerate(texts or ("hello",)):
            try:
                outcome = await sender.send(Message(text, durable=True, properties={"number": at}), timeout=10)
            except NotAccepted as error:
                sys.exit(f"send: {error}")
            print(f"{text}: {outcome.name}")


if __name__ == "__main__":
    if len(sys.argv) < 3:
        sys.exit(__doc__)
    try:
        asyncio.run(main(*sys.argv[1:]))
    except (AmqpError, OSError) as error:
        sys.exit(f"send: {error}")
