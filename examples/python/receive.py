#!/usr/bin/env python3
"""Receives messages and accepts them: receive.py URL ADDRESS [COUNT]. A lost connection is made anew."""

import asyncio
import sys
from pathlib import Path

sys.path.insert(0, str(Path(__file__).resolve().parents[2] / "bindings" / "python"))

from amqp_engine import AmqpError, connect


async def main(url, address, count="1"):
    async with connect(url, reconnect=True) as connection, connection.receiver(address, credit=100) as receiver:
        left = int(count)
        async for delivery in receiver:
            message = delivery.message
            print(message.body, dict(message.properties))
            await delivery.accept()
            left -= 1
            if not left:
                break


if __name__ == "__main__":
    if len(sys.argv) < 3:
        sys.exit(__doc__)
    try:
        asyncio.run(main(*sys.argv[1:]))
    except (AmqpError, OSError) as error:
        sys.exit(f"receive: {error}")
