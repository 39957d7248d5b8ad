#!/usr/bin/env python3
"""Shows what is in a queue, and leaves it there: browse.py URL ADDRESS. It is written without asyncio."""

import sys
from pathlib import Path

sys.path.insert(0, str(Path(__file__).resolve().parents[2] / "bindings" / "python"))

from amqp_engine import AmqpError, TimedOut, blocking


def main(url, address):
    with blocking.connect(url) as connection, connection.receiver(address, mode="copy") as receiver:
        while True:
            try:
                delivery = receiver.receive(timeout=1)
            except TimedOut:
                return
            print(delivery.message.subject, delivery.message.body)
            delivery.accept()


if __name__ == "__main__":
    if len(sys.argv) != 3:
        sys.exit(__doc__)
    try:
        main(*sys.argv[1:])
    except (AmqpError, OSError) as error:
        sys.exit(f"browse: {error}")
