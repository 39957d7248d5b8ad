#!/usr/bin/env python3
"""Sends a message over TLS, and logs in by a certificate (EXTERNAL), and receives it back:

    examples/python/tls.py amqps://HOST:PORT/ ADDRESS AUTHORITY.pem [CERTIFICATE.pem KEY.pem]
"""

import asyncio
import ssl
import sys
from pathlib import Path

sys.path.insert(0, str(Path(__file__).resolve().parents[2] / "bindings" / "python"))

from amqp_engine import AmqpError, External, Message, connect


async def main(url, address, authority, *own):
    tls = ssl.create_default_context(cafile=authority)
    login = {}
    if own:
        tls.load_cert_chain(*own)
        login = {"login": External()}
    async with connect(url, tls=tls, **login) as connection:
        async with connection.sender(address) as sender:
            print((await sender.send(Message("over TLS"))).name)
        async with connection.receiver(address) as receiver:
            delivery = await receiver.receive(timeout=10)
            await delivery.accept()
            print(delivery.message.body)


if __name__ == "__main__":
    if len(sys.argv) < 4:
        sys.exit(__doc__)
    try:
        asyncio.run(main(*sys.argv[1:]))
    except (AmqpError, OSError) as error:
        sys.exit(f"tls: {error}")
