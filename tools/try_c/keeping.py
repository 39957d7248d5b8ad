#!/usr/bin/env python3
"""A server that keeps each message in a file before it accepts it, for try_c_client_killed.py: tools/try_c/keeping.py
PORT FILE. It prints its port, and takes numbers as bodies, a line of the file each."""

import asyncio
import os
import sys
from pathlib import Path

sys.path.insert(0, str(Path(__file__).resolve().parents[2] / "bindings" / "python"))

from amqp_engine import LinkHandler, Open, serve


class Keeps(LinkHandler):
    """Takes what comes on a link."""

    def __init__(self, file, link):
        self.file = file
        link.accept(100, handler=self)
        link.renew()

    def delivered(self, link, delivery):
        os.write(self.file, b"%d\n" % delivery.message.body)
        delivery.accept()
        link.renew()


async def main():
    file = os.open(sys.argv[2], os.O_WRONLY | os.O_APPEND | os.O_CREAT)

    async def handle(connection):
        await connection.serve_links(lambda link: Keeps(file, link))

    async with await serve("127.0.0.1", int(sys.argv[1]), lambda: Open("keeps"), handle) as server:
        print(server.sockets[0].getsockname()[1], flush=True)
        await asyncio.Event().wait()


if __name__ == "__main__":
    asyncio.run(main())
