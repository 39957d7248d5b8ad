#!/usr/bin/env python3
"""Speaks TLS before a server that does not: what comes by TLS goes on to it as it is, and what it answers comes back.

    tools/bench/tls_front.py PORT

It listens at another port of loopback, which it prints, with the file of an authority that it makes for this once, by
`openssl`. It goes on until it is killed, or its standard input ends.
"""

import asyncio
import ssl
import subprocess
import sys
import tempfile
from pathlib import Path

sys.path.insert(0, str(Path(__file__).resolve().parents[1]))

from shared.command import command

AT_ONCE = 1 << 16


def certified(folder):
    """What a server needs that is localhost, by a certificate of its own, and the file that a client trusts."""
    ca, key = Path(folder, "localhost.pem"), Path(folder, "localhost.key")
    words = ["openssl", "req", "-x509", "-newkey", "rsa:2048", "-nodes", "-days", "2", "-subj", "/CN=localhost"]
    words += ["-addext", "subjectAltName=DNS:localhost", "-keyout", key, "-out", ca]
    subprocess.run(words, check=True, stderr=subprocess.DEVNULL)
    context = ssl.SSLContext(ssl.PROTOCOL_TLS_SERVER)
    context.load_cert_chain(ca, key)
    return context, ca


async def pass_on(reader, writer):
    """Until one side ends, or is gone."""
    try:
        while came := await reader.read(AT_ONCE):
            writer.write(came)
            await writer.drain()
    except OSError:
        pass
    finally:
        writer.close()


async def front(port, context, ca):
    async def taken(reader, writer):
        to, back = await asyncio.open_connection("127.0.0.1", port)
        await asyncio.gather(pass_on(reader, back), pass_on(to, writer))

    server = await asyncio.start_server(taken, "127.0.0.1", 0, ssl=context)
    print(server.sockets[0].getsockname()[1], ca, flush=True)
    await asyncio.to_thread(sys.stdin.read)


def main():
    if len(sys.argv) != 2:
        sys.exit(__doc__.strip())
    with tempfile.TemporaryDirectory() as folder:
        asyncio.run(front(int(sys.argv[1]), *certified(folder)))


if __name__ == "__main__":
    command(main, __doc__)
