#!/usr/bin/env python3
"""Tries the client of the Python package with a broker that listens: messages there and back, of several types and
sizes; what is released; and a connection that breaks while messages go, and is made anew.

    tools/try_client.py URL ADDRESS [--ca CA.pem] [--certificate CERTIFICATE.pem KEY.pem] [--cut] [--released]
    [--simple]

With `--cut` the connection goes through a relay on loopback that breaks it in the middle of 2,000 messages: each has to
arrive at least once, so the broker has to keep them. With `--released` a message that is released has to come again,
which brokers of examples do not do. With `--simple` no body is a list or a map, at which RabbitMQ 3.10 ends the
connection. By a certificate it logs in by EXTERNAL. AMQP_LIBRARY names the library. What is tried has addresses that
begin with ADDRESS. The last line is 'N passed, M failed'.
"""

import argparse
import asyncio
import contextlib
import datetime
import ssl
import sys
import uuid
from pathlib import Path
from urllib.parse import urlsplit

sys.path.insert(0, str(Path(__file__).resolve().parents[1] / "bindings" / "python"))

from amqp_engine import (
    Accepted, Backoff, ConnectionLost, External, Message, Settled, Symbol, TimedOut, Timestamp, blocking, connect,
)  # fmt: skip
from shared.command import command

COUNT = 2000


class Relay:
    """A port on loopback from which bytes go to a broker and back, until it breaks each connection."""

    def __init__(self, host, port):
        self.there, self.tasks = (host, port), []

    async def __aenter__(self):
        self.server = await asyncio.start_server(self.relay, "127.0.0.1", 0)
        self.port = self.server.sockets[0].getsockname()[1]
        return self

    async def __aexit__(self, *_):
        self.server.close()
        self.cut()

    async def relay(self, reader, writer):
        other = await asyncio.open_connection(*self.there)
        both = (self.pass_on(reader, other[1]), self.pass_on(other[0], writer))
        self.tasks += [asyncio.ensure_future(it) for it in both]

    async def pass_on(self, reader, writer):
        with contextlib.suppress(ConnectionError):
            try:
                while data := await reader.read(4096):
                    writer.write(data)
                    await writer.drain()
            finally:
                writer.transport.abort()

    def cut(self):
        for it in self.tasks:
            it.cancel()
        self.tasks = []


class Tries:
    """What is tried, over connections by these words of `connect`."""

    def __init__(self, url, address, how, is_simple):
        self.url, self.address, self.how, self.is_simple = url, address, how, is_simple

    async def there_and_back(self):
        async with connect(self.url, **self.how) as connection, connection.sender(self.address) as sender:
            fields = [{"message_id": at, "properties": {"number": at, "text": "é"}} for at in range(COUNT)]
            sent = [sender.send(Message(at, **fields[at])) for at in range(COUNT)]
            assert await asyncio.gather(*sent) == [Accepted()] * COUNT
            async with connection.receiver(self.address, credit=100) as receiver:
                for at in range(COUNT):
                    delivery = await receiver.receive(timeout=20)
                    message = delivery.message
                    said = (message.body, message.message_id, message.properties["text"])
                    assert said == (at, at, "é"), (at, message)
                    await delivery.accept()
        return f"{COUNT} messages there and back, each accepted"

    async def of_each_kind(self):
        bodies = [
            b"", b"x" * 200000, "text", 5, -(2**40), 1.5, True, None, Symbol("s"), uuid.UUID(int=7), Timestamp(5),
            [1, [2]], {"k": [None, b"b"]},
        ]  # fmt: skip
        bodies = [it for it in bodies if not (self.is_simple and isinstance(it, (list, dict)))]
        now = datetime.datetime.now(datetime.timezone.utc)
        fields = {"subject": "s", "durable": True, "content_type": "a/b", "creation_time": now, "user_id": b"guest"}
        async with connect(self.url, **self.how) as connection:
            receiver = await connection.receiver(self.address, credit=1)
            async with connection.sender(self.address) as sender:
                for body in bodies:
                    await sender.send(Message(body, **fields), timeout=20)
                    delivery = await receiver.receive(timeout=20)
                    message = delivery.message
                    assert (message.body, message.subject, message.content_type) == (body, "s", "a/b"), (body, message)
                    await delivery.accept()
        return f"bodies of {len(bodies)} types"

    async def settled(self):
        async with connect(self.url, **self.how) as connection, connection.sender(self.address) as sender:
            assert await asyncio.gather(*(sender.send(at, settled=True) for at in range(100))) == [Settled()] * 100
            async with connection.receiver(self.address, settled=True, own_session=True) as receiver:
                for at in range(100):
                    delivery = await receiver.receive(timeout=20)
                    assert delivery.message.body == at, (at, delivery.message)
                    await delivery.accept()
        return "100 messages sent settled"

    async def released(self):
        async with connect(self.url, **self.how) as connection, connection.sender(self.address) as sender:
            await sender.send("again")
            async with connection.receiver(self.address, credit=0) as receiver:
                for settle in ("release", "accept"):
                    receiver.grant(1)
                    delivery = await receiver.receive(timeout=20)
                    assert delivery.message.body == "again", delivery.message
                    await getattr(delivery, settle)()
                receiver.grant(1)
                with contextlib.suppress(TimedOut):
                    raise AssertionError((await receiver.receive(timeout=0.5)).message)
        return "a message that is released comes again, and one that is accepted does not"

    async def blocking(self):
        def script():
            with blocking.connect(self.url, **self.how) as connection, connection.sender(self.address) as sender:
                assert [sender.send(at, timeout=20) for at in range(20)] == [Accepted()] * 20
                with connection.receiver(self.address, credit=5) as receiver:
                    for at in range(20):
                        delivery = receiver.receive(timeout=20)
                        assert delivery.message.body == at
                        delivery.accept()

        await asyncio.get_running_loop().run_in_executor(None, script)
        return "20 messages by a script without a loop"

    async def cut(self):
        parts = urlsplit(self.url)
        async with Relay(parts.hostname, parts.port) as relay:
            user = f"{parts.username}:{parts.password}@" if parts.username else ""
            url = f"{parts.scheme}://{user}127.0.0.1:{relay.port}{parts.path}"
            how = {**self.how, "reconnect": Backoff(0.05, 0.5)}
            came, told, lost = await self.over(relay, url, how)
        assert set(came) == set(range(COUNT)) and set(told) == {Accepted()}, (len(set(came)), set(told))
        return f"{COUNT} messages over {lost} connections that broke, each at least once: {len(came)} came"

    async def over(self, relay, url, how):
        came, told, lost = [], [], []
        async with connect(url, **how) as connection:
            connection.on_lost = lost.append
            receiver = await connection.receiver(self.address, credit=50)
            sender = await connection.sender(self.address, resend=True)

            async def sends(at):
                told.append(await sender.send(Message(at, durable=True)))

            sending = [asyncio.ensure_future(sends(at)) for at in range(COUNT)]
            cuts = [COUNT // 4, COUNT]
            with contextlib.suppress(TimedOut):
                while True:
                    delivery = await receiver.receive(timeout=20 if len(set(came)) < COUNT else 0.5)
                    came.append(delivery.message.body)
                    with contextlib.suppress(ConnectionLost):
                        await delivery.accept()
                    if cuts and len(came) >= cuts[0]:
                        cuts.pop(0)
                        relay.cut()
            await asyncio.gather(*sending)
        return came, told, len(lost)


async def tried(what, only):
    passed, failed, address = 0, 0, what.address
    for name in only:
        what.address = f"{address}-{name}"
        try:
            print(f"{name}: {await asyncio.wait_for(getattr(what, name)(), 120)}", flush=True)
            passed += 1
        except Exception as error:
            print(f"FAILED: {name}: {error!r}", flush=True)
            failed += 1
    print(f"{passed} passed, {failed} failed")
    return failed


def main():
    parser = argparse.ArgumentParser(description=__doc__, formatter_class=argparse.RawDescriptionHelpFormatter)
    parser.add_argument("url")
    parser.add_argument("address")
    parser.add_argument("--ca")
    parser.add_argument("--certificate", nargs=2)
    parser.add_argument("--cut", action="store_true")
    parser.add_argument("--released", action="store_true")
    parser.add_argument("--simple", action="store_true")
    said = parser.parse_args()
    how = {}
    if said.ca:
        how["tls"] = ssl.create_default_context(cafile=said.ca)
    if said.certificate:
        how["tls"].load_cert_chain(*said.certificate)
        how["login"] = External()
    only = ["there_and_back", "of_each_kind", "settled", "blocking", *["released"] * said.released, *["cut"] * said.cut]
    sys.exit(asyncio.run(tried(Tries(said.url, said.address, how, said.simple), only)) > 0)


if __name__ == "__main__":
    command(main, __doc__)
