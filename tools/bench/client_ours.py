"""What bench_client.py times of the package for Python: each function does it at this URL, and trusts this authority
where it is by TLS."""

import asyncio
import ssl

PAYLOAD = b"x" * 64
AT_ONCE = 100


def trusting(ca):
    return ssl.create_default_context(cafile=ca) if ca else None


async def send(url, address, count, ca):
    from amqp_engine import Message, connect

    async with connect(url, tls=trusting(ca)) as connection, connection.sender(address) as sender:
        left = iter(range(count))

        async def sends():
            for _ in left:
                await sender.send(Message(PAYLOAD))

        await asyncio.gather(*(sends() for _ in range(AT_ONCE)))


async def send_one(url, address, count, ca):
    from amqp_engine import Message, connect

    async with connect(url, tls=trusting(ca)) as connection, connection.sender(address) as sender:
        for _ in range(count):
            await sender.send(Message(PAYLOAD))


async def receive(url, address, count, ca):
    from amqp_engine import connect

    async with connect(url, tls=trusting(ca)) as connection:
        async with connection.receiver(address, credit=2 * AT_ONCE) as receiver:
            for _ in range(count):
                delivery = await receiver.receive()
                assert delivery.message.body == PAYLOAD
                await delivery.accept()


def blocking_send(url, address, count, ca):
    from amqp_engine import Message, blocking

    with blocking.connect(url, tls=trusting(ca)) as connection, connection.sender(address) as sender:
        for _ in range(count):
            sender.send(Message(PAYLOAD))


def blocking_receive(url, address, count, ca):
    from amqp_engine import blocking

    with blocking.connect(url, tls=trusting(ca)) as connection:
        with connection.receiver(address, credit=2 * AT_ONCE) as receiver:
            for _ in range(count):
                delivery = receiver.receive()
                assert delivery.message.body == PAYLOAD
                delivery.accept()
