"""The same by qpid-proton's client for Python, for bench_client.py."""

PAYLOAD = b"x" * 64
AT_ONCE = 100


def trusting(ca):
    from proton import SSLDomain

    if not ca:
        return None
    domain = SSLDomain(SSLDomain.MODE_CLIENT)
    domain.set_trusted_ca_db(ca)
    domain.set_peer_authentication(SSLDomain.VERIFY_PEER_NAME)
    return domain


def send(url, address, count, ca):
    from proton import Message
    from proton.handlers import MessagingHandler
    from proton.reactor import Container

    class Sends(MessagingHandler):
        sent = accepted = 0

        def on_start(self, event):
            connection = event.container.connect(url, ssl_domain=trusting(ca), allowed_mechs="ANONYMOUS")
            self.sender = event.container.create_sender(connection, address)

        def on_sendable(self, event):
            while self.sender.credit and self.sent < count and self.sent - self.accepted < AT_ONCE:
                self.sender.send(Message(PAYLOAD))
                self.sent += 1

        def on_accepted(self, event):
            self.accepted += 1
            self.on_sendable(event)
            if self.accepted == count:
                event.connection.close()

    Container(Sends()).run()


def receive(url, address, count, ca):
    from proton.handlers import MessagingHandler
    from proton.reactor import Container

    class Receives(MessagingHandler):
        came = 0

        def __init__(self):
            super().__init__(prefetch=2 * AT_ONCE)

        def on_start(self, event):
            connection = event.container.connect(url, ssl_domain=trusting(ca), allowed_mechs="ANONYMOUS")
            event.container.create_receiver(connection, address)

        def on_message(self, event):
            assert bytes(event.message.body) == PAYLOAD
            self.came += 1
            if self.came == count:
                event.connection.close()

    Container(Receives()).run()


def blocking_send(url, address, count, ca):
    from proton import Message
    from proton.utils import BlockingConnection

    connection = BlockingConnection(url, ssl_domain=trusting(ca), allowed_mechs="ANONYMOUS")
    sender = connection.create_sender(address)
    for _ in range(count):
        sender.send(Message(PAYLOAD))
    connection.close()


def blocking_receive(url, address, count, ca):
    from proton.utils import BlockingConnection

    connection = BlockingConnection(url, ssl_domain=trusting(ca), allowed_mechs="ANONYMOUS")
    receiver = connection.create_receiver(address, credit=2 * AT_ONCE)
    for _ in range(count):
        message = receiver.receive()
        assert bytes(message.body) == PAYLOAD
        receiver.accept()
    connection.close()
