#!/usr/bin/env python3
"""A client and a server of qpid-proton, for the examples of libamqp1. It wants Debian's python3-qpid-proton, for the python3 of Debian.

    tools/try_c/amqp1_proton.py client PORT COUNT    sends COUNT messages to a server on the loopback and receives them, at the same time
    tools/try_c/amqp1_proton.py server PORT          queues in memory, until the first client has gone

The client prints 'sent N, received N', and fails where a message comes out of order or changed. Every fiftieth message has 200,000 bytes.
"""

import sys
from collections import defaultdict, deque

from proton import Endpoint, Message
from proton.handlers import MessagingHandler
from proton.reactor import Container


class Client(MessagingHandler):
    def __init__(self, port, count):
        super().__init__(prefetch=50)
        self.port, self.count, self.sent, self.accepted, self.received = port, count, 0, 0, 0

    def body(self, number):
        return "x" * (200000 if number % 50 == 49 else 10)

    def on_start(self, event):
        connection = event.container.connect(f"127.0.0.1:{self.port}", heartbeat=4)
        event.container.create_sender(connection, "examples", name="up")
        event.container.create_receiver(connection, "examples", name="down")

    def on_sendable(self, event):
        while event.sender.credit and self.sent < self.count:
            event.sender.send(Message(id=self.sent, body=self.body(self.sent)))
            self.sent += 1

    def on_accepted(self, event):
        self.accepted += 1
        self.end(event)

    def on_message(self, event):
        if event.message.id != self.received or event.message.body != self.body(self.received):
            sys.exit(f"message {self.received} is another one: {event.message.id}")
        self.received += 1
        self.end(event)

    def end(self, event):
        if self.accepted == self.count and self.received == self.count:
            print(f"sent {self.accepted}, received {self.received}")
            event.connection.close()

    def on_transport_error(self, event):
        sys.exit(f"{event.transport.condition}")


class Server(MessagingHandler):
    def __init__(self, port):
        super().__init__()
        self.port, self.queues, self.senders = port, defaultdict(deque), defaultdict(list)

    def on_start(self, event):
        self.acceptor = event.container.listen(f"127.0.0.1:{self.port}")

    def on_link_opening(self, event):
        link = event.link
        link.source.copy(link.remote_source)
        link.target.copy(link.remote_target)
        if link.is_sender:
            self.senders[link.source.address].append(link)

    def pass_on(self, address):
        for sender in self.senders[address]:
            while sender.credit and self.queues[address] and sender.state & Endpoint.REMOTE_ACTIVE:
                sender.send(self.queues[address].popleft())

    def on_sendable(self, event):
        self.pass_on(event.sender.source.address)

    def on_message(self, event):
        self.queues[event.link.target.address].append(event.message)
        self.pass_on(event.link.target.address)

    def on_connection_closing(self, event):
        event.connection.close()
        self.acceptor.close()


def main():
    if sys.argv[1:2] == ["client"] and len(sys.argv) == 4:
        Container(Client(sys.argv[2], int(sys.argv[3]))).run()
    elif sys.argv[1:2] == ["server"] and len(sys.argv) == 3:
        Container(Server(sys.argv[2])).run()
    else:
        sys.exit(__doc__.strip())


if __name__ == "__main__":
    main()
