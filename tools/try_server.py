#!/usr/bin/env python3
"""Has qpid-proton's client send messages to a broker and receive them back, over sockets on loopback.

    tools/try_server.py PROGRAM      starts PROGRAM, as example_broker, for each connection, with the socket as its standard input and output
    tools/try_server.py PORT         tries a broker that listens on 127.0.0.1:PORT

The client is Debian's package python3-qpid-proton, as it comes: a sender and a receiver of one address share a link's name. The last line is
'N passed, M failed'.
"""

import socket
import subprocess
import sys
import threading

from shared.command import command, told

try:
    from proton import Message
    from proton.reactor import AtMostOnce
    from proton.utils import BlockingConnection
except ImportError:
    BlockingConnection = None

TIMEOUT = 60


class Server:
    """A socket on loopback, and a program for each connection."""

    def __init__(self, program):
        self.program, self.running = program, []
        self.socket = socket.create_server(("127.0.0.1", 0))
        self.port = self.socket.getsockname()[1]
        threading.Thread(target=self.accept, daemon=True).start()

    def accept(self):
        while True:
            peer, _ = self.socket.accept()
            peer.setsockopt(socket.IPPROTO_TCP, socket.TCP_NODELAY, 1)
            self.running.append(subprocess.Popen([self.program], stdin=peer, stdout=peer))
            peer.close()

    def statuses(self):
        return [it.wait(timeout=TIMEOUT) for it in self.running]

    def end(self):
        for it in self.running:
            if it.poll() is None:
                it.kill()


class Listening:
    """A broker that listens already."""

    def __init__(self, port):
        self.port = port

    def statuses(self):
        return [0]

    def end(self):
        pass


def connected(server, **settings):
    return BlockingConnection(f"amqp://127.0.0.1:{server.port}", timeout=TIMEOUT, sasl_enabled=False, **settings)


def bodies(count, size):
    return [f"{number:08}".encode().ljust(size, b"x") for number in range(count)]


def send(connection, sent, options=None):
    sender = connection.create_sender("messages", options=options)
    for body in sent:
        sender.send(Message(body=body))
    return sender


def receive(connection, count, options=None):
    receiver = connection.create_receiver("messages", credit=10, options=options)
    got = []
    for _ in range(count):
        got.append(bytes(receiver.receive(timeout=TIMEOUT).body))
        if receiver.fetcher.unsettled:
            receiver.accept()
    return receiver, got


def there_and_back(server, count, size, **settings):
    """Messages go to the queue first, and come back then, in order."""
    connection = connected(server, **settings)
    sent = bodies(count, size)
    send(connection, sent)
    _, got = receive(connection, count)
    connection.close()
    return got == sent


def settled_as_sent(server):
    """Messages that nobody settles: both ends send them settled."""
    connection = connected(server)
    sent = bodies(100, 64)
    send(connection, sent, AtMostOnce())
    _, got = receive(connection, 100, AtMostOnce())
    connection.close()
    return got == sent


def given_back(server):
    """A message that is released comes again, and so do those that a link had not settled when it was detached."""
    connection = connected(server)
    sent = bodies(20, 64)
    send(connection, sent)
    receiver = connection.create_receiver("messages", credit=1)
    first = bytes(receiver.receive(timeout=TIMEOUT).body)
    receiver.release(delivered=False)
    receiver.close()
    receiver, got = receive(connection, 10)
    receiver.close()
    _, rest = receive(connection, 10)
    connection.close()
    return first == sent[0] and sorted(got + rest) == sent


def links_come_and_go(server):
    """Links are opened and closed under the same names, fifty times."""
    connection = connected(server)
    good = True
    for body in bodies(50, 64):
        sender = send(connection, [body])
        receiver, got = receive(connection, 1)
        sender.close()
        receiver.close()
        good = good and got == [body]
    connection.close()
    return good


TESTS = [
    ("1,000 messages of 64 bytes go there and back", lambda server: there_and_back(server, 1000, 64)),
    ("100 messages of 100 kB, where a frame has 512 bytes", lambda server: there_and_back(server, 100, 100000, max_frame_size=512)),
    ("100 messages of 100 kB, where a frame has what it likes", lambda server: there_and_back(server, 100, 100000)),
    ("messages that are sent settled", settled_as_sent),
    ("messages that are given back", given_back),
    ("links that come and go", links_come_and_go),
]


def tried(program, what, test):
    server = Listening(int(program)) if program.isdigit() else Server(program)
    try:
        good = test(server) and set(server.statuses()) == {0}
        why = "" if good else "other messages came back, or a status is not 0"
    except Exception as error:
        good, why = False, f"{type(error).__name__}: {error}"
    server.end()
    print(f"{'ok' if good else 'FAILED'}: {what}" + (f": {why}" if why else ""))
    return good


def main():
    if len(sys.argv) != 2:
        sys.exit(__doc__.strip())
    if BlockingConnection is None:
        told("no module proton: install Debian's python3-qpid-proton, and run /usr/bin/python3")
    good = [tried(sys.argv[1], what, test) for what, test in TESTS]
    print(f"{sum(good)} passed, {len(good) - sum(good)} failed")
    sys.exit(0 if all(good) else 1)


if __name__ == "__main__":
    command(main, __doc__)
