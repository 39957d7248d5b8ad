#!/usr/bin/env python3
"""qpid-proton's client sends messages to a server, or receives them, on a link of these settle modes.

    tools/try_modes.py send|receive HOST:PORT/ADDRESS COUNT unsettled|settled|mixed first|second

It wants Debian's package python3-qpid-proton. A sender of the mode mixed settles each second message as it sends it. In
the mode second a receiver says its outcome first, and settles once the sender has. It prints what it counted.
"""

import sys

from proton import Delivery, Link, Message
from proton.handlers import MessagingHandler
from proton.reactor import Container, LinkOption

SENDER = {"unsettled": Link.SND_UNSETTLED, "settled": Link.SND_SETTLED, "mixed": Link.SND_MIXED}
RECEIVER = {"first": Link.RCV_FIRST, "second": Link.RCV_SECOND}


class Modes(LinkOption):
    def __init__(self, sender, receiver):
        self.modes = SENDER[sender], RECEIVER[receiver]

    def apply(self, link):
        link.snd_settle_mode, link.rcv_settle_mode = self.modes


class Client(MessagingHandler):
    def __init__(self, url, count, modes):
        super().__init__(prefetch=0, auto_accept=False, auto_settle=False)
        self.url, self.count, self.modes, self.option = url, count, modes, Modes(*modes)
        self.settled = self.unsettled = self.done = self.answered = 0

    def on_link_opened(self, event):
        self.answered = event.link.remote_snd_settle_mode, event.link.remote_rcv_settle_mode

    def end_where_done(self, event):
        if self.settled + self.unsettled == self.count and self.done == self.unsettled:
            event.link.close()
            event.connection.close()

    def on_transport_error(self, event):
        sys.exit(f"transport: {event.transport.condition}")


class Sends(Client):
    def on_start(self, event):
        event.container.create_sender(self.url, options=self.option)

    def on_sendable(self, event):
        while event.sender.credit and self.settled + self.unsettled < self.count:
            number = self.settled + self.unsettled
            delivery = event.sender.send(Message(f"message {number}"))
            if self.modes[0] == "mixed" and number % 2:
                delivery.settle()
            self.settled += delivery.settled or self.modes[0] == "settled" or (self.modes[0] == "mixed" and number % 2)
            self.unsettled = number + 1 - self.settled
        self.end_where_done(event)

    def on_accepted(self, event):
        # the server settles in the mode first; in the mode second it waits for this client
        if event.delivery.settled != (self.modes[1] == "first"):
            sys.exit("settled otherwise than the mode says")
        event.delivery.settle()
        self.done += 1
        self.end_where_done(event)


class Receives(Client):
    def on_start(self, event):
        event.container.create_receiver(self.url, options=self.option).flow(self.count)

    def on_message(self, event):
        if event.message.body != f"message {self.settled + self.unsettled}".encode():
            sys.exit(f"another message: {event.message.body!r}")
        self.settled += event.delivery.settled
        self.unsettled += not event.delivery.settled
        if event.delivery.settled:
            event.delivery.settle()
        elif self.modes[1] == "second":
            event.delivery.update(Delivery.ACCEPTED)
        else:
            self.accept(event.delivery)
            self.done += 1
        self.end_where_done(event)

    def on_settled(self, event):
        event.delivery.settle()
        self.done += 1
        self.end_where_done(event)


def main():
    if len(sys.argv) != 6 or sys.argv[1] not in ("send", "receive"):
        sys.exit(__doc__.strip())
    word, url, count, *modes = sys.argv[1:]
    client = {"send": Sends, "receive": Receives}[word](url, int(count), modes)
    Container(client).run()
    wanted = SENDER[modes[0]], RECEIVER[modes[1]]
    print(f"{word}: {client.settled} settled, {client.done} of {client.unsettled} unsettled settled since")
    if client.answered != wanted or client.done != client.unsettled or client.settled + client.unsettled != int(count):
        sys.exit(f"answered by {client.answered}, where {wanted} was asked")


if __name__ == "__main__":
    main()
