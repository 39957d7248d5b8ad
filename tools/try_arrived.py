#!/usr/bin/env python3
"""qpid-proton's client receives what waits at an address, and looks whether each of these messages is there.

    tools/try_arrived.py URL COUNT

The address is a durable one. A message is the text 'message N', with N from 0 up to COUNT. Each has to come once at
least. It wants Debian's package python3-qpid-proton, and takes what comes until nothing came for three seconds.
"""

import sys
from collections import Counter

from proton import Terminus
from proton.handlers import MessagingHandler
from proton.reactor import Container, ReceiverOption


class Durable(ReceiverOption):
    def apply(self, link):
        link.source.durability = Terminus.DELIVERIES


class Receiver(MessagingHandler):
    def __init__(self, url):
        super().__init__(prefetch=500)
        self.url, self.came, self.before = url, Counter(), -1

    def on_start(self, event):
        event.container.create_receiver(self.url, options=Durable())
        event.container.schedule(3, self)

    def on_message(self, event):
        self.came[bytes(event.message.body).decode()] += 1

    def on_timer_task(self, event):
        if self.before == sum(self.came.values()):
            event.container.stop()
        self.before = sum(self.came.values())
        event.container.schedule(3, self)


def main():
    if len(sys.argv) != 3:
        sys.exit(__doc__.strip())
    receiver = Receiver(sys.argv[1])
    Container(receiver).run()
    wanted = {f"message {number}" for number in range(int(sys.argv[2]))}
    print(f"{len(receiver.came)} messages arrived, and {sum(receiver.came.values()) - len(receiver.came)} again")
    if receiver.came.keys() != wanted:
        sys.exit(f"missing: {len(wanted - receiver.came.keys())}; others: {len(receiver.came.keys() - wanted)}")


if __name__ == "__main__":
    main()
