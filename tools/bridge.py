#!/usr/bin/env python3
"""Connects the library for C with a broker: sends messages to an address, receives them back, settles, and closes.

    tools/bridge.py LIBRARY HOST PORT ADDRESS [--sasl USER:PASSWORD] [--messages N]

LIBRARY is libamqp1.so of `tools/build_c.sh`. Around its stream this is a reader and a writer of a socket: bytes that came go in, bytes to send come out, and
`tick` does what is due. Protocol headers, SASL (ANONYMOUS, or PLAIN with --sasl), sizes and empty frames are the library's. Prints what it did; a refusal by its name.
Where nobody listens, the peer hangs up, is silent for 20 seconds or ends what it should not, a line on standard error says so, and the status is 1.
"""

import select
import socket
import sys
import time
from pathlib import Path

sys.path.insert(0, str(Path(__file__).resolve().parents[1] / "bindings" / "python"))

from amqp_engine import (
    RECEIVER, SENDER, Anonymous, Attach, Close, Detach, Driver, End, Flow, Malformed, Open, Opening, Plain, Refusal, Transfer, body_of, data, source, target,
)  # fmt: skip
from amqp_engine import driver as said
from amqp_engine.opening import CHALLENGED, NOT_OPENED, SASL_CLIENT
from amqp_engine.sasl import said_by
from shared.command import command, option, told

SESSION = 0
MOST_MS = 20000
OVERDUE = {said.DUE_OPENING_LATE: "the peer did not open in time", said.DUE_PEER_SILENT: "the peer was silent"}
ENDS = {said.DETACHED: Detach, said.ENDED: End, said.CLOSED: Close}
REFUSED = (said.REFUSED, said.ATTACH_WANTED, said.BEGIN_WANTED)


def now():
    return int(time.monotonic() * 1000)


class Bridge:
    """A stream of the library, and a socket. The records come one by one, and the bytes of the last one stay until the next."""

    def __init__(self, library, login):
        open = Open("bridge", max_frame_size=262144, channel_max=255, idle_time_out=MOST_MS)
        self.driver = Driver(open, most=1, library=library, opening=Opening(SASL_CLIENT, [said_by(login)]), time=now(), limit=MOST_MS)
        self.came, self.taken, self.refused = bytearray(), 0, 0

    def connect(self, host, port):
        try:
            self.socket = socket.create_connection((host, port), timeout=MOST_MS / 1000)
        except OSError as error:
            told(f"{host}:{port}: {error.strerror or error}")

    def next(self):
        while True:
            del self.came[: self.taken]
            took = self.driver.take(self.came, now=now())
            self.taken = took.taken
            if took.records:
                return took.records[0]
            if took.is_bad or took.is_over:
                self.socket.sendall(self.driver.to_send())
                told("the peer sent a size that no frame may have" if took.is_bad else "the connection is over")
            if took.wanted:
                self.exchange()

    def exchange(self):
        """Writes what waits, and reads what comes, up to the time at which something is due."""
        tick = self.driver.tick(now())
        self.socket.sendall(self.driver.to_send())
        if tick.due in OVERDUE:
            told(OVERDUE[tick.due])
        left = None if tick.next is None else max(0, tick.next - now()) / 1000
        if select.select([self.socket], [], [], left)[0]:
            some = self.socket.recv(65536)
            if not some:
                told("the peer hung up")
            self.came += some

    def until(self, *kinds):
        """The next record of these kinds. What was refused is told; what ends a link, the session or the connection is the end."""
        while (record := self.next()).kind not in kinds:
            if record.kind in (CHALLENGED, NOT_OPENED):
                told(f"the peer does not let this side in: {self.name_of(record) or 'a challenge'}")
            elif record.kind in REFUSED:
                self.refused += 1
                print(f"refused: {self.name_of(record)}")
            elif record.kind in ENDS:
                kind = ENDS[record.kind]
                error = kind.decode(bytes(self.came[record.at : record.at + record.size])).error
                told(f"the peer sent {kind.__name__}" + (f": {error.condition!r}, {error.description!r}" if error else ""))
        return record

    def name_of(self, record):
        return record.refusal and self.driver.refusal_of(record.refusal).name

    def attach(self, name, role, address):
        link, count = self.driver.link(SESSION, name, role), 0 if role == SENDER else None
        self.driver.attach(SESSION, Attach(name, link, role, source=source(address), target=target(address), initial_delivery_count=count))
        self.until(said.ATTACHED)
        return link

    def detach(self, link):
        self.driver.detach(SESSION, Detach(link, closed=True))
        self.until(said.DETACHED)

    def give(self, address, messages):
        """Sends the messages, and waits until each is settled."""
        link = self.attach("to", SENDER, address)
        credit, sent, unsettled = 0, 0, set()
        while sent < len(messages) or unsettled:
            for message in messages[sent:credit]:
                transfer = Transfer(link, delivery_tag=b"%08x" % sent, message_format=0, settled=False)
                unsettled.add(self.driver.transfer(SESSION, transfer, data(message)))
                sent += 1
            record = self.until(said.FLOW, said.DISPOSITION)
            if record.kind == said.FLOW and record.flags & said.CREDITED:
                credit = record.count + record.credit
            elif record.kind == said.DISPOSITION and record.flags & said.OF_RECEIVER and record.flags & said.SETTLED:
                unsettled -= {it for it in unsettled if record.first <= it <= record.last}
        print(f"sent {sent} messages, all settled by the peer")
        self.detach(link)

    def fetch(self, address, messages):
        """Receives the messages and settles each."""
        link = self.attach("from", RECEIVER, address)
        self.driver.flow(SESSION, Flow(handle=link, delivery_count=0, link_credit=len(messages)))
        for message in messages:
            parts, is_whole = b"", False
            while not is_whole:
                record = self.until(said.TRANSFER)
                parts += self.came[record.payload_at : record.payload_at + record.payload]
                is_whole = not record.flags & said.MORE
            if body_of(parts) != message:
                told("other messages came back")
            self.driver.dispose(SESSION, RECEIVER, record.first, record.first, True, said.STATE_ACCEPTED)
        print(f"received {len(messages)} messages in order, and settled them")
        self.detach(link)

    def talk(self, address, messages):
        self.driver.open()
        self.until(said.OPENED)
        self.driver.begin(SESSION)
        self.until(said.BEGUN)
        self.give(address, messages)
        self.fetch(address, messages)
        self.driver.end(SESSION)
        self.until(said.ENDED)
        self.driver.close()
        self.until(said.CLOSED)
        print(f"closed; {self.refused} refused")


def main():
    words = sys.argv[1:]
    login, count = option(words, "--sasl"), option(words, "--messages") or "20"
    if len(words) != 4 or not words[2].isdecimal() or not count.isdecimal():
        sys.exit(__doc__.strip())
    library, host, port, address = words
    user, _, password = (login or "").partition(":")
    bridge = Bridge(library, Plain(user, password) if login else Anonymous("bridge"))
    bridge.connect(host, int(port))
    try:
        bridge.talk(address, [b"message %d" % at for at in range(int(count))])
    except OSError as error:
        told(f"the stream ended: {error.strerror or error}")
    except Malformed as error:
        told(f"the peer sent what cannot be read: {error}")
    except Refusal as error:
        told(f"this side was refused: {error}")


if __name__ == "__main__":
    command(main, __doc__)
