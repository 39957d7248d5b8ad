#!/usr/bin/env python3
"""Writes the input and the expected output of the program example_broker: what one client sends, and what it has to be sent.

    tools/gen/expected_broker.py          writes crates/example_broker/{stdin,stdout}

Both are streams of bytes as they stand on a socket. What the broker answers is worked out here by hand, frame by frame (AMQP 1.0 part 2,
sections 2.5 to 2.7, and part 3, section 3.4), and does not depend on when it reads.
"""

import sys
from pathlib import Path

sys.path.insert(0, str(Path(__file__).resolve().parents[1]))

from amqp.canonical import boolean, composite, string, symbol, tag, ubyte, uint, ulong, ushort
from amqp.frames import ATTACH, BEGIN, CLOSE, DETACH, DISPOSITION, END, FLOW, NULL, OPEN, TRANSFER

CRATE = Path(__file__).resolve().parents[2] / "crates" / "example_broker"
HEADER = b"AMQP\0\1\0\0"
SENDER, RECEIVER, YES, NO = boolean(False), boolean(True), boolean(True), boolean(False)
SECOND = ubyte(1)
SOURCE, TARGET = composite(0x28, [string("q")]), composite(0x29, [string("q")])
ACCEPTED, RELEASED = composite(0x24, []), composite(0x26, [])
# the same by its name, with an empty list
ACCEPTED_BY_NAME = b"\0" + symbol("amqp:accepted:list") + b"\x45"
# the client's channel, and the broker's, which is the lowest
THEIRS, OURS = 3, 0
LONG = bytes(range(256)) * 4
# how many bytes of a message the broker takes
MOST_MESSAGE = 1048576


class Exchange:
    """What the client sends, and what it is sent; the broker's numbers of transfers beside."""

    def __init__(self):
        self.given, self.wanted = HEADER, HEADER
        self.received, self.sent = 0, 0

    def client(self, code, fields, payload=b"", channel=THEIRS):
        self.given += sized(channel, code, fields, payload)
        self.received += code == TRANSFER

    def broker(self, code, fields, payload=b"", channel=OURS):
        self.wanted += sized(channel, code, fields, payload)
        self.sent += code == TRANSFER

    def grants(self, handle, count):
        """The broker's flow for a link on which the client sends: after the session's numbers the link's, with a credit of 500."""
        self.broker(FLOW, [*self.numbers(), uint(handle), uint(count), uint(500)])

    def numbers(self):
        return [uint(self.received), uint(5000), uint(self.sent), uint(5000)]

    def message(self, handle, number, parts, settled=None):
        """A message of the client's, each part in a transfer of its own."""
        for at, part in enumerate(parts):
            first = [uint(number), tag({"bin": f"{number:02x}"}), uint(0), boolean(settled)] if at == 0 else [NULL] * 4
            self.client(TRANSFER, [uint(handle), *first, YES if at + 1 < len(parts) else NULL], part)

    def delivered(self, handle, number, message, payload, settled=False):
        """A message of the broker's, in as many transfers as it takes. Its tag is the message's number, in the order in which they came."""
        parts = in_frames(payload, 512)
        for at, part in enumerate(parts):
            first = [uint(number), tag({"bin": f"{message:016x}"}), uint(0), boolean(settled)] if at == 0 else [NULL] * 4
            self.broker(TRANSFER, [uint(handle), *first, YES if at + 1 < len(parts) else NULL], part)

    def flow(self, handle, count, credit, drain=NULL, unseen=0, window=5000):
        """A flow of the client's, which has not seen the last transfers yet, so many."""
        numbers = [uint(self.sent - unseen), uint(window), uint(self.received), uint(5000)]
        self.client(FLOW, [*numbers, uint(handle), uint(count), uint(credit), NULL, drain])

    def detaches(self, handle, condition):
        """The broker ends a link, and the client answers."""
        self.broker(DETACH, [uint(handle), YES, composite(0x1D, [symbol(condition)])])
        self.client(DETACH, [uint(handle), YES])

    def accepts(self, first, settled=YES):
        self.broker(DISPOSITION, [RECEIVER, uint(first), uint(first), settled, ACCEPTED])


def sized(channel, code, fields, payload):
    frame = b"\2\0" + channel.to_bytes(2, "big") + composite(code, fields) + payload
    return (len(frame) + 4).to_bytes(4, "big") + frame


def in_frames(payload, limit):
    """The parts of a message of the broker's, each in a frame, which leaves room for the widest number."""
    widest = uint(1 << 31)
    first = limit - len(sized(OURS, TRANSFER, [uint(1), widest, tag({"bin": "0" * 16}), uint(0), NO, YES], b""))
    later = limit - len(sized(OURS, TRANSFER, [uint(1), widest, *[NULL] * 3, YES], b""))
    return [payload[:first], *[payload[at : at + later] for at in range(first, len(payload), later)]]


def opened(it):
    it.broker(OPEN, [string("example_broker"), NULL, uint(65536), ushort(255)])
    it.client(OPEN, [string("client"), NULL, uint(512), ushort(7)], channel=0)
    # a session of the client's, whose answer names the client's channel
    it.client(BEGIN, [NULL, uint(0), uint(5000), uint(5000)])
    it.broker(BEGIN, [ushort(THEIRS), uint(0), uint(5000), uint(5000)])


def attached(it, handle, role, mode=NULL, name="link", settles=NULL, most=NULL):
    """A link of the client's; the broker gives it the same handle, since it counts from 0 too."""
    count = uint(0) if role == SENDER else NULL
    it.client(ATTACH, [string(name), uint(handle), role, settles, mode, SOURCE, TARGET, NULL, NULL, count, most])
    other = RECEIVER if role == SENDER else SENDER
    last = [uint(0)] if role == RECEIVER else [NULL, ulong(MOST_MESSAGE)]
    it.broker(ATTACH, [string(name), uint(handle), other, settles, mode, SOURCE, TARGET, NULL, NULL, *last])
    if role == SENDER:
        it.grants(handle, 0)


def sends_and_receives(it):
    """A sender and a receiver of one name; a message in two parts, and one that is longer than a frame."""
    attached(it, 0, SENDER)
    attached(it, 1, RECEIVER)
    it.message(0, 0, [b"hello, ", b"world"])
    it.accepts(0)
    it.message(0, 1, [LONG])
    it.accepts(1)
    it.message(0, 2, [b"settled"], settled=True)
    it.flow(1, 0, 2)
    it.delivered(1, 0, 0, b"hello, world")
    it.delivered(1, 1, 1, LONG)


def gives_back(it):
    """The first message is accepted; the second is released, and comes again after more credit."""
    it.client(DISPOSITION, [RECEIVER, uint(0), NULL, YES, ACCEPTED])
    it.client(DISPOSITION, [RECEIVER, uint(1), NULL, YES, RELEASED])
    it.flow(1, 2, 1)
    it.delivered(1, 2, 1, LONG)
    # a detach gives it back too, and releases handle and name
    it.client(DETACH, [uint(1), YES])
    it.broker(DETACH, [uint(1), YES])


def settles_second(it):
    """On links of the second mode the sending end settles first."""
    attached(it, 1, RECEIVER, SECOND, "second")
    it.flow(1, 0, 1)
    it.delivered(1, 3, 1, LONG)
    it.client(DISPOSITION, [RECEIVER, uint(3), NULL, NULL, ACCEPTED])
    # the answer to a range names its last too
    it.broker(DISPOSITION, [SENDER, uint(3), uint(3), YES, ACCEPTED])
    attached(it, 2, SENDER, SECOND, "second")
    it.message(2, 3, [b"second"])
    it.accepts(3, NULL)
    it.client(DISPOSITION, [SENDER, uint(3), NULL, YES])


def drains(it):
    """What is drained is used up, by messages that come settled, and by a flow."""
    attached(it, 3, RECEIVER, NULL, "drained", ubyte(1))
    it.flow(3, 0, 9, YES)
    it.delivered(3, 4, 2, b"settled", True)
    it.delivered(3, 5, 3, b"second", True)
    it.broker(FLOW, [*it.numbers(), uint(3), uint(9), uint(0), uint(0), YES])


def waits_for_the_window(it):
    """A message that is longer than the client's window goes on with it; and only then what is drained is used up."""
    attached(it, 4, RECEIVER, NULL, "windowed", ubyte(1))
    it.message(0, 4, [LONG])
    it.accepts(4)
    it.message(0, 5, [b"short"])
    it.accepts(5)
    it.flow(4, 0, 9, YES, window=1)
    it.delivered(4, 6, 4, LONG, True)
    it.flow(4, 0, 9, YES, unseen=2, window=50)
    it.delivered(4, 7, 5, b"short", True)
    it.broker(FLOW, [*it.numbers(), uint(4), uint(9), uint(0), uint(0), YES])


def takes_a_state_by_its_name(it):
    """A message that is accepted by the name of that state is settled: it does not come again where its link goes."""
    it.message(0, 6, [b"named"])
    it.accepts(6)
    it.flow(1, 1, 1)
    it.delivered(1, 8, 6, b"named")
    it.client(DISPOSITION, [RECEIVER, uint(8), NULL, NULL, ACCEPTED_BY_NAME])
    it.broker(DISPOSITION, [SENDER, uint(8), uint(8), YES, ACCEPTED_BY_NAME])
    it.client(DETACH, [uint(1), YES])
    it.broker(DETACH, [uint(1), YES])
    it.flow(3, 9, 1, YES)
    it.broker(FLOW, [*it.numbers(), uint(3), uint(10), uint(0), uint(0), YES])


def ends_a_link(it):
    """A link whose client takes no message so long as the one that waits; another one gets it. Without a source there is no link."""
    attached(it, 1, RECEIVER, NULL, "small", NULL, ulong(3))
    it.message(0, 7, [b"four"])
    it.accepts(7)
    it.flow(1, 0, 1)
    it.detaches(1, "amqp:link:message-size-exceeded")
    it.flow(3, 10, 1)
    it.delivered(3, 9, 7, b"four", True)
    it.client(ATTACH, [string("none"), uint(1), RECEIVER, NULL, NULL, NULL, TARGET])
    it.broker(ATTACH, [string("none"), uint(1), SENDER, NULL, NULL, NULL, TARGET, NULL, NULL, uint(0)])
    it.detaches(1, "amqp:invalid-field")


def closed(it):
    """The session ends; a link of one that is over is refused by a Close."""
    it.client(END, [])
    it.broker(END, [])
    it.client(BEGIN, [NULL, uint(7), uint(5000), uint(5000)], channel=5)
    it.broker(BEGIN, [ushort(5), uint(0), uint(5000), uint(5000)])
    it.client(DETACH, [uint(9)], channel=4)
    error = composite(0x1D, [symbol("amqp:not-found")])
    it.broker(CLOSE, [error], channel=0)


def main():
    it = Exchange()
    for part in opened, sends_and_receives, gives_back, settles_second, drains, waits_for_the_window, takes_a_state_by_its_name, ends_a_link, closed:
        part(it)
    CRATE.joinpath("stdin").write_bytes(it.given)
    CRATE.joinpath("stdout").write_bytes(it.wanted)


if __name__ == "__main__":
    main()
