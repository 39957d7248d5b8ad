#!/usr/bin/env python3
"""Writes the input and the expected output of the program example_client: what a server sends, and what it has to be sent.

    tools/gen/expected_client.py          writes crates/example_client/{args,stdin,stdout}

Both are streams of bytes as they stand on a socket. What the client says is worked out here by hand, frame by frame (AMQP 1.0 part 2, sections
2.5 to 2.7, and part 3, section 3.4), and does not depend on when it reads. Its words are an address and four messages, of which one is longer
than a frame of the server's.
"""

import sys
from pathlib import Path

sys.path.insert(0, str(Path(__file__).resolve().parents[1]))

from amqp.canonical import boolean, composite, string, tag, uint, ushort
from amqp.frames import ATTACH, BEGIN, CLOSE, DETACH, DISPOSITION, END, FLOW, NULL, OPEN, TRANSFER
from gen.expected_broker import sized

CRATE = Path(__file__).resolve().parents[2] / "crates" / "example_client"
HEADER = b"AMQP\0\1\0\0"
SENDER, RECEIVER, YES, NO = boolean(False), boolean(True), boolean(True), boolean(False)
NAME, ADDRESS = "example_client", "queue"
MESSAGES = ["hello", "world", "long" * 200, "last"]
SOURCE, TARGET, ACCEPTED = composite(0x28, []), composite(0x29, [string(ADDRESS)]), composite(0x24, [])
# The server's channel and handle, its largest frame, and its first number; the client's channel and handle are 0.
CHANNEL, HANDLE, MOST, FIRST = 3, 7, 512, 9


def long_string(text):
    """A string with its size in four bytes, as the client spells each."""
    return b"\xb1" + len(text).to_bytes(4, "big") + text.encode()


def long_target(address):
    """A target whose list has its size and its count in four bytes each."""
    field = long_string(address)
    return b"\0\x53\x29\xd0" + (len(field) + 4).to_bytes(4, "big") + (1).to_bytes(4, "big") + field


class Exchange:
    """What the server sends, and what it is sent; beside these how many transfers went."""

    def __init__(self):
        self.given, self.wanted, self.sent = HEADER, HEADER, 0

    def server(self, code, fields, channel=CHANNEL):
        self.given += sized(channel, code, fields, b"")

    def client(self, code, fields, payload=b""):
        self.wanted += sized(0, code, fields, payload)
        self.sent += code == TRANSFER

    def grants(self, count, credit, drain=NULL):
        """A flow of the server's that has seen all transfers, and so many deliveries."""
        self.server(FLOW, [uint(self.sent), uint(5000), uint(FIRST), uint(5000), uint(HANDLE), uint(count), uint(credit), NULL, drain])

    def sends(self, number):
        """A message, in as many transfers as it takes. Its number is that of its delivery, and its tag."""
        parts = in_frames(b"\0\x53\x77" + long_string(MESSAGES[number]))
        for at, part in enumerate(parts):
            more = YES if at + 1 < len(parts) else NULL
            self.client(TRANSFER, [uint(0), *beginning(uint(number), number, at), more], part)


def beginning(delivery, number, at):
    """The fields that only the first transfer of a delivery has: id, tag, format, and that it is not settled."""
    return [delivery, tag({"bin": f"{number:08x}"}), uint(0), NO] if at == 0 else [NULL] * 4


def in_frames(payload):
    """The parts of a message, each in a frame, which leaves room for the widest number."""
    first, later = (MOST - len(sized(0, TRANSFER, [uint(0), *beginning(uint(1 << 31), 0, at), YES], b"")) for at in (0, 1))
    if len(payload) <= first:
        return [payload]
    return [payload[:first], *[payload[at : at + later] for at in range(first, len(payload), later)]]


def opened(it):
    """A connection, a session and a link are made, one after the other."""
    it.client(OPEN, [string(NAME), NULL, uint(65536)])
    it.server(OPEN, [string("server"), NULL, uint(MOST), ushort(7)], 0)
    it.client(BEGIN, [NULL, uint(0), uint(5000), uint(5000)])
    it.server(BEGIN, [ushort(0), uint(FIRST), uint(5000), uint(5000)])
    it.client(ATTACH, [string(NAME), uint(0), SENDER, NULL, NULL, SOURCE, long_target(ADDRESS), NULL, NULL, uint(0)])
    it.server(ATTACH, [string(NAME), uint(HANDLE), RECEIVER, NULL, NULL, SOURCE, TARGET])


def sent(it):
    """There is credit for two messages, and they are accepted; then for five, of which what is left over is given back."""
    it.grants(0, 2)
    it.sends(0)
    it.sends(1)
    it.server(DISPOSITION, [RECEIVER, uint(0), uint(1), YES, ACCEPTED])
    it.grants(2, 5, YES)
    it.sends(2)
    it.sends(3)
    it.client(FLOW, [uint(FIRST), uint(5000), uint(it.sent), uint(5000), uint(0), uint(7), uint(0), uint(0), YES])
    it.server(DISPOSITION, [RECEIVER, uint(2), NULL, YES, ACCEPTED])
    # the server waits for this one to be settled
    it.server(DISPOSITION, [RECEIVER, uint(3), NULL, NULL, ACCEPTED])
    it.client(DISPOSITION, [SENDER, uint(3), uint(3), YES, ACCEPTED])


def closed(it):
    """Link, session and connection are ended, one after the other."""
    for code, fields, theirs in (DETACH, [uint(0), YES], [uint(HANDLE), YES]), (END, [], []):
        it.client(code, fields)
        it.server(code, theirs)
    it.client(CLOSE, [])
    it.server(CLOSE, [], 0)


def main():
    it = Exchange()
    for part in opened, sent, closed:
        part(it)
    CRATE.joinpath("args").write_text("\n".join([ADDRESS, *MESSAGES]) + "\n")
    CRATE.joinpath("stdin").write_bytes(it.given)
    CRATE.joinpath("stdout").write_bytes(it.wanted)


if __name__ == "__main__":
    main()
