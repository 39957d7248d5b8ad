#!/usr/bin/env python3
"""Writes the recorded exchanges of expected_exchange.py for the tests of the library for C, as try_c_recorded.c reads them.

    tools/try_c/try_c_recorded.py > FILE

A line is `exchange NAME`, then what is done: `call OPERATION INPUT` with the operation's number and its input in hexadecimal (`-` for none), or
`recv FRAME` with a frame that the peer sent, its size included. After those of an exchange stand the frames that have to go out, each as
`out FRAME`, and the refusals that have to be told, each as `err NAME`; then `end`. What is expected is worked out from the recordings, by client.py.
"""

import sys
from pathlib import Path

sys.path.insert(0, str(Path(__file__).resolve().parents[1]))

from amqp.canonical import composite, uint
from amqp.decoder import parts, value
from amqp.recorded import ATTACH, BEGIN, DETACH, DISPOSITION, FLOW, TRANSFER
from gen import expected_exchange

OPERATIONS = {"open": 2, "close": 3, "begin": 4, "end": 5, "link": 8, ATTACH: 10, DETACH: 11, FLOW: 12, TRANSFER: 13, DISPOSITION: 14}
BEGIN_PERF = composite(BEGIN, [b"\x40", uint(0), uint(5000), uint(5000)])
NO_ERROR = b"\0"


def u32(number):
    return int(number).to_bytes(4, "big")


def sized(frame):
    return (len(frame) + 4).to_bytes(4, "big") + frame


def fields(text):
    """The fields of a performative, in the spelling in which they stand."""
    _, _, at = value(text, 1)
    found, _ = parts(text, at + 1, text[at])
    return [text[start:end] for start, _, end in found]


def number(spelled):
    return int.from_bytes(spelled[1:], "big")


def link(session, name, attach):
    """LINK, with the role and the receiver settle mode of the attach that goes out after it."""
    said = fields(attach)
    role = said[2] == b"\x41"
    mode = number(said[4]) if len(said) > 4 and said[4] != b"\x40" else 0
    return u32(session) + bytes([role, mode]) + name.encode()


def sent(session, text):
    """The operation by which a performative goes out, and its input."""
    code, said = text[2], fields(text)
    head = u32(session)
    if code == DETACH:
        head += b"\x01"
    if code == TRANSFER:
        is_first = len(said) > 2 and said[2] != b"\x40"
        head += bytes([is_first]) + u32(value(text, 0)[2])
    return OPERATIONS[code], head + text


def step(line, after):
    """A line of a transcript as a line of this file."""
    word, _, rest = line.partition(" ")
    if word == "recv":
        return "recv " + sized(bytes.fromhex(rest)).hex()
    first, _, rest = rest.partition(" ")
    if word == "send":
        operation, given = sent(first, bytes.fromhex(rest))
    elif word == "link":
        operation, given = OPERATIONS[word], link(first, rest, bytes.fromhex(after.split(" ")[2]))
    else:
        given = {"begin": lambda: u32(first) + BEGIN_PERF, "end": lambda: u32(first) + NO_ERROR, "close": lambda: NO_ERROR}.get(word, lambda: b"")()
        operation = OPERATIONS[word]
    return f"call {operation} {given.hex() or '-'}"


def is_left_alone(line):
    """Whether it is an echo of a state that is not terminal, `received`: the links of the library for C do not echo those."""
    text = bytes.fromhex(line[4:])[4:] if line.startswith("out ") else b""
    return text[:3] == b"\x00\x53\x15" and fields(text)[4:5] != [] and fields(text)[4][:3] == b"\x00\x53\x23"


def exchange(name, ahead):
    made = expected_exchange.replayed(name, ahead)
    lines, said = made.lines[1:], [line for line in made.out[1:] if not is_left_alone(line)]
    yield "exchange " + name
    for line, after in zip(lines, lines[1:] + [""]):
        yield step(line, after)
    for line in said:
        yield "out " + sized(bytes.fromhex(line[4:])).hex() if line.startswith("out ") else line
    yield "end"


def main():
    for name, ahead in expected_exchange.RECORDINGS.items():
        print("\n".join(exchange(name, ahead)))


if __name__ == "__main__":
    main()
