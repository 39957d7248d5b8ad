#!/usr/bin/env python3
"""Writes either side of each recorded connection, and of those that made_connections.py makes, for the tests of libamqp1, as amqp1_recorded.c reads
them.

    tools/try_c/amqp1_recorded.py > FILE

A line is `exchange NAME SIDE`, or, of a recording from the first byte on, `client NAME A HOST MECHANISM RESPONSE` or `server NAME B OUTCOME MECHANISM
..`: how the engine logs in, or which mechanisms it offers and what it answers. Host and response are in hexadecimal, `.` of no bytes and `-` where there are none. Then what is done, each with the place of the recorded frame from which it comes: `recv PLACE FRAME` with a frame that
the peer sent, its size included, `call PLACE OPERATION INPUT` with the operation's number and its input in hexadecimal (`-` for none), `send PLACE
SESSION FIRST PERF PAYLOAD` of a transfer, or `bad PLACE` of a request that no operation takes; then `err PLACE NAME` for each refusal that has
to be told, and `end`. A header and a frame of SASL are `recv 0 BYTES`; then `err 0 KIND ..` says what has to be told of each, and `out BYTES` what goes out first. What is wanted stands in captures/refused.rows. A recording with a frame of less than four bytes, which no stream can carry, is
left out.
"""

import re
import sys
from pathlib import Path

sys.path.insert(0, str(Path(__file__).resolve().parents[1]))

from amqp.canonical import composite, uint
from amqp.logins import Login
from amqp.frames import ATTACH, BEGIN, DETACH, DISPOSITION, FLOW, NULL, TRANSFER, Frame
from amqp.transcript import Transcript
from gate.refused_of_captures import connections
from shared.command import command

OPERATIONS = {ATTACH: 10, DETACH: 11, FLOW: 12, DISPOSITION: 14}
OF_SESSION = {"release": 6, "forget": 7}
BEGIN_PERF = composite(BEGIN, [NULL, uint(0), uint(5000), uint(5000)])
# Links take what comes, whichever end they are, and record each delivery: the role is that of the receiver, the mode the second one
RECEIVER, SECOND, NO_ERROR, IS_AWAITED = b"\1", b"\1", b"\0", b"\1"


def u32(number):
    return int(number).to_bytes(4, "big")


def called(operation, given=b""):
    return f"call {{}} {operation} {given.hex() or '-'}"


def sent(session, text):
    """A performative that goes out."""
    frame = Frame(b"\x02\x00\x00\x00" + text)
    perf = text[: len(text) - len(frame.payload)]
    if frame.code == TRANSFER:
        return f"send {{}} {session} {int(frame[2] != NULL)} {perf.hex()} {frame.payload.hex() or '-'}"
    return called(OPERATIONS[frame.code], u32(session) + (IS_AWAITED if frame.code == DETACH else b"") + perf)


def step(line):
    """A line of a transcript as a line of this file, without its place."""
    word, _, rest = line.partition(" ")
    number, _, said = rest.partition(" ")
    if word == "recv":
        frame = bytes.fromhex(rest)
        return f"recv {{}} {(u32(len(frame) + 4) + frame).hex()}"
    if word == "send":
        return sent(int(number), bytes.fromhex(said))
    if word == "link":
        return called(8, u32(number) + RECEIVER + SECOND + said.encode()) if said else "bad {}"
    asked = {"open": lambda: called(2), "close": lambda: called(3, NO_ERROR), "begin": lambda: called(4, u32(number) + BEGIN_PERF)}
    asked["end"] = lambda: called(5, u32(number) + NO_ERROR)
    return asked[word]() if word in asked else called(OF_SESSION[word], u32(number))


def steps(frames, side, login):
    """What is done, in the order of the recording: what the peer sent before frames stands before these."""
    left = [*login.peers] if login else []
    for at, line in Transcript(frames, side).run():
        while left and left[0][0] <= at:
            yield f"recv 0 {left.pop(0)[1].hex()}"
        yield step(line).format(at + 1)
    yield from (f"recv 0 {of.hex()}" for _, of in left)


def main():
    for name, frames, side, wanted in connections():
        if any(len(of) < 4 for _, of in frames):
            continue
        login = Login.recorded(name, side)
        print(login.line(name) if login else f"exchange {name} {side}")
        print(*steps(frames, side, login), sep="\n")
        if login:
            print(*login.wanted(), sep="\n")
        for text in wanted:
            place, refusal = re.match(r"frame (\d+), [AB], .*?: (bad line|\w+)", text).groups()
            print(f"err {place} {refusal}")
        print("end")


if __name__ == "__main__":
    command(main, __doc__)
