#!/usr/bin/env python3
"""Writes inputs for amqp1_fuzz.c into a folder: of each recorded connection the frames of either side, in pieces, which are answered too; what was
recorded from the first byte on, with its login; each operation; records; ticks; transfers by heads; and the calls of links with credit.

    tools/try_c/amqp1_corpus.py FOLDER
"""

import struct
import sys
from pathlib import Path

sys.path.insert(0, str(Path(__file__).resolve().parents[1]))

from amqp.recorded import CAPTURES
from amqp.recordings import recorded
from shared.command import command

MAKE, TAKE, ANSWER, ANSWER_ANY, CALL, TICK, SEND, OUTPUT = range(8)
# All answers, to the sessions 9 and on; and a server's answer that lets a client in
ALL, LETS_IN = b"\x0f\x09", bytes([30, 0, 0])
BEGIN_WANTED, ENDED, CLOSED, REFUSED = 12, 9, 10, 11
BEGIN = "005311c00704404352645264"
PERFS = {
    4: BEGIN,
    10: "005312c00803a1036f75744341",
    11: "01005316c003024341",
    12: "005313c0080543524043526443",
    13: "010000000d005314c008054340a001744342ff",
    14: "005315c006054143434140",
    34: "0000000c" + BEGIN + "02000005" + BEGIN,
    35: "00",
}


def step(kind, room, data=b""):
    return bytes([kind + 8 * room, len(data) >> 8, len(data) & 255]) + data


def pieces(frames, how=TAKE, front=b""):
    """Frames as they come in one stream, at most 3,000 bytes of it, each frame by a step of its own."""
    made = step(MAKE, 2)
    for of in frames:
        if len(made) > 3000:
            break
        made += step(how, 3, front + (len(of) + 4).to_bytes(4, "big") + of[:1000]) + step(OUTPUT, 5)
    return made


def from_the_first_byte(lines, side):
    """What a side sent, as it comes to a server or a client; a client is let in."""
    made = step(MAKE, 6 if side == "A" else 7)
    for by, of in lines:
        if by == side and len(made) < 3000:
            is_header = of.startswith(b"AMQP")
            made += step(ANSWER, 3, ALL + (b"" if is_header else (len(of) + 4).to_bytes(4, "big")) + of) + step(OUTPUT, 5)
            made += step(CALL, 1, LETS_IN) if side == "A" and not is_header and of[1] == 1 else b""
    return made


def answers():
    """A Begin, an End, a Close and what is refused, each as it comes, and by a record of its own."""
    perfs = (BEGIN_WANTED, BEGIN), (ENDED, "00531745"), (CLOSED, "00531845"), (REFUSED, "00531145")
    for kind, perf in perfs:
        of = bytes.fromhex("02000003" if kind == ENDED else "02000005") + bytes.fromhex(perf)
        frame = (len(of) + 4).to_bytes(4, "big") + of
        record = struct.pack("<BBH14I2H32x", kind, 0, 0, 7, *[2**32 - 1] * 2, 0, 0, 0, 0, 0, 0, 0, 8, len(of) - 4, len(of) + 4, 0, 5, 0)
        yield step(MAKE, 5) + step(ANSWER, 3, ALL + frame * 2) + step(OUTPUT, 31)
        yield step(MAKE, 5) + step(ANSWER_ANY, 0, ALL + record + frame) + step(OUTPUT, 31)


def ticks():
    """Time passes: both sides idle, and each opening is late."""
    for far in range(16):
        yield step(MAKE, far) + (step(TICK, 6) + step(OUTPUT, 31)) * 5 + step(TICK, 31) * 5


def requests():
    for operation in range(38):
        body = bytes([operation]) + (7).to_bytes(4, "big") + bytes.fromhex(PERFS.get(operation, ""))
        yield step(MAKE, operation % 6) + step(CALL, 8, body) + step(CALL, 1, bytes([operation])) + step(OUTPUT, 20)


def sends():
    head = struct.pack("<IIIIHH", 7, 0, 0, 4, 1 + 16384, 4)
    for count in range(1, 4):
        yield step(SEND, count + 4 + 24, head * count + b"tag1data" * count) + step(OUTPUT, 31)
        yield step(SEND, count + 8, head * count + b"tag1dat" * count) + step(OUTPUT, 31)
    for long in (1500, 2**32 - 1):
        yield step(SEND, 1 + 8, struct.pack("<IIIIHH", 7, 0, 0, long, 1 + 16384, 4) + b"tag1")


def link_call(which, numbers, body=""):
    """A call of links: the first number is the session that is there, whatever it is."""
    return step(CALL, 1, bytes([128 + which]) + struct.pack(">4I", 0xFFFFFFFF, *numbers) + bytes.fromhex(body))


def came(performative):
    return step(TAKE, 3, frame(performative)) + step(OUTPUT, 31)


def links():
    """Links with credit: a delivery that came, and three that go after a flow; each call, in the order in which a program makes them, and alone."""
    made = step(MAKE, 16 + 5) + came("005313c00c0743524043520a520543520a") + came("005314c00905520643a00161434277")
    send, attach, error = "7401020304", PERFS[10], "00531dc00401a30161"
    goes = [link_call(6, (0, 4, flags + 0x10000), send) for flags in (0x4000, 0x4004, 0x4008, 0x4002, 0x4000, 0x4004, 0x4000)]
    settles = [link_call(7, (role, 0, 9), "000000") + link_call(8, (role, 0, 9)) * 3 for role in (0, 1)]
    peer = [came(of) for of in ("005315c00a05414352094100532445", "005313c00c074352404352405206520243", "005316c00402520541", "005316c00402520641")]
    flows = [link_call(4, (link, wish, 3)) for link in range(2) for wish in range(5)]
    ends = [link_call(5, (link, 1, 0), body) + link_call(11, (link, 0, 0)) for link in range(2) for body in (error, "")]
    left = [link_call(which, (0, 0, 0)) + link_call(which, (1, 0, 0)) for which in (9, 10)] + [link_call(11, (0, 0, 0)), link_call(11, (1, 0, 0))]
    another = step(CALL, 1, bytes([8]) + (7).to_bytes(4, "big") + b"\0\0new") + link_call(0, (1, 2, 0), "005312c00803a1036e65774342")
    others = [another, link_call(0, (1, 2, 0), attach), link_call(1, (0, 0, 0)), link_call(3, (9, 0, 0)), link_call(13, (0, 0, 0)), link_call(12, (0, 0, 0))]
    story = goes + settles[:1] + peer[:2] + settles[1:] + flows + ends + peer[2:] + left + others
    yield made + b"".join(story) + step(OUTPUT, 31)
    yield made + b"".join(goes + peer + left + ends) + step(OUTPUT, 31)
    for it in story:
        yield made + it * 2 + step(OUTPUT, 31)
    for which in range(14):
        yield made + step(CALL, 1, bytes([128 + which]) + struct.pack(">4I", 7, 9, 9, 9) + bytes(120)) + step(OUTPUT, 31)


def frame(performative):
    of = bytes.fromhex("02000003" + performative)
    return (len(of) + 4).to_bytes(4, "big") + of


def main():
    folder = Path(sys.argv[1])
    folder.mkdir(parents=True, exist_ok=True)
    inputs = [*requests(), *sends(), *answers(), *ticks(), *links()]
    for path in sorted(CAPTURES.glob("*.txt")):
        frames = recorded(path)
        inputs += [pieces([of for by, of in frames if by == side]) for side in "AB"]
        inputs += [pieces([of for by, of in frames if by == side], ANSWER, ALL) for side in "AB"]
        lines = [(line[0], bytes.fromhex(line[2:])) for line in path.read_text().splitlines() if line[:2] in ("A ", "B ")]
        inputs += [from_the_first_byte(lines, side) for side in "AB" if lines[:1] and lines[0][1].startswith(b"AMQP\3")]
    for at, it in enumerate(inputs):
        (folder / f"{at:03}").write_bytes(it)
    print(f"{len(inputs)} inputs")


if __name__ == "__main__":
    command(main, __doc__)
