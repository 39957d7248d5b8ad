#!/usr/bin/env python3
"""Has amqp_replay take either side of each recorded connection, and compares what it refuses with what it should; and of those that
made_connections.py makes. Each recording is also read as tshark shows a followed stream, in chunks of 1, 7 and 4096 bytes.

    tools/gate/refused_of_captures.py [PROGRAM]

PROGRAM is crates/amqp_replay/out/amqp_replay where it is left out, as the gate builds it. The recordings and the wanted refusals,
refused.rows, are in captures. The last line is 'N passed, M failed', a test for each connection and side, and for each
recording and size.
"""

import sys
from pathlib import Path

sys.path.insert(0, str(Path(__file__).resolve().parents[1]))

from amqp.recorded import CAPTURES
from amqp.recordings import of_lines, recorded
from amqp.transcript import Transcript
from gate.made_connections import cases
from shared.command import command
from transcript import refusals

ROOT = Path(__file__).resolve().parents[2]


def wanted():
    """The wanted refusals, by recording and side: a line `== NAME SIDE` before each; a line that begins with # gives a reason."""
    found, of = {}, None
    for line in (CAPTURES / "refused.rows").read_text().splitlines():
        if line.startswith("== "):
            of = found.setdefault(tuple(line.split()[1:]), [])
        elif line and not line.startswith("#"):
            of.append(line)
    return found


def shown(frames, size):
    """The frames as a followed stream, in chunks of this size: the protocol's header first, then each frame after its own size."""
    lines, started = ["Follow: tcp,raw"], set()
    for side, frame in frames:
        of = (b"" if side in started else b"AMQP\0\1\0\0") + (len(frame) + 4).to_bytes(4, "big") + frame
        started.add(side)
        lines += ["\t" * (side == "B") + of[at : at + size].hex() for at in range(0, len(of), size)]
    return lines


def connections():
    """Each connection, as its name, its frames, the side that the engine takes, and what it should refuse."""
    table = wanted()
    assert {name for name, _ in table} == {it.stem for it in CAPTURES.glob("*.txt")}, "a recording stands in no table"
    for (name, side), lines in table.items():
        yield name, recorded(CAPTURES / f"{name}.txt"), side, lines
    yield from cases()


def main():
    program = sys.argv[1] if len(sys.argv) > 1 else ROOT / "crates" / "amqp_replay" / "out" / "amqp_replay"
    failed, table, names = [], [*connections()], [it.stem for it in CAPTURES.glob("*.txt")]
    for name, frames, side, lines in table:
        told = refusals(Transcript(frames, side), program)
        if told != lines:
            failed.append((name, side))
            print(f"{name} {side}: refused\n" + "\n".join(told) + "\nwanted\n" + "\n".join(lines))
    tried = [(name, size) for name in sorted(names) for size in (1, 7, 4096)]
    for name, size in tried:
        frames = recorded(CAPTURES / f"{name}.txt")
        if of_lines(shown(frames, size)).frames != frames:
            failed.append((name, size))
            print(f"{name}, chunks of {size}: other frames were read")
    print(f"{len(table) + len(tried) - len(failed)} passed, {len(failed)} failed")
    sys.exit(bool(failed))


if __name__ == "__main__":
    command(main, __doc__)
