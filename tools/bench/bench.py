#!/usr/bin/env python3
"""What the codec costs, in instructions for a frame and in requests for memory, with the figures of qpid-proton beside it.

    tools/bench/bench.py [PROGRAM]

PROGRAM is the program of `crates/bench_engine`, as `rt run` builds it. Where none is named it is built first. Callgrind counts
(Debian's `valgrind`), as a slope between two counts, so that what is done once is out. Glibc is told to copy without `rep movsb`,
which callgrind counts as one instruction a byte. A row holds the loop too: the row `clone` is that of a shared copy of the bytes
alone, which each row of `decode` and `read` makes as well. qpid-proton's figures come from `bench_proton.py`: counted in the same run where its
packages are installed, and else stored.
"""

import os
import re
import subprocess
import sys
from pathlib import Path

sys.path.insert(0, str(Path(__file__).resolve().parents[1]))

from bench.bench_proton import figures
from bench.program import ENGINE_LINES, built, codec_frames
from shared.command import command

FEW, MANY = 100, 300
PAYLOAD = b"x" * 64


def run(program, words, lines, under=()):
    """What a run of the program prints, on its two outputs."""
    environment = dict(os.environ, GLIBC_TUNABLES="glibc.cpu.x86_rep_movsb_threshold=1073741824")
    done = subprocess.run([*under, program, *map(str, words)], input="\n".join(lines) + "\n", text=True, capture_output=True, env=environment)
    if done.returncode:
        sys.exit(f"{' '.join(map(str, words))}: {done.stderr[-1000:]}")
    return done.stdout, done.stderr


def counted(program, mode, count, limit, lines):
    """The instructions, the requests for memory, and the answers of a run."""
    words, lines = ("codec", mode, count, limit), [""] * ENGINE_LINES + lines
    out, said = run(program, words, lines, ["valgrind", "--tool=callgrind", "--callgrind-out-file=/dev/null"])
    instructions = int(re.search(r"Collected : (\d+)", said).group(1))
    _, said = run(program, words, lines, ["valgrind", "--tool=memcheck"])
    requests = int(re.search(r"total heap usage: ([\d,]+) allocs", said).group(1).replace(",", ""))
    return instructions, requests, int(re.search(r"answers=(\d+)", out).group(1))


def row(program, name, mode, lines, limit=65536, beside=None):
    """Prints the cost of one answer."""
    few = counted(program, mode, FEW, limit, lines)
    many = counted(program, mode, MANY, limit, lines)
    answers = many[2] - few[2]
    instructions, requests = ((many[i] - few[i]) / answers for i in (0, 1))
    proton = f"{beside:8}" if beside else ""
    print(f"{name:34}{instructions:10.0f}{requests:10.2f}{proton:>10}", flush=True)


def main():
    program = sys.argv[1] if len(sys.argv) > 1 else built()
    frames, proton = codec_frames(), figures()
    transfer, nine = frames["transfer"] + PAYLOAD.hex(), [*frames.values()]
    print(f"{'an answer':34}{'instr.':>10}{'requests':>10}{'proton':>10}")
    row(program, "clone", "clone", [transfer])
    for name, frame in frames.items():
        row(program, f"decode {name}", "decode", [frame], beside=proton[name])
    row(program, "decode, mean of the nine", "decode", nine, beside=proton["mean"])
    row(program, "decode transfer, 64 bytes after", "decode", [transfer])
    row(program, "read, mean of the nine", "read", nine)
    row(program, "length, mean of the nine", "length", nine)
    for name, frame in frames.items():
        row(program, f"encode {name}", "encode", [frame])
    row(program, "encode, mean of the nine", "encode", nine)
    row(program, "encode transfer, 64 bytes after", "encode", [transfer])
    row(program, "a piece of 16 kB cut at 508", "encode", [frames["transfer"] + "78" * 16384], limit=508)


if __name__ == "__main__":
    command(main, __doc__)
