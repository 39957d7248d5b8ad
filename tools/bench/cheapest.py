#!/usr/bin/env python3
"""Counts what the least C needs for some rows of tools/bench/bench.py and tools/bench/bench_engine.py, in instructions for a transfer.

    tools/bench/cheapest.py

It builds tools/bench/cheapest.c by `cc -O3`, for x86-64-v2 as the engine's program is built, and runs it under callgrind (Debian's `valgrind`), as a slope
between two counts. A row has the work alone, and what it takes to make what the work is given. What the C leaves out stands at its top.
"""

import re
import subprocess
import sys
import tempfile
from pathlib import Path

sys.path.insert(0, str(Path(__file__).resolve().parents[1]))

from bench.bench import run
from bench.program import codec_frames, lines
from shared.command import command, told

BATCH = 100
# The words of each row, and how many transfers a count stands for
ROWS = {
    "decode transfer": ("decode", [codec_frames()["transfer"]], 1),
    "receive and accept, by 100": ("receive", [lines()[1]], BATCH),
    "receive, keep, accept and settle, by 100": ("keep", [], BATCH),
    "send settled, by 100, into a buffer": ("send", [], BATCH),
}
COUNTS = {1: (500, 1500), BATCH: (20, 60)}


def instructions(words):
    out, said = run(words[0], words[1:], [], ["valgrind", "--tool=callgrind", "--callgrind-out-file=/dev/null"])
    counted = re.search(r"Collected : (\d+)", said)
    if not counted or not out.startswith("sum="):
        told(f"{' '.join(words)}: {out}{said[-200:]}")
    return int(counted[1])


def slope(program, mode, more, each):
    """What one transfer takes. Both counts have as many digits, as in bench_engine.py."""
    few, many = COUNTS[each]
    digits = len(str(many))
    counted = [instructions([program, mode, str(count).zfill(digits), *more]) for count in (few, many)]
    return (counted[1] - counted[0]) / (many - few) / each


def main():
    if len(sys.argv) > 1:
        sys.exit(__doc__)
    with tempfile.TemporaryDirectory() as folder:
        program = f"{folder}/cheapest"
        subprocess.run(["cc", "-O3", "-march=x86-64-v2", str(Path(__file__).with_suffix(".c")), "-o", program], check=True)
        print(f"{'a transfer':46}{'instr.':>10}{'its input':>10}")
        for name, (mode, words, each) in ROWS.items():
            given = 0 if words else slope(program, mode, ["idle"], each)
            print(f"{name:46}{slope(program, mode, words, each) - given:10.0f}{given:10.0f}", flush=True)


if __name__ == "__main__":
    command(main, __doc__)
