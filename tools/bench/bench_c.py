#!/usr/bin/env python3
"""Counts what the library for C needs for a transfer, beside qpid-proton's connection driver, both in tools/bench/bench_c.c.

    tools/bench/bench_c.py PREFIX [--time]

PREFIX is where tools/build_c.sh put the library. It wants Debian's gcc and libqpid-proton11-dev, and, without `--time`, valgrind: then it prints instructions,
as callgrind counts them, else nanoseconds of processor time, the least of several runs. A row is a slope between two counts of transfers, so that what
is done once is in none.
"""

import re
import subprocess
import sys
import tempfile
from pathlib import Path

sys.path.insert(0, str(Path(__file__).resolve().parents[1]))

from bench.measured import per_unit, seconds
from shared.command import command, told

ROOT = Path(__file__).resolve().parents[2]
FEW, MANY = 1000, 3000


def instructions(words):
    """The instructions of one run."""
    ran = subprocess.run(["valgrind", "--tool=callgrind", "--callgrind-out-file=/dev/null", *words], capture_output=True, text=True)
    counted = re.search(r"Collected : (\d+)", ran.stderr)
    if ran.returncode or not counted:
        told(f"{' '.join(words)}: {ran.stderr.strip()[-200:] or 'no count'}")
    return int(counted[1])


def of_one(words, batch, size, is_time):
    """What one transfer of this size takes, so many at once."""
    if is_time:
        most = 1000000 if size < 1000 else 50000
        return 1e9 * per_unit(lambda count: seconds([*words, str(count - count % batch), str(batch), str(size)], b""), most, 1000)
    few, many = (instructions([*words, str(count), str(batch), str(size)]) for count in (FEW, MANY))
    return (many - few) / (MANY - FEW)


def main():
    words, is_time = [it for it in sys.argv[1:] if it != "--time"], "--time" in sys.argv
    if len(words) != 1:
        sys.exit(__doc__.strip())
    prefix = Path(words[0])
    with tempfile.TemporaryDirectory() as folder:
        program = f"{folder}/bench_c"
        source = [str(ROOT / "tools" / "bench" / "bench_c.c"), f"{prefix}/lib/libamqp1.a"]
        subprocess.run(["cc", "-O2", f"-I{prefix}/include", *source, "-l:libqpid-proton-core.so.10", "-o", program], check=True)
        print("| | ours | qpid-proton |\n|---|---|---|")
        for mode in ("receive", "unsettled", "settled"):
            for batch, size in ((1, 64), (100, 64), (100, 16384)):
                row = [of_one([program, who, mode], batch, size, is_time) for who in ("ours", "proton")]
                print(f"| {mode}, by {batch}, of {size} bytes | {row[0]:.0f} | {row[1]:.0f} |", flush=True)


if __name__ == "__main__":
    command(main, __doc__)
