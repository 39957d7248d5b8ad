#!/usr/bin/env python3
"""Writes docs/bench/DATE.md: what the codec and the engine cost, counted and timed, with qpid-proton beside them.

    tools/bench/bench_page.py DATE PROGRAM [--time]

PROGRAM is the program of `crates/bench_engine`, as `rt run` builds it. It runs `tools/bench/bench.py` and
`tools/bench/bench_engine.py`, and weighs what an open delivery and a session keep. With `--time` it runs `tools/bench/bench_engine.py --time` too: let nothing
else run meanwhile. Instructions do not depend on that.
"""

import os
import platform
import re
import subprocess
import sys
from pathlib import Path

sys.path.insert(0, str(Path(__file__).resolve().parents[1]))

from bench.program import CRATE
from gate import toolchain
from shared.command import command

ROOT = Path(__file__).resolve().parents[2]


def said(*words):
    """What a tool prints."""
    run = subprocess.run([sys.executable, *map(str, words)], stdin=subprocess.DEVNULL, stdout=subprocess.PIPE, text=True, check=True)
    return run.stdout.rstrip()


def processor():
    """The name of the machine's processor, and how many there are."""
    model = re.search(r"model name\s*: (.*)", Path("/proc/cpuinfo").read_text())
    return f"{model.group(1) if model else platform.machine()}, {os.cpu_count()} of them"


def commit():
    """The commit that the page is written at."""
    return subprocess.run(["git", "rev-parse", "--short", "HEAD"], cwd=ROOT, stdout=subprocess.PIPE, text=True, check=True).stdout.strip()


def peak(program, *words):
    """The most that the program held, in bytes. It is to hold more than this script does."""
    with open(CRATE / "stdin", "rb") as lines:
        process = subprocess.Popen([program, *map(str, words)], stdin=lines, stdout=subprocess.DEVNULL)
        pid, status, usage = os.wait4(process.pid, 0)
    process.returncode = os.waitstatus_to_exitcode(status)
    if process.returncode:
        sys.exit(f"{words}: status {process.returncode}")
    return usage.ru_maxrss * 1024


def weighed(program, mode, few, many):
    """What one more holds, in bytes: the slope between the peaks of two runs, each of so many open deliveries in so many sessions."""
    low, high = (peak(program, mode, 0, 1, *counts) for counts in (few, many))
    return (high - low) / (many[0] * many[1] - few[0] * few[1])


def sections(program, is_timed):
    """The page's sections: a title, and what stands under it."""
    yield "The codec, in instructions", said(ROOT / "tools" / "bench" / "bench.py", program)
    yield "The engine, in instructions and requests for memory", said(ROOT / "tools" / "bench" / "bench_engine.py", program)
    if is_timed:
        yield "The engine, in nanoseconds of processor time", said(ROOT / "tools" / "bench" / "bench_engine.py", "--time", program)
    delivery = ((500000, 1), (1000000, 1))
    held = {
        "an open delivery, of a million": weighed(program, "forward", *delivery),
        "a received one, which the relay names": weighed(program, "oldest", *delivery),
        "a session with a link and an open delivery": weighed(program, "forward", (1, 20000), (1, 60000)),
    }
    yield "What is held, in bytes", "\n".join(f"{what:46}{bytes_held:10.0f}" for what, bytes_held in held.items())


def main():
    if len(sys.argv) not in (3, 4) or sys.argv[3:] not in ([], ["--time"]):
        sys.exit(__doc__)
    date, program = sys.argv[1:3]
    page = [f"# What the codec and the engine cost, {date}", "",
            f"Written by `tools/bench/bench_page.py` at {commit()}, of proved programs, with the kit {toolchain.wanted()[0]}, on {processor()}. How the rows are made stands in",
            "[SPEED.md](../SPEED.md). Nothing here is a clause, and the gate compares nothing with these figures.", ""]
    for title, text in sections(program, bool(sys.argv[3:])):
        page += [f"## {title}", "", "```text", text, "```", ""]
    (ROOT / "docs" / "bench" / f"{date}.md").write_text("\n".join(page))


if __name__ == "__main__":
    command(main, __doc__)
