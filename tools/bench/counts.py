#!/usr/bin/env python3
"""Whether the engine and its codec cost what is stored: instructions and requests for memory of twenty rows.

    tools/bench/counts.py [PROGRAM]            counts, and compares with tools/bench/counts.txt; status 1 where a row is dearer
    tools/bench/counts.py --write [PROGRAM]    stores what it counts

PROGRAM is the program of `crates/bench_engine`: the one that `rt ci` left there, where none is named. The rows are those of `bench_engine.py` and
`bench.py` of the same name, counted as there, by Debian's valgrind, with what makes the inputs left in. A row is dearer where it takes three percent more
instructions than are stored, or a hundredth of a request for memory more. What is dearer by intent is stored, and the commit says why. What is
cheaper by as much is told, and to be stored too. The last line is 'N passed, M failed'.
"""

import contextlib
import os
import re
import shutil
import subprocess
import sys
import tempfile
from concurrent.futures import ThreadPoolExecutor
from pathlib import Path

sys.path.insert(0, str(Path(__file__).resolve().parents[1]))

from bench import bench_engine
from bench.bench import FEW, MANY, PAYLOAD, run
from bench.program import CRATE, ENGINE_LINES, codec_frames, lines
from shared.command import command

ROOT = Path(__file__).resolve().parents[2]
STORED = Path(__file__).resolve().with_suffix(".txt")
# So much more is dearer: of the instructions a part, and of the requests a number.
PART, REQUESTS = 0.03, 0.011
# At most so many counts at a time
AT_ONCE = 2
ENGINE = [
    "receive and accept, by 100",
    "receive, keep, accept and settle, by 100",
    "send settled, by 100",
    "send settled, by 100, into a buffer",
    "send and have settled, by 100",
    "receive and accept, by 1",
    "send settled, by 1",
    "send and have settled, by 1",
    "hold back and let out, by 100",
    "settle one of 1000, in order",
    "settle one of 1000, in reverse",
    "settle one of 1000, scattered",
    "settle one of 1000, every second",
    "receive one, settle the oldest of 1000",
]
# A row of the codec: its mode, and the largest frame.
CODEC = {
    "decode, mean of the nine": ("decode", 65536),
    "decode transfer, 64 bytes after": ("decode", 65536),
    "read, mean of the nine": ("read", 65536),
    "encode, mean of the nine": ("encode", 65536),
    "encode transfer, 64 bytes after": ("encode", 65536),
    "a piece of 16 kB cut at 508": ("encode", 508),
}


def frames_of(name):
    """The lines of the frames that a row of the codec has."""
    frames = codec_frames()
    if name.endswith("of the nine"):
        return [*frames.values()]
    return [frames["transfer"] + (PAYLOAD.hex() if "64 bytes" in name else "78" * 16384)]


def of_codec(program, name):
    """What an answer of the codec costs."""
    mode, limit = CODEC[name]
    found = []
    for count in (FEW, MANY):
        with tempfile.TemporaryDirectory() as folder:
            profile = Path(folder) / "profile"
            under = ["valgrind", "--tool=callgrind", f"--callgrind-out-file={profile}"]
            out, said = run(program, ("codec", mode, count, limit), [""] * ENGINE_LINES + frames_of(name), under)
            instructions, answers = re.search(r"Collected : (\d+)", said), re.search(r"answers=(\d+)", out)
            found.append((int(instructions[1]), bench_engine.requests_in(profile), int(answers[1])))
    few, many = found
    return [(many[i] - few[i]) / (many[2] - few[2]) for i in (0, 1)]


@contextlib.contextmanager
def alike(program):
    """A path by which the program is called alike from wherever it lies, and in one environment: their lengths move the stack, and with it what
    copies cost, by some percent."""
    environment = dict(os.environ)
    with tempfile.TemporaryDirectory() as folder:
        shutil.copy(program, Path(folder) / CRATE.name)
        os.chdir(folder)
        os.environ.clear()
        os.environ.update(PATH="/usr/local/bin:/usr/bin:/bin", LANG="C.UTF-8")
        try:
            yield f"./{CRATE.name}"
        finally:
            os.environ.clear()
            os.environ.update(environment)
            os.chdir(ROOT)


def install():
    """Installs Debian's valgrind where there is none."""
    if not shutil.which("valgrind"):
        for words in (["update"], ["install", "-y", "valgrind"]):
            subprocess.run(["apt-get", "-qq", *words], stdout=subprocess.DEVNULL, check=True)


def counted(program):
    """What each row costs, by its name."""
    rows = {it.name: it for it in bench_engine.rows() if it.name in ENGINE}
    of = lambda name: of_codec(program, name) if name in CODEC else bench_engine.slope(program, rows[name], lines(), rows[name].part)
    names = [*ENGINE, *CODEC]
    with ThreadPoolExecutor(AT_ONCE) as pool:
        return dict(zip(names, pool.map(of, names), strict=True))


def stored():
    """The rows of the table."""
    parts = (line.rsplit(maxsplit=2) for line in STORED.read_text().splitlines() if not line.startswith("#"))
    return {name.strip(): (float(instructions), float(requests)) for name, instructions, requests in parts}


def write(found):
    head = "# What a transfer, a delivery or an answer costs: instructions, and requests for memory. Written by tools/bench/counts.py --write.\n"
    STORED.write_text(head + "".join(f"{name:46}{it[0]:10.0f}{it[1]:10.2f}\n" for name, it in found.items()))


def judged(name, now, before):
    """Whether a row costs no more than is stored, and what to say of it."""
    if before is None:
        return False, f"{name}: not stored; tools/bench/counts.py --write stores it"
    text = f"{name}: {now[0]:.0f} instructions and {now[1]:.2f} requests, where {before[0]:.0f} and {before[1]:.2f} are stored"
    if now[0] > before[0] * (1 + PART) or now[1] > before[1] + REQUESTS:
        return False, f"DEARER: {text}"
    is_cheaper = now[0] < before[0] * (1 - PART) or now[1] < before[1] - REQUESTS
    return True, f"cheaper, so store it: {text}" if is_cheaper else ""


def main():
    words = sys.argv[1:]
    is_write = words[:1] == ["--write"]
    program = Path((words[is_write:] or [CRATE / "out" / CRATE.name])[0]).resolve()
    if not program.is_file():
        sys.exit(f"counts: no {program}: rt ci leaves it, and rt run in crates/bench_engine")
    install()
    with alike(program) as called:
        found = counted(called)
    if is_write:
        write(found)
    before = stored()
    said = [judged(name, now, before.get(name)) for name, now in found.items()]
    print("".join(f"{text}\n" for _, text in said if text), end="")
    passed = sum(is_well for is_well, _ in said)
    print(f"{passed} passed, {len(said) - passed} failed")
    sys.exit(passed != len(said))


if __name__ == "__main__":
    command(main, __doc__)
