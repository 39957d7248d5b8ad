#!/usr/bin/env python3
"""How much memory the program `amqp_replay` holds once what filled it is over: of its heap, what lives then, beside the most that ever did.

    tools/bench/left.py [PROGRAM [WORD..]]

PROGRAM is the program of `crates/amqp_replay`, as `rt run` or `rt ci` left it in out/; where it is missing it is built first. With words only those
lives are run whose name has one of them. A life fills memory, and then does what lets it go; each step has a bound on what may live after it. It is
counted by live_heap.c, which the machine's compiler compiles. The last line is 'N passed, M failed'.
"""

import os
import struct
import subprocess
import sys
import tempfile
import threading
from pathlib import Path

sys.path.insert(0, str(Path(__file__).resolve().parents[1]))

from amqp import canonical as c
from bench.peaks import CRATE, MARK, MARKED, RECEIVES, SENDS, disposition_of_range, flow, received, sent, transfer
from shared.command import command

# What a session with a link holds that has nothing to do, at most, with what a few blocks of records and the program's own lines take
IDLE = 256 << 10
MANY, SOME = 100000, 10000


class Step:
    """Lines, and how many bytes may live once they were answered; `None` where nothing is said."""

    def __init__(self, name, lines, most=None):
        self.name, self.lines, self.most = name, lines, most


def tagged(number, length, payload):
    """A received transfer with a tag of so many bytes."""
    tag = bytes([0xA0, length]) + number.to_bytes(4, "big") + b"t" * (length - 4)
    return received(c.composite(0x14, [c.uint(0), c.uint(number), tag, c.uint(0), c.boolean(False)]), b"x" * payload)


def held_back():
    """The window is used up; many transfers wait, go out at once, and are settled at once."""
    return [
        Step("wait", [*SENDS, received(flow(0, 0)), *(sent(transfer(i, False), b"x" * 64) for i in range(MANY))]),
        Step("let out", [received(flow(0, MANY))], 256 * MANY),
        Step("settled", [received(disposition_of_range(True, 0, MANY - 1))], IDLE),
    ]


def held_back_and_some_left():
    """All but a few go out: what is left takes room for a few."""
    return [
        Step("wait", [*SENDS, received(flow(0, 0)), *(sent(transfer(i, False), b"x" * 64) for i in range(MANY))]),
        Step("let out but for ten", [received(flow(0, MANY - 10)), received(disposition_of_range(True, 0, MANY - 11))], IDLE),
    ]


def answered():
    """A disposition of the peer's draws half as many answers as there are deliveries; they go out, and their room with them."""
    return [
        Step("open", [*RECEIVES, *(tagged(i, 4, 8) for i in range(SOME))]),
        Step("answered", [received(disposition_of_range(False, 0, SOME - 1, False))], 80 * SOME),
        Step("settled", [f"settle 0 receiver 0 {SOME - 1}"], IDLE),
    ]


def tags_of(length, payload, most):
    """Open deliveries hold their tags, and not the frames in which they came: at most so many bytes each."""
    return [
        Step("open", [*RECEIVES, *(tagged(i, length, payload) for i in range(SOME))], most * SOME),
        Step("settled", [f"settle 0 receiver 0 {SOME - 1}"], IDLE),
    ]


LIVES = {
    "held back and let out": held_back(),
    "held back, and some left": held_back_and_some_left(),
    "answered at once": answered(),
    "tags of 32 bytes, in short frames": tags_of(32, 8, 128),
    "tags of 32 bytes, in frames of 8 kB": tags_of(32, 8000, 128),
    "tags of 33 bytes, in frames of 8 kB": tags_of(33, 8000, 256),
    "tags of 200 bytes, in short frames": tags_of(200, 8, 512),
    "tags of 200 bytes, in frames of 8 kB": tags_of(200, 8000, 512),
}


class Program:
    """The program under the count of its heap."""

    def __init__(self, program, folder):
        self.file = Path(folder, "held")
        env = dict(os.environ, LIVE_HEAP=str(self.file), LD_PRELOAD=f"{folder}/live_heap.so")
        self.process = subprocess.Popen([program], stdin=subprocess.PIPE, stdout=subprocess.PIPE, env=env)

    def feed(self, lines):
        self.process.stdin.write("".join(f"{line}\n" for line in [*lines, MARK]).encode())
        self.process.stdin.flush()

    def answer(self, lines):
        """Has the lines answered: what lives then, and the most that ever did."""
        feeder = threading.Thread(target=self.feed, args=(lines,), daemon=True)
        feeder.start()
        for line in self.process.stdout:
            if line.decode().strip() == MARKED:
                break
            if not line.startswith(b"out "):
                sys.exit(f"refused: {line.decode().strip()}")
        feeder.join()
        return struct.unpack("2q", self.file.read_bytes())

    def end(self):
        self.process.stdin.close()
        self.process.wait()


def write(program, folder, name, steps):
    """Prints what a life holds after each step; how many steps hold their bound, and how many don't."""
    process, outcomes = Program(program, folder), []
    for step in steps:
        lives, most = process.answer(step.lines)
        is_kept = step.most is None or lives <= step.most
        bound = "" if step.most is None else f"{step.most >> 10:12}"
        print(f"{name + ': ' + step.name:58}{lives >> 10:12}{most >> 10:12}{bound:>12}{'' if is_kept else '  TOO MUCH'}", flush=True)
        outcomes.append(is_kept)
    process.end()
    return outcomes


def compiled(folder):
    source = Path(__file__).with_name("live_heap.c")
    subprocess.run(["cc", "-O2", "-shared", "-fPIC", str(source), "-o", f"{folder}/live_heap.so", "-ldl"], check=True)


def built():
    program = CRATE / "out" / "amqp_replay"
    if not program.exists():
        subprocess.run(["rt", "run"], cwd=CRATE, stdin=subprocess.DEVNULL, stdout=subprocess.DEVNULL, check=True)
    return str(program)


def main():
    program, wanted = sys.argv[1] if len(sys.argv) > 1 else built(), sys.argv[2:]
    print(f"{'kB of the heap':58}{'that live':>12}{'at most':>12}{'bound':>12}")
    with tempfile.TemporaryDirectory() as folder:
        compiled(folder)
        lives = {name: steps for name, steps in LIVES.items() if not wanted or any(word in name for word in wanted)}
        outcomes = [kept for name, steps in lives.items() for kept in write(program, folder, name, steps)]
    print(f"{sum(outcomes)} passed, {len(outcomes) - sum(outcomes)} failed")
    sys.exit(0 if all(outcomes) else 1)


if __name__ == "__main__":
    command(main, __doc__)
