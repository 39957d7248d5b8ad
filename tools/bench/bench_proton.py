#!/usr/bin/env python3
"""What qpid-proton needs for the work of `tools/bench/bench.py` and `tools/bench/bench_engine.py`, in instructions.

    tools/bench/bench_proton.py [WORD..]

It builds `tools/bench/bench_proton.c` (Debian's `gcc` and `libqpid-proton11-dev`) and runs it under callgrind (`valgrind`), as a slope between two
counts. What the peer says is made here, and given by one push for each disposition. The other two scripts take the figures from it where the
packages are installed, and else print the stored ones. With words only the rows are counted whose name has one of them. The rows: each of the
nine frames decoded; a transfer received, accepted and settled; one sent settled; one sent and then settled by the peer; of so many that are
open, one settled by the peer, in several orders, or all by one disposition; and one that comes while the peer settles the oldest of so many that
are kept. The last is told for numbers past 2^32 too. Deliveries whose numbers come out of order have no row: proton refuses them.
"""

import functools
import itertools
import os
import re
import shutil
import subprocess
import sys
import tempfile
from pathlib import Path

sys.path.insert(0, str(Path(__file__).resolve().parents[1]))

from amqp import canonical as c
from bench.measured import TooLong, per_unit, seconds
from bench.program import NAMES, codec_frames
from shared.command import command

HERE = Path(__file__).resolve().parent
WINDOW = 2**31 - 1
WIDTHS = (10, 1000, 100000)
# Which of so many open deliveries is settled next
ORDERS = {
    "in order": lambda i, width: i,
    "in reverse": lambda i, width: width - 1 - i,
    "from the middle": lambda i, width: width // 2 + i,
    "scattered": lambda i, width: i * 7919 % width,
    "every second": lambda i, width: 2 * i,
}
# What this script counted of qpid-proton 0.37.0
STORED = {
    "open": 5512, "begin": 1669, "attach": 6211, "flow": 2731, "transfer": 2178, "disposition": 1984, "detach": 1027, "end": 543,
    "close": 2253, "mean": 2679,
    "receive 100": 4542, "receive 1": 7723, "send 100": 4339, "send 1": 6660, "unsettled 100": 6470, "unsettled 1": 9762,
    "in order 10": 3787, "in reverse 10": 3788, "from the middle 10": 3895, "scattered 10": 3788, "every second 10": 3889,
    "all at once 10": 1519, "oldest 10": 7803, "oldest past 2^32 10": 7806,
    "in order 1000": 3856, "in reverse 1000": 3859, "from the middle 1000": 3866, "scattered 1000": 3852, "every second 1000": 3868,
    "all at once 1000": 3076, "oldest 1000": 7841, "oldest past 2^32 1000": 7930,
    "in order 100000": 3846, "in reverse 100000": 3849, "from the middle 100000": 3847, "scattered 100000": 3848,
    "every second 100000": 3848, "all at once 100000": 3110, "oldest 100000": 7806, "oldest past 2^32 100000": 10287,
}


def frame(body):
    """A frame on channel 0 of this body."""
    return (len(body) + 8).to_bytes(4, "big") + bytes([2, 0, 0, 0]) + body


def piece(data):
    return len(data).to_bytes(4, "big") + data


def most(order, width):
    """How many are settled at most in this order."""
    return width // 2 if order in ("from the middle", "every second") else width


def attached(is_sender, first=0):
    """What the peer says first: header, Open, Begin, Attach, and the Flow that lets all go out to it. Its first number is this."""
    terminus = c.composite(0x28, [c.string("q")]), c.composite(0x29, [c.string("q")])
    attach = [c.string("link"), c.uint(0), c.boolean(not is_sender), c.ubyte(0 if is_sender else 2), c.ubyte(0), *terminus]
    said = [c.composite(0x10, [c.string("peer")]),
            c.composite(0x11, [c.ushort(0), c.uint(first), c.uint(WINDOW), c.uint(WINDOW)]),
            c.composite(0x12, attach + ([b"\x40", b"\x40", c.uint(0)] if is_sender else []))]
    if not is_sender:
        said.append(c.composite(0x13, [c.uint(n) for n in (0, WINDOW, 0, WINDOW, 0, 0, WINDOW)]))
    return piece(b"AMQP\x00\x01\x00\x00" + b"".join(map(frame, said)))


def transfer(number):
    tag = bytes([0xA0, 4]) + number.to_bytes(4, "big")
    return frame(c.composite(0x14, [c.uint(0), c.uint(number), tag, c.uint(0), c.boolean(False)]) + b"x" * 64)


def disposition(first, last, by_receiver=True):
    accepted = bytes([0x00, 0x53, 0x24, 0x45])
    return frame(c.composite(0x15, [c.boolean(by_receiver), c.uint(first), c.uint(last), c.boolean(True), accepted]))


def settled(number):
    return disposition(number, number)


def in_order(order, width, count):
    """What the peer says where it settles so many of the open ones in this order."""
    return attached(False) + b"".join(piece(settled(ORDERS[order](i, width))) for i in range(count))


def all_at_once(width, count):
    """What the peer says where it settles all open ones by one disposition, once or not at all."""
    return attached(False) + piece(disposition(0, width - 1)) * count


def oldest_first(first, width, count):
    """What the peer says where so many come, and then as many as `count` more, for each of which it settles the oldest."""
    numbers = [(first + i) % 2**32 for i in range(width + count)]
    coming = [transfer(number) for number in numbers[:width]]
    both = [transfer(new) + disposition(old, old, False) for new, old in zip(numbers[width:], numbers)]
    return attached(True, first) + b"".join(map(piece, coming + both))


def said(mode, count, batch):
    """What the peer says in a run of so many transfers, for each batch."""
    if mode == "send":
        return attached(False)
    one = transfer if mode == "receive" else settled
    batches = (b"".join(map(one, range(first, first + batch))) for first in range(0, count, batch))
    return attached(mode == "receive") + b"".join(map(piece, batches))


def is_there():
    """Whether the packages are installed."""
    return all(map(shutil.which, ("gcc", "valgrind"))) and Path("/usr/include/proton/transport.h").exists()


class Bench:
    """The program, built in a folder."""

    def __init__(self, folder):
        self.program, self.file = Path(folder) / "bench_proton", Path(folder) / "said"
        subprocess.run(["gcc", "-O2", "-o", self.program, HERE / "bench_proton.c", "-lqpid-proton"], check=True)

    def words(self, mode, count, batch, data):
        self.file.write_bytes(data)
        return [self.program, mode, str(count), self.file, str(batch)]

    def counted(self, mode, count, batch, data, done):
        """The instructions of a run, which does so much."""
        words = self.words(mode, count, batch, data)
        environment = dict(os.environ, GLIBC_TUNABLES="glibc.cpu.x86_rep_movsb_threshold=1073741824")
        run = subprocess.run(["valgrind", "--tool=callgrind", "--callgrind-out-file=/dev/null", *words],
                             env=environment, capture_output=True, text=True)
        if run.returncode or run.stdout != f"done={done}\n":
            sys.exit(f"{mode} {count}: status {run.returncode}, {run.stdout}{run.stderr[-500:]}")
        return int(re.search(r"Collected : (\d+)", run.stderr).group(1))

    def decoded(self, line):
        """What one of these frames costs to decode."""
        body = piece(bytes.fromhex(line)[4:])
        few, many = (self.counted("decode", count, 1, body, count) for count in (500, 1500))
        return (many - few) / 1000

    def exchanged(self, mode, batch):
        """What a transfer costs that comes or goes in such batches."""
        few, many = (self.counted(mode, count, batch, said(mode, count, batch), count) for count in (2000, 6000))
        return (many - few) / 4000

    def settled(self, order, width):
        """What one of so many open deliveries costs that the peer settles in this order."""
        few, many = (2, most(order, width)) if width == 10 else (200, min(600, most(order, width)))
        costs = [self.counted("open", width, 1, in_order(order, width, count), count) for count in (few, many)]
        return (costs[1] - costs[0]) / (many - few)

    def settled_at_once(self, width):
        """What each of so many open deliveries costs that the peer settles by one disposition, beside the first."""
        ranges = [attached(False) + piece(disposition(0, last)) for last in (0, width - 1)]
        few, many = (self.counted("open", width, 1, said, done) for said, done in zip(ranges, (1, width)))
        return (many - few) / (width - 1)

    def kept(self, width, past):
        """What a delivery costs that comes while so many are open, with the oldest that is settled for it: from the number 0 on, or while
        half of the open ones have passed 2^32."""
        few, many = (1, 5) if past and width == 10 else (200, min(600, width // 2 if past else 600))
        first = 2**32 - width // 2 if past else 0
        costs = [self.counted("keep", 0, 1, oldest_first(first, width, count), width + 2 * count) for count in (few, many)]
        return (costs[1] - costs[0]) / (many - few)


def counters():
    """How each figure is counted, by its name."""
    found = {name: lambda bench, line=line: bench.decoded(line) for name, line in codec_frames().items()}
    for mode, batch in itertools.product(("receive", "send", "unsettled"), (100, 1)):
        found[f"{mode} {batch}"] = lambda bench, mode=mode, batch=batch: bench.exchanged(mode, batch)
    for width in WIDTHS:
        for order in ORDERS:
            found[f"{order} {width}"] = lambda bench, order=order, width=width: bench.settled(order, width)
        found[f"all at once {width}"] = lambda bench, width=width: bench.settled_at_once(width)
        found[f"oldest {width}"] = lambda bench, width=width: bench.kept(width, False)
        found[f"oldest past 2^32 {width}"] = lambda bench, width=width: bench.kept(width, True)
    return found


class Figures(dict):
    """Each figure by its name, counted when it is first asked for."""

    def __init__(self):
        super().__init__()
        self.counters, self.folder = counters(), tempfile.TemporaryDirectory()
        self.bench = Bench(self.folder.name)

    def __missing__(self, name):
        found = sum(map(self.__getitem__, NAMES)) / len(NAMES) if name == "mean" else self.counters[name](self.bench)
        self[name] = round(found)
        return self[name]


def figures():
    """The instructions of each row by its name."""
    return Figures() if is_there() else STORED


class Times:
    """The nanoseconds of processor time of each row, as text; none where the packages are missing, or where ten are too few to time."""

    def __init__(self):
        self.folder = tempfile.TemporaryDirectory()
        self.bench = Bench(self.folder.name) if is_there() else None

    def __call__(self, name):
        if not name or not self.bench:
            return ""
        what, number = name.rsplit(" ", 1)
        try:
            found = self.of_row(what, int(number))
        except TooLong:
            return "too long"
        return "" if found is None else f"{found * 1e9:.0f}"

    def of_row(self, what, number):
        """The seconds of a row of batches, or of a width."""
        if what in ("receive", "send", "unsettled"):
            return per_unit(self.runs(what, lambda count: said(what, count * number, number), number), 10**6 // number) / number
        if what == "oldest":
            return per_unit(self.runs("keep", lambda count: oldest_first(0, number, count)), 10**6)
        if number == 10:
            return None
        if what.startswith("oldest past"):
            return per_unit(self.runs("keep", lambda count: oldest_first(2**32 - number // 2, number, count)), number // 2)
        if what == "all at once":
            return per_unit(self.runs("open", lambda count: all_at_once(number, count), opened=number), 1) / number
        return per_unit(self.runs("open", lambda count: in_order(what, number, count), opened=number), most(what, number))

    def runs(self, mode, said_for, batch=1, opened=None):
        """How long the program takes for a count, which it is told in transfers, or whatever the count where so many are opened first."""
        made = functools.lru_cache(maxsize=2)(said_for)
        return lambda count: seconds(self.bench.words(mode, opened or count * batch, batch, made(count)), b"")


def times():
    """The time of a row by its name."""
    return Times()


def main():
    if not is_there():
        print("bench_proton: gcc, valgrind or libqpid-proton11-dev is missing: stored figures follow", file=sys.stderr)
    wanted, found = sys.argv[1:], figures()
    for name in [*counters(), "mean"]:
        if not wanted or any(word in name for word in wanted):
            print(f"{name:28}{found[name]:8}", flush=True)


if __name__ == "__main__":
    command(main, __doc__)
