#!/usr/bin/env python3
"""What the engine costs, in instructions for a transfer or a delivery and in requests for memory, with the figures of qpid-proton
beside it.

    tools/bench/bench_engine.py [--time] [PROGRAM [WORD..]]

PROGRAM is the program of `crates/bench_engine`, as `rt run` builds it; where none is named it is built first. With words only the
rows are counted whose name has one of them. Callgrind counts, as for `tools/bench/bench.py`: as a slope between two counts, so that what
is done once is out, and the slope of the same run by an engine that only drops its inputs is taken off. What is left is
`Engine::run`, and a look at each answer. qpid-proton's figures come from `bench_proton.py`: counted in the same run where its packages are
installed, and else stored; they hold its inputs too. A row has one where both do the same: a run, or a push, for as many frames, and
each received delivery kept until it is settled. Behind it stands how many times the engine's it is, with the inputs in and with the engine's off.

With `--time` it prints nanoseconds of processor time, the least of five runs, and has rows of a million open deliveries too. What takes more
than two minutes is left out.
"""

import re
import sys
import tempfile
from pathlib import Path

sys.path.insert(0, str(Path(__file__).resolve().parents[1]))

from bench.bench import run
from bench.bench_proton import ORDERS, WIDTHS, figures, most, times
from bench.measured import TooLong, per_unit, seconds
from bench.program import built, lines as input_lines
from shared.command import command

MEMORY = {"malloc", "calloc", "realloc", "aligned_alloc", "posix_memalign"}
# The mode of the program for each order
MODES = {"in order": "forward", "in reverse": "backward", "from the middle": "middle", "scattered": "scattered", "every second": "second"}
WIDE, MANY, LINKS = 1000000, 20000, 8000


class Row:
    """Two counts of a mode, for batches of some size, with so many deliveries open in each of some sessions."""

    def __init__(self, name, mode, counts, batch, open_before=0, sessions=1, each=1, proton=None, largest=None, left=None, part=None):
        self.name, self.mode, self.counts, self.batch = name, mode, counts, batch
        self.open_before, self.sessions = open_before, sessions
        # what one count stands for
        self.each = each
        # the largest count, and how many deliveries are open after each
        self.largest, self.left = largest or 10**6, left
        self.proton = proton
        # the engine's part, where it is another than to give answers
        self.part = [part] if part else []

    def sessions_to_time(self):
        """So many that some thousand units are timed, where the largest count is less."""
        return 1 if self.largest * self.each >= MANY else max(1, MANY // self.open_before)

    def check(self, out, count):
        """Ends where the engine refused an input, or where another number of deliveries is open than the row says."""
        if "refused=0 " not in out or self.left and f"open={self.left(count)}\n" not in out:
            sys.exit(f"{self.name}: {out}")


def of_batch(batch):
    """The rows of transfers that come and go in batches."""
    counts = (20, 60) if batch == 100 else (1000, 3000)
    yield Row(f"receive and accept, by {batch}", "receive", counts, batch, each=batch)
    yield Row(f"receive, keep, accept and settle, by {batch}", "named", counts, batch, each=batch, proton=f"receive {batch}", left=lambda _: 0)
    yield Row(f"send settled, by {batch}", "send", counts, batch, each=batch, proton=f"send {batch}")
    yield Row(f"send settled, by {batch}, into a buffer", "send", counts, batch, each=batch, proton=f"send {batch}", part="into")
    yield Row(f"send and have settled, by {batch}", "unsettled", counts, batch, each=batch, proton=f"unsettled {batch}", left=lambda _: 0)
    yield Row(f"the same, by {batch}, into a buffer", "unsettled", counts, batch, each=batch, proton=f"unsettled {batch}", left=lambda _: 0, part="into")


def of_width(width):
    """The rows of so many open deliveries: settled ten in a run, or all at once."""
    sessions = 20 if width == 10 else 1
    counts = (0, 10) if width == 10 else (200, 600)
    for order in ("in order", "in reverse"):
        yield Row(f"settle one of {width}, {order}, by 10", MODES[order], counts, 10, width, sessions, largest=width,
                  left=lambda count: width - count)
    yield Row(f"settle one of {width}, all at once", "range", (0, 1), 10, width, sessions, width, proton=f"all at once {width}", largest=1)


def of_order(order, width):
    """The row of so many open deliveries that are settled in this order, each by a run of its own. Of every second one all are settled,
    since the first of them stand at the front."""
    largest, sessions = most(order, width), 20 if width == 10 else 1
    counts = (0, largest) if width == 10 or order == "every second" else (200, min(600, largest))
    return Row(f"settle one of {width}, {order}", MODES[order], counts, 1, width, sessions, proton=f"{order} {width}", largest=largest,
               left=lambda count: width - count)


def into_a_buffer(row):
    """The same row, by an engine that sends into a buffer."""
    return Row(f"{row.name}, into a buffer", row.mode, row.counts, row.batch, row.open_before, row.sessions, row.each, row.proton, row.largest, row.left, "into")


def of_received(width):
    """The rows of so many open deliveries of the peer's. It names them in order, or by numbers that are scattered. Those that pass 2^32 do
    so for half of them: then no older number is open."""
    sessions, half = 20 if width == 10 else 1, width // 2
    past = (0, half) if width == 10 else (200, min(600, half))
    yield Row(f"receive one, settle the oldest of {width}", "oldest", (200, 600), 1, width, proton=f"oldest {width}", left=lambda _: width)
    yield Row(f"receive one, settle the oldest of {width} past 2^32", "wrapped", past, 1, width, sessions, proton=f"oldest past 2^32 {width}",
              left=lambda _: width, largest=half)
    yield Row(f"receive {width} scattered, settle in order", "arrivals", (0, 1), 1, width, sessions, width, left=lambda _: 0,
              largest=max(1, 10**6 // width))


def of_widths(widths):
    """The rows of orders that a peer may choose."""
    for width in widths:
        yield from (of_order(order, width) for order in ORDERS)
        yield from of_received(width)


def of_links():
    """The rows of transfers through so many links: at handles from 1 on, and at handles that collide in a map whose hash has no key. What
    one costs is to be the same. Each link has its turn once."""
    for name, mode in ((f"{LINKS} links, receive one and settle it", "links"), (f"{LINKS} links whose handles collide, the same", "colliding")):
        yield Row(name, mode, (LINKS // 8, LINKS + LINKS // 8), 1, LINKS, left=lambda _: 0)


def rows():
    """All rows that are counted."""
    yield from of_batch(100)
    yield from of_batch(1)
    yield Row("hold back and let out, by 100", "held", (20, 60), 100, each=100)
    yield Row("hold back and let out, by 1000", "held", (2, 6), 1000, each=1000)
    for width in WIDTHS:
        yield from of_width(width)
    yield Row("ten settled by 2^31 numbers", "wide", (0, 1), 10, 10, 20, largest=1)
    yield Row("settle one of ten, after 100000", "peak", (0, 10), 10, 100000)
    yield from of_widths(WIDTHS)
    yield into_a_buffer(of_order("in order", 1000))
    yield from of_links()


def rows_to_time():
    """All rows that are timed: ten settled after a hundred thousand are too few for it."""
    yield from (row for row in rows() if row.mode != "peak")
    yield from of_widths([WIDE])


def requests_in(profile):
    """How often memory is asked for: the calls of these functions that a profile of callgrind has."""
    names, callee, requests = {}, None, 0
    for line in profile.read_text().splitlines():
        if named := re.match(r"c?fn=\((\d+)\)(?: (.*))?", line):
            number, name = named.groups()
            name = names.setdefault(number, name)
            if line.startswith("cfn"):
                callee = name
        elif line.startswith("calls=") and callee in MEMORY:
            requests += int(line[6:].split()[0])
    return requests


def counted(program, row, count, lines, more):
    """The instructions and the requests for memory of a run."""
    with tempfile.TemporaryDirectory() as folder:
        profile = Path(folder) / "profile"
        under = ["valgrind", "--tool=callgrind", f"--callgrind-out-file={profile}"]
        # Both counts have as many digits: a longer word moves the stack, and a copy costs by where it lies.
        digits = str(count).zfill(len(str(row.counts[1])))
        out, said = run(program, (row.mode, digits, row.batch, row.open_before, row.sessions, *more), lines, under)
        if more != ["idle"]:
            row.check(out, count)
        return int(re.search(r"Collected : (\d+)", said).group(1)), requests_in(profile)


def slope(program, row, lines, more):
    """What one unit costs."""
    few, many = (counted(program, row, count, lines, more) for count in row.counts)
    units = (row.counts[1] - row.counts[0]) * row.sessions * row.each
    return [(many[i] - few[i]) / units for i in (0, 1)]


def write_counted(program, row, lines, proton):
    """Prints the cost of a unit: of the engine alone, and of its inputs, with qpid-proton's."""
    whole, made = slope(program, row, lines, row.part), slope(program, row, lines, ["idle"])
    beside = proton[row.proton] if row.proton else 0
    said = f"{beside:10}{beside / whole[0]:9.1f}{beside / (whole[0] - made[0]):9.1f}" if beside else ""
    print(f"{row.name:46}{whole[0] - made[0]:10.0f}{whole[1] - made[1]:10.2f}{made[0]:10.0f}{made[1]:10.2f}{said}", flush=True)


def timed(program, row, lines, more):
    """The nanoseconds of one unit."""
    sessions = row.sessions_to_time()
    text = ("\n".join(lines) + "\n").encode()
    words = [row.batch, row.open_before, sessions, *more]
    took = per_unit(lambda count: seconds([program, row.mode, count, *words], text), row.largest, row.counts[1])
    return took / sessions / row.each * 1e9


def write_timed(program, row, lines, proton):
    """Prints the time of a unit, as `write_counted`."""
    try:
        whole, made = timed(program, row, lines, row.part), timed(program, row, lines, ["idle"])
        said = f"{whole - made:10.0f}{made:10.0f}"
    except TooLong:
        said = f"{'over two minutes':>20}"
    print(f"{row.name:46}{said}{proton(row.proton):>10}", flush=True)


def main():
    is_timed = sys.argv[1:2] == ["--time"]
    words = sys.argv[2 if is_timed else 1:]
    program = words[0] if words else built()
    lines = input_lines()
    if is_timed:
        print(f"{'nanoseconds of a transfer, or a delivery':46}{'engine':>10}{'its input':>10}{'proton':>10}")
    else:
        print(f"{'a transfer, or a delivery':46}{'instr.':>10}{'requests':>10}{'its input':>10}{'requests':>10}{'proton':>10}{'inputs in':>11}{'off':>7}")
    proton, write = (times(), write_timed) if is_timed else (figures(), write_counted)
    for row in rows_to_time() if is_timed else rows():
        if not words[1:] or any(word in row.name for word in words[1:]):
            write(program, row, lines, proton)


if __name__ == "__main__":
    command(main, __doc__)
