#!/usr/bin/env python3
"""What a delivery costs on the links of a session, in instructions, and what it costs to settle one of many.

    tools/bench/bench_links.py [PROGRAM ..]

PROGRAM is that of tools/bench/bench_links.rt.txt, which is no crate of crates.txt, so that the gate does not prove it; where none is named it is built
first, without a proof, by tools/bench/unproved.py. With several each has a column. Callgrind counts, as for tools/bench/bench.py, as a slope
between two counts, less the slope of the same loop that only looks at the links.
"""

import re
import shutil
import subprocess
import sys
import tempfile
from pathlib import Path

sys.path.insert(0, str(Path(__file__).resolve().parents[1]))

from bench.bench import run
from shared.command import command

ROOT = Path(__file__).resolve().parents[2]
USED = "amqp_links anyhow"
# Of deliveries that go on, and of those that were open and are settled
ON, OF_OPEN = (1000, 2000), (100, 400)
OPEN = 1000
ORDERS = {"in order": "in-order", "from the middle on": "middle", "every second one": "second", "in reverse": "reverse", "scattered": "scattered"}


def with_below(names):
    """These crates and all that they stand on, by their lines in crates.txt."""
    lines = [re.sub("#.*", "", line).split(":", 1) for line in (ROOT / "crates.txt").read_text().splitlines()]
    known = {line[0].split()[0]: line[1].split() for line in lines if len(line) == 2}
    found = [name for name in known if name in names]
    more = {used for name in found for used in known[name]} & set(known) - set(found)
    return with_below({*found, *more}) if more else {name: known[name] for name in found}


def built(folder, name, used):
    """The program of tools/bench/NAME.rt.txt, built in this folder without a proof, where it is a crate beside those that it stands on."""
    root, below = Path(folder), with_below(set(used.split()))
    for crate in below:
        shutil.copytree(ROOT / "crates" / crate, root / "crates" / crate, ignore=shutil.ignore_patterns("out"))
    source = root / "crates" / name / "src"
    source.mkdir(parents=True)
    shutil.copyfile(ROOT / "tools" / "bench" / f"{name}.rt.txt", source / "main.rt")
    named = [f"{crate}: {' '.join(words)}" for crate, words in below.items()]
    (root / "crates.txt").write_text("\n".join([*named, f"{name}: {used}"]) + "\n")
    words = [sys.executable, ROOT / "tools" / "bench" / "unproved.py", source.parent, root / name]
    subprocess.run(words, stdin=subprocess.DEVNULL, stdout=subprocess.DEVNULL, check=True)
    return str(root / name)


def instructions(program, words):
    _, said = run(program, words, [], ["valgrind", "--tool=callgrind", "--callgrind-out-file=/dev/null"])
    return int(re.search(r"Collected : (\d+)", said).group(1))


def slope(program, mode, counts, links, opened, more=()):
    few, many = (instructions(program, [mode, count, opened, links, *more]) for count in counts)
    return (many - few) / (counts[1] - counts[0])


def row(programs, name, mode, counts, links, opened):
    """Prints what one delivery costs in each program."""
    costs = [slope(it, mode, counts, links, opened) - slope(it, mode, counts, links, opened, ["idle"]) for it in programs]
    print(f"{name:60}" + "".join(f"{cost:10.0f}" for cost in costs), flush=True)


def rows(programs):
    for way in ("sent", "received"):
        row(programs, f"{way} unsettled and settled, one link, none before", way, ON, 1, 0)
        for links in (1, 100, 1000):
            row(programs, f"{way} and settled, the oldest of {OPEN}, {links} links", way, ON, links, OPEN)
        row(programs, f"{way} settled, one link", f"{way}-settled", ON, 1, 0)
    for links in (1, 100, 1000):
        for name, mode in ORDERS.items():
            row(programs, f"one of {OPEN} is settled, {name}, {links} links", mode, OF_OPEN, links, OPEN)
    for opened in (OPEN, 100 * OPEN):
        row(programs, f"a range of what has gone, of {opened}", "gone", OF_OPEN, 1, opened)


def main():
    with tempfile.TemporaryDirectory() as folder:
        rows(sys.argv[1:] or [built(folder, "bench_links", USED)])


if __name__ == "__main__":
    command(main, __doc__)
