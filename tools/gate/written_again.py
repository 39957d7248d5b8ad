#!/usr/bin/env python3
"""Writes again what tools write into the repository, and says where that differs from what is stored.

    tools/gate/written_again.py

Each of `tools/gen/expected_*.py` that is a program writes the rows of a program of `crates/`, or those of `tools/try_c`, `tools/gate/definitions_read.py` the tables of
docs/READING.md and the first lines of `crates/*/specs/`, `tools/gate/wrong_bodies.py` docs/WRONG_BODIES.md, `tools/touches.py` the blocks of CONTRIBUTING.md
that say what names a thing, and `tools/bench/plots.py` a page and a picture of each table in docs/bench. A file that comes out otherwise than it is stored is named, and put back as it was: then run its tool by hand, and see what changed. The last line is 'N passed, M failed', a tool each.
"""

import subprocess
import sys
from pathlib import Path

sys.path.insert(0, str(Path(__file__).resolve().parents[1]))

from shared.command import command

ROOT = Path(__file__).resolve().parents[2]
PAGES = [ROOT / "docs" / "READING.md", ROOT / "docs" / "WRONG_BODIES.md", ROOT / "CONTRIBUTING.md"]


def stored():
    """What is stored of the files that such tools write."""
    files = [*ROOT.glob("crates/*/stdin"), *ROOT.glob("crates/*/stdout"), *ROOT.glob("crates/*/args"), *ROOT.glob("tools/try_c/rows/*"), *ROOT.glob("crates/*/specs/**/*.antt"), *PAGES, *plotted()]
    return {file: file.read_bytes() for file in files if file.exists()}


def plotted():
    """The pages and pictures of tables."""
    return [path.with_suffix(ending) for path in ROOT.glob("docs/bench/*.txt") for ending in (".md", ".svg")]


def tools():
    """The tools, with the words that have them write."""
    for tool in sorted(ROOT.glob("tools/gen/expected_*.py")):
        if "__main__" in tool.read_text():
            yield tool, []
    yield ROOT / "tools" / "gate" / "definitions_read.py", ["--write"]
    yield ROOT / "tools" / "gate" / "wrong_bodies.py", ["--write"]
    yield ROOT / "tools" / "touches.py", ["--write"]
    yield ROOT / "tools" / "bench" / "plots.py", []


def write_again(tool, words):
    """Whether a tool writes what is stored; says what differs, and puts it back."""
    before = stored()
    ran = subprocess.run([sys.executable, str(tool), *words], stdin=subprocess.DEVNULL, stdout=subprocess.PIPE, stderr=subprocess.STDOUT, text=True)
    after = stored()
    changed = [file for file in {*before, *after} if before.get(file) != after.get(file)]
    for file in changed:
        print(f"{tool.name}: {file.relative_to(ROOT)} comes out otherwise than it is stored")
        file.write_bytes(before[file]) if file in before else file.unlink()
    if ran.returncode:
        print(f"{tool.name}: status {ran.returncode}\n{ran.stdout}")
    return not changed and not ran.returncode


def main():
    done = [write_again(tool, words) for tool, words in tools()]
    print(f"{sum(done)} passed, {len(done) - sum(done)} failed")
    sys.exit(not all(done))


if __name__ == "__main__":
    command(main, __doc__)
