#!/usr/bin/env python3
"""Looks that no line of what a program is written against is wider than 120 columns.

    tools/gate/columns.py

That is the headers, the examples, and what binds other languages. Transcripts and other text are passed over, and so
are the crates and the tools, whose lines are wider in part.
"""

import sys
from pathlib import Path

sys.path.insert(0, str(Path(__file__).resolve().parents[1]))

from shared.command import command

ROOT = Path(__file__).resolve().parents[2]
FOLDERS = "include", "examples", "bindings"
KINDS = ".h", ".hpp", ".c", ".cpp", ".py", ".rs", ".sh"
WIDEST = 120


def wide(path):
    """The places of the file's lines that are too wide."""
    lines = path.read_text(encoding="utf-8").split("\n")
    sizes = [(at, len(line)) for at, line in enumerate(lines, 1)]
    return [f"{path.relative_to(ROOT)}:{at}: {size} columns" for at, size in sizes if size > WIDEST]


def main():
    inside = [it for folder in FOLDERS for it in sorted((ROOT / folder).rglob("*"))]
    paths = [it for it in inside if it.suffix in KINDS and "target" not in it.parts]
    found = [wide(it) for it in paths]
    for place in sum(found, []):
        print(place)
    failed = sum(bool(it) for it in found)
    print(f"{len(paths) - failed} passed, {failed} failed")
    sys.exit(failed > 0)


if __name__ == "__main__":
    command(main, __doc__)
