#!/usr/bin/env python3
"""Writes pictures of what was measured: of each table docs/bench/NAME.txt a page, NAME.md, and bars or curves, NAME.svg.

    tools/bench/plots.py

A table is text: `# ` and its title, lines that say what was counted and how, and parts, each `## ` with its name and those of its columns, and rows: what was
measured, and a number for each column, with `|` between them, or `-` where nothing was measured. A part is drawn as bars, by a scale of its own. Where `curves: `
stands before its name, its columns are numbers on an axis, and each row is a curve; of a column that is of another day ` of ` and that day tells. It measures nothing: the
numbers come from bench_c.py, for instance, and are written into the table by hand. `tools/gate/written_again.py` compares what is stored with what this writes.
"""

import itertools
import sys
from html import escape
from pathlib import Path
from typing import NamedTuple

sys.path.insert(0, str(Path(__file__).resolve().parents[1]))

from bench.curves import charts
from bench.shapes import STYLE, WIDE, colour_of, named, text
from shared.command import command, told

TABLES = Path(__file__).resolve().parents[2] / "docs" / "bench"
# Where the bars begin and end, the height of a bar, and what a row and the name of a part take beside their bars
LEFT, RIGHT, BAR, ROW, HEAD = 370, 660, 12, 10, 30
# What begins the name of a part that is drawn as curves
CURVES = "curves: "


class Part(NamedTuple):
    """A part of a table: its name, the names of its columns, rows of what was measured and a number or `None` for each column, and how it is drawn."""

    name: str
    columns: list
    rows: list
    is_curves: bool


class Table(NamedTuple):
    title: str
    said: list
    parts: list


def read(path):
    """The table in a file."""
    first, *lines = path.read_text(encoding="utf-8").splitlines()
    table = Table(first.removeprefix("# "), [], [])
    for line in filter(None, lines):
        name, *cells = (it.strip() for it in line.split("|"))
        if line.startswith("## "):
            name = name.removeprefix("## ")
            table.parts.append(Part(name.removeprefix(CURVES), cells, [], name.startswith(CURVES)))
        elif not table.parts:
            table.said.append(line)
        elif len(cells) != len(table.parts[-1].columns):
            told(f"{path}: {len(cells)} numbers, where there are {len(table.parts[-1].columns)} columns: {line}")
        else:
            table.parts[-1].rows.append((name, [None if it == "-" else int(it) for it in cells]))
    return table


# ---- the page


def page(table, name):
    lines = [f"# {table.title}", "", f"Written by `tools/bench/plots.py` from [{name}.txt]({name}.txt).", *table.said, "", f"![{table.title}]({name}.svg)", ""]
    for part in table.parts:
        lines += [f"## {part.name}", "", f"| | {' | '.join(part.columns)} |", "|---|" + "---|" * len(part.columns)]
        lines += [f"| {what} | {' | '.join('' if it is None else str(it) for it in numbers)} |" for what, numbers in part.rows]
        lines.append("")
    return "\n".join(lines)


# ---- the picture


def bars(y, what, part, numbers, most):
    """A row: what was measured, and a bar with its number for each column."""
    yield text(LEFT - 8, y + BAR * len(numbers) / 2 + 4, what, anchor="end")
    for at, it in enumerate(numbers):
        if it is None:
            yield text(LEFT + 5, y + at * BAR + BAR - 2, "not measured")
            continue
        wide = round((RIGHT - LEFT) * it / most, 1)
        yield f'<rect class="c{colour_of(part.columns[at])}" x="{LEFT}" y="{y + at * BAR}" width="{wide}" height="{BAR - 1}"/>'
        yield text(LEFT + wide + 5, y + at * BAR + BAR - 2, f"{it:,}")


def drawn(part, y):
    """The shapes of a part from this height on, and where it ends."""
    most = max(it for _, numbers in part.rows for it in numbers if it is not None)
    found, top = [text(LEFT - 8, y + 16, part.name, "title", "end"), *named(part.columns, LEFT, y + 6, 120)], y + HEAD - 4
    y += HEAD
    for what, numbers in part.rows:
        found += bars(y, what, part, numbers, most)
        y += BAR * len(numbers) + ROW
    found.append(f'<path class="axis" d="M{LEFT} {top}V{y - ROW + 4}"/>')
    return found, y + 8


def in_words(part):
    """What a part shows, as text."""
    at = " at " if part.is_curves else " "
    for what, numbers in part.rows:
        yield f"{part.name}, {what}: {', '.join(f'{it:,}{at}{column}' for it, column in zip(numbers, part.columns) if it is not None) or 'not measured'}"


def picture(table):
    y, shapes = 34, [text(8, 20, table.title, "title")]
    for is_curves, parts in itertools.groupby(table.parts, lambda part: part.is_curves):
        for some in [[*parts]] if is_curves else [[it] for it in parts]:
            found, y = charts(some, y) if is_curves else drawn(some[0], y)
            shapes += found
    said = "; ".join(it for part in table.parts for it in in_words(part))
    head = f'<svg xmlns="http://www.w3.org/2000/svg" viewBox="0 0 {WIDE} {y}" width="{WIDE}" height="{y}" role="img" aria-labelledby="title said">'
    names = [f'<title id="title">{escape(table.title)}</title>', f'<desc id="said">{escape(said)}</desc>', f"<style>{STYLE}</style>"]
    return "\n".join([head, *names, f'<rect class="back" width="{WIDE}" height="{y}"/>', *shapes, "</svg>", ""])


def main():
    if len(sys.argv) > 1:
        sys.exit(__doc__)
    for path in sorted(TABLES.glob("*.txt")):
        table = read(path)
        path.with_suffix(".md").write_text(page(table, path.stem), encoding="utf-8")
        path.with_suffix(".svg").write_text(picture(table), encoding="utf-8")


if __name__ == "__main__":
    command(main, __doc__)
