#!/usr/bin/env python3
"""Writes the rows of the program rows_links: its input, and the output that the standard wants.

    tools/gen/expected_links.py                               writes crates/rows_links/{stdin,stdout}
    tools/gen/expected_links.py --random SEED COUNT FOLDER    writes other random rows, so many, as stdin and stdout into the folder

Each row is the links of a session, calls, and beside each call what it has to answer (AMQP 1.0 part 2, sections 2.6.3 to 2.6.14 and 2.7.3 to
2.7.7). The answers of the first rows stand in links_rows.py, links_credit.py and links_parts.py as a person wrote them; they are those of the
plain model in tools/amqp/session_links.py too, by which the random rows are answered (links_model.py). Nothing is taken from the program's
output. And each wrong model of links_wrong.py answers the stored rows otherwise.

SEED is any word, and the same one draws the same rows. The kinds of calls and answers that they reach and no stored row does are listed.
CONTRIBUTING.md, "Rows by a seed", says how the program runs them.
"""

import sys
from pathlib import Path

sys.path.insert(0, str(Path(__file__).resolve().parents[1]))

from gen import links_credit, links_model, links_parts, links_rows, links_wrong
from gen.links_lines import Model
from gen.row import Rows
from shared.command import command, told

CRATE = Path(__file__).resolve().parents[2] / "crates" / "rows_links"


def write_random(seed, count, folder):
    """Writes other random rows, and says what they reach beside the stored ones."""
    rows = Rows()
    reached = links_model.write_random(rows, seed, count)
    folder.mkdir(parents=True, exist_ok=True)
    rows.write(folder)
    new = reached - links_model.write(Rows())[0]
    for kind in sorted(map(str, new)):
        print(kind)
    print(f"{count} rows, {len(rows.asked)} lines, {len(reached)} kinds, {len(new)} of them in no stored row")


def by_hand():
    """The rows that a person wrote, which the model answers alike."""
    rows = Rows()
    for part in (links_rows, links_credit, links_parts):
        part.write(rows)
    model, title = Model(), None
    for line, answer in zip(rows.asked, rows.said, strict=True):
        title = line if line.startswith("#") else title
        if model.answer(line) != answer:
            told(f"{title}: {line}: the model answers {model.answer(line)}, and the row {answer}")
    return rows


def main():
    words = sys.argv[1:]
    if words[:1] == ["--random"] and len(words) == 4 and words[2].isdecimal():
        return write_random(words[1], int(words[2]), Path(words[3]))
    if words:
        told("no words, or --random SEED COUNT FOLDER")
    rows = by_hand()
    reached, every = links_model.write(rows)
    print(f"{links_model.STORED} random rows of {links_model.DRAWN}, {len(reached)} of {len(every)} kinds of calls and answers")
    kept = links_wrong.not_told_apart(rows)
    print(f"{len(links_wrong.WRONG) - len(kept)} of {len(links_wrong.WRONG)} wrong models are told apart")
    if kept:
        told(f"wrong, and not told apart: {', '.join(kept)}")
    rows.write(CRATE)


if __name__ == "__main__":
    command(main, __doc__)
