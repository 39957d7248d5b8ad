#!/usr/bin/env python3
"""Writes the rows of the program rows_session: its input, and the output that the standard wants.

    tools/gen/expected_session.py                               writes crates/rows_session/{stdin,stdout}
    tools/gen/expected_session.py --random SEED COUNT FOLDER    writes other random rows, so many, as stdin and stdout into the folder

Each row is a new session, calls, and beside each call what it has to answer (AMQP 1.0 part 2, sections 2.5 to 2.7; docs/PROTOCOL.md for
the states). The answers stand here as a person wrote them, or follow from the tables below, or are those of the plain model in
session_model.py; nothing is taken from the program's output. The rows of pairs of sessions stand at the end (session_pairs.py).

Other random rows are of dispositions, by the model alone. SEED is any word, and the same one draws the same rows. The
kinds of calls and answers that they reach and no stored row does are listed. CONTRIBUTING.md, "Rows by a seed", says how
the program runs them.
"""

import sys
from pathlib import Path

sys.path.insert(0, str(Path(__file__).resolve().parents[1]))

from gen import session_dispositions, session_flows, session_links, session_model, session_pairs, session_states, session_tests, session_transfers, session_windows
from gen.row import SessionRows
from shared.command import command, told

PARTS = [session_states, session_windows, session_transfers, session_flows, session_links, session_dispositions, session_tests]

CRATE = Path(__file__).resolve().parents[2] / "crates" / "rows_session"


def write_random(seed, count, folder):
    """Writes other random rows, and says what they reach beside the stored ones."""
    rows = SessionRows()
    reached = session_model.write_random(rows, seed, count)
    folder.mkdir(parents=True, exist_ok=True)
    rows.write(folder)
    new = reached - session_model.write(SessionRows())
    for kind in sorted(map(str, new)):
        print(kind)
    print(f"{count} rows, {len(reached)} kinds, {len(new)} of them in no stored row")


def main():
    words = sys.argv[1:]
    if words[:1] == ["--random"] and len(words) == 4 and words[2].isdecimal():
        return write_random(words[1], int(words[2]), Path(words[3]))
    if words:
        told("no words, or --random SEED COUNT FOLDER")
    rows = SessionRows()
    for part in PARTS:
        part.write(rows)
    rows.note()
    # a thousand deliveries, and the rows of the model, are for no reader
    session_tests.write_long(rows)
    reached = session_model.write(rows)
    print(f"{session_model.STORED} random rows of {session_model.DRAWN}, {len(reached)} kinds of calls and answers")
    session_pairs.write(rows)
    rows.write(CRATE)


if __name__ == "__main__":
    command(main, __doc__)
