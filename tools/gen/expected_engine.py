#!/usr/bin/env python3
"""Writes the rows of the program rows_engine: its input, and the output that the standard wants.

    tools/gen/expected_engine.py            writes crates/rows_engine/{stdin,stdout}

Each row is a transcript for an engine of its own in HeaderExchange, whose Open is named `replay`, or calls of a connection alone, or of handles
with the runs of their engine, and what that shows. Beside each line stands what it has to print (AMQP 1.0 part 2, sections 2.4 to 2.6; docs/PROTOCOL.md for the
tables). After them stand whole recorded exchanges, and the scripts that run with memory refused. Nothing is taken from the program's output.
"""

import sys
from pathlib import Path

sys.path.insert(0, str(Path(__file__).resolve().parents[1]))

from gen import engine_alone, engine_connections, engine_dispositions, engine_handles, engine_lines, engine_links, engine_memory, engine_runs, engine_sessions
from gen import engine_wishes, expected_exchange
from gen.row import EngineRows

CRATE = Path(__file__).resolve().parents[2] / "crates" / "rows_engine"


def main():
    rows = EngineRows()
    for part in (engine_alone, engine_connections, engine_sessions, engine_links, engine_handles, engine_dispositions, engine_lines, engine_wishes):
        part.write(rows)
    engine_runs.write(rows)
    expected_exchange.write(rows)
    rows.note()
    engine_memory.write(rows)
    rows.write(CRATE)


if __name__ == "__main__":
    main()
