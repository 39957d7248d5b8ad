#!/usr/bin/env python3
"""What the links of an endpoint add to a delivery on a stream, in instructions.

    tools/bench/bench_endpoints.py [PROGRAM]

PROGRAM is that of tools/bench/bench_endpoints.rt.txt; where it is not named it is built first, without a proof, as that of bench_links.py. A row has
what a delivery costs by the stream alone, by the endpoint, and what that is more. Callgrind counts, as a slope between 1,000 and 2,000 deliveries.
"""

import sys
import tempfile
from pathlib import Path

sys.path.insert(0, str(Path(__file__).resolve().parents[1]))

from bench.bench_links import ON, built, instructions
from shared.command import command

USED = "amqp_endpoints amqp_links amqp_events amqp_driver amqp_types amqp_session amqp_connection amqp_engine amqp_sasl anyhow bytes"
ROWS = {
    "sent settled": "sent-settled",
    "sent unsettled, and settled by a Disposition each": "sent",
    "received settled": "received-settled",
    "received unsettled, settled by a Disposition for 100": "received",
}


def slope(program, mode, way):
    few, many = (instructions(program, [mode, count, way]) for count in ON)
    return (many - few) / (ON[1] - ON[0])


def main():
    with tempfile.TemporaryDirectory() as folder:
        program = sys.argv[1] if sys.argv[1:] else built(folder, "bench_endpoints", USED)
        for name, mode in ROWS.items():
            alone, whole = (slope(program, mode, way) for way in ("stream", "endpoint"))
            print(f"{name:60}{alone:10.0f}{whole:10.0f}{whole - alone:10.0f}", flush=True)


if __name__ == "__main__":
    command(main, __doc__)
