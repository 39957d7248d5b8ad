#!/usr/bin/env python3
"""Tries the package `amqp_engine` over a library: tools/try_c/try_c.py LIBRARY. The last line is 'N passed, M failed'.

Each module that it names has the tests of one subject. Engines talk in memory, and over sockets on loopback.
"""

import os
import sys
from pathlib import Path

sys.path.insert(0, str(Path(__file__).resolve().parents[1]))

from shared.command import command
from try_c.try_c_chances import TESTS as BY_CHANCE
from try_c.try_c_clients import TESTS as OF_CLIENTS
from try_c.try_c_cuts import TESTS as OF_CUTS
from try_c.try_c_deliveries import TESTS as OF_DELIVERIES
from try_c.try_c_docstrings import TESTS as OF_DOCSTRINGS
from try_c.try_c_engine import TESTS as OF_ENGINES
from try_c.try_c_links import TESTS as OF_LINKS
from try_c.try_c_memory import TESTS as OF_MEMORY
from try_c.try_c_messages import TESTS as OF_MESSAGES
from try_c.try_c_refused import TESTS as OF_THE_REFUSED
from try_c.try_c_served import TESTS as OF_SERVED
from try_c.try_c_serving import TESTS as OF_SERVING
from try_c.try_c_sockets import TESTS as OVER_SOCKETS
from try_c.try_c_streams import TESTS as OF_STREAMS
from try_c.try_c_tls import TESTS as OVER_TLS
from try_c.try_c_values import TESTS as OF_VALUES
from try_c.try_c_written import TESTS as WRITTEN


def main():
    if len(sys.argv) != 2:
        sys.exit(__doc__.strip())
    os.environ["AMQP_LIBRARY"] = str(Path(sys.argv[1]).resolve())
    failed, tests = 0, OF_VALUES + WRITTEN + OF_MESSAGES + OF_ENGINES + OF_DELIVERIES + OF_THE_REFUSED + OF_CUTS
    tests += OF_LINKS + BY_CHANCE + OF_STREAMS + OVER_SOCKETS + OF_CLIENTS + OF_SERVING + OF_SERVED + OVER_TLS
    tests += OF_MEMORY + OF_DOCSTRINGS
    for it in tests:
        try:
            it()
        except Exception as error:
            failed += 1
            print(f"FAILED: {it.__name__}: {type(error).__name__}: {error}")
    print(f"{len(tests) - failed} passed, {failed} failed")
    sys.exit(failed > 0)


if __name__ == "__main__":
    command(main, __doc__)
