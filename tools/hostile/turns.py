#!/usr/bin/env python3
"""The broker of the examples, with a look at how long its clients wait for each other: tools/hostile/turns.py [FILES].

At each SIGUSR1 it prints the longest turn of its loop since the last one, in milliseconds of processor time, in which
nobody else was served. With a number of files the process may have no more.
"""

import asyncio
import resource
import signal
import sys
import time
from pathlib import Path

sys.path.insert(0, str(Path(__file__).resolve().parents[2] / "examples" / "python"))

import broker

WORST = [0.0]


def tell():
    print(f"{WORST[0] * 1000:.1f}", flush=True)
    WORST[0] = 0.0


async def look():
    """Comes to its turn in each round of the loop."""
    asyncio.get_running_loop().add_signal_handler(signal.SIGUSR1, tell)
    before = time.process_time()
    while True:
        await asyncio.sleep(0)
        now = time.process_time()
        WORST[0] = max(WORST[0], now - before)
        before = time.process_time()


async def main():
    if len(sys.argv) > 1:
        resource.setrlimit(resource.RLIMIT_NOFILE, (int(sys.argv[1]), int(sys.argv[1])))
    looks = asyncio.ensure_future(look())
    sys.argv[1:] = ["0"]
    await broker.main()
    looks.cancel()


if __name__ == "__main__":
    asyncio.run(main())
