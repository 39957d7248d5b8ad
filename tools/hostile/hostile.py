#!/usr/bin/env python3
"""Peers that attack the package `amqp_engine` and its examples over a library: tools/hostile/hostile.py LIBRARY. The last line is 'N passed, M failed'.

Each test is one attack, with the outcome that it must have: how it ends, how long others wait, and what stays. All is on loopback, and ends by itself;
the groups of tests, which are the files of this folder, run side by side, each in a process of its own. With a group as a second word it runs that one.
"""

import asyncio
import importlib
import os
import subprocess
import sys
import time
from pathlib import Path

sys.path.insert(0, str(Path(__file__).resolve().parents[1]))
sys.path.insert(0, str(Path(__file__).resolve().parents[2] / "bindings" / "python"))

from shared.command import command

GROUPS = ("values", "logins", "streams", "frames", "brokers", "clients", "floods", "streams_by_chance", "clients_by_chance")


async def tried(it, turns, longest=60):
    """What failed of a test, which takes so many seconds at most; nothing where it passed."""
    async with turns:
        start = time.monotonic()
        try:
            await asyncio.wait_for(it(), longest)
            error = None
        except Exception as raised:
            error = f"{type(raised).__name__}: {raised}"[:1000]
        print(f"{'FAILED: ' if error else ''}{it.__name__}{': ' + error if error else ''} ({time.monotonic() - start:.1f} s)", flush=True)
        return error


async def group(name):
    """The tests of a group, a few at a time where they mostly wait; and one more, that no task of a connection stays."""
    of = importlib.import_module(f"hostile.{name}")
    turns, longest = asyncio.Semaphore(of.AT_ONCE), getattr(of, "LONGEST", 60)
    errors = await asyncio.gather(*(tried(it, turns, longest) for it in of.TESTS))
    errors.append(await tried(no_task_stays, turns))
    failed = sum(it is not None for it in errors)
    print(f"{len(errors) - failed} passed, {failed} failed")


async def no_task_stays():
    own = asyncio.current_task()
    stays = [it for it in asyncio.all_tasks() if it is not own and "group" not in repr(it) and "tried" not in repr(it)]
    if stays:
        await asyncio.wait(stays, timeout=10)
    assert all(it.done() for it in stays), [it for it in stays if not it.done()]


def main():
    if len(sys.argv) not in (2, 3):
        sys.exit(__doc__.strip())
    os.environ["AMQP_LIBRARY"] = str(Path(sys.argv[1]).resolve())
    if len(sys.argv) == 3:
        return asyncio.run(group(sys.argv[2]))
    running = [subprocess.Popen([sys.executable, __file__, sys.argv[1], it], stdout=subprocess.PIPE) for it in GROUPS]
    passed = failed = 0
    for name, it in zip(GROUPS, running):
        lines = it.communicate()[0].decode(errors="replace").strip().split("\n")
        counts = lines[-1].split()
        whole = counts[1::2] == ["passed,", "failed"]
        passed, failed = passed + int(counts[0] if whole else 0), failed + int(counts[2] if whole else 1)
        print(*(f"{name}: {line}" for line in lines[: -1 if whole else None]), sep="\n")
    print(f"{passed} passed, {failed} failed")
    sys.exit(failed > 0)


if __name__ == "__main__":
    command(main, __doc__)
