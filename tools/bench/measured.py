"""The processor time of a program, as the kernel counts it, for the scripts beside it."""

import os
import subprocess
import sys
import tempfile
import time

# How often a run is repeated: at least so often, and short ones for so many seconds
RUNS, TOGETHER = 5, 2
# What a run may take, in seconds
LIMIT = 120
# A slope is taken over so many seconds, and half of what is done before, where the largest count takes as long.
ENOUGH = 0.1


class TooLong(Exception):
    """A run took longer than the limit."""


def seconds(words, data):
    """The processor time of one run on this standard input."""
    with tempfile.TemporaryFile() as file:
        file.write(data)
        file.seek(0)
        process = subprocess.Popen(list(map(str, words)), stdin=file, stdout=subprocess.DEVNULL)
    return used(process)


def used(process):
    """The processor time that a process has used at its end."""
    last = time.monotonic() + LIMIT
    while True:
        pid, status, usage = os.wait4(process.pid, os.WNOHANG)
        if pid:
            break
        if time.monotonic() > last:
            process.kill()
            process.wait()
            raise TooLong
        time.sleep(0.005)
    process.returncode = os.waitstatus_to_exitcode(status)
    if process.returncode:
        sys.exit(f"{process.args}: status {process.returncode}")
    return usage.ru_utime + usage.ru_stime


def least(run, count):
    """The least time of several runs."""
    times = [run(count) for _ in range(RUNS)]
    while sum(times) < TOGETHER:
        times.append(run(count))
    return min(times)


def per_unit(run, most, first=100):
    """The seconds that one unit takes: `run(count)` does that many, `first` or more, and `most` is the largest count. It is the slope
    between none and enough of them."""
    # twice, since one run may be slow by chance
    none, count = min(run(0), run(0)), min(most, first)
    enough = max(ENOUGH, none / 2)
    while count < most and min(run(count), run(count)) - none < enough:
        count = min(most, count * 10)
    return (least(run, count) - least(run, 0)) / count
