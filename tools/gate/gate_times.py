#!/usr/bin/env python3
"""Runs the gate, and prints the processor minutes and the minutes of each of its tasks.

    tools/gate/gate_times.py                 runs .ci/run
    tools/gate/gate_times.py COMMAND..       runs another command at the top of the repository, as tools/gate/refused_together.py amqp_frames

What the command prints goes to standard error, and its status is this one's. The table on standard output has a line for each task of a
crate: the misuses that the compiler refuses, the proof, the proof of its tests, the must-fail edits, and the runs of its program and its
tests. Processor minutes are user and system time together, of a task's processes and of all that they start, as the system counts them
(/proc, read four times a second, so that up to a quarter of a second of a process may be missed). A task's minutes last from the start of
its first process to the end of its last. The last lines are the rest, which no task names, and the whole, which the system counts exactly.
"""

import os
import re
import subprocess
import sys
import threading
from pathlib import Path

sys.path.insert(0, str(Path(__file__).resolve().parents[1]))

from shared.command import command

ROOT = Path(__file__).resolve().parents[2]
PROC = Path("/proc")
TICKS = os.sysconf("SC_CLK_TCK")
EVERY = 0.25
KINDS = ["misuses", "proof", "tests", "edits", "run"]


class Process:
    """A process: whose child it is, and the seconds that it and its children that have ended took."""

    def __init__(self, pid):
        fields = PROC.joinpath(str(pid), "stat").read_text().rpartition(")")[2].split()
        self.parent = int(fields[1])
        self.seconds = sum(map(int, fields[11:15])) / TICKS
        self.key = (pid, fields[19])


def processes():
    found = {}
    for name in os.listdir(PROC):
        if name.isdigit():
            try:
                found[int(name)] = Process(int(name))
            except (OSError, IndexError, ValueError):
                pass  # it has ended
    return found


def task_of(pid):
    """The task that a process works for, as its command and its folder say."""
    try:
        words = PROC.joinpath(str(pid), "cmdline").read_text(errors="replace").split("\0")
        folder = os.readlink(PROC / str(pid) / "cwd")
    except OSError:
        return None
    if os.path.basename(words[0]) == "rattle" and "--crate-name" in words:
        crate = words[words.index("--crate-name") + 1]
        if "rt-edit-" in folder:
            return crate, "edits"
        if not Path(folder).is_relative_to(ROOT):
            return crate, "misuses"
        return crate, "tests" if "--test" in words else "proof"
    for word in words:
        ran = re.search(r"/rt-run-[^/]*/bin/(\w+?)(?:_tests)?(?:\.by-rattle)?$", word)
        if ran:
            return ran[1], "run"
    return None


class Times:
    """What each task has taken so far."""

    def __init__(self, child):
        self.child = child
        self.known = {}  # the task of a process
        self.taken = {}  # the seconds of the uppermost process of a task
        self.spans = {}  # the first and the last time that a task was seen

    def task(self, pid, process):
        if self.known.get(process.key) is None:
            self.known[process.key] = task_of(pid)
        return self.known[process.key]

    def uppermost(self, pid, found):
        """The uppermost process, from this one up to the command, that works for a task."""
        top = None
        while pid in found and pid != self.child:
            top = pid if self.task(pid, found[pid]) else top
            pid = found[pid].parent
        return top if pid == self.child else None

    def look(self, now):
        found, sums = processes(), {}
        for pid, process in found.items():
            top = self.uppermost(pid, found)
            if top is not None:
                sums[top] = sums.get(top, 0) + process.seconds
        for top, seconds in sums.items():
            key = found[top].key
            task = self.known[key]
            self.taken[key] = max(seconds, self.taken.get(key, 0))
            first, _ = self.spans.get(task, (now, now))
            self.spans[task] = (first, now)

    def of_task(self, task):
        return sum(seconds for key, seconds in self.taken.items() if self.known[key] == task)


def crates():
    lines = (ROOT / "crates.txt").read_text().splitlines()
    return [re.split(r"[\s:]", line)[0] for line in lines if line.strip() and not line.startswith("#")]


def table(times, whole, minutes):
    order = {crate: i for i, crate in enumerate(crates())}
    tasks = sorted(times.spans, key=lambda task: (order.get(task[0], len(order)), KINDS.index(task[1])))
    print("| Crate | Task | Processor minutes | Minutes |")
    print("|---|---|---|---|")
    for task in tasks:
        first, last = times.spans[task]
        print(f"| `{task[0]}` | {task[1]} | {times.of_task(task) / 60:.1f} | {(last - first) / 60:.1f} |")
    rest = whole - sum(times.taken.values())
    print(f"| | the rest | {rest / 60:.1f} | |")
    print(f"| | the whole | {whole / 60:.1f} | {minutes:.1f} |")


def main():
    words = sys.argv[1:] or [str(ROOT / ".ci" / "run")]
    begun, ended = os.times().elapsed, threading.Event()
    child = subprocess.Popen(words, cwd=ROOT, stdin=subprocess.DEVNULL, stdout=sys.stderr)
    times = Times(child.pid)

    def watch():
        while not ended.wait(EVERY):
            times.look(os.times().elapsed)

    watcher = threading.Thread(target=watch)
    watcher.start()
    try:
        _, status, used = os.wait4(child.pid, 0)
    finally:
        ended.set()
        watcher.join()
    table(times, used.ru_utime + used.ru_stime, (os.times().elapsed - begun) / 60)
    sys.exit(os.waitstatus_to_exitcode(status) & 255)


if __name__ == "__main__":
    command(main, __doc__)
