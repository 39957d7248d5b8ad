#!/usr/bin/env python3
"""Refuses each request for memory in turn, and says whether the engine and the program go on as they have to.

    tools/gate/refuse_each.py

It compiles refuse_nth.c with the machine's compiler (and installs gcc where there is none), and takes the programs rows_engine and
amqp_replay as `rt run` or `rt ci` left them in out/; where one is missing it has `rt run` make it. Nothing of this is proved.

rows_engine runs its scripts once undisturbed, and then once for each N with the N-th request refused, until a run meets no refusal. But for the lines
after `~`, which tell the refusals, it has to print what it prints undisturbed: each piece in its order, nothing twice and nothing left out.
In the second script a transfer that its session refuses is not offered again: the numbers are counted once, and nothing is recorded.
Calls that take no memory are made while every request is refused, and have to make none. amqp_replay has to end with the whole output, or
with status 3 and a beginning of it.

A table is printed of the requests that each call makes, and of the refusals that it met. A call that makes more requests than AT_MOST says, or
that makes some and was never refused, fails the run. The last line is 'N passed, M failed'.
"""

import os
import shutil
import subprocess
import sys
import tempfile
from pathlib import Path

sys.path.insert(0, str(Path(__file__).resolve().parents[1]))

from amqp.tables import TABLES
from gen import engine_memory, expected_exchange
from shared.command import command

ROOT = Path(__file__).resolve().parents[2]

# What asks for memory, as docs/MEMORY.md has it. A place in a list, a queue, a heap or a slab is one request where there is no room; one in an
# index map is four: two of its table, one for the keys and one for the values. A buffer is its bytes and the count of its owners.
ANSWER = PLACE = TEXT = 1
IN_MAP = 4
BUFFER = 2
# What waits to be sent: the bytes of the buffer.
BYTES = 1
# A record of an open delivery: where its table is empty, a list of blocks, one of their ends, one of spare rings, and a ring.
RECORD = 4 * PLACE
# A frame alone: the list of pieces, and the bytes of the head. A cut one: the list, the first head, the one that all in the middle share, the last.
ONE_PIECE = 1 + 1
CUT = 1 + 1 + BUFFER + 1


def sent(frames):
    """So many frames of an engine: a list of pieces for each, and the room for their heads."""
    return frames + BUFFER


# What goes out while a flow of the script is answered: the flow that it asks for, and two transfers.
FRAMES = 3

# The most requests of a call: of `run` with one input of that name, with the answer's place and the encoding of what goes out.
AT_MOST = {
    "bytes": BUFFER,
    "decode": TEXT,
    "encode": ONE_PIECE,
    "encode cut": CUT,
    # the buffer, or beside it the count of a shared payload's owners, and its place
    "encode-to": BYTES + 1 + PLACE,
    "encode-to cut": CUT + 1 + PLACE + BYTES,
    # the room of the queue, and the count of those who hold it
    "events": PLACE + 1,
    "next_output": sent(1),
    # the line as it grows, and the digits of head and payload
    "out_line": 3 * PLACE + 2 * TEXT,
    "read": TEXT,
    # the text of the outcome
    "reject": BUFFER,
    # the list of the parts
    "split": 1,
    # the name, and the place among the input handles
    "received Attach": ANSWER + TEXT + IN_MAP,
    # the place among the routes, and that of the session's count of them
    "received Begin": ANSWER + 2 * IN_MAP,
    # the list of the echoes
    "received Disposition": ANSWER + PLACE + sent(1),
    # the list of frames, and the records
    "received Flow": ANSWER + PLACE + RECORD + sent(FRAMES),
    # the error's condition, and its copy for the handles
    "received Close": ANSWER + 2 * TEXT,
    "received End": ANSWER + 2 * TEXT,
    # the container's name
    "received Open": ANSWER + TEXT,
    # by a run that sends into a buffer: the place of a refusal in place of the answer's, and the buffer
    "into received Flow": PLACE + PLACE + RECORD + BYTES,
    "into request AllocateLink": PLACE + TEXT + PLACE + IN_MAP,
    "into request Transfer": PLACE + RECORD + BYTES,
    # the record, the tag of a long frame, and a session flow
    "received Transfer": ANSWER + RECORD + BUFFER + sent(1),
    # as a link of this side, and a place among the input handles
    "request AllocateIncomingLink": ANSWER + TEXT + PLACE + 2 * IN_MAP,
    # the copy of the name, the place among the output handles, and the one among the names
    "request AllocateLink": ANSWER + TEXT + PLACE + IN_MAP,
    "request Attach": ANSWER + sent(1),
    # the session, two places of what is kept for handles, and the channel's in a slab and in a map; settings without a copy
    "request Begin": ANSWER + IN_MAP + IN_MAP + PLACE + PLACE + IN_MAP + sent(1),
    "request Detach": ANSWER + sent(1),
    # the container's name
    # the number, where it follows none that was forgotten and none follows it: a list of blocks, one of their ends, one of spare rings, and a ring
    "request Forget": ANSWER + 4 * PLACE,
    "request Open": ANSWER + TEXT + sent(1),
    "request Settle": ANSWER,
    # the record, and two pieces
    "request Transfer": ANSWER + RECORD + max(sent(1), 1 + 2),
    # two Ends of the script go out in one run
    "run of wishes": ANSWER + sent(2),
    "write": TEXT,
}


def made(name):
    """The program, made where it is missing."""
    program = ROOT / "crates" / name / "out" / name
    if not program.exists():
        subprocess.run(["rt", "run"], cwd=program.parent.parent, stdin=subprocess.DEVNULL, stdout=subprocess.DEVNULL, check=True)
    return program


def compiled(room):
    """The library that refuses, made by the machine's compiler."""
    if not shutil.which("gcc"):
        subprocess.run(["apt-get", "install", "-y", "-qq", "gcc", "libc6-dev"], stdout=subprocess.DEVNULL, check=True)
    library = room / "refuse_nth.so"
    source = ROOT / "tools" / "gate" / "refuse_nth.c"
    subprocess.run(["gcc", "-O1", "-Wall", "-shared", "-fPIC", "-o", library, source, "-ldl"], check=True)
    return library


class Run:
    """A run of a program with the N-th request refused, or none."""

    def __init__(self, program, library, given, nth=0):
        log = library.parent / "log"
        env = {**os.environ, "LD_PRELOAD": str(library), "REFUSE_LOG": str(log), "REFUSE_NTH": str(nth)}
        ran = subprocess.run([program], input=given, stdout=subprocess.PIPE, stderr=subprocess.PIPE, env=env, timeout=100)
        self.status, self.said, self.told = ran.returncode, ran.stdout.decode(), ran.stderr.decode()
        # how many requests there were before each mark, and how many of them were refused
        self.marks = [(int(seen), int(refused), mark) for seen, refused, mark in (it.split(" ", 2) for it in log.read_text().splitlines())]
        self.requests, self.refused = self.marks[-1][:2]

    def lines(self):
        return self.said.splitlines()


class Sweep:
    """What was compared."""

    def __init__(self):
        self.passed, self.failed = 0, 0

    def check(self, is_well, what):
        self.passed += is_well
        self.failed += not is_well
        if not is_well:
            print(f"FAILED: {what}", flush=True)


def name_of(line):
    """What a line of the script calls."""
    if line.startswith("into "):
        return "into " + name_of(line.removeprefix("into "))
    word, _, rest = line.removeprefix("wished ").partition(" ")
    if word == "run":
        return "run of wishes"
    if word in ("recv", "take"):
        return "received " + TABLES[int(rest[12:14], 16)][0]
    if word in ("send", "detach"):
        return "request " + TABLES[int(rest.split(" ")[1][4:6], 16)][0]
    if word == "call":
        return rest.split(" ")[0] + (" cut" if rest.startswith(("encode 40 ", "encode-to 40 ")) else "")
    names = {"open": "Open", "close": "Close", "begin": "Begin", "end": "End", "release": "Release", "forget": "Forget", "link": "AllocateLink",
             "link-incoming": "AllocateIncomingLink", "settle": "Settle"}
    return "request " + names[word] if word in names else word


class Call:
    """A stretch of the undisturbed run between two marks: the requests numbered from first to last are its own."""

    def __init__(self, name, first, last):
        self.name, self.first, self.last = name, first, last


def calls(run, script):
    """The calls of the undisturbed run, by the script's lines: `run`s of inputs, and what is marked by a name of its own."""
    found, line, lines = [], None, iter(script)
    for (seen, _, mark), (after, _, _) in zip(run.marks, run.marks[1:]):
        if mark == "@line":
            line = next(lines)
        elif mark == "@run":
            found.append(Call(name_of(line), seen + 1, after))
        elif mark in ("@out_line", "@next_output"):
            found.append(Call(mark[1:], seen + 1, after))
    assert next(lines, None) is None
    return found


def end_of(run):
    """The number of the last request before the part in which readers and writers fail."""
    return next(seen for seen, _, mark in run.marks if mark == "@replays")


def without(lines):
    return [it for it in lines if not it.startswith("~")]


def refuses_none(sweep, run, nth):
    """While every request is refused, none is made."""
    for (seen, refused, mark), (after, more, _) in zip(run.marks, run.marks[1:]):
        if mark == "@refuse":
            sweep.check((seen, refused) == (after, more), f"N={nth}: a call that takes no memory asks for some")


def second_script(lines):
    """The lines before the second script, of the script, and after it."""
    first, after = (lines.index("# " + it) for it in (engine_memory.REFUSED, engine_memory.CODEC))
    return lines[:first], lines[first:after], lines[after:]


def as_wanted(whole, said):
    """Whether the lines are those of the undisturbed run, but for the transfer that its session refused, if it refused one."""
    lost = "~ the session refuses the transfer"
    before, script, after = second_script(said)
    if lost not in script:
        return without(said) == whole
    which = [it for it in script if it.startswith(("next-incoming", "~"))].index(lost)
    wanted = [it for it in engine_memory.received(which)]
    return [*before, *after] == [it for part in second_script(whole)[::2] for it in part] and script[-len(wanted):] == wanted


def each_of_script(sweep, program, library):
    """The scripts of rows_engine, with each request refused; the calls, and the refusals of each."""
    rows = engine_memory.rows()
    script = rows.asked
    given = "\n".join(script).encode() + b"\n"
    whole = Run(program, library, given)
    sweep.check(whole.status == 0 and whole.lines() == rows.said, "the scripts undisturbed print what they have to")
    refuses_none(sweep, whole, 0)
    met = {}
    found = calls(whole, script)
    for nth in range(1, end_of(whole) + 1):
        run = Run(program, library, given, nth)
        sweep.check(run.status == 0 and as_wanted(whole.lines(), run.lines()), f"N={nth}: {run.told[-200:]!r}")
        refuses_none(sweep, run, nth)
        told = [it for it in run.lines() if it.startswith("~")]
        sweep.check(run.refused == 1 and len(told) <= 1, f"N={nth}: one refusal is met once")
        for call in found:
            if call.first <= nth <= call.last:
                met.setdefault(call.name, []).append(told[0] if told else "absorbed")
    return found, met, end_of(whole)


def each_of_replay(sweep, program, library):
    """amqp_replay on a recorded exchange, with each request refused."""
    given = recorded()
    whole = Run(program, library, given)
    sweep.check(whole.status == 0 and whole.said.count("\n") > 10, "amqp_replay undisturbed replays the exchange")
    ended = 0
    for nth in range(1, whole.requests + 1):
        run = Run(program, library, given, nth)
        is_whole = run.status == 0 and run.said == whole.said
        is_begun = run.status == 3 and whole.said.startswith(run.said)
        ended += run.status == 3
        sweep.check(is_whole or is_begun, f"amqp_replay, N={nth}: status {run.status}")
    return whole.requests, ended


def recorded():
    """The lines of the first recorded exchange."""
    lines = expected_exchange.replayed("proton-duo-window", 1).lines
    return "".join(f"{line}\n" for line in lines[1:]).encode()


def table(sweep, found, met):
    """A row for each call: how often it is made, the most requests of one, and the refusals that it met."""
    print("| Call | Made | Requests of one | Refusals met |\n|---|---|---|---|")
    for name in sorted({it.name for it in found}):
        counts = [it.last - it.first + 1 for it in found if it.name == name]
        refusals = met.get(name, [])
        print(f"| {name} | {len(counts)} | {min(counts)} to {max(counts)} | {len(refusals)} |")
        sweep.check(max(counts) <= AT_MOST.get(name, 0), f"{name} asks {max(counts)} times, and at most {AT_MOST.get(name, 0)} are said")
        sweep.check(not max(counts) or bool(refusals), f"{name} was never refused")


def main():
    sweep = Sweep()
    with tempfile.TemporaryDirectory(prefix="refuse-") as room:
        library = compiled(Path(room))
        found, met, requests = each_of_script(sweep, made("rows_engine"), library)
        replayed, ended = each_of_replay(sweep, made("amqp_replay"), library)
    table(sweep, found, met)
    print(f"scripts: {requests} requests, each refused once; amqp_replay: {replayed}, of which {ended} ended it with status 3")
    print(f"{sweep.passed} passed, {sweep.failed} failed")
    sys.exit(sweep.failed != 0)


if __name__ == "__main__":
    command(main, __doc__)
