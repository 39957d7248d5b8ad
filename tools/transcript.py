#!/usr/bin/env python3
"""Turns a recorded connection into lines for amqp_replay, and says which recorded frames it refuses, and by which name.

    tools/transcript.py FILE [A|B]             writes the lines to standard output
    tools/transcript.py FILE [A|B] --run PROG  runs the program PROG (amqp_replay) on them and prints each refused frame
    tools/transcript.py FILE [A|B] [--run PROG] --html PAGE
                                               writes a page for a browser too, with all frames; without a program the judge of both sides is asked alone
    tools/transcript.py FILE [A|B] [--run PROG] --frames|--quiet|--json [--color auto|always|never]
                                               prints a line a frame; breaches alone, with the status 1 where there is one, or something could not be looked at;
                                               or, alone or with --quiet, an object of JSON a line (docs/USING.md lists their fields)

FILE is a file of packets, .pcap or .pcapng (read by Debian's python3-dpkt), what `tshark -q -z follow,tcp,raw,N` prints, or a file of lines
`A HEX` and `B HEX`, each a frame without its size; A is the client. Of several connections in a file of packets `--connection N` chooses
one. The second word says whose place the engine takes (A where it is left out): what the other side sent comes as `recv` lines, and what
this side sent is asked for. The engine gives its own channels, handles and numbers, so those are translated in both directions:
- the peer's Begin names the channel that the engine has given, the lowest one that no session holds; a session holds its own until both have
  ended it. A Begin that asks for a session is taken as the answer to one of this side;
- next-incoming-id of the peer's flows and the numbers in its dispositions count from this side's first ones, which are 0 here;
- handles are those that the engine gives: the handle that was freed last, else the next one.
What this side asks for before its session is mapped waits for the peer's Begin, and its Close waits for that. A detach that answers the
peer's, a flow of the session alone, and empty frames are left out: the engine answers by itself, or has no need of them. After an Open, a
Begin, an Attach or a Detach that the engine cannot read comes what can be read of it, so that what follows is not refused for it.
What the peer had sent before it read this side's Close, or its End, is no breach, also where the engine refuses it: it is shown as in flight.
After what the engine refuses stands what it takes and a judge of both sides finds: watch.py says what that looks at. After a `DecodeError` stands
what is wrong, by a reader of its own (strict.py): the field, and the byte of the recorded frame, counted from 0 without its size.
The status is 0 where all was read and run, whatever was refused, but with --quiet; 1 where a file or the program cannot be read or run.
"""

import argparse
import re
import subprocess
import sys
from pathlib import Path

from amqp.frames import CLOSE, END
from amqp.looking import Seen
from amqp.mended import kind_of
from amqp.recordings import connections, told_apart
from amqp.strict import why
from amqp.telling import ENGINE, JUDGE, RED, Tally, add_options, is_breach, teller_of
from amqp.transcript import AFTER_UNREAD, IN_FLIGHT, IN_SESSION, Transcript
from packets.files import has_packets
from packets.joined import Recording
from page.make import found_by_place, of_recording, page_of
from page.values import spelled, visible
from shared.command import command, told
from shared.progress import Progress

# Two lines that are always refused, and change nothing: no line of a transcript is answered so
MARK, MARKED = "release 4294967295\nrecv \n", "err NoSession\nerr DecodeError\n"
# By what names the engine refuses what was in flight, or hangs on a frame that was not read
PEER_ENDED = "the peer ended"
OF_LAWFUL = ("IllegalState", "NotFound", "RemoteAttachingLinkNameNotFound", "UnattachedHandle")


# ---- what the program refuses


def answers(lines, program):
    """What the program answers to each line: names of refusals. A line that it cannot read is left out, and the others are tried anew."""
    unread = {}
    while True:
        left = [(place, line) for place, (_, line) in enumerate(lines) if place not in unread]
        given = "".join(f"{line}\n{MARK}" for _, line in left)
        ran = subprocess.run([program], input=given, stdout=subprocess.PIPE, stderr=subprocess.PIPE, text=True, errors="replace")
        bad = re.match(r"bad line (\d+)", ran.stderr)
        if bad:
            unread[left[(int(bad[1]) - 1) // 3][0]] = ["bad line"]
            continue
        said = ran.stdout.split(MARKED)
        if ran.returncode or len(said) != len(left) + 1:
            told(f"{program}: it ended with status {ran.returncode}, after {len(said) - 1} of {len(left)} lines")
        names = {place: re.findall(r"^err (.*)$", it, re.M) for (place, _), it in zip(left, said)}
        return [{**names, **unread}[place] for place in range(len(lines))]


def refusals(transcript, program, judges=False):
    """Each refused frame, as a text: its place among the recorded ones, who sent it, its kind, and the refusal. Where `judges`, also each other fault."""
    return [f"{begins}: {name}" for _, begins, name, _ in told_of(transcript, program, judges)]


def told_of(transcript, program, judges):
    """Of each refused frame its place, how a line of it begins, the refusal, and who tells it."""
    lines, found = transcript.lines or transcript.run(), []
    faults = dict(transcript.faults) if judges else {}
    for (at, line), names in zip(lines, answers(lines, program)):
        fault = faults.pop(at, None) if line.startswith("recv ") else None
        by = ENGINE if names else JUDGE
        found += [(at, *shown(transcript, at, line, name), by) for name in names or [fault] if name]
    return found


def shown(transcript, at, line, name):
    (side, of), frame = transcript.frames[at], transcript.read[at]
    asked = "" if line.startswith(("recv", "send")) else f" ({line.split(' ')[0]})"
    mark = ""
    if name.startswith("Remote") and frame and frame.code in (END, CLOSE):
        mark = f" ({PEER_ENDED})"
    elif line.startswith("recv") and transcript.lawful.get(at) and name in OF_LAWFUL:
        mark = f" ({transcript.lawful[at]})"
    elif line.startswith("recv") and name == "DecodeError" and why(of):
        mark = f" ({why(of)})"
    return f"frame {at + 1}, {side}, {kind_of(of)}{asked}", f"{name}{mark}"


def counted(frames, found):
    """The last line: how many frames there are, how many are refused as breaches, and how many lawful ones are named."""
    marks = (PEER_ENDED, IN_FLIGHT, IN_SESSION, AFTER_UNREAD)
    named = {mark: sum(it.endswith(f"({mark})") for it in found) for mark in marks}
    line = f"{len(frames)} frames, {len(found) - sum(named.values())} refused, {named.pop(PEER_ENDED)} by which {PEER_ENDED}"
    return line + "".join(f", {count} {mark}" for mark, count in named.items() if count)


# ---- what is done with a recording


class Telling:
    """What is told of each connection of a recording, by the options."""

    def __init__(self, said):
        self.said, self.progress = said, Progress(Path(said.file).stat().st_size)
        self.teller = teller_of(said, lambda: self.progress.hide())
        # a line a frame is asked for, or breaches, or JSON
        self.by_frames = said.frames or said.quiet or said.json

    def look(self):
        """The judge alone looks at each connection as it comes."""
        if has_packets(self.said.file):
            return self.look_at_packets()
        for it in self.connections(False):
            seen, self.progress = Seen(self.teller, it.number), self.progress_of(it, 1)
            for at, (side, of) in enumerate(self.progress.each(it.frames)):
                self.lose(seen, it.lost.get(at, {}))
                seen.whole(side, of)
            self.lose(seen, it.lost.get(len(it.frames), {}))
            self.progress.hide()
            seen.over()

    def lose(self, seen, lost):
        for side, what in lost.items():
            seen.lose(side, what)

    def look_at_packets(self):
        recording, seen = Recording(self.said.file, self.progress.at), {}
        for connection, time, side, what in recording:
            if self.said.connection in (None, connection.number):
                self.happens(seen, connection, time, side, what)
        self.progress.hide()
        told_apart(recording.notes)
        self.teller.is_bad = self.teller.is_bad or not recording.is_whole
        if recording.count < (self.said.connection or 1):
            told(f"{self.said.file}: no connection {self.said.connection or ''} that speaks AMQP in it".replace("  ", " "))

    def happens(self, seen, connection, time, side, what):
        """What happens to a connection of a file of packets."""
        if connection.number not in seen:
            seen[connection.number] = Seen(self.teller, connection.number)
            self.teller.remark(seen[connection.number].tally, connection.name())
        if side is None:
            seen.pop(connection.number).over()
        elif isinstance(what, str):
            seen[connection.number].lose(side, what)
        else:
            seen[connection.number].see(side, what, time)

    def progress_of(self, it, turns):
        """How far it is with a connection whose frames are gone through so often."""
        return Progress(turns * sum(len(of) + 4 for _, of in it.frames))

    def connections(self, sasl):
        found = connections(self.said.file, self.said.connection, sasl, self.progress)
        return found if any(it.frames for it in found) else told(f"{self.said.file}: no frame in it")

    def transcribe(self):
        """The engine takes a side's place, or its lines are written; or a page is."""
        found = self.connections(self.said.html is not None)
        if len(found) > 1 and not (self.said.run or self.said.html):
            told(f"{self.said.file}: one connection of {len(found)} is to be chosen, by --connection")
        for it in found:
            self.one(it, f"connection {it.number}, " if len(found) > 1 else "")

    def one(self, it, begins):
        said, self.progress = self.said, self.progress_of(it, 2 + (self.said.html is not None))
        transcript = Transcript(it.frames, said.side, it.lost, self.progress.each)
        lines = transcript.run()
        self.progress.hide()
        found = told_of(transcript, said.run, judges=True) if said.run else []
        if self.by_frames:
            self.tell(it, found_by_place(transcript, found))
        elif said.run:
            self.tell_refused(transcript, found, begins)
        elif said.html is None:
            # they hold names of the peer's: a program has them as they are, and a terminal spelled
            shown = spelled if sys.stdout.isatty() else str
            print("\n".join(shown(line) for _, line in lines))
        if page := page_of(said.html, it.number):
            of_recording(it, transcript, found, judged_by(said)).write(page)
            self.progress.hide()

    def tell(self, it, found):
        tally = Tally(it.number)
        for at, ((side, of), time) in enumerate(zip(it.frames, it.times)):
            self.teller.frame(tally, side, of, len(of) + 4, time, found.get(at, ()))
        self.teller.over(tally)

    def tell_refused(self, transcript, found, begins):
        lines = [f"{which}: {visible(name)}" for _, which, name, _ in found]
        for line, (_, _, name, _) in zip(lines, found):
            self.teller.put(begins + (self.teller.colour(RED, line) if is_breach(name) else line))
        self.teller.put(begins + counted(transcript.frames, lines))


def judged_by(said):
    return f"the engine in the place of {said.side}, and a judge of both sides" if said.run else "a judge of both sides"


def arguments():
    parser = argparse.ArgumentParser(description=__doc__, formatter_class=argparse.RawDescriptionHelpFormatter)
    parser.add_argument("file")
    parser.add_argument("side", nargs="?", choices=("A", "B"), default="A")
    parser.add_argument("--run", metavar="PROG")
    parser.add_argument("--html", type=Path, metavar="PAGE")
    parser.add_argument("--connection", type=int, metavar="N")
    parser.add_argument("--frames", action="store_true")
    add_options(parser)
    return parser.parse_args()


def main():
    said = arguments()
    telling = Telling(said)
    telling.look() if telling.by_frames and not said.run and not said.html else telling.transcribe()
    if said.quiet and telling.teller.is_bad:
        sys.exit(1)


if __name__ == "__main__":
    command(main, __doc__)
