"""How watch.py and transcript.py tell what they see: one line a frame, breaches alone, or an object of JSON a line; and what the options of both mean.

Texts of a peer come in as page/values.py shows them, without a character that a terminal would obey; those that are told of a frame are made so here.
"""

import io
import json
import os
import re
import sys

from amqp.tables import TABLES
from page.rows import shown
from page.values import visible

WHO = {"A": "client", "B": "server"}
# What is told with one of these in brackets is no breach
LAWFUL = re.compile(r"\w+ \((the peer ended|in flight after this side's|after a frame that cannot be read)")
ENGINE, JUDGE = "the engine", "the judge"
# So much of a frame's fields stands in a line
MOST_LINE = 240
RED, GREEN, YELLOW, BLUE, GREY = 31, 32, 33, 36, 90
COLOURS = {"A": BLUE, "B": GREEN}


def add_options(parser):
    parser.add_argument("--quiet", action="store_true")
    parser.add_argument("--json", action="store_true")
    parser.add_argument("--color", choices=("auto", "always", "never"), default="auto")


def has_colours(choice, out):
    """Whether what goes to `out` is coloured (no-color.org)."""
    if choice != "auto":
        return choice == "always"
    return out.isatty() and not os.environ.get("NO_COLOR") and os.environ.get("TERM") != "dumb"


def is_breach(text):
    return not LAWFUL.match(text)


def placed(tally, side, what):
    """What is told after a frame, of a side or of both."""
    return f"{WHO[side]}, after frame {tally.frames}: {visible(what)}" if side else visible(what)


def verdict(text, by):
    """What is told of a frame: its name, all of it, by whom, and whether it is a breach."""
    name = "bad line" if text.startswith("bad line") else re.match(r"\w*", text)[0]
    return [name, visible(text), by, 0 if LAWFUL.match(text) else 1]


class Tally:
    """What a connection comes to: frames, their bytes, what of it is a breach, and the longest time without a frame."""

    def __init__(self, number):
        self.number, self.frames, self.bytes, self.breaches, self.began, self.last, self.silence = number, 0, 0, 0, None, None, None

    def take(self, size, when, found):
        """The seconds since the first frame, and since the last one; `None` where no time is known."""
        self.frames, self.bytes = self.frames + 1, self.bytes + size
        self.breaches += sum(is_breach(text) for text, _ in found)
        if when is None:
            return None, None
        since = 0.0 if self.last is None else max(0.0, when - self.last)
        self.silence = since if self.last is None else max(self.silence, since)
        self.began, self.last = when if self.began is None else self.began, when
        return max(0.0, when - self.began), since


class Teller:
    """Tells of connections, to `out`. `is_bad` is whether there was a breach, or what could not be looked at."""

    def __init__(self, out=None, quiet=False, colours=False, hides=lambda: None, goes_on=False):
        self.out, self.quiet, self.colours, self.is_bad = out or sys.stdout, quiet, colours, False
        # what takes another line off the terminal; and whether it goes on where nobody reads what is told
        self.hides, self.goes_on = hides, goes_on

    def put(self, line):
        try:
            self.hides()
            print(line, file=self.out, flush=True)
        except OSError:
            if not self.goes_on:
                raise

    def colour(self, code, text):
        return f"\x1b[{code}m{text}\x1b[0m" if self.colours else text

    # ---- what happens

    def frame(self, tally, side, of, size, when=None, found=()):
        """A frame of a connection, without its size, and pairs of what is told of it and by whom."""
        times = tally.take(size, when, found)
        self.is_bad = self.is_bad or any(is_breach(text) for text, _ in found)
        found = [verdict(text, by) for text, by in found]
        if self.quiet:
            found = [it for it in found if it[3]]
        if found or not self.quiet:
            self.show(tally, side, shown(of, size), size, times, found)

    def unread(self, tally, side, what, breaks=False):
        """Why no more is looked at of a connection, or of a side of it."""
        tally.breaches += breaks
        self.is_bad = True
        self.note(tally.number, placed(tally, side, what))

    def remark(self, tally, what):
        """What is no fault of anybody's."""
        if not self.quiet:
            self.note(tally.number, visible(what))

    def over(self, tally):
        """The connection is over."""
        if not self.quiet:
            self.sum_up(tally)

    # ---- how it is shown

    def show(self, tally, side, frame, size, times, found):
        if self.quiet:
            begins = f"connection {tally.number}, {WHO[side]}, frame {tally.frames}, {frame.kind}"
            return self.put("\n".join(f"{begins}: {self.colour(RED, text)}" for _, text, _, _ in found))
        since = self.colour(GREY, "" if times[1] is None else f"+{times[1]:.6f}".rjust(11))
        who = self.colour(COLOURS[side], f"{WHO[side]} {tally.frames:>5} {frame.kind:<11}")
        told = "".join(f"  {self.colour(RED if breaks else YELLOW, text)}" for _, text, _, breaks in found)
        self.put(f"{tally.number:>2} {since} {who} {frame.channel:>3} {in_a_line(frame.fields)}{told}".rstrip())

    def note(self, number, what):
        self.put(self.colour(YELLOW, f"connection {number}, {what}"))

    def sum_up(self, tally):
        silence = "" if tally.silence is None else f", the longest silence {tally.silence:.3f} s"
        told = f"over, after {tally.frames} frames, {tally.bytes} bytes, {tally.breaches} breaches{silence}"
        self.put(self.colour(RED if tally.breaches else GREY, f"connection {tally.number}, {told}"))

    def listens(self, host, port):
        self.put(f"listens on {host}:{port}")


class JsonTeller(Teller):
    """The same as objects, one a line, in ASCII: their fields stand in docs/USING.md."""

    def put_object(self, kind, **fields):
        self.put(json.dumps({"kind": kind, **fields}, separators=(",", ":")))

    def show(self, tally, side, frame, size, times, found):
        told = [{"name": name, "text": text, "by": by, "breach": bool(breaks)} for name, text, by, breaks in found]
        time, since = (None if it is None else round(it, 6) for it in times)
        head = {"connection": tally.number, "frame": tally.frames, "side": WHO[side], "time": time, "since": since}
        of = {"performative": frame.kind, "channel": frame.channel, "size": size, "payload": frame.payload, "fields": nested(frame.fields)}
        self.put_object("frame", **head, **of, told=told)

    def note(self, number, what):
        self.put_object("note", connection=number, text=what)

    def sum_up(self, tally):
        silence = None if tally.silence is None else round(tally.silence, 6)
        fields = {"frames": tally.frames, "bytes": tally.bytes, "breaches": tally.breaches, "silence": silence}
        self.put_object("summary", connection=tally.number, **fields)

    def listens(self, host, port):
        self.put_object("listens", host=host, port=port)


def teller_of(said, hides=lambda: None, goes_on=False):
    """The teller that the options ask for."""
    if isinstance(sys.stdout, io.TextIOWrapper):
        # a text that the terminal's encoding lacks is spelled
        sys.stdout.reconfigure(errors="backslashreplace")
    colours = not said.json and has_colours(said.color, sys.stdout)
    return (JsonTeller if said.json else Teller)(sys.stdout, said.quiet, colours, hides, goes_on)


# ---- the fields of a frame


def in_a_line(fields):
    """The fields in a line: `next-incoming-id=2 incoming-window=32`, cut where they are long."""
    text = " ".join(f"{name.replace(': ', '.')}={word(it)}" for name, it in fields)
    return text if len(text) <= MOST_LINE else f"{text[:MOST_LINE]}…"


def word(text):
    return text if text and not set(text) & set(' "=') else '"' + text.replace('"', "'") + '"'


def nested(fields):
    """The fields as an object; the parts of a terminus, a state or an error are an object in it, whose kind stands under `is`."""
    found = {}
    for name, text in fields:
        *above, last = name.split(": ")
        of = found
        for part in above:
            of[part] = of = of[part] if isinstance(of.get(part), dict) else {"is": of.get(part)}
        of[last] = text if above else typed(last, text)
    return found


KINDS = {name.replace("_", "-"): kind for _, table in TABLES.values() for name, kind, _ in table}


def typed(name, text):
    """A number or a flag as JSON has it; all else as its text."""
    if KINDS.get(name) in ("number", "handle") and text.isdecimal():
        return int(text)
    return {"true": True, "false": False}.get(text, text) if KINDS.get(name) == "flag" else text
