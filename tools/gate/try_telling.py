#!/usr/bin/env python3
"""Tries how tools/watch.py and tools/transcript.py tell what they see: a line a frame, breaches alone, JSON, colours, and how far a long work is.

    tools/gate/try_telling.py

Nothing of a peer that a terminal would obey may come out. Of JSON each object has the fields that docs/USING.md lists for it. The last line is 'N passed,
M failed'.
"""

import contextlib
import io
import json
import os
import pty
import random
import re
import subprocess
import sys
import tempfile
from pathlib import Path
from unittest import mock

sys.path.insert(0, str(Path(__file__).resolve().parents[1]))

import transcript
import watch
from amqp.canonical import composite, string, symbol, uint
from amqp.frames import ATTACH, CLOSE, NULL, OPEN
from amqp.looking import Seen
from amqp.recorded import CAPTURES
from amqp.recordings import recorded
from amqp.telling import JsonTeller, Teller
from gate.made_connections import SENDER, begun, frame
from gate.made_pages import HOSTILE, followed_lines, hostile, spelled
from gate.stub import with_stub
from shared.command import command
from shared.progress import Progress

ROOT = Path(__file__).resolve().parents[2]
RECORDING = CAPTURES / "erlang-rmq.txt"
# What a terminal would obey, and what turns the direction of writing; none of it may come out
ESCAPES = "\x1b[2J\x1b]0;title\x07", "\x9b31m", "\r\n\x08\x7f", "\u202e\u2066", "\x00\u2028"
OBEYED = re.compile("[\x00-\x08\x0b-\x1f\x7f-\x9f\u2028-\u202e\u2066-\u2069]")
COLOUR = re.compile(r"\x1b\[\d+m")
FAILED = []


def check(name, is_right, *said):
    """Counts a test, and says what was found where it is wrong."""
    if not is_right:
        print(name, *map(ascii, said))
    FAILED.append(not is_right)


def escaping():
    """A connection whose texts are such, and those of frames that cannot be read."""
    text = "".join(ESCAPES)
    error = b"\0\x53\x1d" + composite(0x1D, [symbol("a:\x1b[31m"), string(text)])[3:]
    return [
        frame("A", 0, OPEN, string(text), string(text)),
        frame("B", 0, OPEN, string("B" + text)),
        *begun(0, 0),
        frame("A", 0, ATTACH, string(text), uint(0), SENDER, NULL, NULL, composite(0x28, [string(text)]), composite(0x29, [string(text)])),
        ("A", b"\2\0\0\0\0\xa3\7a:\x1b[31m\x45"),
        ("B", b"\2\0\0\0\0\xa3\4\x1b[2J\x45"),
        frame("A", 0, ATTACH, symbol("\x1b[2J"), uint(1)),
        ("A", b"\2\7\0\0\x1b[2J"),
        frame("B", 0, CLOSE, error),
    ]


def ran(path, *words):
    """What transcript.py prints, what it says beside that, and its status."""
    out, err, status = io.StringIO(), io.StringIO(), 0
    with contextlib.redirect_stdout(out), contextlib.redirect_stderr(err), mock.patch.object(sys, "argv", ["transcript.py", str(path), *words]):
        try:
            transcript.main()
        except SystemExit as end:
            status = end.code
    return out.getvalue(), err.getvalue(), status


@contextlib.contextmanager
def file_of(lines):
    with tempfile.TemporaryDirectory() as folder:
        path = Path(folder) / "made.txt"
        path.write_text("\n".join(lines) + "\n")
        yield path


def on_a_terminal(words, **environment):
    """What a tool writes where its output is a terminal."""
    here, there = pty.openpty()
    kept = {name: it for name, it in os.environ.items() if name not in ("NO_COLOR", "TERM")}
    tool = subprocess.Popen([sys.executable, *words], stdout=there, stderr=there, env={"TERM": "xterm", **kept, **environment})
    os.close(there)
    got = b""
    with contextlib.suppress(OSError):
        while data := os.read(here, 65536):
            got += data
    tool.wait()
    os.close(here)
    return got.decode("utf-8", "surrogateescape").replace("\r\n", "\n")


# ---- what a terminal would obey


def nothing_is_obeyed():
    for name, lines in (("lines", spelled(escaping())), ("followed", followed_lines(escaping()))):
        with file_of(lines) as path:
            for words in (["--frames"], ["--quiet"], ["--json"], ["--json", "--quiet"], ["--frames", "--color", "always"]):
                out, err, _ = ran(path, *words)
                check(f"nothing is obeyed, {name} {words}", out and not OBEYED.search(COLOUR.sub("", out)) and not OBEYED.search(err), out)
                check(f"no colours, {name} {words}", "always" in words or "\x1b" not in out)
            told = on_a_terminal([transcript.__file__, str(path)])
            check(f"the lines of the program, {name}", "link 0 " in told and not OBEYED.search(told), told)
            text, _, _ = with_stub(lambda program: ran(path, "B", "--run", program), "a:\x1b[31m")
            check(f"what the engine refuses, {name}", "\\x1b" in text and not OBEYED.search(text), text)
    out = shown_by(Teller, escaping())
    check("they are spelled", "\\x1b[2J" in out and "\\x9b31m" in out and "\\u202e" in out and "\\x7f" in out, out)


def shown_by(kind, frames, **how):
    out = io.StringIO()
    seen = Seen(kind(out, **how))
    for at, (side, of) in enumerate(frames):
        seen.whole(side, of, at / 4)
    seen.teller.over(seen.tally)
    return out.getvalue()


def any_bytes_are_told():
    """Fronts of frames, and frames with a byte changed, make a line each, of JSON too."""
    draw = random.Random(3)
    frames = [it for path in sorted(CAPTURES.glob("*.txt")) for it in recorded(path)[:30]] + hostile()
    odd = []
    for side, of in frames:
        for at in range(0, min(len(of), 400), 9):
            odd += [(side, of[:at]), (side, of[:at] + bytes([draw.randrange(256)]) + of[at + 1 :])]
    text, objects = shown_by(Teller, odd).splitlines(), shown_by(JsonTeller, odd).splitlines()
    check("any bytes: a line each", len(text) == len(odd) + 1 and not any(OBEYED.search(it) for it in text), len(text), len(odd))
    check("any bytes: an object each", len(objects) == len(odd) + 1 and all(json.loads(it) and it.isascii() for it in objects))
    check("any bytes: lines have an end", max(map(len, text)) < 1000, max(map(len, text)))


# ---- JSON


def listed():
    """The fields of each kind of object, as docs/USING.md lists them."""
    rows = re.findall(r"^\| `(frame|note|summary|listens)` \| `([a-z-]+)` \|", (ROOT / "docs" / "USING.md").read_text(), re.M)
    return {kind: {"kind", *(name for of, name in rows if of == kind)} for kind in {kind for kind, _ in rows}}


def as_objects():
    objects = [json.loads(it) for it in ran(RECORDING, "--json")[0].splitlines()]
    objects += [json.loads(it) for it in shown_by(JsonTeller, [("A", b"\2\0\0\0")]).splitlines()]
    frames = [it for it in objects if it["kind"] == "frame"]
    check("96 frames, and a summary", len(frames) == 97 and [it["kind"] for it in objects[96:]] == ["summary", "frame", "summary"], len(frames))
    told = JsonTeller(io.StringIO())
    told.listens("127.0.0.1", 5)
    told.note(1, "x")
    objects += map(json.loads, told.out.getvalue().splitlines())
    check("the fields that are listed", {it["kind"]: set(it) for it in objects} == listed(), listed())
    check("each has the same", all(set(it) == listed()[it["kind"]] for it in objects))
    opening, flow = frames[0]["fields"], next(it for it in frames if it["performative"] == "Flow")["fields"]
    check("by the standard's words", opening["container-id"] == "erl-amqp10-client" and opening["max-frame-size"] == 1024, opening)
    check("numbers and flags", flow["incoming-window"] == 65535 and flow["drain"] is False, flow)
    ended = frames[75]
    error = ended["fields"]["error"]
    check("an error", (error["is"], error["condition"], error["description"][-9:]) == ("error", "amqp:invalid-field", " {uint,0}"), ended)
    wrong = frames[14]["told"]
    fault = {"name": "DeliveryId", "text": "DeliveryId (4, where 3 is next)", "by": "the judge", "breach": True}
    check("what is told", wrong == [fault] and frames[14]["side"] == "client" and frames[14]["size"] > 20, wrong)
    summary = objects[96]
    check("the summary", (summary["frames"], summary["breaches"], summary["silence"]) == (96, 10, None), summary)
    only = [json.loads(it) for it in ran(RECORDING, "--json", "--quiet")[0].splitlines()]
    check("breaches alone", len(only) == 10 and all(it["told"][0]["breach"] for it in only), len(only))


# ---- text


def in_text():
    out, _, status = ran(RECORDING, "--frames")
    lines = out.splitlines()
    check("a line a frame", len(lines) == 97 and status == 0, len(lines), status)
    check("the summary", lines[-1] == "connection 1, over, after 96 frames, 31242 bytes, 10 breaches", lines[-1])
    check("a frame's line", re.search(r"client +72 Flow +2 next-incoming-id=14 .*drain=true  UnattachedHandle$", lines[71]), lines[71])
    out, _, status = ran(RECORDING, "--quiet")
    check("breaches alone, and a status", len(out.splitlines()) == 10 and status == 1 and "frame 72, Flow: UnattachedHandle" in out, out, status)
    for lawful in ("pyamqp-proton", "proton-duo-errors"):
        out, _, status = ran(CAPTURES / f"{lawful}.txt", "--quiet")
        check(f"no breach: {lawful}", (out, status) == ("", 0), out, status)
    shown = shown_by(Teller, recorded(RECORDING))
    check("times", "  +0.250000 server     2 Open" in shown and "the longest silence 0.250 s" in shown, shown[-200:])
    for bytes_, why in (("0000000302000000", "no frame has 3 bytes"), ("0000", "ends within a frame")):
        with file_of([*followed_lines(recorded(RECORDING)[:4]), bytes_]) as path:
            out, _, status = ran(path, "--quiet")
            check(f"what is no frame: {why}", status == 1 and why in out and out.count("\n") == 1, out)


def with_an_engine():
    """What a program refuses stands at its frames; the judge's faults at others."""
    out, _, status = with_stub(lambda program: ran(RECORDING, "B", "--run", program, "--json", "--quiet"), "HandleInUse")
    told = [it for line in out.splitlines() for it in json.loads(line)["told"]]
    check("by whom", {it["by"] for it in told} == {"the engine", "the judge"} and status == 1, told[:3])
    out, _, status = with_stub(lambda program: ran(RECORDING, "B", "--run", program), "HandleInUse")
    check("the lines of --run", "frame 71, A, Detach: HandleInUse\n" in out and out.splitlines()[-1].startswith("96 frames, ") and status == 0, out[-200:])


# ---- colours, and how far it is


def colours():
    words = [transcript.__file__, str(RECORDING), "--frames"]
    is_coloured = {
        "on a terminal": on_a_terminal(words),
        "always": ran(RECORDING, "--frames", "--color", "always")[0],
        "always, though NO_COLOR": on_a_terminal([*words, "--color", "always"], NO_COLOR="1"),
    }
    is_plain = {
        "NO_COLOR": on_a_terminal(words, NO_COLOR="1"),
        "never": on_a_terminal([*words, "--color", "never"]),
        "a dumb terminal": on_a_terminal(words, TERM="dumb"),
        "no terminal": ran(RECORDING, "--frames")[0],
        "JSON": on_a_terminal([*words, "--json"]),
    }
    for name, text in is_coloured.items():
        check(f"coloured: {name}", "\x1b[31mUnattachedHandle\x1b[0m" in text, text[:200])
    for name, text in is_plain.items():
        check(f"plain: {name}", "UnattachedHandle" in text and "\x1b" not in text, text[:200])
    check("the same text", COLOUR.sub("", is_coloured["always"]) == is_plain["no terminal"])


class Screen(io.StringIO):
    def isatty(self):
        return True


def how_far():
    now, screen = [0.0], Screen()
    progress = Progress(2000, screen, lambda: now[0])
    for second in (0.0, 0.5, 0.99):
        now[0] = second
        progress.at(100)
    check("nothing in the first second", screen.getvalue() == "")
    for second in (1.5, 1.6, 1.69, 2.0):
        now[0] = second
        progress.at(1000)
    progress.hide()
    progress.hide()
    once = "\r\x1b[K1,000 of 2,000 bytes, 50%"
    check("then a line, now and then, which goes", screen.getvalue() == once * 2 + "\r\x1b[K", screen.getvalue())
    now[0], plain = 0.0, io.StringIO()
    progress = Progress(2000, plain, lambda: now[0])
    now[0] = 9.0
    progress.at(1000)
    progress.hide()
    check("nothing where there is no terminal", plain.getvalue() == "")
    with tempfile.TemporaryDirectory() as folder, mock.patch.multiple("shared.progress", FIRST=-1, BETWEEN=0):
        for words in (["--quiet"], ["--frames"], [], ["--html", f"{folder}/page.html"]):
            err = Screen()
            said = mock.patch.object(sys, "argv", ["transcript.py", str(RECORDING), *words])
            with contextlib.redirect_stdout(io.StringIO()), contextlib.redirect_stderr(err), said, contextlib.suppress(SystemExit):
                transcript.main()
            is_shown = "bytes, 100%\r\x1b[K" in err.getvalue() or words == ["--frames"]
            check(f"how far a recording is: {words}", is_shown and err.getvalue().endswith("\r\x1b[K"), err.getvalue()[-80:])


def main():
    for test in (nothing_is_obeyed, any_bytes_are_told, as_objects, in_text, with_an_engine, colours, how_far):
        test()
    print(f"{FAILED.count(False)} passed, {FAILED.count(True)} failed")
    sys.exit(any(FAILED))


if __name__ == "__main__":
    command(main, __doc__)
