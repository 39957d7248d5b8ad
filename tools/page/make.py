"""Puts a page together: one HTML file of its own, for a browser without a server. What comes from frames is data in it, and never markup.

The rows stand in one block of JSON, in which no character can end the block; the page's script writes each text as a text. The policy in the page lets the
browser run that one script, which it knows by its sum, and load nothing.
"""

import base64
import hashlib
import json
import re
from pathlib import Path

from amqp.telling import JUDGE, verdict
from page.meanings import MEANINGS
from page.rows import Reader
from page.values import visible

HERE = Path(__file__).resolve().parent
# The parts of the one script, in their order
SCRIPTS = ("page.js", "curves.js", "charts.js", "view.js")
# So many frames, and so many bytes of JSON for them, stand in a page: the page says where it was cut
MOST_ROWS, MOST_BYTES = 200_000, 2**26
# So many connections, the first ones, have a page
MOST_PAGES = 16
PLACES = re.compile(r"@(POLICY|STYLE|SCRIPT|DATA)@")


class Page:
    """A page that grows by frames. `judged` says who judged them, `notes` what is not in it."""

    def __init__(self, title, judged):
        self.title, self.judged, self.reader, self.notes = title, judged, Reader(), []
        self.rows, self.size, self.count, self.refused, self.cut_refused = [], 0, 0, 0, 0

    def add(self, side, of, number=0, time=None, found=(), size=None):
        """A frame: its number, 0 of one of SASL; its time in seconds; and pairs of what is told of it and by whom."""
        found = [verdict(text, by) for text, by in found]
        breaks = any(it[3] for it in found)
        self.count += 1
        self.refused += breaks
        if self.is_full():
            self.cut_refused += breaks
            return
        row = written([number, time, *self.reader.row(side, of, size), found])
        self.rows.append(row)
        self.size += len(row)

    def is_full(self):
        return len(self.rows) == MOST_ROWS or self.size > MOST_BYTES

    def text(self):
        head = {
            "title": visible(self.title),
            "judged": self.judged,
            "notes": [visible(it) for it in self.notes],
            "count": self.count,
            "refused": self.refused,
            "cutRefused": self.cut_refused,
            "names": [*self.reader.names],
            "meanings": MEANINGS,
        }
        script = "\n".join((HERE / name).read_text(encoding="utf-8") for name in SCRIPTS)
        filled = {
            "POLICY": policy(script),
            "STYLE": (HERE / "page.css").read_text(encoding="utf-8"),
            "SCRIPT": script,
            "DATA": written(head)[:-1] + ',"rows":[' + ",\n".join(self.rows) + "]}",
        }
        # in one pass, so that nothing that is filled in is taken for a place
        return PLACES.sub(lambda it: filled[it[1]], (HERE / "page.html").read_text(encoding="utf-8"))

    def write(self, path):
        with Path(path).open("w", encoding="utf-8", newline="\n") as file:
            file.write(self.text())


def page_of(html, number):
    """Where the page of a connection is written, if it has one: that of the first one is `html`."""
    if html is None or number > MOST_PAGES:
        return None
    return html if number == 1 else html.with_stem(f"{html.stem}-{number}")


def written(value):
    """JSON that nothing of HTML can be found in: neither an end of its block nor a comment nor a line's end that scripts know."""
    text = json.dumps(value, ensure_ascii=True, separators=(",", ":"))
    return text.replace("<", "\\u003c").replace(">", "\\u003e").replace("&", "\\u0026")


def policy(script):
    """What a browser may do with the page: run this one script."""
    known = base64.b64encode(hashlib.sha256(script.encode("utf-8")).digest()).decode()
    return f"default-src 'none'; style-src 'unsafe-inline'; script-src 'sha256-{known}'; base-uri 'none'; form-action 'none'"


def found_by_place(transcript, told):
    """What is found of each frame: `told` is what transcript.py tells; of each other frame the judge's fault stands for that."""
    found = {at: [(fault, JUDGE)] for at, fault in transcript.faults.items() if fault}
    found |= {at: [] for at, *_ in told}
    for at, _, name, by in told:
        found[at].append((name, by))
    return found


def of_recording(recorded, transcript, told, judged):
    """The page of a connection that was recorded; `transcript` may tell how far it is."""
    page = Page(recorded.title, judged)
    page.notes += recorded.notes
    return filled(page, recorded, transcript.each(recorded.whole), found_by_place(transcript, told))


def filled(page, recorded, whole, found):
    """The page with all of a connection's frames: those of SASL too, but these alone are not counted."""
    frames, times, at = recorded.frames, recorded.times, 0
    began = next((it for it in times if it is not None), 0)
    for side, of in whole:
        is_counted = at < len(frames) and frames[at] == (side, of)
        time = None if not is_counted or times[at] is None else round(times[at] - began, 4)
        page.add(side, of, at + 1 if is_counted else 0, time, found.get(at, ()) if is_counted else ())
        at += is_counted
    return page
