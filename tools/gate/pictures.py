#!/usr/bin/env python3
"""Makes the pictures of pages that docs/USING.md and README show, from captures, with Chromium without a window.

    tools/gate/pictures.py [CHROMIUM]

It writes docs/pictures/NAME.png, each of a page as `tools/transcript.py --html` writes it, opened at a place of it. A picture depends on the browser
and the fonts of the machine, so the gate does not compare them: `try_page.py` looks that each is there, and that none is too large.
"""

import shutil
import sys
import tempfile
from pathlib import Path
from typing import NamedTuple

sys.path.insert(0, str(Path(__file__).resolve().parents[1]))

from amqp.recorded import CAPTURES
from amqp.recordings import of_lines
from amqp.transcript import Transcript
from gate.browser import Browser, program
from page.make import of_recording
from shared.command import command, told

PICTURES = CAPTURES.parent / "docs" / "pictures"
# So many bytes a picture may have
MOST_BYTES = 150_000


class Picture(NamedTuple):
    """A picture: its name, the recording, the place in its page, the window's size, and whether its colours are dark."""

    name: str
    recording: str
    place: str
    size: str
    is_dark: bool = False

    def path(self):
        return PICTURES / f"{self.name}.png"


SHOWN = [
    Picture("refused", "erlang-rmq", "#frame-72", "1040,620"),
    Picture("curves", "proton-duo-window", "#frame-80&curves", "1040,620"),
    Picture("message", "uamqp-proton-send", "#frame-11", "900,760", True),
]


def page_of(recording):
    """The page of a recording in captures, with what the judge finds of it."""
    path = CAPTURES / f"{recording}.txt"
    made = of_lines(path.read_text().splitlines(), path.name)
    transcript = Transcript(made.frames, "A")
    transcript.run()
    return of_recording(made, transcript, [], "a judge of both sides").text()


def take(browser, it):
    it.path().unlink(missing_ok=True)
    words = [f"--window-size={it.size}", f"--blink-settings=preferredColorScheme={0 if it.is_dark else 1}", "--hide-scrollbars", "--disable-lcd-text"]
    browser.run(page_of(it.recording), it.place, *words, f"--screenshot={it.path()}")
    size = it.path().stat().st_size
    print(f"{it.path().name}: {size:,} bytes" + (", which is too many" if size > MOST_BYTES else ""))


def main():
    PICTURES.mkdir(exist_ok=True)
    folder = tempfile.mkdtemp()
    try:
        browser = Browser(program(sys.argv[1:]), folder, None)
        if not browser.works():
            told("chromium is not here, or does not run")
        for it in SHOWN:
            take(browser, it)
    finally:
        # a browser that has just ended may write there yet
        shutil.rmtree(folder, ignore_errors=True)


if __name__ == "__main__":
    command(main, __doc__)
