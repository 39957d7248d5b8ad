"""How far a long work is: a line on standard error, where that is a terminal, once the work has lasted a second."""

import contextlib
import sys
import time

# The seconds before the first line, and between two of them
FIRST, BETWEEN = 1.0, 0.2


class Progress:
    """Of `total` bytes so many are done. The line is written over, and taken away before anything else is written to the terminal."""

    def __init__(self, total, err=None, clock=time.monotonic):
        self.total, self.err, self.clock, self.is_shown, self.done = total, err or sys.stderr, clock, False, 0
        self.next = clock() + FIRST if self.err.isatty() else float("inf")

    def at(self, done):
        if (now := self.clock()) >= self.next:
            self.next, self.is_shown = now + BETWEEN, True
            share = 100 * done // max(self.total, 1)
            self.write(f"\r\x1b[K{done:,} of {self.total:,} bytes, {share}%")

    def each(self, frames):
        """Frames one after the other, each a side and bytes without a size: each counts once it is done."""
        for side, of in frames:
            yield side, of
            self.done += len(of) + 4
            self.at(self.done)

    def hide(self):
        if self.is_shown:
            self.is_shown = False
            self.write("\r\x1b[K")

    def write(self, text):
        # nobody needs it
        with contextlib.suppress(OSError):
            self.err.write(text)
            self.err.flush()
