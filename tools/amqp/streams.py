"""Cuts what one side sends into frames, for transcript.py and watch.py (AMQP 1.0 part 2, sections 2.2 and 2.3)."""

import re

HEADER = b"AMQP"
# The least size of a frame, which counts its own four bytes
LEAST = 8


class Stream:
    """What one side sends, in any chunks. Protocol headers and, but where `sasl`, frames of SASL are passed over."""

    def __init__(self, kept=2**32, sasl=False):
        """Of a frame, with its size, `kept` bytes are kept; the others are counted, and passed over."""
        self.kept, self.sasl, self.waiting, self.passing = kept, sasl, bytearray(), 0
        # why nothing more can be read of the stream, and whether that is the fault of its side
        self.broken, self.is_wrong = None, False

    def feed(self, data):
        """Each frame that these bytes bring: its size, and its bytes without that."""
        self.waiting += self.passed(data)
        found, at = [], 0
        while self.broken is None and (size := self.size_at(at)) and len(self.waiting) - at >= min(size, self.kept):
            of = bytes(self.waiting[at : at + min(size, self.kept)])
            at += len(of)
            self.pass_over(size - len(of), at)
            if not of.startswith(HEADER) and (self.sasl or of[5] != 1):
                found.append((size, of[4:]))
        del self.waiting[:at]
        if self.broken is not None:
            self.waiting.clear()
        return found

    def stop(self, why):
        """Nothing more is read of the stream."""
        self.broken, self.passing = self.broken or why, 0
        self.waiting.clear()

    def is_within(self):
        """Whether what was fed ends within a frame or a header."""
        return bool(self.waiting) or self.passing > 0

    def size_at(self, at):
        """The size of what begins there, or `None` where it is not known yet."""
        if len(self.waiting) - at < LEAST:
            return None
        if self.waiting.startswith(HEADER, at):
            return self.of_header(self.waiting[at + 4])
        size = int.from_bytes(self.waiting[at : at + 4], "big")
        if size < LEAST:
            self.broken, self.is_wrong = f"no frame has {size} bytes", True
            return None
        return size

    def of_header(self, protocol):
        if protocol == 2:
            self.broken = "TLS is not looked into"
        return LEAST

    def pass_over(self, count, at):
        """So many bytes of a frame are not kept."""
        here = min(count, len(self.waiting) - at)
        del self.waiting[at : at + here]
        self.passing = count - here

    def passed(self, data):
        """What is left of received bytes after a frame that is not kept whole."""
        if self.broken is not None:
            return b""
        here = min(self.passing, len(data))
        self.passing -= here
        return data[here:] if here else data


def chunks(lines):
    """What a followed stream shows, in order: the second node's chunks are indented."""
    for line in lines:
        if re.fullmatch(r"\t?[0-9a-fA-F]+", line):
            yield "B" if line.startswith("\t") else "A", bytes.fromhex(line.strip())
