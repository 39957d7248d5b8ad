"""Recorded messages of several frames, for expected_frames.py: how each is cut.

A message that was recorded as several transfers is one line of the input: the other side's max-frame-size less four, and
the frames. What is expected is made from what another implementation's decoder said of the first frame, and from the
payload's bytes: the transfer's texts are spelled here, and the payload is cut byte by byte.
"""

import hashlib
import json

from amqp.canonical import boolean, composite, tag, uint
from amqp.recorded import CAPTURES, lines_of

OPEN, TRANSFER = 0x10, 0x14
HANDLE, DELIVERY_ID, TAG, FORMAT, SETTLED, MORE, RECEIVER, STATE = range(8)


def text(transfer, more, goes_on):
    """The transfer's text; one that goes on with a delivery does not say again what concerns the whole delivery."""
    if goes_on:
        fields = [uint(transfer[HANDLE])] + [b"\x40"] * 4
    else:
        fields = [uint(transfer[HANDLE]), uint(transfer[DELIVERY_ID]), tag(transfer[TAG]), uint(transfer[FORMAT]), boolean(transfer[SETTLED])]
    return composite(TRANSFER, fields + [boolean(True if more else None)])


# ---- the cut (part 2, section 2.6.14)


def cut(header, transfer, payload, limit):
    """The head of each piece, and its part of the payload."""
    first, middle, last = [header + text(transfer, more, on) for more, on in [(True, False), (True, True), (False, True)]]
    pieces, head, part = [], first, b""
    for n in range(len(payload)):
        if len(head) + len(part) == limit:
            pieces.append((head, part))
            head, part = middle, b""
        part += payload[n : n + 1]
    return pieces + [(last, part)]


def show(head, part):
    """The line of a piece: its head, how many bytes of payload follow, and how many bytes it has."""
    return f"{head.hex()} {len(part)} {len(head + part)}"


# ---- the recorded messages


def messages():
    """Each recorded message of several frames: the limit, its frames, its first transfer and its payload."""
    for frames in sorted(CAPTURES.glob("*.txt")):
        said = [json.loads(line) for line in frames.with_suffix(".fields.jsonl").read_text().splitlines()]
        sizes, begun = {}, {}
        for line, one in zip(lines_of(frames), said):
            side, frame = line.split(" ")
            fields = (one["fields"] or []) + [None] * 11 if one["code"] is not None else []
            if one["code"] == OPEN:
                sizes[side] = fields[2]
            if one["code"] != TRANSFER:
                continue
            of = begun.setdefault((side, one["ch"], fields[HANDLE]), [])
            of.append((frame, fields, bytes.fromhex(frame)[len(frame) // 2 - one["payload"] :]))
            if fields[MORE]:
                continue
            del begun[(side, one["ch"], fields[HANDLE])]
            if len(of) > 1:
                other = sizes["B" if side == "A" else "A"]
                yield other - 4, [frame for frame, _, _ in of], of[0][1], b"".join(part for _, _, part in of)


def write(given, wanted):
    """Adds the messages to the lines of the input and of the output, and says how many there are."""
    count = 0
    for limit, frames, transfer, payload in messages():
        assert not any(transfer[RECEIVER:])
        header = bytes.fromhex(frames[0])[:4]
        pieces = cut(header, transfer, payload, limit)
        assert len(header + text(transfer, False, False) + payload) > limit
        digest = hashlib.sha256(payload).hexdigest()
        given.append(f"{limit} {' '.join(frames)}")
        wanted.append(f"{len(pieces)} pieces, {len(payload)} bytes, whole, {digest}")
        wanted += [show(head, part) for head, part in pieces]
        count += 1
    return count
