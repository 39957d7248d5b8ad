"""Transfers by hand, for expected_frames.py: how each is cut into pieces, and split into transfers of one piece each.

Each is on channel 0 and handle 0, and its payload counts up from 0. A delivery is the one of number 0, unless another is said, with a tag
of four bytes, message-format 0, and not settled (AMQP 1.0 part 2, section 2.6.14).
"""

import hashlib

from amqp.canonical import boolean, composite, tag, uint
from gen.expected_messages import TRANSFER, cut, show, text
from gen.shown import shown

HEADER = bytes([2, 0, 0, 0])
LAST_NUMBER = 4294967295


def delivery(number, more=None):
    """The text of a delivery's first transfer."""
    return text([0, number, {"bin": "00000001"}, 0, False], more, False)


def going_on(more):
    """The text of a transfer that goes on with a delivery."""
    return composite(TRANSFER, [uint(0)] + [b"\x40"] * 4 + [boolean(True if more else None)])


def payload(count):
    return bytes(range(count))


# The heads of a delivery that is whole, and of its first piece, of those in the middle, and of the last.
ALONE = bytes.fromhex("02000000" "005314c00b054343a004000000014342")
FIRST = bytes.fromhex("02000000" "005314c00c064343a00400000001434241")
MIDDLE = bytes.fromhex("02000000" "005314c00706434040404041")
LAST = bytes.fromhex("02000000" "005314c0020143")

# The limit, the text, how many bytes the payload has; the head of each piece, how many bytes of payload follow it, and how many bytes the
# piece has. `None` where it is too large.
CUT = [
    (24, delivery(0), 4, [(ALONE, 4, 24)]),
    (24, delivery(0), 25, [(FIRST, 3, 24), (MIDDLE, 8, 24), (MIDDLE, 8, 24), (LAST, 6, 17)]),
    (24, delivery(0), 19, [(FIRST, 3, 24), (MIDDLE, 8, 24), (LAST, 8, 19)]),
    (21, delivery(0), 2, [(FIRST, 0, 21), (LAST, 2, 13)]),
    (16, going_on(True), 0, [(MIDDLE, 0, 16)]),
    (16, going_on(True), 1, None),
    (20, delivery(0), 0, [(ALONE, 0, 20)]),
    (20, delivery(0), 1, None),
    (24, going_on(False), 2, [(LAST, 2, 13)]),
]

# The limit, and how many bytes the payload of delivery 7 has; of each part how many bytes its payload has, whether it is the first, whether
# it has the delivery's tag, whether more follow, and how many bytes its piece has with the greatest number. `None` where it is too large.
SPLIT = [
    (28, 4, [(4, True, True, False, 28)]),
    (28, 5, [(3, True, True, True, 28), (2, False, False, False, 13)]),
    (28, 25, [(3, True, True, True, 28), (12, False, False, True, 28), (10, False, False, False, 21)]),
    (28, 15, [(3, True, True, True, 28), (12, False, False, False, 23)]),
    (25, 2, [(0, True, True, True, 25), (2, False, False, False, 13)]),
    (24, 0, [(0, True, True, False, 24)]),
    (24, 1, None),
    (23, 0, None),
    (3, 0, None),
]


def pieces(limit, count):
    """The pieces of a delivery of so many bytes, cut byte by byte; `None` where it is too large."""
    whole, given = HEADER + delivery(0), payload(count)
    if len(whole) + count <= limit:
        return [whole + given]
    if len(HEADER + delivery(0, True)) > limit or len(HEADER + going_on(True)) >= limit:
        return None
    return [head + part for head, part in cut(HEADER, [0, 0, {"bin": "00000001"}, 0, False], given, limit)]


def listed(found):
    """The lines of the pieces, and an empty one."""
    lines = ["too large"] if found is None else [piece.hex() for piece in found]
    return "".join(line + "\n" for line in [*lines, ""])


def add_cuts(given, wanted):
    for limit, of, count, heads in CUT:
        given.append(f"{limit} {(HEADER + of + payload(count)).hex()}")
        if heads is None:
            wanted.append("too large")
            continue
        assert sum(part for _, part, _ in heads) == count
        wanted.append(f"{len(heads)} pieces, {count} bytes, whole, {hashlib.sha256(payload(count)).hexdigest()}")
        for head, part, length in heads:
            assert show(head, bytes(part)) == f"{head.hex()} {part} {length}"
            wanted.append(f"{head.hex()} {part} {length}")


def add_fronts(given, wanted):
    """Every short payload at every small limit. Before them stands the empty frame, which is a front of each."""
    whole = (HEADER + delivery(0) + payload(200)).hex()
    for limit in range(16, 65):
        given.append(f"#{limit} {whole}")
        told = listed([HEADER]) + "".join(listed(pieces(limit, count)) for count in range(201))
        wanted.append(hashlib.sha256(told.encode()).hexdigest())


def part_of(begun, length, is_first, has_tag, more, piece_len):
    """The line of a part, whose payload begins at this place: its transfer, and its piece where the delivery has the greatest number."""
    assert is_first == has_tag
    part = payload(begun + length)[begun:]
    of, widest = (delivery(7, more), delivery(LAST_NUMBER, more)) if is_first else (going_on(more), going_on(more))
    piece = HEADER + widest + part
    assert len(piece) == piece_len
    return f"{'first' if is_first else 'later'} {inside(shown(of))} {piece.hex()}"


def inside(performative):
    """The transfer alone, without the name of its kind."""
    return performative.removeprefix("Transfer(").removesuffix(")")


def add_splits(given, wanted):
    for limit, count, parts in SPLIT:
        given.append(f"/{limit} {(HEADER + delivery(7) + payload(count)).hex()}")
        if parts is None:
            wanted.append("too large")
            continue
        wanted.append(f"{len(parts)} parts")
        begun = 0
        for part in parts:
            wanted.append(part_of(begun, *part))
            begun += part[0]
        assert begun == count


def write(given, wanted):
    """The lines of the input, and of the output."""
    add_cuts(given, wanted)
    add_fronts(given, wanted)
    add_splits(given, wanted)
