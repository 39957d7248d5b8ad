"""A plain decoder of values, which trusts its bytes (AMQP 1.0 part 1, section 1.6)."""

import struct
import uuid

FIXED = {
    0x40: ("null", 0, lambda b: None),
    0x41: ("bool", 0, lambda b: True),
    0x42: ("bool", 0, lambda b: False),
    0x43: ("uint", 0, lambda b: 0),
    0x44: ("ulong", 0, lambda b: 0),
    0x45: ("list", 0, lambda b: []),
    0x50: ("ubyte", 1, lambda b: b[0]),
    0x51: ("byte", 1, lambda b: struct.unpack(">b", b)[0]),
    0x52: ("uint", 1, lambda b: b[0]),
    0x53: ("ulong", 1, lambda b: b[0]),
    0x54: ("int", 1, lambda b: struct.unpack(">b", b)[0]),
    0x55: ("long", 1, lambda b: struct.unpack(">b", b)[0]),
    0x56: ("bool", 1, lambda b: {0: False, 1: True}[b[0]]),
    0x60: ("ushort", 2, lambda b: struct.unpack(">H", b)[0]),
    0x61: ("short", 2, lambda b: struct.unpack(">h", b)[0]),
    0x70: ("uint", 4, lambda b: struct.unpack(">I", b)[0]),
    0x71: ("int", 4, lambda b: struct.unpack(">i", b)[0]),
    0x72: ("float", 4, lambda b: struct.unpack(">f", b)[0]),
    0x73: ("char", 4, lambda b: chr(struct.unpack(">I", b)[0])),
    0x80: ("ulong", 8, lambda b: struct.unpack(">Q", b)[0]),
    0x81: ("long", 8, lambda b: struct.unpack(">q", b)[0]),
    0x82: ("double", 8, lambda b: struct.unpack(">d", b)[0]),
    0x83: ("timestamp", 8, lambda b: {"ts": struct.unpack(">q", b)[0]}),
    0x98: ("uuid", 16, lambda b: {"uuid": str(uuid.UUID(bytes=b))}),
}
VARIABLE = {
    0xA0: ("binary", 1, lambda b: {"bin": b.hex()}),
    0xB0: ("binary", 4, lambda b: {"bin": b.hex()}),
    0xA1: ("string", 1, lambda b: b.decode()),
    0xB1: ("string", 4, lambda b: b.decode()),
    0xA3: ("symbol", 1, lambda b: {"sym": b.decode("ascii")}),
    0xB3: ("symbol", 4, lambda b: {"sym": b.decode("ascii")}),
}
COMPOUND = {0xC0: ("list", 1), 0xD0: ("list", 4), 0xC1: ("map", 1), 0xD1: ("map", 4), 0xE0: ("array", 1), 0xF0: ("array", 4)}


def number(b, at, width):
    return int.from_bytes(b[at : at + width], "big"), at + width


def parts(b, at, code):
    """The parts of the data at `at` after the code of a list, a map or an array: (start, value, end) of each."""
    if code == 0x45:
        return [], None
    kind, width = COMPOUND[code]
    size, at = number(b, at, width)
    last = at + size
    count, at = number(b, at, width)
    item, found = None, []
    if kind == "array" and at < last:
        item, at = b[at], at + 1
    for _ in range(count):
        kind, said, end = value(b, at) if item is None else data(b, at, item)
        found.append((at, said, end))
        at = end
    return found, kind


def data(b, at, code):
    """The data at `at` after this code: type, value, end."""
    if code in FIXED:
        name, width, of = FIXED[code]
        return name, of(b[at : at + width]), at + width
    if code in VARIABLE:
        name, width, of = VARIABLE[code]
        size, at = number(b, at, width)
        return name, of(b[at : at + size]), at + size
    kind, width = COMPOUND[code]
    size, after = number(b, at, width)
    found, item = parts(b, at, code)
    inner = [said for _, said, _ in found]
    if kind == "array":
        inner = {"arr": item, "items": inner}
    elif kind == "map":
        inner = {"map": [list(pair) for pair in zip(inner[::2], inner[1::2])]}
    return kind, inner, after + size


def value(b, at):
    """The value at `at`: type, value, end."""
    if b[at] != 0x00:
        return data(b, at + 1, b[at])
    _, descriptor, at = value(b, at + 1)
    _, inside, at = value(b, at)
    return "described", {"desc": descriptor, "val": inside}, at
