"""A strict reading of frames, for expected_hostile.py and transcript.py: which performative stands in any bytes, or why there is none (AMQP
1.0 part 1, section 1.6; part 2, sections 2.3 and 2.7). It is written from the tables of the standard, apart from decoder.py,
which trusts its bytes.
"""

from amqp.tables import ERROR, MUST, TABLES

# data of a fixed width, by codes; the five without data
WIDTHS = {0x40: 0, 0x41: 0, 0x42: 0, 0x43: 0, 0x44: 0, 0x45: 0}
WIDTHS |= {0x50: 1, 0x51: 1, 0x52: 1, 0x53: 1, 0x54: 1, 0x55: 1, 0x56: 1, 0x60: 2, 0x61: 2}
WIDTHS |= {0x70: 4, 0x71: 4, 0x72: 4, 0x73: 4, 0x74: 4, 0x80: 8, 0x81: 8, 0x82: 8, 0x83: 8, 0x84: 8, 0x94: 16, 0x98: 16}
LENGTHS = {0xA0: 1, 0xA1: 1, 0xA3: 1, 0xB0: 4, 0xB1: 4, 0xB3: 4}
COMPOUNDS = {0xC0: 1, 0xC1: 1, 0xD0: 4, 0xD1: 4}
ARRAYS = {0xE0: 1, 0xF0: 4}
DEEPEST = 64


class Malformed(Exception):
    """What is wrong, and at which byte of the frame, counted from 0 without its size."""

    def __init__(self, what, at):
        super().__init__(what)
        self.what, self.at = what, at

    def within(self, where):
        return Malformed(f"{where}: {self.what}", self.at)


class Bytes:
    """Bytes that are read from the front; `start` is their place in the frame."""

    def __init__(self, data, start):
        self.data, self.start, self.at = data, start, 0

    def wrong(self, what, back=0):
        """What is wrong with the bytes that follow, or with the last ones that were read."""
        return Malformed(what, self.start + self.at - back)

    def left(self):
        return len(self.data) - self.at

    def take(self, count):
        if count > self.left():
            raise self.wrong(f"{count} bytes are said to follow, and {self.left()} do")
        self.at += count
        return self.data[self.at - count : self.at]

    def number(self, width):
        return int.from_bytes(self.take(width), "big")

    def code(self):
        if not self.left():
            raise self.wrong("the bytes end where a value is said to follow")
        return self.number(1)

    def part(self, width):
        """The bytes after a size of this width."""
        size = self.number(width)
        return Bytes(self.take(size), self.start + self.at - size)

    def end(self):
        if self.left():
            raise self.wrong(f"{self.left()} bytes are left after the last part")


def constructor(of):
    """The code, the depths of the descriptors before it, and how many they are."""
    code, depths = of.code(), []
    while code == 0x00:
        depths.append(value(of))
        code = of.code()
    if code not in WIDTHS and code not in LENGTHS and code not in COMPOUNDS and code not in ARRAYS:
        raise of.wrong(f"no value has the code {code:02x}", 1)
    return code, depths


def data(of, code):
    """Reads the data after a code; the depth of the value."""
    if code in WIDTHS:
        found = of.take(WIDTHS[code])
        if code == 0x56 and found[0] > 1:
            raise of.wrong(f"no boolean is the byte {found[0]:02x}", 1)
        return 1 if code == 0x45 else 0
    if code in LENGTHS:
        of.take(of.number(LENGTHS[code]))
        return 0
    if code in COMPOUNDS:
        width = COMPOUNDS[code]
        inside = of.part(width)
        count = inside.number(width)
        if code & 1 and count % 2:
            raise inside.wrong(f"a map of {count} parts, an odd number", width)
        deepest = 0
        for _ in range(count):
            deepest = max(deepest, value(inside))
        inside.end()
        return deepest + 1
    return array(of.part(ARRAYS[code]), ARRAYS[code])


def array(inside, width):
    count = inside.number(width)
    if count == 0 and inside.at == len(inside.data):
        return 1
    code, depths = constructor(inside)
    nested = code not in WIDTHS and code not in LENGTHS or code == 0x45 or bool(depths)
    deepest = 1 if nested else 0
    if code in WIDTHS and WIDTHS[code] == 0:
        deepest = max(deepest, 1 if code == 0x45 else 0)
    else:
        for _ in range(count):
            deepest = max(deepest, data(inside, code))
    inside.end()
    for depth in reversed(depths):
        deepest = 1 + max(deepest, depth)
    return deepest + 1


def value(of):
    """Reads a value; its depth."""
    code, depths = constructor(of)
    deepest = data(of, code)
    for depth in reversed(depths):
        deepest = 1 + max(deepest, depth)
    return deepest


# ---- fields

WHOLE = {"uint": {0x43: 0, 0x52: 1, 0x70: 4}, "ulong": {0x44: 0, 0x53: 1, 0x80: 8}, "ushort": {0x60: 2}, "ubyte": {0x50: 1}}
TEXTS = {"binary": {0xA0: 1, 0xB0: 4}, "string": {0xA1: 1, 0xB1: 4}, "symbol": {0xA3: 1, 0xB3: 4}}
OF_TWO, OF_EIGHT = ("channel_max", "remote_channel"), ("max_message_size",)


def whole(of, kind, code):
    if code not in WHOLE[kind]:
        raise of.wrong(f"no {kind} has the code {code:02x}", 1)
    return of.number(WHOLE[kind][code])


def text(of, kind, code):
    if code not in TEXTS[kind]:
        raise of.wrong(f"no {kind} has the code {code:02x}", 1)
    found = of.take(of.number(TEXTS[kind][code]))
    try:
        return found.decode({"binary": "latin-1", "string": "utf-8", "symbol": "ascii"}[kind])
    except UnicodeDecodeError as error:
        raise of.wrong(f"no {kind} has the byte {found[error.start]:02x} there", len(found) - error.start) from None


def symbols(of, code):
    if code in TEXTS["symbol"]:
        return text(of, "symbol", code)
    if code not in ARRAYS:
        raise of.wrong(f"neither a symbol nor an array of them has the code {code:02x}", 1)
    width = ARRAYS[code]
    inside = of.part(width)
    count = inside.number(width)
    if count == 0 and inside.at == len(inside.data):
        return None
    item = inside.code()
    if item not in TEXTS["symbol"]:
        raise inside.wrong(f"no symbol has the code {item:02x}", 1)
    for _ in range(count):
        text(inside, "symbol", item)
    inside.end()


def described(of, code, names, what):
    """Which of these composites the bytes hold after their code: descriptor and list."""
    if code != 0x00:
        raise of.wrong(f"no {what}, but the code {code:02x}", 1)
    begun = of.at
    said = of.code()
    if said in WHOLE["ulong"]:
        found = number = whole(of, "ulong", said)
    else:
        found = text(of, "symbol", said)
        number = {f"amqp:{table[0].lower()}:list": it for it, table in names.items()}.get(found)
    if number not in names:
        raise of.wrong(f"no {what} has the descriptor {found if isinstance(found, str) else hex(found)}", of.at - begun)
    fields(of, *names[number])
    return names[number][0]


def fields(of, what, table):
    code = of.code()
    if code == 0x45:
        inside, count = Bytes(b"", of.start + of.at), 0
    elif code in (0xC0, 0xD0):
        width = COMPOUNDS[code]
        inside = of.part(width)
        count = inside.number(width)
    else:
        raise of.wrong(f"no list of the fields of {what} has the code {code:02x}", 1)
    if count > len(table):
        raise inside.wrong(f"{count} fields, where {what} has {len(table)}", COMPOUNDS[code])
    for n, (name, kind, need) in enumerate(table):
        try:
            field(inside, name, kind, need, n < count)
        except Malformed as wrong:
            raise wrong.within(f"field {n + 1} of {what}, {name.replace('_', '-')}") from None
    inside.end()


def field(of, name, kind, need, is_there):
    code = of.code() if is_there else 0x40
    if code == 0x40:
        if need == MUST:
            raise of.wrong(f"{'null' if is_there else 'missing'} where it is mandatory", is_there)
    elif kind in ("number", "handle"):
        whole(of, "ushort" if name in OF_TWO else "ulong" if name in OF_EIGHT else "uint", code)
    elif kind in ("flag", "role"):
        if code not in (0x41, 0x42, 0x56):
            raise of.wrong(f"no boolean has the code {code:02x}", 1)
        if code == 0x56 and of.number(1) > 1:
            raise of.wrong(f"no boolean is the byte {of.data[of.at - 1]:02x}", 1)
    elif kind in ("sender", "receiver"):
        if whole(of, "ubyte", code) > {"sender": 2, "receiver": 1}[kind]:
            raise of.wrong(f"no settle mode of a {kind} is {of.data[of.at - 1]}", 1)
    elif kind in ("string", "symbol", "tag"):
        text(of, {"tag": "binary"}.get(kind, kind), code)
    elif kind == "symbols":
        symbols(of, code)
    elif kind == "error":
        described(of, code, {0x1D: ERROR}, "error")
    else:
        of.at -= 1
        if kind == "map" and code not in (0xC1, 0xD1):
            raise of.wrong(f"no map has the code {code:02x}")
        begun = of.at
        if value(of) > DEEPEST:
            raise of.wrong(f"a value deeper than {DEEPEST}", of.at - begun)


def body(found):
    """The name of the performative that stands after the frame's header."""
    of = Bytes(found[4:], 4)
    return described(of, of.code(), TABLES, "performative")


def frame(found):
    """The name of the performative that the frame's bytes hold, `Empty`, or the name of the refusal."""
    if len(found) < 4:
        return "DecodeError"
    if found[0] != 2 or found[1] != 0:
        return "NotImplemented"
    if len(found) == 4:
        return "Empty"
    try:
        return body(found)
    except (Malformed, RecursionError):
        return "DecodeError"


def why(found):
    """Why the frame's bytes are `DecodeError`, in words: what is wrong, and at which byte; `None` of any other frame."""
    if frame(found) != "DecodeError":
        return None
    if len(found) < 4:
        return f"{len(found)} bytes, where a header has 4"
    try:
        body(found)
    except Malformed as wrong:
        return f"{wrong.what}; byte {wrong.at}"
    except RecursionError:
        return "values nested too deep"
