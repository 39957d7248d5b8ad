"""The rows of a page: one for each frame, as what JSON can hold, bounded in size. Of a login no secret gets in: neither bytes nor lengths."""

import re
from typing import NamedTuple

from amqp.frames import ATTACH, BEGIN, DETACH, END, NAMES, NULL, TRANSFER, Frame, Malformed, end_of, flag, integer, number, parts
from amqp.mended import plain
from amqp.tables import TABLES
from page.sections import LATER, Going, sections
from page.values import fields_of, value, visible

# Of a payload, or of a frame that cannot be read, so many bytes are shown
MOST_BYTES = 32
# The frames of SASL, by their descriptors, and those of their fields that are shown (AMQP 1.0 part 5, section 5.3.3): no response, no challenge
SASL = {0x40: "mechanisms", 0x41: "init", 0x42: "challenge", 0x43: "response", 0x44: "outcome"}
SASL_FIELDS = {0x40: ["sasl-server-mechanisms"], 0x41: ["mechanism", None, "hostname"], 0x44: ["code", None]}
LEFT_OUT = {0x41: "initial-response", 0x42: "challenge", 0x43: "response", 0x44: "additional-data"}
MECHANISM = re.compile(r"[A-Z0-9_-]{1,20}")


class Sessions:
    """Which session a frame is of: they are counted from 1, over both sides."""

    def __init__(self):
        self.count, self.on, self.asked = 0, {"A": {}, "B": {}}, {"A": {}, "B": {}}

    def of(self, side, frame):
        """The session's number; 0 where it is of none."""
        if frame.code == BEGIN:
            self.begin(side, frame)
        mine = self.on[side]
        return mine.pop(frame.channel, 0) if frame.code == END else mine.get(frame.channel, 0)

    def begin(self, side, frame):
        answers = None if frame[0] == NULL else integer(frame[0])
        known = self.asked["B" if side == "A" else "A"].pop(answers, None)
        if known is None:
            self.count += 1
            known = self.asked[side][frame.channel] = self.count
        self.on[side][frame.channel] = known


class Reader:
    """Frames one after another, each as a row: a side, what it is, where, and its fields."""

    def __init__(self):
        self.sessions, self.going, self.names = Sessions(), Going(), {}

    def row(self, side, of, size=None):
        """The frame as [side, kind, channel, session, size, fields, payload's size, its front, its sections]; `of` is without its size, and may be cut."""
        size = len(of) + 4 if size is None else size
        if (code := sasl_code(of)) is not None:
            return [side, f"SASL {SASL.get(code, 'frame')}", -1, 0, 0, self.flat(sasl(of, code)), 0, "", []]
        it = shown(of, size)
        session = self.sessions.of(side, it.frame) if it.frame and 0x11 <= it.frame.code <= 0x17 else 0
        return [side, it.kind, it.channel, session, size, self.flat(it.fields), it.payload, it.front, self.sections(side, it)]

    def sections(self, side, it):
        """The sections of a message, at the transfer that begins it: each as its name, its pairs, and the first bytes of its data."""
        if it.frame is None or it.frame.code != TRANSFER:
            self.forget(side, it.frame)
            return []
        goes_on = flag(it.frame[5]) and not flag(it.frame[9])
        if not self.going.is_first(side, it.channel, it.frame[0], goes_on):
            return [[LATER, [], ""]] if it.payload else []
        # a peer chose the names in maps: they are not kept in `names`, which the size of the rows does not bound
        return [[name, [it for pair in pairs for it in pair], front] for name, pairs, front in sections(it.frame.payload, goes_on)]

    def forget(self, side, frame):
        if frame is not None and frame.code in (BEGIN, END):
            self.going.forget(side, frame.channel)
        elif frame is not None and frame.code in (ATTACH, DETACH):
            self.going.forget(side, frame.channel, frame[1 if frame.code == ATTACH else 0])

    def flat(self, pairs):
        """Names by their places in `names`, each before its text."""
        found = []
        for name, text in pairs:
            found += [self.names.setdefault(name, len(self.names)), text]
        return found


class Shown(NamedTuple):
    """What is shown of a frame: its kind and channel, pairs of a field's name and its text, the payload's size and its front; `frame` where it was read."""

    kind: str
    channel: int
    fields: list
    payload: int = 0
    front: str = ""
    frame: Frame = None


def shown(of, size):
    """A frame of AMQP, without its size; it may be cut."""
    try:
        frame = Frame(plain(of))
        if frame.code is None:
            return Shown("empty frame", frame.channel, [])
        payload = len(frame.payload) + size - len(of) - 4
        return Shown(NAMES[frame.code], frame.channel, [*lines(frame)], payload, frame.payload[:MOST_BYTES].hex(), frame)
    except (Malformed, RecursionError, IndexError, ValueError):
        return Shown(kind_of(of), int.from_bytes(of[2:4], "big"), [*unread(of)])


def lines(frame):
    """The fields of a performative that are there, by the standard's names; one that cannot be read is said to be so."""
    _, table = TABLES[frame.code]
    for at, of in enumerate(frame.fields[: len(table) + 3]):
        name, kind, _ = table[at] if at < len(table) else (f"field {at + 1}", "raw", None)
        if of != NULL:
            yield from field(of, name.replace("_", "-"), kind)


def field(of, name, kind):
    try:
        found = [*fields_of(of, name, kind)]
    except (Malformed, RecursionError, IndexError, ValueError):
        found = [(name, f"cannot be read ({len(of):,} bytes)")]
    return [(name, cut_twice(text)) for name, text in found]


def cut_twice(text):
    """A text of many parts, cut too."""
    return text if len(text) <= 600 else f"{text[:600]}… ({len(text):,} characters shown as text)"


# ---- what is not read as a performative


def descriptor_of(of):
    """The descriptor of a frame's body, as its text; `None` where there is none."""
    try:
        inside = of[of[0] * 4 - 4 :] if of[:1] > b"\x02" else of[4:]
        return value(inside, 1)[0] if inside[:1] == b"\x00" else None
    except (Malformed, RecursionError, IndexError, ValueError):
        return None


def sasl_code(of):
    """The code of a frame of SASL, 0 where its kind is not known; `None` of any other frame."""
    descriptor = descriptor_of(of) or ""
    names = {f"amqp:sasl-{name}:list": code for code, name in SASL.items()}
    code = names.get(descriptor, int(descriptor) if descriptor.isdecimal() else 0)
    if code in SASL or descriptor.startswith("amqp:sasl"):
        return code
    return 0 if len(of) > 1 and of[1] == 1 else None


def kind_of(of):
    code = code_of(of)
    return NAMES[code] if code else "no frame"


def code_of(of):
    """The performative that the descriptor names, if any."""
    descriptor = descriptor_of(of) or ""
    known = {str(code): code for code in NAMES} | {f"amqp:{name.lower()}:list": code for code, name in NAMES.items()}
    return known.get(descriptor)


def unread(of):
    """What is shown of a frame that cannot be read: bytes only where they say that they are a performative, since others may be a login."""
    if len(of) > 1 and of[1] == 0 and code_of(of):
        yield "bytes", of[:MOST_BYTES].hex() + "…" * (len(of) > MOST_BYTES)
    else:
        yield "bytes", "left out: they name no performative, and may be a login"


def sasl(of, code):
    """The fields of a frame of SASL that are no secret."""
    try:
        at = of[0] * 4 - 4
        inner, _ = parts(of, end_of(of, at + 1))
    except (Malformed, RecursionError, IndexError, ValueError):
        yield "fields", "cannot be read, and are left out"
        return
    for name, inside in zip(SASL_FIELDS.get(code, []), inner):
        if name and inside != NULL and (text := open_text(name, inside)):
            yield name, text
    if code in LEFT_OUT:
        yield LEFT_OUT[code], "left out"


def open_text(name, of):
    """A field of SASL whose value has the form that it has to have, and so is no secret by a slip."""
    code, _ = number(of, 0, 1)
    try:
        text, _ = value(of)
    except (Malformed, RecursionError, IndexError, ValueError):
        return None
    if name == "mechanism":
        return text if code in (0xA3, 0xB3) and MECHANISM.fullmatch(text) else "left out: no name of a mechanism"
    if name == "hostname":
        return visible(text) if code in (0xA1, 0xB1) else None
    if name == "code":
        return {"0": "0 (ok)", "1": "1 (auth)", "2": "2 (sys)", "3": "3 (sys-perm)", "4": "4 (sys-temp)"}.get(text)
    return " ".join(it for it in re.split(r"[\[\], ]+", text) if MECHANISM.fullmatch(it)) or None
