"""The sections of a message, from the payload of its first transfer, by the standard's names (AMQP 1.0 part 3, section 3.2); bounded, as values.py is."""

from amqp.decoder import COMPOUND, VARIABLE
from amqp.frames import NULL, Malformed, number
from page.values import MOST_PARTS, MOST_TEXT, Room, code_of, cut, sized, value

# So many sections of a payload are shown, and so many bytes of data
MOST_SECTIONS, MOST_DATA = 16, 32
SECTIONS = {
    0x70: ("header", "list"),
    0x71: ("delivery-annotations", "map"),
    0x72: ("message-annotations", "map"),
    0x73: ("properties", "list"),
    0x74: ("application-properties", "map"),
    0x75: ("data", "binary"),
    0x76: ("amqp-sequence", "list"),
    0x77: ("amqp-value", "*"),
    0x78: ("footer", "map"),
}
SYMBOLS = {f"amqp:{name}:{kind}": code for code, (name, kind) in SECTIONS.items()}
FIELDS = {
    0x70: "durable priority ttl first-acquirer delivery-count".split(),
    0x73: "message-id user-id to subject reply-to correlation-id content-type content-encoding absolute-expiry-time creation-time group-id "
    "group-sequence reply-to-group-id".split(),
}
CUT, UNREAD = "goes on past the bytes that are here", "cannot be read"
MORE, LATER = "goes on in later transfers", "later part of a message"


class Going:
    """Which links of a side are within a delivery of several transfers: what comes next of them is no beginning of a message."""

    def __init__(self):
        self.on = {"A": {}, "B": {}}

    def is_first(self, side, channel, handle, goes_on):
        """Whether a transfer begins a delivery; and that it is within one after it, or not."""
        within = self.on[side].setdefault(channel, set())
        is_first = handle not in within
        (within.add if goes_on else within.discard)(handle)
        return is_first

    def forget(self, side, channel, handle=None):
        """A session, or a link, begins or ends."""
        if handle is None:
            self.on[side].pop(channel, None)
        else:
            self.on[side].get(channel, set()).discard(handle)


def sections(of, goes_on=False):
    """The sections, each as its name, pairs of a name and a text, and the first bytes of its data. `goes_on` is whether a later transfer has more of them."""
    found, at, room = [], 0, Room()
    while at is not None and at < len(of) and len(found) < MOST_SECTIONS:
        section, at = next_section(of, at, room)
        found.append(section)
    if at is not None and at < len(of):
        found.append(["rest", [("bytes", f"{len(of) - at:,} more")], ""])
    return [*found, [MORE, [], ""]] if goes_on else found


def next_section(of, at, room):
    """The section at `at`, and where it ends; `None` where that is not here, or not known."""
    name = "rest"
    try:
        code, inside = descriptor(of, at)
        name = SECTIONS[code][0]
        return read(of, inside, code, room)
    except (Malformed, RecursionError, IndexError, ValueError):
        return [name, [("bytes", UNREAD)], ""], None


def descriptor(of, at):
    """The code of the section at `at`, and where its value begins."""
    if of[at] != 0x00:
        raise Malformed
    said, after = value(of, at + 1)
    code = SYMBOLS.get(said, code_of(said))
    if code not in SECTIONS:
        raise Malformed
    return code, after


def read(of, at, code, room):
    """The section whose value is at `at`, and where it ends; `None` where it goes on past the bytes that are here."""
    name, kind = SECTIONS[code]
    if kind == "binary":
        return data(of, at)
    pairs, end = single(of, at, room) if code in (0x76, 0x77) else compound(of, at, code, room)
    return [name, pairs, ""], end


def single(of, at, room):
    """A value; of a text or a binary that goes on, its beginning."""
    try:
        said, end = value(of, at, 0, room)
    except (Malformed, IndexError):
        code, after = number(of, at, 1)
        if code not in VARIABLE:
            return [("value", CUT)], None
        size, after = number(of, after, VARIABLE[code][1])
        said, end = sized(code, of[after : after + 4 * MOST_TEXT], size), None
    return [("value", cut(said))], end


def data(of, at):
    """Data: how many bytes it has, and the first of them."""
    code, at = number(of, at, 1)
    if code not in (0xA0, 0xB0):
        raise Malformed
    size, at = number(of, at, 4 if code == 0xB0 else 1)
    here = len(of) - at
    pairs = [("size", f"{size:,} bytes" + (f", of which {here:,} are here" if size > here else ""))]
    return ["data", pairs, of[at : at + min(size, MOST_DATA)].hex()], at + size if size <= here else None


def compound(of, at, code, room):
    """The parts of a list or a map, as pairs; and where it ends, `None` where that is past the bytes that are here."""
    kind = number(of, at, 1)[0]
    if kind == 0x45 and code in FIELDS:
        return [], at + 1
    if COMPOUND.get(kind, ("",))[0] != SECTIONS[code][1]:
        raise Malformed
    width = COMPOUND[kind][1]
    size, after = number(of, at + 1, width)
    count, inside = number(of, after, width)
    end = after + size
    pairs = [*(fields if code in FIELDS else entries)(of, inside, min(end, len(of)), count, code, room)]
    return pairs, end if end <= len(of) else None


def fields(of, at, end, count, code, room):
    names = FIELDS[code]
    for place in range(min(count, len(names) + 3)):
        if (said := next_value(of, at, end, room)) is None:
            yield "rest", CUT
            return
        text, after = said
        if of[at : at + 1] != NULL:
            yield names[place] if place < len(names) else f"field {place + 1}", cut(text)
        at = after


def entries(of, at, end, count, _, room):
    """The entries of a map, each as its key and its value."""
    for _ in range(min(count // 2, MOST_PARTS)):
        key = next_value(of, at, end, room)
        said = key and next_value(of, key[1], end, room)
        if said is None:
            yield "rest", CUT
            return
        yield cut(key[0]), cut(said[0])
        at = said[1]
    if count // 2 > MOST_PARTS:
        yield "…", f"{count // 2:,} entries in all"


def next_value(of, at, end, room):
    """The value at `at` and where it ends; `None` where that is not here."""
    try:
        said = value(of, at, 1, room)
    except (Malformed, RecursionError, IndexError, ValueError):
        return None
    return said if said[1] <= end else None
