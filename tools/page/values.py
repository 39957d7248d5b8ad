"""Values as text for a page, with a bound: so much is read of them and no more, whatever counts and sizes they say."""

from amqp.decoder import COMPOUND, FIXED, VARIABLE
from amqp.frames import Malformed, end_of, number, parts
from amqp.readable import NAMES, WORDS
from amqp.tables import ERROR

# Of a text so many characters are shown, of a value so many parts at each level, so many in all, and so deep; and so deep are parts fields of their own
MOST_TEXT, MOST_PARTS, MOST_VALUES, DEEPEST, DEEPEST_FIELD = 200, 64, 400, 12, 2

SOURCE = "address durable expiry-policy timeout dynamic dynamic-node-properties distribution-mode filter default-outcome outcomes capabilities"
TARGET = "address durable expiry-policy timeout dynamic dynamic-node-properties capabilities"
# The fields of termini and states, by their descriptors (AMQP 1.0 part 3, sections 3.4 and 3.5; part 4, section 4.5)
PARTS = {
    0x1D: " ".join(name for name, _, _ in ERROR[1]),
    0x23: "section-number section-offset",
    0x24: "",
    0x25: "error",
    0x26: "",
    0x27: "delivery-failed undeliverable-here message-annotations",
    0x28: SOURCE,
    0x29: TARGET,
    0x30: "capabilities",
    0x34: "txn-id outcome",
}
COMPOSITES = {**NAMES, 0x1D: "error", 0x34: "transactional-state"}
CODES = {f"amqp:{'transactional-state' if code == 0x34 else name}:list": code for code, name in COMPOSITES.items()}


def cut(text):
    """The text; of a long one its beginning, and how long it is."""
    return text if len(text) <= MOST_TEXT else f"{text[:MOST_TEXT]}… ({len(text):,} characters in all)"


def spelled(text):
    """The text, with what nobody can see, a terminal obeys, or turns the direction of writing, spelled out."""
    return text if text.isprintable() else "".join(it if it.isprintable() else repr(it)[1:-1] for it in text)


def visible(text):
    """The text, so spelled; of a long one its beginning."""
    return spelled(cut(text))


def scalar(of, at, code):
    """The text of the data after a code of a fixed width, or of one with a size; and where it ends."""
    if 0x40 <= code < 0xA0:
        end = at + [0, 1, 2, 4, 8, 16][(code >> 4) - 4]
        inside = of[at:end]
        if len(inside) < end - at:
            raise Malformed
        if code not in FIXED:
            return f"{code:02x} {inside.hex()}", end
        return fixed(code, inside), end
    size, at = number(of, at, 4 if code & 0x10 else 1)
    if at + size > len(of):
        raise Malformed
    inside = of[at : at + min(size, 4 * MOST_TEXT + 4)]
    return sized(code, inside, size), at + size


def fixed(code, inside):
    kind, _, read = FIXED[code]
    try:
        said = read(inside)
    except (KeyError, ValueError, OverflowError):
        return f"{kind} {inside.hex()}"
    if isinstance(said, dict):
        said = next(iter(said.values()))
    return "null" if said is None else str(said).lower() if isinstance(said, bool) else visible(str(said))


def sized(code, inside, size):
    """A string, a symbol or a binary, of which the front is here."""
    kind = VARIABLE[code][0] if code in VARIABLE else f"{code:02x}"
    is_text = kind in ("string", "symbol") or inside.isascii() and inside.decode("ascii").isprintable()
    shown = inside.decode("utf-8", "replace") if is_text else inside.hex()
    is_cut = size > len(inside) or len(shown) > MOST_TEXT
    text = visible(shown[:MOST_TEXT])
    text = text if kind != "binary" or is_text else f"0x{text}"
    return f"{text}… ({size:,} bytes in all)" if is_cut else text


class Room:
    """How many values are read yet."""

    def __init__(self):
        self.left = MOST_VALUES

    def is_out(self):
        self.left -= 1
        return self.left < 0


def value(of, at=0, depth=0, room=None):
    """The text of the value at `at`, in brackets where it has parts; and where it ends."""
    code, after = number(of, at, 1)
    room = room or Room()
    if room.is_out() or depth > DEEPEST and (code == 0x00 or code in COMPOUND):
        return "…", end_of(of, at)
    if code == 0x00:
        return described(of, after, depth, room)
    if code == 0x45:
        return "[]", after
    if code not in COMPOUND:
        return scalar(of, after, code)
    return compound(of, after, code, depth, room), end_of(of, at)


def described(of, at, depth, room):
    descriptor, after = value(of, at, depth + 1, room)
    name = COMPOSITES.get(code_of(descriptor), descriptor)
    inside, end = value(of, after, depth + 1, room)
    return (name if inside == "[]" else f"{name} {inside}"), end


def code_of(descriptor):
    return int(descriptor) if descriptor.isdecimal() else CODES.get(descriptor)


def compound(of, at, code, depth, room):
    kind, width = COMPOUND[code]
    _, at = number(of, at, width)
    count, at = number(of, at, width)
    if kind == "array":
        return array(of, at, count)
    texts = []
    while len(texts) < min(count, MOST_PARTS) and room.left > 0:
        text, at = value(of, at, depth + 1, room)
        texts.append(text)
    rest = [f"… ({count:,} in all)"] if count > len(texts) else []
    if kind == "map":
        pairs = [f"{key}: {said}" for key, said in zip(texts[::2], texts[1::2])]
        return "{" + ", ".join([*pairs, *rest]) + "}"
    return "[" + ", ".join([*texts, *rest]) + "]"


def array(of, at, count):
    """An array's items share their constructor: each is read as that with its own data."""
    if count == 0 or at >= len(of):
        return "[]"
    code, after = number(of, at, 1)
    if code == 0x00 or code in COMPOUND or code == 0x45:
        return f"[{count:,} items]"
    texts, at = [], after
    while len(texts) < min(count, MOST_PARTS):
        text, at = scalar(of, at, code)
        texts.append(text)
    rest = [f"… ({count:,} in all)"] if count > len(texts) else []
    return "[" + ", ".join([*texts, *rest]) + "]"


def fields_of(of, name, kind="raw", depth=0):
    """A field's lines: pairs of a name and a text. A terminus, a state or an error has one for each of its own."""
    if of[:1] == b"\x00" and depth < DEEPEST_FIELD:
        descriptor, after = value(of, 1)
        code = code_of(descriptor)
        if code in PARTS and of[after : after + 1] in (b"\x45", b"\xc0", b"\xd0"):
            yield name, COMPOSITES[code]
            inner, _ = parts(of, after)
            for part, inside in zip(PARTS[code].split(), inner):
                if inside != b"\x40":
                    yield from fields_of(inside, f"{name}: {part}", depth=depth + 1)
            return
    text, _ = value(of)
    yield name, worded(kind, of, text)


def worded(kind, of, text):
    """The standard's word for a number or a flag of a role or a mode."""
    if kind not in WORDS or kind == "flag":
        return text
    index = {"true": 1, "false": 0}.get(text, text)
    words = WORDS[kind]
    return words[int(index)] if str(index).isdecimal() and int(index) < len(words) else text
