"""Frames and performatives as text for readers: the name, and each field that is not null, as `Flow next-incoming-id=2 incoming-window=32`."""

from amqp import strict
from amqp.decoder import value
from amqp.tables import ERROR, TABLES

# a longer text, or list of bytes, is shown by its beginning
MOST = 32

# states of a delivery, and termini (AMQP 1.0 part 3, sections 3.4 and 3.5), by what is told of them
NAMES = {0x23: "received", 0x24: "accepted", 0x25: "rejected", 0x26: "released", 0x27: "modified", 0x28: "source", 0x29: "target", 0x30: "coordinator"}
WORDS = {"role": ["sender", "receiver"], "sender": ["unsettled", "settled", "mixed"], "receiver": ["first", "second"], "flag": ["false", "true"]}


def frame(data):
    """A frame without its size: its channel, and what it holds; or why it is none."""
    found = strict.frame(data)
    if found == "DecodeError":
        return f"malformed: {strict.why(data)}"
    if found == "NotImplemented":
        return f"type {data[1]}, data offset {data[0]}"
    channel = int.from_bytes(data[2:4], "big")
    return f"on {channel}: " + ("the empty frame" if found == "Empty" else performative(data[4:]))


def performative(data):
    """A performative, and how many bytes of a payload follow it; or why it is none."""
    if why := strict.why(b"\x02\x00\x00\x00" + data):
        return f"malformed: {why}"
    _, said, end = value(data, 0)
    name, table = next(it for code, it in TABLES.items() if said["desc"] in (code, {"sym": f"amqp:{it[0].lower()}:list"}))
    words = [name, *fields(table, said["val"])]
    if left := len(data) - end:
        words.append(f"and {left} byte{'s' * (left > 1)}")
    return " ".join(words)


def fields(table, values):
    for (name, kind, _), said in zip(table, values):
        if said is not None:
            yield f"{name.replace('_', '-')}={field(kind, said)}"


def field(kind, said):
    if kind in WORDS:
        return WORDS[kind][said]
    if kind == "error":
        return f"({' '.join(fields(ERROR[1], said['val']))})"
    return plain(said)


def plain(said):
    """A value of any type."""
    if isinstance(said, dict):
        return typed(*said.items())
    if isinstance(said, list):
        return "[" + " ".join("null" if it is None else plain(it) for it in said) + "]"
    if isinstance(said, str):
        return cut(said)
    return str(said).lower() if isinstance(said, bool) else str(said)


def typed(first, *rest):
    """A value that the decoder gives with its type."""
    (kind, said), others = first, dict(rest)
    if kind == "bin":
        of = bytes.fromhex(said)
        return cut(of.decode("ascii") if of.isascii() and of.decode("ascii").isprintable() else said)
    if kind == "desc":
        name, inside = NAMES.get(said) or plain(said), others["val"]
        return name if inside == [] else f"{name}{plain(inside)}"
    if kind == "arr":
        return plain(others["items"])
    if kind == "map":
        return "{" + " ".join(f"{plain(key)}:{'null' if it is None else plain(it)}" for key, it in said) + "}"
    return cut(str(said))


def cut(text):
    """The text, in quotes where it would not stand as one word; a long one by its beginning."""
    shown = text if len(text) <= MOST else f"{text[:MOST]}.."
    return shown if shown and shown.isprintable() and not set(shown) & set(' "=[](){};') else repr(shown)
