"""Performatives as Rust's derive(Debug) lays them out, for expected_frames.py and the scripts beside it."""

from amqp.decoder import parts, value
from amqp.tables import ERROR, MAY, MUST, TABLES


class Refused(Exception):
    """A strict reading refuses the frame."""


def show_string(s):
    named = {'"': '\\"', "\\": "\\\\", "\n": "\\n", "\r": "\\r", "\t": "\\t", "\0": "\\0"}
    return '"' + "".join(named.get(c) or (c if c.isprintable() else f"\\u{{{ord(c):x}}}") for c in s) + '"'


def show_bytes(b):
    named = {0x22: '\\"', 0x5C: "\\\\", 0x0A: "\\n", 0x0D: "\\r", 0x09: "\\t", 0x00: "\\0"}
    return 'b"' + "".join(named.get(n) or (chr(n) if 0x20 <= n <= 0x7E else f"\\x{n:02x}") for n in b) + '"'


def show_symbols(said, spelled):
    if isinstance(said, dict) and "sym" in said:
        items = [said]
    elif isinstance(said, dict) and (said.get("arr") == "symbol" or said.get("items") == []):
        items = said["items"]
    else:
        raise Refused("multiple symbols are one symbol or an array of them")
    return "[" + ", ".join(f"Symbol({show_string(i['sym'])})" for i in items) + "]"


def show_error(said, spelled):
    code, inside = said["desc"], said["val"]
    assert code == 0x1D, said
    at = value(spelled, 1)[2]
    return show_composite(ERROR, inside, spelled[at:])


SHOWN = {
    "number": lambda said, spelled: str(said),
    "flag": lambda said, spelled: "true" if said else "false",
    "string": lambda said, spelled: show_string(said),
    "symbol": lambda said, spelled: f"Symbol({show_string(said['sym'])})",
    "symbols": show_symbols,
    "handle": lambda said, spelled: f"Handle({said})",
    "tag": lambda said, spelled: f"DeliveryTag({show_bytes(bytes.fromhex(said['bin']))})",
    "role": lambda said, spelled: "Receiver" if said else "Sender",
    "sender": lambda said, spelled: ["Unsettled", "Settled", "Mixed"][said],
    "receiver": lambda said, spelled: ["First", "Second"][said],
    "raw": lambda said, spelled: f"Raw {{ bytes: {show_bytes(spelled)} }}",
    "map": lambda said, spelled: f"Fields {{ raw: Raw {{ bytes: {show_bytes(spelled)} }} }}",
    "error": show_error,
}


def show_field(kind, need, said, spelled):
    if said is None and need == MUST:
        raise Refused("a mandatory field is null")
    if need == MUST:
        return SHOWN[kind](said, spelled)
    if need == MAY:
        return "None" if said is None else f"Some({SHOWN[kind](said, spelled)})"
    return SHOWN[kind](need if said is None else said, spelled)


def show_composite(table, said, spelled):
    name, fields = table
    found, _ = parts(spelled, 1, spelled[0])
    assert len(found) == len(said) <= len(fields), (said, spelled.hex())
    texts = []
    for n, (field, kind, need) in enumerate(fields):
        if n < len(said):
            start, decoded, end = found[n]
            assert decoded == said[n], (decoded, said[n])
            texts.append(f"{field}: {show_field(kind, need, said[n], spelled[start:end])}")
        else:
            texts.append(f"{field}: {show_field(kind, need, None, b'')}")
    return f"{name} {{ {', '.join(texts)} }}"


def shown(text):
    """The performative in this text, whose descriptor is a byte."""
    _, said, end = value(text, 3)
    assert end == len(text), text.hex()
    table = TABLES[text[2]]
    return f"{table[0]}({show_composite(table, said, text[3:])})"
