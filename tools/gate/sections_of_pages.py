"""Tries the sections of messages that pages show, for try_page.py: those of recordings, of messages by hand, and hostile ones."""

import html
import re
import time

from amqp import decoder
from amqp.canonical import boolean, composite, string, symbol, tag, ubyte, uint
from amqp.frames import TRANSFER, Frame
from amqp.mended import plain
from amqp.recorded import CAPTURES
from amqp.recordings import recorded
from gate.made_connections import SENDER, attach, begun, frame, opened
from gate.made_pages import DESCRIPTION, NAME
from page.make import Page
from page.rows import Reader
from page.sections import LATER, MORE, SECTIONS, sections

NAMES = {name for name, _ in SECTIONS.values()}


def transfers(path):
    """The transfers of a recording, and the sections of each."""
    reader = Reader()
    for side, of in recorded(path):
        row = reader.row(side, of)
        if row[1] == "Transfer":
            yield Frame(plain(of)), row[-1]


def decoded(of):
    """The codes of the sections of a whole payload, and each text and number in them, by the decoder that trusts its bytes."""
    codes, texts, at = [], [], 0
    while at < len(of):
        _, said, at = decoder.value(of, at)
        codes.append(said["desc"])
        texts += leaves(said["val"])
    return codes, texts


def leaves(value):
    """The texts, symbols and numbers in a value."""
    if isinstance(value, dict):
        value = value.get("map", value.get("items", value.get("sym", [])))
    if isinstance(value, list):
        return [text for it in value for text in leaves(it)]
    return [str(value)[:200]] if isinstance(value, (str, int)) and not isinstance(value, bool) else []


def try_sections(check):
    for path in sorted(CAPTURES.glob("*.txt")):
        in_recording(check, path)
    by_hand(check)
    of_many_transfers(check)
    hostile(check)


def in_recording(check, path):
    """Each message of one transfer shows its sections by name, and the texts and numbers that are in them."""
    whole = [(it.payload, found) for it, found in transfers(path) if it.payload and it[5] != b"\x41" and found[0][0] != LATER]
    for payload, found in whole:
        codes, texts = decoded(payload)
        shown = " ".join(text for _, pairs, _ in found for text in pairs)
        check(f"sections of {path.stem}", [it[0] for it in found] == [SECTIONS[code][0] for code in codes], found)
        check(f"texts of {path.stem}", all(it in shown for it in texts), [it for it in texts if it not in shown], found)
    check(f"messages of {path.stem}", len(whole) >= 2, len(whole))


# ---- by hand


def map_of(*parts):
    inside = b"".join(parts)
    return b"\xd1" + (len(inside) + 4).to_bytes(4, "big") + len(parts).to_bytes(4, "big") + inside


def section(code, value):
    return b"\0\x53" + bytes([code]) + value


def listed(code, *parts):
    return composite(code, parts)


def binary(of):
    return b"\xb0" + len(of).to_bytes(4, "big") + of


def message():
    """A message with each section, and what is shown of it."""
    return b"".join([
        listed(0x70, boolean(True), ubyte(4)),
        section(0x71, map_of(symbol("x-opt-to"), uint(1))),
        b"\0\xa3\x1camqp:message-annotations:map" + map_of(symbol("x-opt-at"), string("there")),
        listed(0x73, string("id 1"), b"\x40", string("queue"), string("greeting")),
        section(0x74, map_of(string("colour"), string("red"), string("size"), uint(7))),
        section(0x75, binary(b"hello, data! " * 5)),
        section(0x76, b"\xc0\x05\x02\x52\x01\x52\x02"),
        section(0x77, string("a value")),
        section(0x78, map_of(symbol("x-sum"), uint(9))),
    ])


MESSAGE = [
    ["header", [("durable", "true"), ("priority", "4")], ""],
    ["delivery-annotations", [("x-opt-to", "1")], ""],
    ["message-annotations", [("x-opt-at", "there")], ""],
    ["properties", [("message-id", "id 1"), ("to", "queue"), ("subject", "greeting")], ""],
    ["application-properties", [("colour", "red"), ("size", "7")], ""],
    ["data", [("size", "65 bytes")], b"hello, data! hello, data! hello,".hex()],
    ["amqp-sequence", [("value", "[1, 2]")], ""],
    ["amqp-value", [("value", "a value")], ""],
    ["footer", [("x-sum", "9")], ""],
]


def by_hand(check):
    check("a message by hand", sections(message()) == MESSAGE, sections(message()))
    # what is cut anywhere shows no other sections before the cut one, and does not raise
    fronts = [sections(message()[:at]) for at in range(1, len(message()))]
    check("fronts of a message", all(it[:-1] == MESSAGE[: len(it) - 1] for it in fronts))
    changed = [sections(message()[:at] + bytes([turn]) + message()[at + 1 :]) for at in range(len(message())) for turn in (0, 0x45, 0x80, 0xFF)]
    check("changed messages", all(len(it) <= 17 for it in changed) and len(changed) > 500)


def transfer(payload, *more, handle=0):
    side, of = frame("A", 0, TRANSFER, uint(handle), uint(0), tag({"bin": "00"}), uint(0), boolean(True), boolean(bool(more)))
    return side, of + payload


def of_many_transfers(check):
    """A message of three transfers, and then another one; a link that begins anew begins a message too."""
    reader, of = Reader(), message()
    parts = [transfer(of[:150], True), transfer(of[150:200], True), transfer(of[200:]), transfer(of), transfer(of[:9], True), attach("A", 0, "again", 0, SENDER), transfer(of)]
    found = [[it[0] for it in reader.row(side, raw)[-1]] for side, raw in parts]
    names = [name for name, _, _ in MESSAGE]
    check("the first part", found[0][-1] == MORE and found[0][:-1] == names[: len(found[0]) - 1] and len(found[0]) > 3, found[0])
    check("later parts", found[1:3] == [[LATER], [LATER]] and found[3] == names and found[6] == names, found)


# ---- hostile messages


def hostile_messages():
    """Keys and texts of markup, many parts, deep ones, and counts and sizes that say more than there is."""
    deep, wide = b"\x45", string("x") * 2 * 70000
    for _ in range(60):
        deep = b"\xd0" + (len(deep) + 4).to_bytes(4, "big") + b"\0\0\0\1" + deep
    most = b"\xff\xff\xff\xff"
    yield section(0x74, map_of(string(NAME), string(DESCRIPTION), string("deep"), deep))
    yield section(0x74, b"\xd1" + (len(wide) + 4).to_bytes(4, "big") + (140000).to_bytes(4, "big") + wide)
    yield section(0x74, b"\xd1" + most + most + string("a") * 4)
    yield section(0x73, b"\xd0" + most + most + string("a") * 40)
    yield section(0x75, b"\xb0" + most + b"data")
    yield section(0x77, b"\xb1" + most + NAME.encode())
    yield section(0x77, deep)
    yield section(0x75, b"\xa0\1x") * 60000
    yield b"\0" * 300000
    yield (b"\0\x53\x74" + map_of(*[string(f"{at}") for at in range(120)])) * 300


def hostile(check):
    made, began = Page("hostile messages", "nobody"), time.process_time()
    for side, of in [*opened(), *begun(0, 0), attach("A", 0, "link", 0, SENDER), *map(transfer, hostile_messages())]:
        made.add(side, of)
    took, text = time.process_time() - began, made.text()
    check("hostile messages", took < 3 and len(text) < 250_000, took, len(text))
    check("what is cut is told", "goes on past the bytes" in text and "entries in all" in text and "more" in text)


def opened_in(browser, check):
    """The panel has the sections, and their texts as texts."""
    made = Page("sections", "nobody")
    for at, (side, of) in enumerate([*opened(), *begun(0, 0), transfer(message()), transfer(next(hostile_messages()))], 1):
        made.add(side, of, at)
    panel = [browser.opened("sections", made.text(), place).split('id="panel"')[1] for place in ("#frame-5", "#frame-6")]
    said = html.unescape(re.sub(r"<[^>]*>", " ", panel[0]))
    check("sections in the panel", all(f"Message: {name}" in said for name in NAMES) and "greeting" in said and "hello, data! hel" in said, said)
    check("hostile sections in the panel", "&lt;script&gt;alert(1)" in panel[1] and "<script" not in panel[1] and "<img" not in panel[1])
    sought = browser.opened("a search in sections", made.text(), "#q=colour")
    check("a search in sections", sought.count('id="row-') == 1 and 'id="row-4"' in sought)
