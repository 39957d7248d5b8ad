"""What try_c.py tries of messages of the Python package: each section written and read, what is not changed kept to the
byte, and what is malformed."""

import datetime
import sys
import uuid
from pathlib import Path

sys.path.insert(0, str(Path(__file__).resolve().parents[2] / "bindings" / "python"))

from amqp_engine import (
    Array, Byte, Char, Decimal, Described, Float, Int, Malformed, Map, Message, Short, Symbol, Timestamp, Ubyte,
    Uint, Ulong, Ushort,
)  # fmt: skip
from amqp_engine.sections import sections_of
from amqp_engine.values import end_of, read, write

TESTS = []
#: Each field of the header and of the properties
FIELDS = {
    "durable": True, "priority": 9, "ttl": 70000, "first_acquirer": True, "delivery_count": 3,
    "message_id": 7, "user_id": b"me", "to": "there", "subject": "it", "reply_to": "here",
    "correlation_id": uuid.UUID(int=5),
    "content_type": "text/plain", "content_encoding": "gzip", "absolute_expiry_time": 1700000000123,
    "creation_time": -5,
    "group_id": "group", "group_sequence": 2**32 - 1, "reply_to_group_id": "others",
}  # fmt: skip
MAPS = {
    "properties": {"k": 1, "é": "text", "b": b"\xff", "none": None, "yes": True, "half": 0.5},
    "annotations": {"x-opt-a": [1, {"deep": [None]}]}, "delivery_annotations": {"x-opt-b": 2},
    "footer": {"x-opt-hash": b"h"},
}  # fmt: skip


def test(function):
    TESTS.append(function)
    return function


@test
def a_message_has_all_sections():
    made = Message(b"body", **FIELDS, **MAPS)
    came = Message.decode(made.encode())
    for name, value in {**FIELDS, **MAPS}.items():
        assert getattr(came, name) == value, (name, getattr(came, name))
    assert (came.body, came.kind) == (b"body", "data") and came == made and came.encode() == made.encode()
    assert [it.code for it in sections_of(made.encode())] == [0x70, 0x71, 0x72, 0x73, 0x74, 0x75, 0x78]
    looked_at = (came.message_id, came.creation_time, came.content_type, came.group_sequence, came.priority)
    types = tuple(map(type, looked_at))
    assert types == (Ulong, Timestamp, Symbol, Uint, Ubyte), types
    assert [type(key) for key in came.annotations] == [Symbol] and [type(key) for key in came.properties] == [str] * 6


@test
def a_message_is_written_as_the_standard_has_it():
    assert Message("hi").encode().hex() == "005377a1026869"
    assert Message(b"hi").encode().hex() == "005375a0026869"
    assert Message([1, None], kind="sequence").encode().hex() == "005376c004025501" + "40"
    assert Message().encode().hex() == "00537740" and Message("", properties={}).encode().hex() == "005377a100"
    assert Message(1, durable=True).encode().hex() == "005370c0020141" + "0053775501"
    assert Message(1, message_id=0, to="q").encode().hex() == "005373c006034440a10171" + "0053775501"
    assert Message(1, properties={"k": True}).encode().hex() == "005374c10502a1016b41" + "0053775501"
    assert Message(1, footer={"x": 1}).encode().hex() == "0053775501" + "005378c10602a301785501"


@test
def what_is_absent_is_the_standards_default():
    it = Message.decode(Message("x").encode())
    assert (it.durable, it.priority, it.ttl, it.first_acquirer, it.delivery_count) == (False, 4, None, False, 0)
    assert (it.message_id, it.subject, it.properties, it.annotations, it.footer) == (None, None, {}, {}, {})
    nothing = Message.decode(b"")
    assert (nothing.kind, nothing.body, nothing.encode()) == (None, None, b"")


@test
def bodies_are_data_values_and_sequences():
    for body, kind, wanted in [
        (b"a", None, (b"a", "data")), ([b"a", b"bc"], "data", (b"abc", "data")), ("a", None, ("a", "value")), (b"a",
        "value", (b"a", "value")),
        ({"k": [1]}, None, ({"k": [1]}, "value")), ([1, "a"], "sequence", ([1, "a"], "sequence")), (None, None,
        (None, "value")),
        (bytearray(b"z"), None, (b"z", "data")), ((1, 2), None, ([1, 2], "value")), ([], "data", (None, None)),
    ]:  # fmt: skip
        came = Message.decode(Message(body, kind=kind).encode())
        assert (came.body, came.kind) == wanted, (body, came.body, came.kind)
    two = Message.decode(Message([1], kind="sequence").encode() + Message([2, 3], kind="sequence").encode())
    assert (two.body, two.kind) == ([1, 2, 3], "sequence")
    # what a program has made is read as well as what came
    for body in (bytearray(b"ab"), [bytearray(b"a"), b"b"]):
        made = Message(body, kind="data")
        assert (made.body, made.kind) == (b"ab", "data") and "ab" in repr(made)
    for body, kind, wanted in (("a", "data", TypeError), (1, "other", ValueError), ([1], "data", TypeError)):
        raises(lambda: Message(body, kind=kind), wanted)
    raises(lambda: Message("a", topic="b"), TypeError)
    raises(lambda: Message("a", encode="b"), TypeError)


def raises(call, kind):
    try:
        call()
    except kind:
        return
    raise AssertionError(f"no {kind.__name__}")


@test
def what_was_read_and_not_changed_keeps_its_bytes():
    # long spellings, a descriptor by its name, an unsorted map with a key twice
    odd = b"\x00\xa3\x10amqp:header:list" + b"\xd0\x00\x00\x00\x06\x00\x00\x00\x01\x56\x01"
    properties = b"\x00\x80" + bytes(7) + b"\x73\xd0\x00\x00\x00\x0d\x00\x00\x00\x01\x80" + bytes(7) + b"\x05"
    application = b"\x00\x53\x74\xd1\x00\x00\x00\x0c\x00\x00\x00\x04" + b"\xa1\x01k\x41\xa1\x01k\x42"
    body = b"\x00\x53\x75\xb0\x00\x00\x00\x02hi"
    came = odd + properties + application + body
    it = Message.decode(came)
    assert it.encode() == came
    assert (it.durable, it.message_id, it.body, it.properties.pairs) == (True, 5, b"hi", [("k", True), ("k", False)])
    assert it.encode() == came
    it.subject = "new"
    assert it.encode() == odd + b"\x00\x53\x73\xc0\x0a\x04\x53\x05\x40\x40\xa1\x03new" + application + body
    it.priority = 5
    assert it.encode().startswith(b"\x00\x53\x70\xc0\x04\x02\x41\x50\x05" + b"\x00\x53\x73")
    it.body = "other"
    assert it.encode().endswith(application + b"\x00\x53\x77\xa1\x05other")
    it.properties = {}
    assert it.encode().endswith(b"new" + b"\x00\x53\x77\xa1\x05other")
    it.message_id = it.subject = it.durable = None
    it.priority = None
    assert it.encode() == b"\x00\x53\x77\xa1\x05other"


@test
def values_of_each_type_go_through_a_message():
    stamp = datetime.datetime(2024, 2, 29, 12, 0, 0, 5000, datetime.timezone.utc)
    for value in [
        None, True, Ubyte(255), Ushort(65535), Uint(2**32 - 1), Ulong(2**64 - 1), Byte(-128), Short(-32768),
        Int(-(2**31)), 2**63 - 1, -(2**63),
        Float(0.5), 1.5, Decimal(b"1234"), Decimal(b"x" * 16), Char("\U0010ffff"), Timestamp(-1), uuid.UUID(int=1),
        b"\x00", "ü", Symbol("s"),
        [[[]]], {"a": {Symbol("a"): 1}}, Described(Symbol("x:y"), [1]), Array([1, 2]), Array([Symbol("a")]),
    ]:  # fmt: skip
        body = Message.decode(Message(value, kind="value").encode()).body
        assert body == value and (isinstance(value, dict) or type(body) is type(value)), (value, body)
    body = Message.decode(Message(stamp).encode()).body
    assert (body, type(body), body.datetime) == (1709208000005, Timestamp, stamp)
    both = Map([("a", 1), (Symbol("a"), 2)])
    assert Message.decode(Message(both).encode()).body.pairs == [("a", 1), (Symbol("a"), 2)]


@test
def values_are_bounded_where_they_are_written_too():
    deep = []
    for _ in range(63):
        deep = [deep]
    assert read(write(deep))[0] == deep
    for made in ([deep], {"k": deep}, Described(Ulong(1), deep), Array([deep])):
        raises(lambda: write(made), ValueError)
    around = []
    around.append(around)
    raises(lambda: write(around), ValueError)
    raises(lambda: write(2**63), OverflowError)
    raises(lambda: write(Ubyte(256)), OverflowError)
    raises(lambda: write(object()), TypeError)


@test
def the_end_of_a_value_is_found_without_reading_it():
    for value in [
        None, 1, 2**40, "x" * 300, b"", [1, [2]], {"a": [1]}, Described(Described(Ulong(1), "d"), [1]), Array([1, 2]),
        uuid.UUID(int=1),
    ]:  # fmt: skip
        of = write(value)
        assert end_of(b"\x40" + of + b"rest", 1) == len(of) + 1, value
        for cut in range(len(of)):
            raises(lambda: end_of(of[:cut]), Malformed)
    for of in (b"", b"\xa1\x05ab", b"\xff", b"\x00", b"\x00\x40", b"\x01", b"\xd0\x00"):
        raises(lambda: end_of(of), Malformed)
    # a code's first half says how many bytes follow, or how wide their size is (part 1, section 1.2)
    codes = [*range(0x40, 0x46), *range(0x50, 0x57), 0x60, 0x61, *range(0x70, 0x75), *range(0x80, 0x85), 0x94, 0x98]
    sized = {code | wide for code in (0xA0, 0xA1, 0xA3, 0xC0, 0xC1, 0xE0) for wide in (0, 0x10)}
    widths = {0x4: 0, 0x5: 1, 0x6: 2, 0x7: 4, 0x8: 8, 0x9: 16}
    for code in range(1, 256):
        if code in codes:
            assert end_of(bytes([code, *range(16)])) == 1 + widths[code >> 4]
        elif code in sized:
            size = (7).to_bytes(4 if code & 0x10 else 1, "big")
            assert end_of(bytes([code, *size, *range(7)])) == 8 + len(size)
        else:
            raises(lambda: end_of(bytes([code, *range(16)])), Malformed)
    # a descriptor of a descriptor of .. takes no more than its bytes
    raises(lambda: end_of(b"\x00" * 100000), Malformed)


@test
def what_is_no_message_is_malformed():
    for of in [
        b"\x40", b"\x00\x53\x79\x40", b"\x00\x53\x24\x45", b"\x00\xa3\x04amqp\x40", b"\x00\x53\x75\xa0\x05ab", b"\x00",
        b"\x00\x53",
    ]:  # fmt: skip
        raises(lambda: Message.decode(of), Malformed)
    for of, name in [
        (b"\x00\x53\x70\x40", "durable"), (b"\x00\x53\x74\x45", "properties"),
        (b"\x00\x53\x73\xc0\x03\x02\x40\x41", "user_id"),
        (b"\x00\x53\x75\xa1\x01x", "body"), (b"\x00\x53\x76\xa1\x01x", "body"), (b"\x00\x53\x77\xa1\x01\xff", "body"),
    ]:  # fmt: skip
        raises(lambda: getattr(Message.decode(of), name), Malformed)
    assert Message.decode(b"\x00\x53\x77\xa1\x01x" + b"\x00\x53\x70\x45").body == "x"
