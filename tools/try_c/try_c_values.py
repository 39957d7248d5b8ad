"""What try_c.py tries of values and performatives as bytes, and back."""

import sys
import uuid
from pathlib import Path

sys.path.insert(0, str(Path(__file__).resolve().parents[2] / "bindings" / "python"))

from amqp_engine import (
    ACCEPTED, RECEIVER, SECOND, SENDER, SETTLED, Array, Attach, Begin, Close, Described, Detach, Disposition, Error, Flow, Malformed, Map, Open, Repeated,
    Symbol, Transfer, Ubyte, Uint, Ulong, Ushort, address_of, body_of, data, rejected, source, target,
)  # fmt: skip
from amqp_engine.values import Byte, Char, Decimal, Float, Int, Short, Timestamp, read, write

TESTS = []


def test(function):
    TESTS.append(function)
    return function


@test
def values_are_read_as_they_were_written():
    for value in [
        None, True, False, Ubyte(3), Ushort(300), Uint(0), Uint(255), Uint(256), Ulong(0), Ulong(7), Ulong(2**63), Byte(-1), Short(-300), Int(-1),
        Int(70000), -5, 2**40, Timestamp(12345), 1.5, Float(1.5), uuid.uuid4(), Symbol("abc"), "x" * 300, b"a" * 255, b"b" * 256, [], [1, "a", [None]],
        Map([(Symbol("k"), 3)]), Described(Ulong(0x24), []), Array([Symbol("a"), Symbol("b" * 300)]), Array([Uint(1), Uint(2)]), Char("x"), ["x" * 252],
        ["x" * 253],
    ]:  # fmt: skip
        of = write(value)
        assert read(of) == (value, len(of)) and type(read(of)[0]) is type(value), (value, of)


@test
def what_is_no_value_is_malformed():
    for of in [
        b"", b"\x56\x02", b"\xa1\x05ab", b"\xc0\x02\x01", b"\xff\x00\x00\x00\x00", b"\x00" * 100, b"\xc1\x03\x01\x40\x40", b"\xa1\x01\xff",
        b"\xe0\x02\x05\x52", b"\xe0\x01\x00", b"\x73\x00\x11\x00\x00", b"\x73\x00\x00\xd8\x00", b"\xe0\x09\x00" + b"\x00\x43" * 3 + b"\x40",
    ]:  # fmt: skip
        try:
            read(of)
        except Malformed:
            continue
        raise AssertionError(of)


@test
def an_array_that_was_read_is_written_as_it_came():
    for constructor, item in [
        ("56", "01"), ("a0", "0161"), ("b0", "0000000161"), ("72", "00000000"), ("82", "00" * 8), ("98", "00" * 16), ("0043a3", "0161"),
        ("c0", "020143"), ("d0", "000000050000000143"), ("c1", "03024344"), ("d1", "00000006000000024344"), ("e0", "03015007"), ("f0", "00000006000000015007"),
        ("52", "05"), ("53", "05"), ("54", "ff"), ("55", "ff"), ("73", "00000061"), ("74", "61" * 4), ("84", "61" * 8), ("94", "61" * 16), ("b1", "0000000161"),
    ]:  # fmt: skip
        for count in (0, 1, 3):
            body = bytes.fromhex(constructor + item * count)
            of = bytes([0xE0, len(body) + 1, count]) + body
            assert write(read(of)[0]) == of, of
    for code in range(0x40, 0x46):
        of = b"\xf0\x00\x00\x00\x05\xff\xff\xff\xff" + bytes([code])
        assert len(read(of)[0].items) == 2**32 - 1 and write(read(of)[0]) == of, of


@test
def an_array_has_items_of_any_type():
    for items in [
        [], [None, None], [True, False], [b"a", b"b" * 300], [[], [1]], [Map([(1, 2)])], [Array([Uint(1)])], [Described(Symbol("a"), 1)] * 2, [uuid.uuid4()],
        [1.5], [Float(1.5)], [Char("a")], [Decimal(b"abcd")], ["a", "b" * 300], [Timestamp(1)],
    ]:  # fmt: skip
        assert read(write(Array(items)))[0] == Array(items), items
    assert read(write(Array([None, None])))[0].items == Repeated(None, 2) == [None, None] and Repeated(1, 5)[1:3] == [1, 1]
    for items in ([1, "a"], ["a", Symbol("b")], [Described(1, 1), Described(2, 1)], [object()]):
        try:
            write(Array(items))
        except TypeError:
            continue
        raise AssertionError(items)


@test
def a_map_that_was_read_is_a_mapping():
    pairs = [(Symbol("a"), 1), ("a", 2), (Uint(1), "u"), (Ulong(1), "l"), (True, "t"), ([], "list"), (None, 0), (uuid.UUID(int=1), 3), (1.5, 4)]
    of = read(write(Map(pairs)))[0]
    assert of.pairs == pairs and write(of) == write(Map(pairs)) and of == Map(reversed(pairs)) and of != Map(pairs[1:]), of
    assert all(of[key] == value for key, value in pairs) and of.get("b", 9) == 9 and "b" not in of
    plain = read(write({Symbol("a"): 1, Symbol("b"): [2]}))[0]
    assert plain["a"] == 1 and plain == {"a": 1, "b": [2]} == plain and dict(plain) == {"a": 1, "b": [2]} and plain != {"a": 1} and list(plain) == ["a", "b"]


@test
def performatives_are_read_as_they_were_written():
    for it in [
        Open("me", "host", 1024, 7, 1000, None, None, ["a", "b"], "c", {Symbol("x"): "y"}), Begin(3, 1, 2, 4, 5), Flow(1, 2, 3, 4, 5, 6, 7, 8, True, False),
        Attach("q", 0, SENDER, SETTLED, SECOND, source("a"), target(), {}, True, 9, 2**40), Transfer(0, 1, b"t", 0, True, True, SECOND, ACCEPTED, False, False, True),
        Disposition(RECEIVER, 3, 5, True, rejected(Error("amqp:not-found"))), Detach(3, True, Error("amqp:internal-error", "no", {})), Close(Error("a:b")),
    ]:  # fmt: skip
        assert type(it).decode(it.encode()) == it, it
    assert Open("a", max_frame_size=None).encode() == bytes.fromhex("005310d00000000700000001a10161")
    assert Close().encode() == bytes.fromhex("005318d00000000400000000")
    assert Open("a").max_frame_size == 1048576 and Open.decode(Open("a", max_frame_size=None).encode()).max_frame_size is None
    assert body_of(data(b"hello")) == b"hello" and address_of(target("q")) == "q" and address_of(source()) is None
