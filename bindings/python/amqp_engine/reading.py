"""Bytes as values (AMQP 1.0 part 1, section 1.6). What is read takes time and memory in proportion to its bytes,
whatever they say."""

from __future__ import annotations

import struct
import uuid
from typing import Any, Callable, Dict, List, Tuple, TypeVar

from .kinds import (
    DEEPEST, Array, Byte, Char, Decimal, Described, Float, Int, Malformed, Repeated, Short, Symbol, Timestamp, Ubyte,
    Uint, Ulong, Ushort,
)  # fmt: skip
from .maps import Map

#: How many descriptors may stand before the items of an array, each of which has all of them
_MOST_DESCRIPTORS = 2
_T = TypeVar("_T")


def _unsigned(of: bytes) -> int:
    return int.from_bytes(of, "big")


def _signed(of: bytes) -> int:
    return int.from_bytes(of, "big", signed=True)


def _boolean(of: bytes) -> bool:
    if of[0] > 1:
        raise Malformed("a boolean that is neither 0 nor 1")
    return of == b"\x01"


def _character(of: bytes) -> Char:
    return Char(of.decode("utf-32-be"))


# code: how many bytes follow, and the value that they are
_FIXED: Dict[int, Tuple[int, Callable[[bytes], Any]]] = {
    0x40: (0, lambda of: None), 0x41: (0, lambda of: True), 0x42: (0, lambda of: False), 0x43: (0, lambda of: Uint(0)),
    0x44: (0, lambda of: Ulong(0)), 0x45: (0, lambda of: []), 0x50: (1, lambda of: Ubyte(of[0])),
    0x51: (1, lambda of: Byte(_signed(of))), 0x52: (1, lambda of: Uint(of[0])), 0x53: (1, lambda of: Ulong(of[0])),
    0x54: (1, lambda of: Int(_signed(of))), 0x55: (1, _signed), 0x56: (1, _boolean),
    0x60: (2, lambda of: Ushort(_unsigned(of))), 0x61: (2, lambda of: Short(_signed(of))),
    0x70: (4, lambda of: Uint(_unsigned(of))), 0x71: (4, lambda of: Int(_signed(of))),
    0x72: (4, lambda of: Float(struct.unpack(">f", of)[0])), 0x73: (4, _character),
    0x74: (4, Decimal), 0x80: (8, lambda of: Ulong(_unsigned(of))), 0x81: (8, _signed),
    0x82: (8, lambda of: struct.unpack(">d", of)[0]), 0x83: (8, lambda of: Timestamp(_signed(of))), 0x84: (8, Decimal),
    0x94: (16, Decimal), 0x98: (16, lambda of: uuid.UUID(bytes=of)),
}  # fmt: skip
_SIZED = (0xA0, 0xA1, 0xA3, 0xC0, 0xC1, 0xE0)
_NONE, _ENDS = 256, "the bytes end inside a value"
# by code, and last for none: how many bytes follow; how wide the size is that does, below 0; `_NONE` where no type has
# it
_FOLLOWS = [_NONE] * 257
_FOLLOWS[0] = 0
for _code, (_count, _) in _FIXED.items():
    _FOLLOWS[_code] = _count
for _code in _SIZED:
    _FOLLOWS[_code], _FOLLOWS[_code | 0x10] = -1, -4
_VARIABLE: Dict[int, Callable[[bytes], Any]] = {
    0xA0: bytes,
    0xA1: lambda of: of.decode(),
    0xA3: lambda of: Symbol(of.decode("ascii")),
}


def read(of: bytes, at: int = 0) -> Tuple[Any, int]:
    """The value at `at`, and where it ends. Raises `Malformed` where none stands there."""
    try:
        return _value(of, at, len(of), 0)
    except UnicodeDecodeError as error:
        raise Malformed(str(error)) from None


def end_of(of: bytes, at: int = 0) -> int:
    """Where the value at `at` ends, of which the sizes alone are looked at. Raises `Malformed` where none stands
    there."""
    end, left = len(of), 1
    while left:
        code = of[at] if at < end else _NONE
        follows, at = _FOLLOWS[code], at + 1
        if follows < 0:
            # a size of so many bytes, and then as many as it says
            start = at - follows
            at = start + int.from_bytes(of[at:start], "big")
        elif code == 0:
            # a descriptor, and what it describes
            left += 2
        elif follows == _NONE:
            raise Malformed(_ENDS if code == _NONE else f"no type has the code {code:02x}")
        else:
            at += follows
        if at > end:
            raise Malformed(_ENDS)
        left -= 1
    return at


def _end(at: int, count: int, end: int) -> int:
    """Where so many bytes end that have to end in time."""
    if at + count > end:
        raise Malformed(_ENDS)
    return at + count


def _value(of: bytes, at: int, end: int, depth: int) -> Tuple[Any, int]:
    start = _end(at, 1, end)
    code = of[at]
    if code != 0:
        return _coded(code, of, start, end, depth)
    if depth >= DEEPEST:
        raise Malformed("more than 64 values inside each other")
    descriptor, at = _value(of, start, end, depth + 1)
    value, at = _value(of, at, end, depth + 1)
    return Described(descriptor, value), at


def _coded(code: int, of: bytes, at: int, end: int, depth: int) -> Tuple[Any, int]:
    """The value whose data stands at `at`, by its code."""
    if code in _FIXED:
        width, make = _FIXED[code]
        stop = _end(at, width, end)
        return make(of[at:stop]), stop
    start, stop = _extent(code, of, at, end)
    if code & 0xEF in _VARIABLE:
        return _VARIABLE[code & 0xEF](of[start:stop]), stop
    return _compound(code, of, start, stop, depth), stop


def _extent(code: int, of: bytes, at: int, end: int) -> Tuple[int, int]:
    """From where to where the data is, before which its size stands."""
    start = at + (4 if code & 0x10 else 1)
    stop = start + int.from_bytes(of[at:start], "big")
    if stop > end:
        raise Malformed(_ENDS)
    return start, stop


def _width(code: int) -> int:
    return 4 if code & 0x10 else 1


def _compound(code: int, of: bytes, at: int, end: int, depth: int) -> Any:
    """A list, a map or an array: a count, and then what it counts."""
    if code & 0xEF not in (0xC0, 0xC1, 0xE0):
        raise Malformed(f"no type has the code {code:02x}")
    if depth >= DEEPEST:
        raise Malformed("more than 64 values inside each other")
    start = _end(at, _width(code), end)
    count = _unsigned(of[at:start])
    if code & 0xEF == 0xE0:
        return _array(of, start, end, count, depth + 1)
    items = _items(of, start, end, count, depth + 1)
    return items if code & 0xEF == 0xC0 else _map(items)


def _map(items: List[Any]) -> Map:
    if len(items) % 2:
        raise Malformed("a map of an odd number of items")
    return Map(zip(items[::2], items[1::2]))


def _items(of: bytes, at: int, end: int, count: int, depth: int) -> List[Any]:
    found = []
    for _ in range(count):
        item, at = _value(of, at, end, depth)
        found.append(item)
    return _whole(found, at, end)


def _whole(found: _T, at: int, end: int) -> _T:
    if at != end:
        raise Malformed("a count that is not that of the items")
    return found


def _array(of: bytes, at: int, end: int, count: int, depth: int) -> Array:
    start, descriptors = at, []
    while of[at : _end(at, 1, end)] == b"\x00":
        descriptor, at = _value(of, at + 1, end, depth)
        descriptors.append(descriptor)
        if len(descriptors) > _MOST_DESCRIPTORS:
            raise Malformed(f"more than {_MOST_DESCRIPTORS} descriptors of an array's items")
    items, at = _of_code(of[at], of, at + 1, end, count, depth, descriptors[::-1])
    return Array(items, of[start:at])


def _of_code(
    code: int, of: bytes, at: int, end: int, count: int, depth: int, descriptors: List[Any]
) -> Tuple[Any, int]:
    """The items of an array, and where its constructor ends. Those that take no bytes are one, so many times."""
    constructed = at
    if code in _FIXED and _FIXED[code][0] == 0:
        item, at = _coded(code, of, at, end, depth)
        return _whole(Repeated(_described(item, descriptors), count), at, end), constructed
    found = []
    for _ in range(count):
        item, at = _coded(code, of, at, end, depth)
        found.append(_described(item, descriptors))
    return _whole(found, at, end), constructed


def _described(item: Any, descriptors: List[Any]) -> Any:
    for descriptor in descriptors:
        item = Described(descriptor, item)
    return item
