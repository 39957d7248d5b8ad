"""Values as bytes, in their shortest spelling; arrays in the one in which they came (AMQP 1.0 part 1, section 1.6)."""

from __future__ import annotations

import struct
import uuid
from collections.abc import Mapping, Sequence
from datetime import datetime
from typing import Any, Callable, Dict, List, Optional, Tuple, Union

from .kinds import (
    DEEPEST, Array, Byte, Char, Decimal, Described, Float, Int, Repeated, Short, Symbol, Timestamp, Ubyte, Uint, Ulong,
    Ushort,
)  # fmt: skip


def write(value: Any, inside: int = 0) -> bytes:
    """The bytes of a value, which is to lie inside of so many others. Raises `TypeError` where no type of AMQP has it,
    `OverflowError` where it does not fit its type, and `ValueError` where more than 64 values lie inside each other."""
    writer = _EXACT.get(type(value))
    return _write(value, inside) if writer is None else writer(value)


def _write(value: Any, depth: int) -> bytes:
    writer = _EXACT.get(type(value))
    if writer is not None:
        return writer(value)
    if isinstance(value, _COMPOUND):
        if depth >= DEEPEST:
            raise ValueError(f"more than {DEEPEST} values inside each other")
        return _compound(value, depth + 1)
    for kind, writer in _WRITERS:
        if isinstance(value, kind):
            return writer(value)
    raise TypeError(f"no type of AMQP for {type(value).__name__}")


def _compound(value: Any, depth: int) -> bytes:
    """The bytes of a value that has others in it."""
    if isinstance(value, Described):
        return b"\x00" + _write(value.descriptor, depth) + _write(value.value, depth)
    if isinstance(value, Array):
        return _sized(0xE0, *_parts(value, depth))
    if isinstance(value, Mapping):
        return _sized(0xC1, *_parts(value, depth))
    return _sized(0xC0, *_parts(value, depth)) if value else b"\x45"


def _number(width: int, signed: bool) -> Callable[[int], bytes]:
    return lambda value: int(value).to_bytes(width, "big", signed=signed)


def _short(zero: Optional[bytes], short: int, code: int, signed: bool = False) -> Callable[[int], bytes]:
    """Writes a number: nothing after the code of zero, one byte where it fits, else all."""

    def writer(value: int) -> bytes:
        if value == 0 and zero is not None:
            return zero
        fits = (-128 <= value < 128) if signed else (0 <= value < 256)
        return _plain(short if fits else code)(value)

    return writer


def _plain(code: int) -> Callable[[Any], bytes]:
    return lambda value: bytes([code]) + _FIXED[code](value)


def _moment(value: datetime) -> bytes:
    """A timestamp; what says no zone is local time, as Python has it."""
    return b"\x83" + round(value.timestamp() * 1000).to_bytes(8, "big", signed=True)


def _variable(short: int) -> Callable[[Any], bytes]:
    heads = [bytes([short, size]) for size in range(256)]

    def writer(value: Union[str, bytes]) -> bytes:
        data = value if type(value) is bytes else _bytes(value)
        return heads[len(data)] + data if len(data) < 256 else _sized(short, data)

    return writer


def _bytes(value: Union[str, bytes]) -> bytes:
    return bytes(value) if isinstance(value, bytes) else value.encode("ascii" if isinstance(value, Symbol) else "utf-8")


def _sized(short: int, data: bytes, count: Optional[int] = None) -> bytes:
    """A value of variable length, or, with a count, one of several parts, after the code that it needs."""
    is_short = len(data) + (count is not None) < 256 and (count is None or count < 256)
    code = short if is_short else short | 0x10
    return bytes([code]) + _extent(code, data, count)


def _extent(code: int, data: bytes, count: Optional[int] = None) -> bytes:
    """The same without the code: a size, the count, if there is one, and the data. Raises `OverflowError` where they do
    not fit the code."""
    width = 4 if code & 0x10 else 1
    counted = b"" if count is None else count.to_bytes(width, "big")
    return (len(counted) + len(data)).to_bytes(width, "big") + counted + data


def _parts(value: Any, depth: int) -> Tuple[bytes, int]:
    """What stands in a list, a map or an array, and its count."""
    if isinstance(value, Array):
        constructor = value.constructor or _constructor(value.items, depth)
        return constructor + _items(constructor[-1], value.items, depth), len(value.items)
    if isinstance(value, Mapping):
        return b"".join(_write(key, depth) + _write(it, depth) for key, it in value.items()), 2 * len(value)
    return b"".join(_write(it, depth) for it in value), len(value)


# ---- the items of an array


def _constructor(items: Sequence[Any], depth: int) -> bytes:
    """What stands before items of one type, where nothing says how they came."""
    if depth > DEEPEST:
        raise ValueError(f"more than {DEEPEST} values inside each other")
    if not items:
        return b"\x40"
    first = items[0]
    if any(type(it) is not type(first) for it in items):
        raise TypeError("an array of items of several types")
    if isinstance(first, Described):
        if any(it.descriptor != first.descriptor for it in items):
            raise TypeError("an array of items of several descriptors")
        return b"\x00" + _write(first.descriptor, depth) + _constructor([it.value for it in items], depth + 1)
    return bytes([_code(first, items)])


def _code(first: Any, items: Sequence[Any]) -> int:
    """The widest code of the items' type; of texts and binaries the short one where all are short."""
    if isinstance(first, Decimal):
        return {4: 0x74, 8: 0x84, 16: 0x94}[len(first)]
    code = next((code for kind, code in _WIDEST if isinstance(first, kind)), None)
    if code is None:
        raise TypeError(f"no type of AMQP for {type(first).__name__}")
    is_short = code in (0xB0, 0xB1, 0xB3) and all(len(_bytes(it)) < 256 for it in items)
    return code & 0xEF if is_short else code


def _items(code: int, items: Sequence[Any], depth: int) -> bytes:
    if isinstance(items, Repeated) and code in _EMPTY:
        items = items[:1]
    if depth > DEEPEST:
        raise ValueError(f"more than {DEEPEST} values inside each other")
    return b"".join(_data(code, it, depth) for it in items)


def _data(code: int, item: Any, depth: int) -> bytes:
    """An item after the constructor of its array."""
    while isinstance(item, Described):
        item = item.value
    if code in _FIXED:
        return _FIXED[code](item)
    if code not in _EMPTY:
        return (
            _extent(code, _bytes(item))
            if code & 0xEF in (0xA0, 0xA1, 0xA3)
            else _extent(code, *_parts(item, depth + 1))
        )
    if item != _EMPTY[code]:
        raise ValueError(f"{item!r} is no item of an array of the code {code:02x}")
    return b""


# ---- by code, and by type

# the values that take no bytes after their code
_EMPTY: Dict[int, Any] = {0x40: None, 0x41: True, 0x42: False, 0x43: 0, 0x44: 0, 0x45: []}
_FIXED: Dict[int, Callable[[Any], bytes]] = {
    0x50: _number(1, False), 0x51: _number(1, True), 0x52: _number(1, False), 0x53: _number(1, False),
    0x54: _number(1, True), 0x55: _number(1, True), 0x56: lambda it: b"\x01" if it else b"\x00",
    0x60: _number(2, False), 0x61: _number(2, True), 0x70: _number(4, False), 0x71: _number(4, True),
    0x72: lambda it: struct.pack(">f", it), 0x73: lambda it: str.encode(it, "utf-32-be"), 0x74: bytes,
    0x80: _number(8, False), 0x81: _number(8, True), 0x82: lambda it: struct.pack(">d", it), 0x83: _number(8, True),
    0x84: bytes, 0x94: bytes, 0x98: lambda it: bytes(it.bytes),
}  # fmt: skip
_WIDEST: List[Tuple[type, int]] = [
    (type(None), 0x40), (bool, 0x56), (Ubyte, 0x50), (Ushort, 0x60), (Uint, 0x70), (Ulong, 0x80), (Byte, 0x51),
    (Short, 0x61), (Int, 0x71), (Timestamp, 0x83), (int, 0x81), (Float, 0x72), (float, 0x82), (uuid.UUID, 0x98),
    (Symbol, 0xB3), (Char, 0x73), (str, 0xB1), (bytes, 0xB0), (list, 0xD0), (Mapping, 0xD1), (Array, 0xF0),
]  # fmt: skip
# of a kind and those that are made from it, in this order: what stands later is more general
_WRITERS: List[Tuple[type, Callable[[Any], bytes]]] = [
    (type(None), lambda it: b"\x40"), (bool, lambda it: b"\x41" if it else b"\x42"), (Ubyte, _plain(0x50)),
    (Ushort, _plain(0x60)), (Uint, _short(b"\x43", 0x52, 0x70)), (Ulong, _short(b"\x44", 0x53, 0x80)),
    (Byte, _plain(0x51)), (Short, _plain(0x61)), (Int, _short(None, 0x54, 0x71, True)), (Timestamp, _plain(0x83)),
    (int, _short(None, 0x55, 0x81, True)), (Float, _plain(0x72)), (float, _plain(0x82)), (uuid.UUID, _plain(0x98)),
    (Decimal, lambda it: bytes([_code(it, [it])]) + bytes(it)), (Symbol, _variable(0xA3)), (Char, _plain(0x73)),
    (str, _variable(0xA1)), (bytes, _variable(0xA0)), (bytearray, lambda it: _sized(0xA0, bytes(it))),
    (datetime, _moment),
]  # fmt: skip
_EXACT: Dict[type, Callable[[Any], bytes]] = dict(_WRITERS)
_COMPOUND = (Described, list, tuple, Mapping, Array)
