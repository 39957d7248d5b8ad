"""Performatives as bytes, by the library's writers (`include/amqp1/write.h`).

A described list is written by them: its fields of the plain types, and lists inside of it, as an error, a source or a
state. Any other value, as a map or an array of symbols, is handed to them as its bytes. A list gets a size of four
bytes. The library sends each performative in its shortest spelling, but a source, a target and a delivery's state as
they were written here."""

from __future__ import annotations

import ctypes
from typing import Any, Callable, Dict, Tuple

from . import library as lib
from .values import Described, Symbol, Ubyte, Uint, Ulong, Ushort, write

#: So many bytes a performative mostly needs at most
_ROOM = 512
#: The codes of bytes: binary, string and symbol
_BINARY, _STRING, _SYMBOL = 0xA0, 0xA1, 0xA3
#: The outcomes by their codes: accepted, rejected, released, modified (AMQP 1.0 part 3, section 3.4); and none of them
_OUTCOMES, _NO_OUTCOME = range(0x24, 0x28), 0x23
_NUMBERS: Dict[type, Tuple[str, int]] = {
    Ubyte: ("amqp1_put_ubyte", 8), Ushort: ("amqp1_put_ushort", 16), Uint: ("amqp1_put_uint", 32),
}  # fmt: skip
_BYTES: Dict[type, Tuple[int, Callable[[Any], bytes]]] = {
    bytes: (_BINARY, bytes), str: (_STRING, str.encode), Symbol: (_SYMBOL, lambda it: str.encode(it, "ascii")),
}  # fmt: skip


def written(value: Described, library: Any) -> bytes:
    """The bytes of a described list, by the writers of a library. Raises as `values.write` does."""
    writer, room = Writer(library), _ROOM
    while (needed := writer.write(value, room)) > room:
        room = needed
    return writer.out.raw[:needed]


class Writer:
    """The writers of a library, and where they write."""

    def __init__(self, library: Any) -> None:
        """The writers are those of a library that `library.load` gave."""
        self._library = library
        #: where was written last
        self.out = ctypes.create_string_buffer(0)

    def write(self, value: Described, room: int) -> int:
        """How many bytes a described list has; they are written to `out` where they fit."""
        self.out, count = ctypes.create_string_buffer(room), ctypes.c_size_t()
        text = lib.Text(ctypes.addressof(self.out), room)
        self._text = ctypes.byref(text)
        self._put_list(value, 0)
        if self._library.amqp1_written(self._text, ctypes.byref(count)) == lib.BAD_ARGUMENT:
            raise OverflowError("a performative that is longer than four bytes of size can say")
        return count.value

    def _put_list(self, value: Described, depth: int) -> None:
        at = self._library.amqp1_begin_list(self._text, value.descriptor, len(value.value))
        for it in value.value:
            # the list lies in its description
            self._put(it, depth + 2)
        self._library.amqp1_end_list(self._text, at)

    def _put(self, value: Any, depth: int) -> None:
        kind = type(value)
        if value is None:
            self._library.amqp1_put_null(self._text)
        elif kind is bool:
            self._library.amqp1_put_boolean(self._text, value)
        elif kind in _NUMBERS:
            self._put_number(value, *_NUMBERS[kind])
        elif kind in _BYTES:
            code, bytes_of = _BYTES[kind]
            data = bytes_of(value)
            self._library.amqp1_put_bytes(self._text, code, data, len(data))
        elif _is_composite(value):
            self._put_composite(value, depth)
        else:
            data = write(value, depth)
            self._library.amqp1_put(self._text, data, len(data))

    def _put_composite(self, value: Described, depth: int) -> None:
        if not value.value and value.descriptor in _OUTCOMES:
            self._library.amqp1_put_outcome(self._text, value.descriptor - _NO_OUTCOME)
        else:
            self._put_list(value, depth)

    def _put_number(self, value: int, name: str, bits: int) -> None:
        if value >> bits:
            raise OverflowError(f"{value} is no number of {bits} bits")
        getattr(self._library, name)(self._text, value)


def _is_composite(value: Any) -> bool:
    """Whether a value is a described list with a code of one byte."""
    if not isinstance(value, Described) or type(value.value) is not list:
        return False
    return type(value.descriptor) is Ulong and 0 <= value.descriptor < 256
