"""Classes for the types of AMQP 1.0 that Python has not (part 1, section 1.6); `values` says which ones it has."""

from __future__ import annotations

from collections.abc import Sequence
from datetime import datetime, timezone
from typing import Any, NamedTuple, Optional, Union

#: How many values may lie inside each other
DEEPEST = 64


class Malformed(ValueError):
    """The bytes are no value."""


class Symbol(str):
    """A symbol: text of ASCII."""

    __slots__ = ()


class Char(str):
    """One character."""

    __slots__ = ()


class Ubyte(int):
    """An unsigned number of one byte."""

    __slots__ = ()


class Ushort(int):
    """An unsigned number of two bytes."""

    __slots__ = ()


class Uint(int):
    """An unsigned number of four bytes."""

    __slots__ = ()


class Ulong(int):
    """An unsigned number of eight bytes."""

    __slots__ = ()


class Byte(int):
    """A signed number of one byte."""

    __slots__ = ()


class Short(int):
    """A signed number of two bytes."""

    __slots__ = ()


class Int(int):
    """A signed number of four bytes."""

    __slots__ = ()


class Timestamp(int):
    """Milliseconds since 1970."""

    __slots__ = ()

    @property
    def datetime(self) -> datetime:
        """The same as Python's time, in UTC. Raises `OverflowError` or `ValueError` where it has none."""
        return datetime.fromtimestamp(self / 1000, timezone.utc)


class Float(float):
    """A number of four bytes."""

    __slots__ = ()


class Decimal(bytes):
    """A decimal number, as its 4, 8 or 16 bytes."""

    __slots__ = ()


class Described(NamedTuple):
    """A value with its descriptor, mostly a `Ulong` or a `Symbol`."""

    descriptor: Any
    value: Any


class Repeated(Sequence[Any]):
    """One item so many times, as a sequence. An array of nulls, of empty lists, .. says in a few bytes that it has four
    thousand million of them."""

    __slots__ = ("item", "count")

    def __init__(self, item: Any, count: int) -> None:
        #: the item
        self.item = item
        #: how often it stands there; this hides a sequence's method of that name
        self.count: int = count  # type: ignore[assignment]

    def __len__(self) -> int:
        return self.count

    def __getitem__(self, at: Union[int, slice]) -> Any:
        if isinstance(at, slice):
            return Repeated(self.item, len(range(*at.indices(self.count))))
        if not -self.count <= at < self.count:
            raise IndexError(at)
        return self.item

    def __contains__(self, item: Any) -> bool:
        return self.count > 0 and self.item == item

    def __eq__(self, other: Any) -> bool:
        if isinstance(other, Repeated):
            return self.count == other.count and (self.count == 0 or self.item == other.item)
        return isinstance(other, (list, tuple)) and len(other) == self.count and all(it == self.item for it in other)

    __hash__ = None  # type: ignore[assignment]

    def __repr__(self) -> str:
        return f"Repeated({self.item!r}, {self.count})"


class Array:
    """Items of one type. `constructor` is what stood before them where the array was read: a code, and, where the items
    are described, the descriptor before it. With it the array is written as it came; without, as wide as the type of
    its items is. Arrays of equal items are equal."""

    __slots__ = ("items", "constructor")

    def __init__(self, items: Sequence[Any], constructor: Optional[bytes] = None) -> None:
        #: the items, in their order
        self.items, self.constructor = items, constructor

    def __eq__(self, other: Any) -> bool:
        return isinstance(other, Array) and self.items == other.items

    __hash__ = None  # type: ignore[assignment]

    def __repr__(self) -> str:
        return f"Array({self.items!r})"
