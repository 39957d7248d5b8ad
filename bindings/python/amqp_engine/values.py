"""Values of AMQP 1.0 as bytes, and back (part 1, section 1.6).

A Python value stands for the type that has its shape: `None` null, `bool` boolean, `str` string, `bytes` binary, `int`
long, `float` double, `list` and `tuple` list, `dict` map, `uuid.UUID` uuid, `datetime` timestamp. The other types are
classes: `Symbol` is a `str`, and `Uint` and its like are `int`. A value that is read has the type that stood in the
bytes, so that it is written as it was; a map is read as a `Map`.
"""

from .kinds import (
    Array, Byte, Char, Decimal, Described, Float, Int, Malformed, Repeated, Short, Symbol, Timestamp, Ubyte, Uint,
    Ulong, Ushort,
)  # fmt: skip
from .maps import Map
from .reading import end_of, read
from .writing import write

__all__ = [
    "Array", "Byte", "Char", "Decimal", "Described", "Float", "Int", "Malformed", "Map", "Repeated", "Short", "Symbol",
    "Timestamp", "Ubyte", "Uint", "Ulong", "Ushort", "end_of", "read", "write",
]  # fmt: skip
