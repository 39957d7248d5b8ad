"""The performatives of AMQP 1.0 as data classes (part 2, section 2.7), and the error (section 2.8.14).

A field that is `None` is null: the standard's default holds then. Texts, numbers and flags are plain Python values, and
are written as the standard's type of the field. A source, a target and the state of a delivery are any
`values.Described`; properties are a `dict`, and of a performative that came a `values.Map`.
"""

from __future__ import annotations

from dataclasses import dataclass, fields
from datetime import datetime
from typing import Any, Callable, ClassVar, Dict, List, Mapping, Optional, Tuple, Type, TypeVar
from uuid import UUID

from .library import load
from .values import Array, Described, Malformed, Map, Symbol, Timestamp, Ubyte, Uint, Ulong, Ushort, read, write
from .writers import written

#: The end of a link on which a side stands (section 2.8.1)
SENDER, RECEIVER = False, True
#: Settle modes of a sender: unsettled, settled, mixed; of a receiver: first, second
UNSETTLED, SETTLED, MIXED = 0, 1, 2
FIRST, SECOND = 0, 1
#: The longest frame that this side takes, where an Open does not say another; `max_frame_size=2**32 - 1` asks for any
#: length
MAX_FRAME_SIZE = 1048576

_P = TypeVar("_P", bound="Performative")
_NAMES: Dict[type, Tuple[str, ...]] = {}


def names_of(cls: Any) -> Tuple[str, ...]:
    """The names of a performative's fields, which are looked up once."""
    if cls not in _NAMES:
        _NAMES[cls] = tuple(field.name for field in fields(cls))
    return _NAMES[cls]


def symbols(value: Any) -> Any:
    """Several symbols are an array, of symbols also where there are none; one may stand alone."""
    if isinstance(value, str):
        return Symbol(value)
    items = [Symbol(it) for it in value]
    return Array(items, None if items else b"\xa3")


def _moment(value: Any) -> Any:
    """A time, as milliseconds or as Python has it."""
    return value if isinstance(value, datetime) else Timestamp(value)


def _identity(value: Any) -> Any:
    """The identity of a message; a number is an `ulong` (AMQP 1.0 part 3, section 3.2.11)."""
    return Ulong(value) if isinstance(value, int) else value


_WRITTEN: Dict[str, Callable[[Any], Any]] = {
    "string": str, "symbol": Symbol, "symbols": symbols, "ulong": Ulong, "uint": Uint, "ushort": Ushort, "ubyte": Ubyte,
    "boolean": bool, "binary": bytes, "fields": lambda it: it, "value": lambda it: it,
    "error": lambda it: it.described(), "timestamp": _moment, "identity": _identity,
}  # fmt: skip
_READ: Dict[str, Tuple[type, ...]] = {
    "string": (str,), "symbol": (Symbol,), "symbols": (Symbol, Array), "ulong": (Ulong,), "uint": (Uint,),
    "ushort": (Ushort,), "ubyte": (Ubyte,), "boolean": (bool,), "binary": (bytes,), "fields": (Map,),
    "value": (object,), "error": (Described,), "timestamp": (Timestamp,), "identity": (Ulong, UUID, bytes, str),
}  # fmt: skip


class Performative:
    """What all performatives do: they are written as bytes, and read."""

    CODE: ClassVar[int]
    #: The type of each field, in the standard's order, which is that of the class
    TYPES: ClassVar[Tuple[str, ...]]
    #: How many of them are mandatory, by their names
    MANDATORY: ClassVar[Tuple[str, ...]] = ()

    def described(self) -> Described:
        """The described list; nulls at its end are left out."""
        items: List[Any] = []
        for name, kind in zip(names_of(type(self)), self.TYPES):
            value = getattr(self, name)
            if value is None and name in self.MANDATORY:
                raise ValueError(f"{type(self).__name__}.{name} is mandatory")
            items.append(None if value is None else _WRITTEN[kind](value))
        while items and items[-1] is None:
            items.pop()
        return Described(Ulong(self.CODE), items)

    def encode(self, library: Any = None) -> bytes:
        """Its bytes, by the writers of a library: by default of the one that `library.load` finds."""
        return written(self.described(), load() if library is None else library)

    @classmethod
    def of(cls: Type[_P], value: Any) -> _P:
        """The performative that a described list is."""
        if (
            not isinstance(value, Described)
            or value.descriptor not in (cls.CODE, f"amqp:{cls.__name__.lower()}:list")
            or not isinstance(value.value, list)
        ):
            raise Malformed(f"no {cls.__name__}")
        names = names_of(cls)
        if len(value.value) > len(names):
            raise Malformed(f"{cls.__name__} has more than its fields")
        # a field that the peer left out is null, whatever this side's own has for a default
        found = dict.fromkeys(names)
        found.update((name, _checked(cls, name, kind, item)) for name, kind, item in zip(names, cls.TYPES, value.value))
        for name in cls.MANDATORY:
            if found[name] is None:
                raise Malformed(f"{cls.__name__}.{name} is mandatory")
        return cls(**found)

    @classmethod
    def decode(cls: Type[_P], of: bytes) -> _P:
        """The performative whose bytes these are, all of them. Raises `Malformed` where they are not."""
        value, end = read(of)
        if end != len(of):
            raise Malformed(f"bytes after a {cls.__name__}")
        return cls.of(value)


def _checked(cls: type, name: str, kind: str, item: Any) -> Any:
    if item is None:
        return None
    if not isinstance(item, _READ[kind]):
        raise Malformed(f"{cls.__name__}.{name}: {type(item).__name__} where a {kind} stands")
    if kind == "error":
        return Error.of(item)
    return symbols_of(item) if kind == "symbols" else item


def symbols_of(item: Any) -> Any:
    """The symbols of an array as a list; one that stands alone as it is. Raises `Malformed` where it is another
    array."""
    if not isinstance(item, Array) or not len(item.items):
        return [] if isinstance(item, Array) else item
    # what is no list is one item without bytes, thousands of millions of times perhaps
    if not isinstance(item.items, list) or not all(isinstance(it, Symbol) for it in item.items):
        raise Malformed("an array of others than symbols")
    return item.items


@dataclass
class Error(Performative):
    """Why a link, a session or the connection ended."""

    condition: str
    description: Optional[str] = None
    info: Optional[Mapping[Any, Any]] = None

    CODE: ClassVar[int] = 0x1D
    TYPES: ClassVar[Tuple[str, ...]] = ("symbol", "string", "fields")
    MANDATORY: ClassVar[Tuple[str, ...]] = ("condition",)


@dataclass
class Open(Performative):
    """Begins a connection. This side takes frames of a million bytes, so that a peer cannot have it keep more of one;
    `None` would stand for 2^32-1."""

    container_id: str
    hostname: Optional[str] = None
    max_frame_size: Optional[int] = MAX_FRAME_SIZE
    channel_max: Optional[int] = None
    idle_time_out: Optional[int] = None
    outgoing_locales: Any = None
    incoming_locales: Any = None
    offered_capabilities: Any = None
    desired_capabilities: Any = None
    properties: Optional[Mapping[Any, Any]] = None

    CODE: ClassVar[int] = 0x10
    TYPES: ClassVar[Tuple[str, ...]] = (
        "string",
        "string",
        "uint",
        "ushort",
        "uint",
        "symbols",
        "symbols",
        "symbols",
        "symbols",
        "fields",
    )
    MANDATORY: ClassVar[Tuple[str, ...]] = ("container_id",)


@dataclass
class Begin(Performative):
    """Begins a session."""

    remote_channel: Optional[int] = None
    next_outgoing_id: int = 0
    incoming_window: int = 2048
    outgoing_window: int = 2048
    handle_max: Optional[int] = None
    offered_capabilities: Any = None
    desired_capabilities: Any = None
    properties: Optional[Mapping[Any, Any]] = None

    CODE: ClassVar[int] = 0x11
    TYPES: ClassVar[Tuple[str, ...]] = ("ushort", "uint", "uint", "uint", "uint", "symbols", "symbols", "fields")
    MANDATORY: ClassVar[Tuple[str, ...]] = ("next_outgoing_id", "incoming_window", "outgoing_window")


@dataclass
class Attach(Performative):
    """Attaches a link. `role` is that of the side that sends it: `SENDER` or `RECEIVER`."""

    name: str
    handle: int
    role: bool
    snd_settle_mode: Optional[int] = None
    rcv_settle_mode: Optional[int] = None
    source: Any = None
    target: Any = None
    unsettled: Optional[Mapping[Any, Any]] = None
    incomplete_unsettled: Optional[bool] = None
    initial_delivery_count: Optional[int] = None
    max_message_size: Optional[int] = None
    offered_capabilities: Any = None
    desired_capabilities: Any = None
    properties: Optional[Mapping[Any, Any]] = None

    CODE: ClassVar[int] = 0x12
    TYPES: ClassVar[Tuple[str, ...]] = (
        "string", "uint", "boolean", "ubyte", "ubyte", "value", "value", "fields", "boolean", "uint", "ulong",
        "symbols", "symbols", "fields",
    )  # fmt: skip
    MANDATORY: ClassVar[Tuple[str, ...]] = ("name", "handle", "role")


@dataclass
class Flow(Performative):
    """The state of a session, and, with a handle, of a link. The engine fills in what is the session's."""

    next_incoming_id: Optional[int] = None
    incoming_window: int = 0
    next_outgoing_id: int = 0
    outgoing_window: int = 0
    handle: Optional[int] = None
    delivery_count: Optional[int] = None
    link_credit: Optional[int] = None
    available: Optional[int] = None
    drain: Optional[bool] = None
    echo: Optional[bool] = None
    properties: Optional[Mapping[Any, Any]] = None

    CODE: ClassVar[int] = 0x13
    TYPES: ClassVar[Tuple[str, ...]] = (
        "uint", "uint", "uint", "uint", "uint", "uint", "uint", "uint", "boolean", "boolean", "fields",
    )  # fmt: skip
    MANDATORY: ClassVar[Tuple[str, ...]] = ("incoming_window", "next_outgoing_id", "outgoing_window")


@dataclass
class Transfer(Performative):
    """A delivery, or a part of one. The payload stands after it. The engine gives the number of the delivery."""

    handle: int
    delivery_id: Optional[int] = None
    delivery_tag: Optional[bytes] = None
    message_format: Optional[int] = None
    settled: Optional[bool] = None
    more: Optional[bool] = None
    rcv_settle_mode: Optional[int] = None
    state: Any = None
    resume: Optional[bool] = None
    aborted: Optional[bool] = None
    batchable: Optional[bool] = None

    CODE: ClassVar[int] = 0x14
    TYPES: ClassVar[Tuple[str, ...]] = (
        "uint", "uint", "binary", "uint", "boolean", "boolean", "ubyte", "value", "boolean", "boolean", "boolean",
    )  # fmt: skip
    MANDATORY: ClassVar[Tuple[str, ...]] = ("handle",)


@dataclass
class Disposition(Performative):
    """What became of deliveries. `role` is that of the side that sends it."""

    role: bool
    first: int
    last: Optional[int] = None
    settled: Optional[bool] = None
    state: Any = None
    batchable: Optional[bool] = None

    CODE: ClassVar[int] = 0x15
    TYPES: ClassVar[Tuple[str, ...]] = ("boolean", "uint", "uint", "boolean", "value", "boolean")
    MANDATORY: ClassVar[Tuple[str, ...]] = ("role", "first")


@dataclass
class Detach(Performative):
    """Detaches a link, or, closed, ends it."""

    handle: int
    closed: Optional[bool] = None
    error: Optional[Error] = None

    CODE: ClassVar[int] = 0x16
    TYPES: ClassVar[Tuple[str, ...]] = ("uint", "boolean", "error")
    MANDATORY: ClassVar[Tuple[str, ...]] = ("handle",)


@dataclass
class End(Performative):
    """Ends a session."""

    error: Optional[Error] = None

    CODE: ClassVar[int] = 0x17
    TYPES: ClassVar[Tuple[str, ...]] = ("error",)


@dataclass
class Close(Performative):
    """Ends a connection."""

    error: Optional[Error] = None

    CODE: ClassVar[int] = 0x18
    TYPES: ClassVar[Tuple[str, ...]] = ("error",)


def source(address: Optional[str] = None) -> Described:
    """A source of this address; without one, of none (AMQP 1.0 part 3, section 3.5.3)."""
    return Described(Ulong(0x28), [] if address is None else [address])


def target(address: Optional[str] = None) -> Described:
    """A target of this address; without one, of none (section 3.5.4)."""
    return Described(Ulong(0x29), [] if address is None else [address])


def address_of(terminus: Any) -> Optional[str]:
    """The address of a source or a target, if it has one."""
    if (
        isinstance(terminus, Described)
        and isinstance(terminus.value, list)
        and terminus.value
        and isinstance(terminus.value[0], str)
    ):
        return terminus.value[0]
    return None


#: The outcome accepted (AMQP 1.0 part 3, section 3.4.2)
ACCEPTED = Described(Ulong(0x24), [])
#: The outcome released (section 3.4.4)
RELEASED = Described(Ulong(0x26), [])


def rejected(error: Optional[Error] = None) -> Described:
    """The outcome rejected (AMQP 1.0 part 3, section 3.4.3)."""
    return Described(Ulong(0x25), [] if error is None else [error.described()])


def data(payload: bytes) -> bytes:
    """A message of one data section (AMQP 1.0 part 3, section 3.2.6), as the payload of a transfer."""
    return write(Described(Ulong(0x75), payload))


def body_of(message: bytes) -> Any:
    """The body of a message: its data joined, or the value of its value or sequence section."""
    at, found = 0, []
    while at < len(message):
        section, at = read(message, at)
        if isinstance(section, Described) and section.descriptor in (0x75, 0x76, 0x77):
            found.append(section.value)
    if found and all(isinstance(it, bytes) for it in found):
        return b"".join(found)
    return found[0] if len(found) == 1 else found
