"""The sections of a message as bytes (AMQP 1.0 part 3, section 3.2), and its two lists of fields as data classes."""

from __future__ import annotations

from dataclasses import dataclass
from typing import Any, ClassVar, Dict, List, NamedTuple, Optional, Tuple

from .performatives import Performative
from .records import tuple_of
from .values import Malformed, Ulong, end_of, read, write

#: The codes of the sections, in the standard's order
(
    HEADER, DELIVERY_ANNOTATIONS, MESSAGE_ANNOTATIONS, PROPERTIES, APPLICATION_PROPERTIES, DATA, SEQUENCE, VALUE,
    FOOTER,
) = range(0x70, 0x79)  # fmt: skip
#: The sections that are a message's body
BODY = (DATA, SEQUENCE, VALUE)
_NAMED: Dict[str, int] = {
    "amqp:header:list": HEADER, "amqp:delivery-annotations:map": DELIVERY_ANNOTATIONS,
    "amqp:message-annotations:map": MESSAGE_ANNOTATIONS, "amqp:properties:list": PROPERTIES,
    "amqp:application-properties:map": APPLICATION_PROPERTIES, "amqp:data:binary": DATA,
    "amqp:amqp-sequence:list": SEQUENCE, "amqp:amqp-value:*": VALUE, "amqp:footer:map": FOOTER,
}  # fmt: skip


_HEADS = {code: bytes([0x00, 0x53, code]) for code in range(HEADER, FOOTER + 1)}
_CODES = {head: code for code, head in _HEADS.items()}


class Section(NamedTuple):
    """A section of a message: its code; where it begins, where its value begins, and where both end."""

    code: int
    at: int
    value_at: int
    end: int


def sections_of(of: bytes) -> List[Section]:
    """The sections of a message, of whose values only the sizes are looked at. Raises `Malformed` where something else
    stands there."""
    found, at, size = [], 0, len(of)
    while at < size:
        code, value_at = _CODES.get(of[at : at + 3]), at + 3
        if code is None:
            code, value_at = _descriptor(of, at)
        end = end_of(of, value_at)
        found.append(tuple_of(Section, (code, at, value_at, end)))
        at = end
    return found


def _descriptor(of: bytes, at: int) -> Tuple[int, int]:
    """The code of the section at `at`, by its name or in another spelling, and where its value begins."""
    if of[at]:
        raise Malformed("a message's section that is no described value")
    said, end = read(of, at + 1)
    code = _NAMED.get(said) if isinstance(said, str) else int(said) if isinstance(said, Ulong) else None
    if code is None or not HEADER <= code <= FOOTER:
        raise Malformed(f"no section of a message: {said!r:.40}")
    return code, end


def section(code: int, value: Any) -> bytes:
    """A section as bytes."""
    return _HEADS[code] + write(value)


@dataclass
class Header(Performative):
    """How a message is to be carried (section 3.2.1). `ttl` is in milliseconds. What is `None` is not said: then
    `durable` and `first_acquirer` are false, `priority` is 4 and `delivery_count` 0."""

    durable: Optional[bool] = None
    priority: Optional[int] = None
    ttl: Optional[int] = None
    first_acquirer: Optional[bool] = None
    delivery_count: Optional[int] = None

    CODE: ClassVar[int] = HEADER
    TYPES: ClassVar[Tuple[str, ...]] = ("boolean", "ubyte", "uint", "boolean", "uint")


@dataclass
class Properties(Performative):
    """What a message says of itself (section 3.2.4). A message's identities are numbers, uuids, bytes or text. Times
    are milliseconds since 1970, or a `datetime`, and are read as `Timestamp`."""

    message_id: Any = None
    user_id: Optional[bytes] = None
    to: Any = None
    subject: Optional[str] = None
    reply_to: Any = None
    correlation_id: Any = None
    content_type: Optional[str] = None
    content_encoding: Optional[str] = None
    absolute_expiry_time: Any = None
    creation_time: Any = None
    group_id: Optional[str] = None
    group_sequence: Optional[int] = None
    reply_to_group_id: Optional[str] = None

    CODE: ClassVar[int] = PROPERTIES
    TYPES: ClassVar[Tuple[str, ...]] = (
        "identity", "binary", "value", "string", "value", "identity", "symbol", "symbol", "timestamp", "timestamp",
        "string", "uint", "string",
    )  # fmt: skip
