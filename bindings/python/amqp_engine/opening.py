"""How a stream begins, before its first frame: protocol headers and SASL, of either side (AMQP 1.0 part 2, section 2.2;
part 5, section 5.3)."""

from __future__ import annotations

from dataclasses import dataclass
from typing import TYPE_CHECKING, Callable, List, NamedTuple, Optional, Sequence, Tuple, Union

if TYPE_CHECKING:
    from .driver import Record

#: On which side of SASL a stream is
WITHOUT_SASL, SASL_CLIENT, SASL_SERVER = range(3)

#: What a record is of that stands before the first frame; `enum amqp1_kind` of `include/amqp1/records.h` has each
(
    SASL_HEADER, AMQP_HEADER, MECHANISM_CHOSEN, LOGIN_ASKED, CHALLENGED, RESPONDED, LOGGED_IN, NOT_OPENED,
) = range(13, 21)  # fmt: skip
#: Why a stream is not opened; `enum amqp1_why` has each
(
    NO_MECHANISM,
    NOT_OFFERED,
    LOGIN_REFUSED,
    OTHER_PROTOCOL,
    OTHER_HEADER,
    NOT_AMQP,
    MALFORMED_SASL,
    UNEXPECTED_SASL,
) = range(101, 109)

#: No place
_NONE = 0xFFFFFFFF


class Opening(NamedTuple):
    """How a stream begins: on which side of SASL, if any. `logins` are a client's, the one that it likes best first,
    each a mechanism and what is said first, if anything; of a server they are the mechanisms that it offers. `host` is
    the one that a client asks for."""

    side: int = WITHOUT_SASL
    logins: Sequence[Tuple[str, Optional[bytes]]] = ()
    host: Optional[str] = None


@dataclass
class HeaderCame:
    """The peer's protocol header, of SASL or of AMQP. After that of AMQP the stream is open."""

    is_open: bool


@dataclass
class MechanismChosen:
    """A server offers mechanisms, and this login of the client's was chosen: by its number, from 0 on."""

    login: int


@dataclass
class LoginAsked:
    """A client asks to be let in: answer by `login` or `challenge`."""

    mechanism: str
    response: Optional[bytes]
    host: Optional[str]


@dataclass
class Challenged:
    """A server's challenge: answer by `respond`."""

    challenge: bytes


@dataclass
class Responded:
    """A client's response to a challenge: answer by `login` or `challenge`."""

    response: bytes


@dataclass
class LoggedIn:
    """A server lets this side in."""

    additional: Optional[bytes]


@dataclass
class NotOpened:
    """The stream is not opened, and is over. `why` is the number of the reason, and `name` its name; `outcome` is what
    a server's outcome says, and `said` are its additional data, or the mechanisms of a server that offers none of this
    side's."""

    why: int
    name: str
    outcome: int
    said: Optional[bytes]


#: What comes before the first frame
OpeningEvent = Union[HeaderCame, MechanismChosen, LoginAsked, Challenged, Responded, LoggedIn, NotOpened]


def places_of(record: "Record") -> List[str]:
    """Which fields of a record of the opening are places in the bytes that were given."""
    asked = record.kind == LOGIN_ASKED
    names = (
        ("payload_at",) + (("first",) if asked or record.refusal == NOT_OFFERED else ()) + (("count",) if asked else ())
    )
    return [name for name in names if getattr(record, name) != _NONE]


def event_of(record: "Record", data: Union[bytes, bytearray], name: Callable[[int], str]) -> OpeningEvent:
    """The event of a record of the opening, over the bytes that were given. `name` has the name of a refusal."""
    said = None if record.payload_at == _NONE else bytes(data[record.payload_at : record.payload_at + record.payload])
    if record.kind == MECHANISM_CHOSEN:
        return MechanismChosen(record.first)
    if record.kind == LOGIN_ASKED:
        mechanism = bytes(data[record.first : record.first + record.last])
        host = None if record.count == _NONE else bytes(data[record.count : record.count + record.credit])
        return LoginAsked(mechanism.decode("ascii"), said, None if host is None else host.decode(errors="replace"))
    if record.kind == CHALLENGED:
        return Challenged(said or b"")
    if record.kind == RESPONDED:
        return Responded(said or b"")
    if record.kind == LOGGED_IN:
        return LoggedIn(said)
    if record.kind == NOT_OPENED:
        return NotOpened(record.refusal, name(record.refusal), record.outcome, said)
    return HeaderCame(record.kind == AMQP_HEADER)
