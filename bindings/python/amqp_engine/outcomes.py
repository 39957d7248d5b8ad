"""What becomes of a message (AMQP 1.0 part 3, section 3.4)."""

from __future__ import annotations

from dataclasses import dataclass
from typing import Any, ClassVar, Mapping, Optional

from .performatives import Disposition, Error
from .values import Described, Malformed, Map, Symbol, Ulong

#: The states of deliveries, by their numbers in a record
NO_STATE, STATE_ACCEPTED, STATE_REJECTED, STATE_RELEASED, STATE_MODIFIED, STATE_RECEIVED, STATE_OTHER = range(7)


class Outcome:
    """What became of a message: `Accepted`, `Rejected`, `Released`, `Modified`, or `Settled` without one of these."""

    #: the standard's name
    name: ClassVar[str] = "settled"

    @property
    def error(self) -> Optional[Error]:
        """Why it was rejected, where the peer says so."""
        return None

    @property
    def is_taken(self) -> bool:
        """Whether the peer has the message: it was accepted, or settled without any outcome."""
        return False


@dataclass(frozen=True)
class Accepted(Outcome):
    """The message was taken."""

    name: ClassVar[str] = "accepted"

    @property
    def is_taken(self) -> bool:
        """True."""
        return True


@dataclass(frozen=True)
class Settled(Outcome):
    """The delivery is settled, and no outcome was told; so is each that was sent settled."""

    @property
    def is_taken(self) -> bool:
        """True: nothing says otherwise."""
        return True


@dataclass(frozen=True)
class Rejected(Outcome):
    """The message is not to be had by the peer, and is no good: it is not to be sent again as it is."""

    why: Optional[Error] = None
    name: ClassVar[str] = "rejected"

    @property
    def error(self) -> Optional[Error]:
        """Why, where the peer says so."""
        return self.why


@dataclass(frozen=True)
class Released(Outcome):
    """The message was not processed, and may be sent again."""

    name: ClassVar[str] = "released"


@dataclass(frozen=True)
class Modified(Outcome):
    """The message was not processed, and may be sent again, changed so: `delivery_failed` counts as a failed delivery;
    `undeliverable_here` is not for this receiver again; `annotations` are to be merged into the message's."""

    delivery_failed: Optional[bool] = None
    undeliverable_here: Optional[bool] = None
    annotations: Optional[Mapping[Any, Any]] = None
    name: ClassVar[str] = "modified"


#: Outcomes that have no fields
ACCEPTED_OUTCOME, RELEASED_OUTCOME, SETTLED_OUTCOME = Accepted(), Released(), Settled()
_PLAIN = {STATE_ACCEPTED: ACCEPTED_OUTCOME, STATE_RELEASED: RELEASED_OUTCOME}


def outcome_of(state: int, body: bytes) -> Optional[Outcome]:
    """The outcome of a record's state and of the bytes of its disposition; `None` where the state is no outcome yet, as
    `received`."""
    if state in _PLAIN:
        return _PLAIN[state]
    if state in (STATE_RECEIVED, STATE_OTHER, NO_STATE):
        return None
    said = Disposition.decode(body).state
    fields = said.value if isinstance(said, Described) and isinstance(said.value, list) else None
    if fields is None:
        raise Malformed("a delivery's state that is no list")
    if state == STATE_REJECTED:
        return Rejected(Error.of(fields[0]) if fields and fields[0] is not None else None)
    return _modified(fields)


def _modified(fields: Any) -> Modified:
    failed, undeliverable, annotations = (*fields, None, None, None)[:3]
    are_flags = all(isinstance(it, (bool, type(None))) for it in (failed, undeliverable))
    if not are_flags or not isinstance(annotations, (Map, type(None))):
        raise Malformed("a state modified with fields of other types")
    return Modified(failed, undeliverable, annotations)


def state_of(outcome: Outcome) -> Described:
    """The state of a delivery that says this outcome."""
    if isinstance(outcome, Rejected):
        return Described(Ulong(0x25), [] if outcome.why is None else [outcome.why.described()])
    if isinstance(outcome, Modified):
        annotations = outcome.annotations
        if annotations is not None:
            annotations = Map([(Symbol(key) if type(key) is str else key, it) for key, it in annotations.items()])
        return Described(Ulong(0x27), [outcome.delivery_failed, outcome.undeliverable_here, annotations])
    return Described(Ulong(0x24 if isinstance(outcome, Accepted) else 0x26), [])
