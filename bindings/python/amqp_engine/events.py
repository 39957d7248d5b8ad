"""What comes for links, as data classes, and what was refused."""

from __future__ import annotations

from dataclasses import dataclass, field
from typing import TYPE_CHECKING, Collection, List, Optional, Union

from .performatives import Attach, Detach, Flow, Transfer
from .values import Described, Malformed

if TYPE_CHECKING:
    from .linking import LinkEvent


@dataclass
class Event:
    """What came for a link of this session. `input_handle` names the link in the peer's frames, `output_handle` in
    those of this side, where they are known."""

    session: int
    input_handle: Optional[int]
    output_handle: Optional[int]
    #: what it is to the links of its session, where `link_attach` has attached some: `link_respond` sends what they owe
    #: for it
    link: "Optional[LinkEvent]" = field(default=None, init=False, repr=False, compare=False)


@dataclass
class Attached(Event):
    """The peer attached the link."""

    attach: Attach


@dataclass
class Flowed(Event):
    """The peer's flow for the link."""

    flow: Flow


@dataclass
class Transferred(Event):
    """A transfer came."""

    transfer: Transfer
    payload: bytes


@dataclass
class Disposed(Event):
    """What the peer says of the deliveries from `first` to `last`, by their numbers modulo 2^32, whichever links they
    are of. `role` is the peer's: `RECEIVER` speaks of what this side sent. There may be none of some of these
    numbers."""

    role: bool
    settled: bool
    state: Optional[Described]
    first: int
    last: int

    def among(self, numbers: Collection[int]) -> List[int]:
        """Those of these numbers that it speaks of, in their order. It takes no longer where the range is wide."""
        size = (self.last - self.first) % 2**32
        if size < len(numbers):
            return [it for it in ((self.first + at) % 2**32 for at in range(size + 1)) if it in numbers]
        return sorted(
            (it for it in numbers if (it - self.first) % 2**32 <= size), key=lambda it: (it - self.first) % 2**32
        )


@dataclass
class Detached(Event):
    """The peer detached the link; `remote_initiated` where it began."""

    detach: Detach
    remote_initiated: bool


#: What `Engine.receive` gives beside refusals
AnyEvent = Union[Attached, Flowed, Transferred, Disposed, Detached]


@dataclass
class Refusal(Exception):
    """A frame or a request was refused by the engine: the refusal's name, and the condition that a peer is told, if
    there is one. Of `RemoteClosedWithError` and `RemoteEndedWithError` condition and description are those that the
    peer sent. `Unreadable` is this package's: the engine took a frame, and values in it are none that Python has, as
    text that is no UTF-8. `count` is how many the call refused, this one as the last of them: a flow of the peer's may
    let out several frames that do not fit its limit."""

    name: str
    condition: Optional[str] = None
    description: Optional[str] = None
    count: int = 1

    def __str__(self) -> str:
        return self.name if self.condition is None else f"{self.name} ({self.condition})"


def unreadable(error: Malformed) -> Refusal:
    """What is told in the place of an event, or an Open, that cannot be read."""
    return Refusal("Unreadable", "amqp:decode-error", str(error))
