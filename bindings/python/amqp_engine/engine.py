"""The engine: received bytes and requests go in, bytes to send and events come out. It does no input or output
itself."""

from __future__ import annotations

from collections import deque
from typing import Any, Callable, Deque, Iterator, List, Optional, Sequence, Set, Type, TypeVar, Union

from . import driver as said
from . import opening as begins
from .driver import NONE, Driver, Record
from .events import AnyEvent, Attached, Detached, Disposed, Event, Flowed, Refusal, Transferred, unreadable
from .opening import Opening, OpeningEvent
from .performatives import Attach, Close, Detach, Disposition, End, Flow, Open, Transfer
from .values import Described, Malformed

#: What `Engine.receive` gives
Told = Union[AnyEvent, OpeningEvent, Refusal]
_T = TypeVar("_T")


class Engine(Driver):
    """One side of one connection, whose frames come as events. It belongs to one thread at a time.

    A request that the engine refuses raises `Refusal`; nothing that came before it is lost. What is to be sent is taken
    by `to_send`."""

    def __init__(
        self,
        open: Open,
        *,
        key: Optional[bytes] = None,
        library: Optional[str] = None,
        opening: Optional[Opening] = None,
    ) -> None:
        """An engine that is to send this Open. `key`: 16 bytes that the peer cannot know, so that it cannot choose
        names and handles that collide; by default they are random. `library`: the path of `libamqp1.so`. `opening` is
        how the stream begins, from its first byte on; without one the engine begins behind the protocol headers."""
        super().__init__(open, key=key, most=1, library=library, opening=opening)
        # received bytes, of which those before `_at` were taken, and how many of the next ones are a frame, as far as
        # that is known
        self._came, self._at, self._wanted = bytearray(), 0, 0
        # what is told of them, and nobody took yet
        self._told: Deque[Any] = deque()
        #: Whether a frame had no lawful size: nothing more can be read
        self.is_broken = False
        #: Whether both Closes have passed, and nothing is taken any more
        self.is_over = False
        # the peer's Open, and whether it came; and how many frames that did not fit were told
        self._theirs: Optional[Open] = None
        self._has_theirs = False
        self._told_unfit = 0
        #: The sessions that have links by `link_attach`
        self.linked: Set[int] = set()
        #: The time in milliseconds, where `tick` is called
        self.now: Callable[[], int] = lambda: 0
        #: The most bytes of a frame, with its size, that this side takes
        self.max_frame_size = 2**32 - 1 if open.max_frame_size is None else open.max_frame_size
        #: The last channel of the peer's on which this side takes frames
        self.channel_max = 65535 if open.channel_max is None else open.channel_max

    @property
    def remote_open(self) -> Optional[Open]:
        """The peer's Open, once it came; `None` too where it was told as `Unreadable`."""
        return self._theirs

    # ---- bytes and events

    def receive(self, data: bytes) -> Iterator[Told]:
        """Takes received bytes, in any splitting, and gives what they bring, in order: events, and refusals of frames.

        The engine is given the frames as the iterator goes on, so that what is asked in answer to an event comes before
        the frames after it. What an iterator leaves, the next one begins with: nothing is lost, and `receive(b"")` goes
        on too. After the refusal `BadSize` the stream is of no use.

        Before the stream is open it gives headers and SASL too, as events of `opening`. After `LoginAsked`,
        `Challenged` and `Responded` nothing is taken until `login`, `challenge` or `respond`."""
        return self.receive_by(data, self.events_of)

    def receive_by(self, data: bytes, events_of: Callable[[Record], Sequence[_T]]) -> Iterator[Union[_T, Refusal]]:
        """The same, but that `events_of` says what is told of a record. It may call `events_of` and `frame_of` of this
        engine, and give an answer."""
        del self._came[: self._at]
        self._at = 0
        if not self.is_broken:
            self._came += data
        return self._take_all(events_of)

    def _take_all(self, events_of: Callable[[Record], Sequence[_T]]) -> Iterator[Union[_T, Refusal]]:
        yield from self._left()
        while not self.is_broken:
            if len(self._came) - self._at < self._wanted:
                return
            taken = self.take(self._came, self._at, self.now())
            self._at, self._wanted, self.is_broken = self._at + taken.taken, taken.wanted, taken.is_bad
            # made before any is given: whoever takes one may have more bytes received
            self._told.extend(event for record in taken.records for event in events_of(record))
            if taken.is_over:
                # nothing more is taken, whatever comes
                self.is_over, self._at = True, len(self._came)
            yield from self._left()
            if taken.wanted or taken.is_over or taken.waits:
                return
        self._came.clear()
        self._at = self._wanted = 0
        yield Refusal("BadSize", "amqp:connection:framing-error")

    def _left(self) -> Iterator[Any]:
        while self._told:
            yield self._told.popleft()

    def frame_of(self, record: Record) -> bytes:
        """The frame of a record, behind its size and up to its payload, while `receive_by` asks what is told of it."""
        return bytes(self._came[record.at - 4 : record.at + record.size])

    def payload_of(self, record: Record) -> bytes:
        """The payload of a record, at the same time."""
        return bytes(self._came[record.payload_at : record.payload_at + record.payload])

    def events_of(self, record: Record) -> List[Told]:
        """What `receive` tells of a record."""
        if begins.SASL_HEADER <= record.kind <= begins.NOT_OPENED:
            return [begins.event_of(record, self._came, lambda number: self.refusal_of(number).name)]
        body = bytes(self._came[record.at : record.at + record.size])
        try:
            event = self._event_of(record, body)
        except Malformed as error:
            event = unreadable(error)
        if record.session in self.linked:
            event = self._tell_links(record, event)
        told = [] if event is None else [event]
        return told + self.told_unfit() if record.kind in (said.FLOW, said.DISPOSITION) else told

    def link_attach(self, session: int, attach: Attach, low: int = 0, high: int = 0, name: str = "") -> int:
        """As `Links.link_attach`. From then on each event of the session says what it is to its links
        (`Event.link`)."""
        link = super().link_attach(session, attach, low, high, name)
        self.linked.add(session)
        return link

    def link_forget(self, session: int) -> bool:
        """As `Links.link_forget`."""
        self.linked.discard(session)
        return super().link_forget(session)

    def _tell_links(self, record: Record, event: Optional[Told]) -> Optional[Told]:
        """A record is told to the links of its session, and its event says what it is to them."""
        try:
            said = self.link_event(record)
        except Refusal as refusal:
            return refusal
        if isinstance(event, Event):
            event.link = said
        return event

    def told_unfit(self) -> List[Told]:
        """What is told of what a frame let out and what did not fit the peer's limit: it is gone."""
        before, self._told_unfit = self._told_unfit, self.unfit
        return [Refusal("TooLarge", count=self._told_unfit - before)] if self._told_unfit > before else []

    def _event_of(self, record: Record, body: bytes) -> Optional[Told]:
        """The event of a record. Raises `Malformed` where the peer's values in it cannot be read: the engine looks at
        their sizes alone."""
        kind, flags = record.kind, record.flags
        link = (record.session, record.input, None if record.output == NONE else record.output)
        if kind == said.TRANSFER:
            return Transferred(*link, Transfer.decode(body), self.payload_of(record))
        if kind == said.DISPOSITION:
            state = _state_of(body) if flags & said.STATED else None
            is_of_receiver, is_settled = bool(flags & said.OF_RECEIVER), bool(flags & said.SETTLED)
            return Disposed(record.session, None, None, is_of_receiver, is_settled, state, record.first, record.last)
        if kind == said.FLOW:
            return Flowed(*link, Flow.decode(body)) if flags & said.LINKED else None
        if kind == said.ATTACHED:
            return Attached(*link, Attach.decode(body))
        if kind == said.DETACHED:
            return Detached(*link, Detach.decode(body), link[2] is not None)
        if kind in (said.ATTACH_WANTED, said.BEGIN_WANTED, said.REFUSED):
            return self.refusal_of(record.refusal)
        return self._end_of(record, body)

    def _end_of(self, record: Record, body: bytes) -> Optional[Told]:
        """An Open is kept. An End and a Close that the peer began, or that name an error, are told as refusals of what
        this side may ask for from then on."""
        has_error = record.flags & said.WITH_ERROR
        if record.kind == said.OPENED:
            self._opened(body)
        elif record.kind == said.ENDED and (has_error or self.session_state(record.session) == "END_RCVD"):
            return _ended_by("RemoteEnded", End, body)
        elif record.kind == said.CLOSED and (has_error or self.state == "CLOSE_RCVD"):
            return _ended_by("RemoteClosed", Close, body)
        return None

    def _opened(self, body: bytes) -> None:
        if not self._has_theirs:
            self._has_theirs = True
            self._theirs = Open.decode(body)


def _state_of(body: bytes) -> Described:
    """The state of the deliveries of a disposition, which is a composite (AMQP 1.0 part 3, section 3.4)."""
    state = Disposition.decode(body).state
    if not isinstance(state, Described):
        raise Malformed("a delivery's state that is no described value")
    return state


def _ended_by(name: str, kind: Type[Union[End, Close]], body: bytes) -> Refusal:
    error = kind.decode(body).error
    return Refusal(name) if error is None else Refusal(name + "WithError", error.condition, error.description)
