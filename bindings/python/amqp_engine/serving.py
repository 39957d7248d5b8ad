"""A server's side: sessions that the client begins, and links that it attaches. The engine answers a Begin, an End and
a Close; what is kept here is which handles the client uses, and how many transfers went out.

The engine lets a link's name serve one direction in a session, and a client may give one name to a sender and to a
receiver. So the engine has the client's links under names of this side's, which the client never sees: a mark that it
cannot know, its role, and its name for the link.
"""

from __future__ import annotations

import contextlib
import os
from dataclasses import dataclass, field, replace
from typing import Dict, Iterator, List, NamedTuple, Optional, Union

from .driver import (
    ANSWER_CLOSES, ANSWER_ENDS, ATTACHED, ATTACH_WANTED, BEGIN_WANTED, CLOSED, DETACHED, DISPOSITION, ENDED, FLOW,
    STATED, TRANSFER, WHY_BEGIN_WANTED, LinkEvent, Record,
)  # fmt: skip
from .engine import Engine, Told
from .events import Attached, Event, Refusal, unreadable
from .performatives import FIRST, RECEIVER, Attach, Begin, Disposition
from .values import Described, Malformed

_TRANSFER = b"\x00\x53\x14"


@dataclass
class SessionBegan(Event):
    """The client began a session; it is mapped."""

    begin: Begin


@dataclass
class SessionEnded(Event):
    """The client ended the session, and was answered. Its links are gone, and its number is not used again."""


@dataclass
class PassedOver(Event):
    """What the client asked for behind this side's Close, which nobody answers."""


@dataclass
class Closed(Event):
    """The client closed the connection, and was answered."""


@dataclass
class Wanted(Attached):
    """The client attached a link first: `Server.link_attach` answers it by a link with credit, `Server.attach` by one
    of which the library knows none."""

    record: Record = field(repr=False, compare=False)
    #: the name under which the engine has the link
    kept_as: str = field(repr=False, compare=False)


class OfLink(NamedTuple):
    """What a record is to the links of its session, where `Server.tells_links` is so. `body` is the payload of a
    transfer, or the performative of a Detach, and of a Disposition with a state."""

    event: LinkEvent
    record: Record
    body: bytes


#: What `Server.receive` gives: events, and refusals of frames
ServerEvent = Union[Told, SessionBegan, SessionEnded, Closed, PassedOver, OfLink]
#: The frames of which this package reads what the library does not
_READ = (ATTACH_WANTED, ATTACHED, BEGIN_WANTED, DETACHED, DISPOSITION)
#: The states of most dispositions, accepted and released, which need no look
_PLAIN = (b"\x00\x53\x24\x45", b"\x00\x53\x26\x45")
#: What `Record.outcome` says of an Attach with a source and a target
_BOTH_TERMINI = 3
#: The states behind this side's Close, in which nothing is begun for the client
_CLOSING = ("CLOSE_SENT", "DISCARDING", "CLOSE_PIPE", "OC_PIPE", "END")


@contextlib.contextmanager
def _asked_by_client() -> Iterator[None]:
    """What is asked here is asked for the client: where the refusal says no condition, it is that the client may not
    ask for it."""
    try:
        yield
    except Refusal as refusal:
        raise replace(refusal, condition=refusal.condition or "amqp:not-allowed") from None


class Server:
    """An engine that serves one client. Requests, also those of links, are those of `engine`."""

    def __init__(self, engine: Engine, *, begin: Optional[Begin] = None) -> None:
        """`begin` is how this side begins each session. A link settles as the client's Attach says."""
        self.engine = engine
        #: Whether transfers, flows, dispositions and detaches are told as what they are to the links (`OfLink`), and
        #: not as events
        self.tells_links = False
        #: How many bytes a performative may have that this package reads
        self.longest = 2**32
        self._begin = begin or Begin()
        self._next, self._mark = 0, os.urandom(8).hex()
        # what waits to be sent, of which the transfers were counted
        self._waiting = b""
        # the links that the client attached: this side's handles, by session and the client's handle
        self._outputs: Dict[int, Dict[int, int]] = {}
        # the session of each channel of this side's, and how many transfers went out on it
        self._channels: Dict[int, int] = {}
        self._sent: Dict[int, int] = {}

    # ---- what comes

    def receive(self, data: bytes) -> Iterator[ServerEvent]:
        """Takes received bytes, in any splitting, and gives what they bring, in order, as `Engine.receive` does. After
        the refusal `BadSize` the stream is of no use, and nothing more is told."""
        return iter(()) if self.engine.is_broken else self.engine.receive_by(data, self._events_of)

    def _events_of(self, record: Record) -> List[ServerEvent]:
        """What is told of a frame, which is answered where the client is to have an answer."""
        if record.size > self.longest and record.kind in _READ:
            return [Refusal("PerformativeTooLong", "amqp:resource-limit-exceeded")]
        try:
            if record.refusal == WHY_BEGIN_WANTED:
                return [self._passed_over(record) or self._answer_begin(record)]
            if record.kind == ATTACH_WANTED:
                return [self._passed_over(record) or self._admit(record)]
        except Malformed as error:
            return [unreadable(error)]
        except Refusal as refusal:
            return [refusal]
        if record.kind == ENDED:
            return [self._answer_end(record)]
        if record.kind == CLOSED:
            self._answer(record, ANSWER_CLOSES)
            return [Closed(0, None, None)]
        return self._told_of(record)

    def _passed_over(self, record: Record) -> Optional[PassedOver]:
        return PassedOver(record.session, None, None) if self.engine.state in _CLOSING else None

    def _told_of(self, record: Record) -> List[ServerEvent]:
        """What is told of a frame that is not answered here."""
        if record.kind == ATTACHED:
            # a link that this side began
            self._outputs.setdefault(record.session, {})[record.input] = record.output
        elif record.kind == DETACHED:
            self._outputs.get(record.session, {}).pop(record.input, None)
        if self.tells_links and record.kind in (TRANSFER, FLOW, DISPOSITION, DETACHED):
            return self._of_links(record)
        return list(self.engine.events_of(record))

    def _of_links(self, record: Record) -> List[ServerEvent]:
        """What a record is to the links of its session."""
        try:
            event = self.engine.link_event(record)
        except Refusal as refusal:
            return [refusal]
        try:
            told: ServerEvent = OfLink(event, record, self._body_of(record))
        except Malformed as error:
            told = unreadable(error)
        return [told, *self.engine.told_unfit()] if record.kind in (FLOW, DISPOSITION) else [told]

    def _body_of(self, record: Record) -> bytes:
        if record.kind == TRANSFER:
            return self.engine.payload_of(record)
        body = self.engine.frame_of(record)[4:] if record.kind == DETACHED or record.flags & STATED else b""
        if record.kind == DISPOSITION and body and not body.endswith(_PLAIN):
            if not isinstance(Disposition.decode(body).state, Described):
                raise Malformed("a delivery's state that is no described value")
        return body

    def _answer_begin(self, record: Record) -> SessionBegan:
        """A session of this side's answers the client's Begin. Of the peer's channels the engine looks at none but
        those in use."""
        frame = self.engine.frame_of(record)
        theirs, number, self._next = Begin.decode(frame[4:]), self._next, self._next + 1
        if record.channel > self.engine.channel_max:
            raise Refusal("ChannelTooHigh", "amqp:connection:framing-error")
        self._put_aside()
        with _asked_by_client():
            self.engine.answer_begin(number, frame, self._begin)
        # nothing waits but the answer
        self._channels[self._put_aside()], self._sent[number] = number, 0
        return SessionBegan(number, None, None, theirs)

    def _admit(self, record: Record) -> Wanted:
        """Allots a handle to the client's link. The engine looks neither at this side's handle-max (AMQP 1.0 part 2,
        section 2.7.2), nor whether a handle is used in this direction."""
        session, handle = record.session, record.input
        attach = Attach.decode(self.engine.frame_of(record)[4:])
        links = self._outputs.setdefault(session, {})
        if self._begin.handle_max is not None and handle > self._begin.handle_max:
            raise Refusal("HandleTooHigh", "amqp:connection:framing-error")
        if handle in links:
            raise Refusal("HandleInUse", "amqp:session:handle-in-use")
        name = self._mark + ("r" if attach.role == RECEIVER else "s") + attach.name
        with _asked_by_client():
            links[handle] = self.engine.link_on(session, handle, name, not attach.role, attach.rcv_settle_mode or FIRST)
        return Wanted(session, handle, links[handle], attach, record, name)

    def _answer_end(self, record: Record) -> SessionEnded:
        if record.session in self.engine.linked:
            self.engine.link_event(record)
        self._answer(record, ANSWER_ENDS)
        self._outputs.pop(record.session, None)
        self._sent.pop(record.session, None)
        return SessionEnded(record.session, None, None)

    def _answer(self, record: Record, answers: int) -> None:
        """An End or a Close is answered, unless it answers one of this side's."""
        with contextlib.suppress(Refusal):
            self.engine.answer(record, b"", 0, answers)

    # ---- what goes

    def output_of(self, event: Event) -> int:
        """This side's handle of the link that an event names."""
        return self._outputs[event.session][event.input_handle]  # type: ignore[index]

    def attach(self, session: int, attach: Attach) -> None:
        """An Attach is to be sent: the answer to the client's, with the client's name of the link."""
        self.engine.attach(session, attach)

    def link_attach(self, wanted: Wanted, attach: Attach, low: int = 0, high: int = 0) -> LinkEvent:
        """Answers the client's Attach by a link with credit, as `Links.link_attach` does, and answers what the client's
        is to it. What the client sent behind its Attach is told to the link where this is called before the next event
        is taken. A client need not say the terminus of its own: a receiver's target, as a name of its own, says nothing
        to a server."""
        self.engine.link_attach(wanted.session, attach, low, high, wanted.kept_as)
        return self.engine.link_wanted(wanted.record._replace(outcome=_BOTH_TERMINI), wanted.output_handle or 0)

    def transfers(self, session: int) -> int:
        """How many transfers of a session `to_send` has given: fewer than were asked for where the client's window
        holds some back."""
        return self._sent.get(session, 0)

    def to_send(self) -> bytes:
        """All bytes that wait to be sent, with their sizes; they are taken."""
        self._put_aside()
        waiting, self._waiting = self._waiting, b""
        return waiting

    def _put_aside(self) -> int:
        """Takes what waits, for `to_send`, and counts its transfers. Answers the channel of the last frame."""
        data, at, channel = self.engine.to_send(), 0, 0
        while at < len(data):
            channel = int.from_bytes(data[at + 6 : at + 8], "big")
            session = self._channels.get(channel)
            if data[at + 8 : at + 11] == _TRANSFER and session in self._sent:
                self._sent[session] += 1
            at += int.from_bytes(data[at : at + 4], "big")
        self._waiting += data
        return channel
