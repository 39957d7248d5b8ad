"""Sessions of a client that is served, and what a client may have of a server."""

from __future__ import annotations

import contextlib
from dataclasses import dataclass
from typing import TYPE_CHECKING, Dict, Optional

from .driver import LinkEvent
from .ends import Link
from .events import Refusal
from .incoming import IncomingLink
from .linking import EVENT_BY_PEER, EVENT_PASSED_OVER, EVENT_RECEIVED, EVENT_SETTLED
from .outgoing import OutgoingLink
from .performatives import Begin, Error
from .serving import OfLink

if TYPE_CHECKING:
    from .served import Served


@dataclass
class Limits:
    """What clients may have of a server. What is past a limit of a client's own ends its link or its connection
    (`amqp:resource-limit-exceeded`), or waits for the client; others are not held up."""

    #: connections at once, past which new ones are closed; `None`: as many as the process may have files, less some
    connections: Optional[int] = None
    #: connections at once whose headers, login and Opens have not passed; one more ends the oldest
    handshakes: int = 256
    #: bytes that wait for a client to read, past which nothing more is sent on its links
    unread: int = 256 << 10
    #: bytes of messages that a client has not settled, and how many of a session in each direction: nothing more is
    #: sent then, or taken
    unsettled: int = 4 << 20
    deliveries: int = 1024
    #: bytes of a client's deliveries that are not whole; and of those that the program has not taken: the client is not
    #: read meanwhile
    incomplete: int = 8 << 20
    untaken: int = 1 << 20
    #: bytes of a performative that has values to be read, as an Attach with its properties
    performative: int = 16384
    #: for how long a client's frames are taken before others have their turn, in seconds
    turn: float = 0.001


class ServedSession:
    """A session that a client began."""

    def __init__(self, connection: "Served", number: int, begin: Begin) -> None:
        #: its connection, its number, and the client's Begin
        self.connection, self.number, self.begin = connection, number, begin
        #: its links, by this side's handles
        self.links: Dict[int, Link] = {}
        #: deliveries that were sent and are unsettled; and those of which this side has said what becomes of them, and
        #: the client has not settled
        self.unsettled = self.owed = 0
        self._engine, self._limits = connection.engine, connection.limits
        # how many transfers had gone out, where the last one waits for the client's window
        self._before, self._held = 0, -1

    def end(self, error: Optional[Error] = None) -> None:
        """An End is to be sent."""
        self.connection.ask(self._engine.end, self.number, error)

    # ---- for the package

    def can_take(self, link: OutgoingLink) -> bool:
        """Whether the client can take more; else the link is told once it can."""
        of, limits, server = self.connection, self._limits, self.connection.links_of
        self._before = server.transfers(self.number)
        is_full = self.unsettled >= limits.deliveries or of.unsettled >= limits.unsettled or of.unsent >= limits.unread
        if is_full or self._held == self._before or of.is_failing:
            of.parked[link] = None
            return False
        return True

    def sent(self) -> None:
        """A delivery was sent; nothing more is, where it waits for the client's window."""
        self.connection.push()
        self._held = self._before if self.connection.links_of.transfers(self.number) == self._before else -1

    def opens(self, count: int, size: int) -> None:
        """So many deliveries more are unsettled, of so many bytes."""
        self.unsettled += count
        self.connection.unsettled += size
        if count < 0 and self.connection.parked:
            self.connection.went.set()

    def excess(self) -> Optional[Error]:
        """What the client has too much of."""
        if self.connection.incomplete > self._limits.incomplete or self.owed >= self._limits.deliveries:
            return Error("amqp:resource-limit-exceeded", "too much that is not whole, or not settled")
        return None

    def take_out(self, role: bool, number: int) -> None:
        """A delivery that was settled is let go."""
        self._engine.link_given_back(self.number, role, number, number)

    def owe(self, event: LinkEvent, available: int = 0) -> None:
        """What a link owes is sent, or is due later."""
        self.connection.ask(self._engine.link_respond, event, available)

    def end_link(self, link: Link) -> None:
        """A link's Detach is sent, or is due later."""
        closed, error = link.wants or (True, None)
        try:
            self._engine.link_detach(self.number, link.handle, closed, error)
            link.wants = None
        except Refusal as refusal:
            if refusal.name != "HeldBack":
                self.connection.fail_soon(refusal)
        self.connection.push_soon()

    def remove(self, link: Link) -> None:
        """A link that the client has detached is let go, with what is left on it; where this side's Detach is held
        back, later."""
        for _ in self._engine.link_left(self.number, link.handle):
            pass
        with contextlib.suppress(Refusal):
            self._engine.link_remove(self.number, link.handle)
            self.links.pop(link.handle, None)

    def hear(self, told: OfLink) -> None:
        """What came for its links."""
        event, link = told.event, self.links.get(told.event.link)
        if event.kind == EVENT_SETTLED:
            self._settled(told)
        elif event.kind == EVENT_PASSED_OVER:
            # it was on its way when the link was detached: the session lets its record go
            self.owe(event)
        elif link is not None:
            link.hear(told)
        while (due := self._engine.link_due(self.number)) is not None:
            if (link := self.links.get(due.link)) is not None:
                link.due(due)

    def _settled(self, told: OfLink) -> None:
        is_received = bool(told.event.flags & EVENT_RECEIVED)
        for it in self._engine.link_settled_of(told.event):
            link = self.links.get(it.link)
            if link is not None and isinstance(link, IncomingLink) is is_received:
                link.settle(it.number, told)
        if not told.event.flags & EVENT_BY_PEER:
            # the session lets its records go
            self.owe(told.event)

    def over(self) -> None:
        """It is over, on both sides."""
        for link in list(self.links.values()):
            link.drop()
        self.links.clear()
        self._engine.link_forget(self.number)
