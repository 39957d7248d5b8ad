"""Links of a client that is served, as objects. Credit, counts and settlement are the library's (`linking`)."""

from __future__ import annotations

import logging
from typing import TYPE_CHECKING, Any, List, Optional, Tuple

from .driver import LinkEvent
from .errors import LinkClosed
from .linking import EVENT_ENDED, EVENT_FAULT
from .performatives import RECEIVER, SENDER, Attach, Detach, Error, address_of
from .serving import OfLink, Wanted
from .values import Malformed

if TYPE_CHECKING:
    from .handed import IncomingDelivery, OutgoingDelivery
    from .incoming import IncomingLink
    from .outgoing import OutgoingLink
    from .served import Served
    from .sessions import ServedSession


class LinkHandler:
    """What is called of a link as it comes, for a program that serves many links without a task for each. A call
    returns soon: others wait for it."""

    def delivered(self, link: "IncomingLink", delivery: "IncomingDelivery") -> None:
        """A whole delivery came. `link.renew` gives credit for more."""

    def credited(self, link: "OutgoingLink") -> int:
        """The client gave credit, or can take more than before: `link.try_send`. Answers how many messages are ready
        that were not sent. Where the client drains and some are, its answer waits until credit or messages are used up:
        `link.answer`."""
        return 0

    def settled(self, link: "OutgoingLink", delivery: "OutgoingDelivery") -> None:
        """The client settled a delivery; `delivery.outcome` says how."""

    def ended(self, link: "Link", left: "List[OutgoingDelivery]") -> None:
        """The link is over; these deliveries are left unsettled, the oldest first."""


_LOG = logging.getLogger("amqp_engine")
#: The handler of a link that has none
_NONE = LinkHandler()


class Link:
    """A link that a client attached. It is to be accepted or refused; what the client sends behind its Attach waits for
    that."""

    def __init__(self, connection: "Served", session: "ServedSession", wanted: Wanted) -> None:
        #: its connection, and its session
        self.connection, self.session = connection, session
        #: this side's handle
        self.handle: int = wanted.output_handle or 0
        #: the client's Attach
        self.attach: Attach = wanted.attach
        #: the client's name of it
        self.name: str = wanted.attach.name
        #: whether it is accepted or refused; whether it is over; and with which error, if any
        self.is_answered = self.is_over = False
        self.error: Optional[Error] = None
        self._wanted: Optional[Wanted] = wanted
        self._handler = _NONE
        self._engine = connection.engine
        #: for the package: a Detach that is wanted and held back; and whether the client has detached
        self.wants: Optional[Tuple[bool, Optional[Error]]] = None
        self.is_gone = False

    @property
    def address(self) -> Optional[str]:
        """The address that the client asks for: of the target on which it sends, or of the source from which it
        receives."""
        return address_of(self.attach.target if self.attach.role == SENDER else self.attach.source)

    def _attach(self, most: Optional[int], has_terminus: bool = True, **how: Any) -> LinkEvent:
        theirs = self.attach
        given = {
            "source": theirs.source, "target": theirs.target, "snd_settle_mode": theirs.snd_settle_mode,
            "rcv_settle_mode": theirs.rcv_settle_mode, "initial_delivery_count": 0 if theirs.role == RECEIVER else None,
            "max_message_size": most, **how,
        }  # fmt: skip
        if not has_terminus:
            given["target" if theirs.role == SENDER else "source"] = None
        mine = Attach(self.name, self.handle, not theirs.role, **given)
        if self._wanted is None:
            raise RuntimeError("a link is answered once")
        event = self.connection.links_of.link_attach(self._wanted, mine)
        self.is_answered, self._wanted = True, None
        self.connection.answered.set()
        return event

    def refuse(self, condition: str, description: Optional[str] = None) -> None:
        """The link is refused: an Attach without the terminus, and a Detach that says why (AMQP 1.0 part 2, section
        2.6.3)."""
        self._attach(None, False)
        self.detach(Error(condition, description))

    def detach(self, error: Optional[Error] = None, closed: bool = True) -> None:
        """A Detach is to be sent: the link is over for the program, also where the client answers later."""
        self.is_to_be_answered()
        if not self.is_over:
            self.wants = (closed, error)
            self._over(error)
            self.session.end_link(self)

    def is_to_be_answered(self) -> None:
        """Raises `RuntimeError` where the link is neither accepted nor refused."""
        if not self.is_answered:
            raise RuntimeError(f"the link {self.name!r} is neither accepted nor refused")

    def ended_error(self) -> LinkClosed:
        """What is raised where the link is over."""
        return LinkClosed.of(f"the link {self.name!r} is over", self.error)

    # ---- for the package

    def hear(self, told: OfLink) -> None:
        """What came for it."""
        kind = told.event.kind
        if kind == EVENT_ENDED:
            self._over(_error_of(told.body))
            self.is_gone = True
            self.session.owe(told.event)
            self.session.remove(self)
        elif kind == EVENT_FAULT:
            self._over(None)
            self.session.owe(told.event)

    def due(self, event: LinkEvent) -> None:
        """What it owes, and was held back, may go out."""
        if self.wants is not None:
            self.session.end_link(self)
        else:
            self.session.owe(event)
        if self.is_gone:
            self.session.remove(self)

    def settle(self, number: int, told: OfLink) -> None:
        """The client settled a delivery."""

    def _over(self, error: Optional[Error]) -> None:
        if not self.is_over:
            self.is_over, self.error = True, error
            # a handler that has its link is not kept by it: neither would go before a full look for such rounds
            handler, self._handler = self._handler, _NONE
            try:
                handler.ended(self, self._leave())
            except Exception as raised:
                # the others that end with it are told all the same
                _LOG.error("a handler of links failed", exc_info=raised)
                self.connection.fail_soon(raised)

    def _leave(self) -> "List[OutgoingDelivery]":
        return []

    def drop(self) -> None:
        """Its session, or its connection, is over."""
        self._over(None)


def _error_of(body: bytes) -> Optional[Error]:
    try:
        return Detach.decode(body).error
    except Malformed:
        return None
