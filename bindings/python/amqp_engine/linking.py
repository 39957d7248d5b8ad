"""Links with credit: senders and receivers, settlement, and what a record is to them (AMQP 1.0 part 2, sections 2.6 and
2.7).

Each session has links of its own. A program attaches them (`link_attach`), tells every record that `take` gave to them
(`link_event`), once and in order, and has answered what they owe for it (`link_respond`). What it sends goes by
`link_send`, which is refused where there is no credit. Each unsettled delivery is given back once, with the number that
was given with it. Of such a link the program asks for no flow, transfer, disposition or detach by the calls that know
nothing of links.
"""

from __future__ import annotations

import ctypes
import struct
from typing import Any, Iterator, List, NamedTuple, Optional, Tuple

from . import library as lib
from .performatives import Attach, Disposition, Error
from .records import FLOW, RECORD, Delivery, Record, head_of, tuple_of
from .requesting import BadArgument, Requests

#: What an event is: `LinkEvent.kind`; the comments of `include/amqp1/links.h` have each. One that is not named here is
#: of a later version: pass over it
(
    EVENT_NOTHING,
    EVENT_ATTACHED,
    EVENT_FLOW,
    EVENT_PART,
    EVENT_PASSED_OVER,
    EVENT_FAULT,
    EVENT_SETTLED,
    EVENT_ENDED,
    EVENT_DUE,
) = range(9)
#: What an event says besides: `LinkEvent.flags`
(
    EVENT_FIRST, EVENT_LAST, EVENT_ABORTED, EVENT_PRESETTLED, EVENT_GIVEN, EVENT_FOR_GOOD, EVENT_RECEIVED,
    EVENT_BY_PEER, EVENT_NUMBERED,
) = (1 << at for at in range(9))  # fmt: skip
#: Where a link stands: `detail` of `EVENT_ATTACHED`
LIFE_ATTACHING, LIFE_REFUSED, LIFE_ATTACHED, LIFE_DETACHING, LIFE_DETACHED = range(5)
#: What a Detach of the peer's was: `detail` of `EVENT_ENDED`
END_REFUSED, END_BY_PEER, END_ANSWERED, END_STRAY = range(4)
#: What a peer did that it may not do: `detail` of `EVENT_FAULT`. `link_respond` ends the link for it, by its condition
(
    FAULT_OVER_CREDIT, FAULT_COUNT_PAST_LIMIT, FAULT_NONE_UNDER_WAY, FAULT_NO_NUMBER, FAULT_NO_TAG,
    FAULT_OTHER_DELIVERY, FAULT_OTHER_FORMAT, FAULT_TOO_LARGE,
) = range(1, 9)  # fmt: skip
#: For what a flow of a link is sent: `link_flow`
WISH_GRANT, WISH_DRAIN, WISH_RENEW, WISH_ANSWER = range(4)
#: Why a link does not send: `Told.refusal`, beside the numbers of `Driver.send`; `Driver.refusal_of` has the names
(
    WHY_LINK_NO_SENDER, WHY_LINK_NOT_ATTACHED, WHY_LINK_TOO_LARGE, WHY_LINK_NONE_UNDER_WAY, WHY_LINK_NO_CREDIT,
    WHY_LINK_NOT_NEXT,
) = range(111, 117)  # fmt: skip

_ACCEPTED = 1
_EVENT = struct.Struct("=2Q8I")
_TOLD = struct.Struct("=Q4I")
_UNSETTLED = struct.Struct("=Q2I")


class LinkEvent(NamedTuple):
    """What a record is to the links of its session. A field of which nothing is said is 0. `link` is this side's
    handle, `NONE` where the event is of no link, as where deliveries are settled. `credit` is how many deliveries may
    be begun on the link, by this side or by the peer, after the event.

    Of a part, `first` is the number of its delivery, `size` how many bytes that has so far, and `given` what was given
    with it, with `EVENT_GIVEN`. Of what is settled, `first` and `last` are the numbers. Of a flow, `detail` is how many
    of the credit that a receiver has granted were used up without a delivery."""

    given: int
    size: int
    session: int
    kind: int
    link: int
    first: int
    last: int
    detail: int
    credit: int
    flags: int


class Told(NamedTuple):
    """What became of a transfer on a link: the number of its delivery and 0; or 0, and the number of its refusal.
    `given` is what was given with the delivery, where the transfer settles or aborts it, and it was unsettled
    before."""

    number: int
    refusal: int
    given: Optional[int]


class Unsettled(NamedTuple):
    """A delivery that was unsettled: what was given with it, its number, and its link."""

    given: int
    number: int
    link: int


def _number(given: int, bits: int = 32) -> int:
    if given >> bits:
        raise BadArgument(f"{given} is no number of {bits} bits")
    return given


class Links(Requests):
    """The links of one side of one connection.

    What is refused raises `Refusal`: by the engine's name, or `NoLink`, `InUse`, `NotDetached`, `Unsettled`, `NotNext`,
    `HeldBack`. `NoMemory` says that nothing changed."""

    def __init__(self, functions: Any) -> None:
        """`functions` are those of the library."""
        super().__init__(functions)
        self._event_room = ctypes.create_string_buffer(_EVENT.size)
        self._told_room, self._unsettled_room = lib.Sent(), lib.GivenBack()
        self._told_at, self._unsettled_at = ctypes.byref(self._told_room), ctypes.byref(self._unsettled_room)
        self._number_room = ctypes.c_uint32()

    def link_attach(self, session: int, attach: Attach, low: int = 0, high: int = 0, name: str = "") -> int:
        """Attaches a link: an Attach is to be sent, and the link has its end from then on, by the Attach's role. The
        Attach's handle is of no matter: it gets the one that `link`, or `link_on`, has allotted to `name`, or, where
        that is empty, to its own, and which is answered. A receiver renews its credit up to `high`, where fewer than
        `low` are left; with a `high` of 0 never by itself. Its `max_message_size` is held against what comes. Raises
        `Refusal` where no handle is allotted to the name (`NoLink`), the handle has an end, which `link_remove` takes
        away (`InUse`), or the Attach is refused (section
        2.6.3)."""
        perf, under, renewal = attach.encode(self._functions), name.encode(), (_number(low), _number(high))
        given = (_number(session), perf, len(perf), under, len(under), *renewal)
        self._judge(self._functions.amqp1_link_attach(self._here, *given, ctypes.byref(self._number_room)))
        return self._number_room.value

    def link_wanted(self, record: Record, link: int) -> LinkEvent:
        """Tells the peer's Attach that came first, as the record of `ATTACH_WANTED`, to the link that answers it, which
        `link_attach` has attached under this handle. An event of `EVENT_NOTHING` where no end has the handle. Where it
        raises `NoMemory` it is told again."""
        self._judge(
            self._functions.amqp1_link_wanted(self._here, RECORD.pack(*record), _number(link), self._event_room)
        )
        return tuple_of(LinkEvent, _EVENT.unpack(self._event_room))

    def link_event(self, record: Record, given: int = 0) -> LinkEvent:
        """Tells a record of `take` to the links of its session. Every record is told once, in order. `given` is kept
        with a delivery that begins by it and is unsettled, and given back with it. Where it raises `NoMemory` the
        record is told again. Raises `Refusal` (`NotNext`) where the delivery's number does not lie after each one that
        is unsettled, by less than 2^31 (section 2.8.10)."""
        status = self._functions.amqp1_link_event(
            self._here, RECORD.pack(*record), given and _number(given, 64), self._event_room
        )
        if status:
            self._judge(status)
        return tuple_of(LinkEvent, _EVENT.unpack(self._event_room))

    def link_respond(self, event: LinkEvent, available: int = 0) -> bool:
        """Sends what a link owes for an event: a flow, where credit is to be renewed or the peer asked for one; a
        Detach, in answer to the peer's, or for a fault. `available` is how many messages are ready to be sent on the
        link. False where it owes nothing, and where transfers of the link wait for the peer's window: `link_due` tells
        when it is to be called again."""
        status = self._functions.amqp1_link_respond(self._here, _EVENT.pack(*event), _number(available))
        return status != lib.HELD_BACK and self._is_done(status)

    def link_due(self, session: int) -> Optional[LinkEvent]:
        """A link of the session of which a call was held back (`HeldBack`, or False of `link_respond`), once all that
        had been sent in the session by then has gone out. Called after each record until it answers None, it tells each
        such link once: as an event of `EVENT_DUE`, for `link_respond`."""
        if not self._is_done(self._functions.amqp1_link_due(self._here, _number(session), self._event_room)):
            return None
        return tuple_of(LinkEvent, _EVENT.unpack(self._event_room))

    def link_pay(self, session: int) -> None:
        """What links of the session owe that is due is sent."""
        while (due := self.link_due(session)) is not None:
            self.link_respond(due)

    def link_follow(self, record: Record) -> LinkEvent:
        """A record is told to the links of its session, and what they owe for it, and what is due, is sent."""
        event = self.link_event(record)
        if event.kind != EVENT_NOTHING:
            self.link_respond(event)
        if record.kind == FLOW:
            self.link_pay(record.session)
        return event

    def link_flow(self, session: int, link: int, wish: int, number: int = 0) -> bool:
        """Sends a flow of a link (sections 2.6.7 and 2.7.4): with `WISH_GRANT` a receiver grants so much credit, with
        `WISH_DRAIN` it has its sender use the credit up, with `WISH_RENEW` it renews its credit where its rule says so;
        with `WISH_ANSWER` either side answers what the peer asked for, where so many messages are ready. False where
        none is wanted: no end has the handle, it is not attached, it is a sender's and the wish a receiver's, no credit
        is to be renewed, or nothing is to be answered. Raises `Refusal` (`HeldBack`) where transfers of a sender wait
        for the peer's window: `link_due` tells when it may be asked for again."""
        given = (_number(session), _number(link), _number(wish), _number(number))
        return self._is_done(self._functions.amqp1_link_flow(self._here, *given))

    def link_detach(self, session: int, link: int, closed: bool = False, error: Optional[Error] = None) -> bool:
        """Sends a Detach of a link (section 2.6.5), which ends it for good where it is `closed` (section 2.6.6). False
        where no end has the handle, or this side's was sent before. Raises `Refusal` (`HeldBack`) where transfers of
        the link wait for the peer's window: `link_due` tells when it may be asked for again; and where the peer's
        Attach is still to come: `EVENT_ATTACHED` does."""
        perf = b"" if error is None else error.encode(self._functions)
        return self._is_done(
            self._functions.amqp1_link_detach(self._here, _number(session), _number(link), closed, perf, len(perf))
        )

    def link_send(self, delivery: Delivery, given: int = 0) -> Told:
        """Sends a transfer on a link (sections 2.6.7 and 2.6.14): it begins a delivery where none is under way on the
        link, and takes one of its credit, or goes on with that one. `NUMBERED` is the link's to say. `Driver.cut` cuts
        a longer payload. `given` is kept with an unsettled delivery from its first transfer on, and given back with it.
        Where it is refused nothing changed. Raises `Refusal` (`Over`) where the connection is over."""
        data = delivery.payload if delivery.tag is None else delivery.tag + delivery.payload
        self.link_send_head(head_of(delivery), data, _number(given, 64))
        came, number, refusal, has_given, _ = _TOLD.unpack(self._told_room)
        return Told(number, refusal, came if has_given else None)

    def link_send_head(self, head: bytes, data: bytes, given: int) -> Tuple[int, int]:
        """As `link_send`, of a head that `records.HEAD` has packed and of the tag with the payload, where many are
        sent: the number of the delivery and 0; or 0, and the number of the refusal."""
        status = self._functions.amqp1_link_send(self._here, head, data, len(data), given, self._told_at)
        if status > lib.REFUSED:
            self._judge(status)
        told = self._told_room
        return told.number, told.refusal

    def link_settle(self, session: int, role: bool, first: int, last: int, settled: bool, outcome: int = 0) -> bool:
        """Sends a disposition of a session's deliveries from the first number to the last (sections 2.6.12 and 2.7.6).
        `role` is this side's; the outcome is 0 for none, or accepted, released or modified. Where it settles them,
        `link_settled` gives each one back. False where the session has no links."""
        given = (_number(session), role, _number(first), _number(last), settled, _number(outcome, 8))
        return self._is_done(self._functions.amqp1_link_settle(self._here, *given))

    def link_dispose(self, session: int, disposition: Disposition) -> bool:
        """The same by a Disposition of any state, as rejected with an error, or modified with its fields (part 3,
        sections 3.4.2 and 3.4.5)."""
        perf = disposition.encode(self._functions)
        return self._is_done(self._functions.amqp1_link_dispose(self._here, _number(session), perf, len(perf)))

    def link_accept(self, event: LinkEvent) -> None:
        """The delivery of a part that has come is settled, as accepted, and let go."""
        self.link_settle(event.session, True, event.first, event.first, True, _ACCEPTED)
        number = (event.session, True, event.first, event.first)
        self._is_done(self._functions.amqp1_link_settled(self._here, *number, self._unsettled_at))

    def link_settled(self, session: int, role: bool, first: int, last: int) -> Iterator[Unsettled]:
        """Takes out the unsettled deliveries of a range, which is settled: each is given back once, in the order of
        their numbers. `role` is this side's."""
        return self._each(self._functions.amqp1_link_settled, _number(session), role, _number(first), _number(last))

    def link_settled_of(self, event: LinkEvent) -> Iterator[Unsettled]:
        """The same of an event of `EVENT_SETTLED`."""
        return self.link_settled(event.session, event.flags & EVENT_RECEIVED != 0, event.first, event.last)

    def link_given_back(self, session: int, role: bool, first: int, last: int) -> List[int]:
        """The same of a range, as a list of what was given with each."""
        call, here, room, at = self._functions.amqp1_link_settled, self._here, self._unsettled_room, self._unsettled_at
        found = []
        while not (status := call(here, session, role, first, last, at)):
            found.append(room.given)
        self._is_done(status)
        return found

    def link_left(self, session: int, link: int) -> Iterator[Unsettled]:
        """Takes out the deliveries that are left unsettled on a link, once the peer has detached it: each is told once,
        so that a program can send it again (section 2.6.13)."""
        return self._each(self._functions.amqp1_link_left, _number(session), _number(link))

    def link_left_of(self, session: int, role: bool) -> Iterator[Unsettled]:
        """The same of all links of a session that is over: of the deliveries that this side sent, or, as `RECEIVER`, of
        those that have come."""
        return self._each(self._functions.amqp1_link_left_of, _number(session), role)

    def link_remove(self, session: int, link: int) -> None:
        """A link's handle has no end any more. Raises `Refusal` where no end has the handle (`NoLink`), the peer's
        Detach has not come, or this side's is still to be sent (`NotDetached`), or deliveries of it are unsettled,
        which `link_left` tells (`Unsettled`)."""
        self._judge(self._functions.amqp1_link_remove(self._here, _number(session), _number(link)))

    def link_forget(self, session: int) -> bool:
        """Lets all links of a session go, with what is unsettled on them: for one that is over, behind `link_left_of`.
        False where it has none. The links of a session that is not let go so stay until the engine is freed."""
        return self._is_done(self._functions.amqp1_link_forget(self._here, _number(session)))

    def link_credit(self, session: int, link: int) -> int:
        """How many deliveries may be begun on a link, by this side or by the peer. 0 where there is no such link."""
        self._judge(
            self._functions.amqp1_link_credit(
                self._here, _number(session), _number(link), ctypes.byref(self._number_room)
            )
        )
        return self._number_room.value

    def _each(self, call: Any, *given: int) -> Iterator[Unsettled]:
        """Deliveries, one after the other, each taken out as the iterator comes to it."""
        while self._is_done(call(self._here, *given, self._unsettled_at)):
            yield tuple_of(Unsettled, _UNSETTLED.unpack(self._unsettled_room))

    def _is_done(self, status: int) -> bool:
        if status:
            if status == lib.NOTHING:
                return False
            self._judge(status)
        return True
