"""What try_c.py tries of links with credit, by the library's calls: two engines, face to face; each call with its values, and what is refused."""

import sys
from pathlib import Path

sys.path.insert(0, str(Path(__file__).resolve().parents[2] / "bindings" / "python"))

from amqp_engine import (
    ACCEPTED, RECEIVER, SECOND, SENDER, Attach, BadArgument, Begin, Delivery, Detach, Disposed, Disposition, Driver, Error, Flow, Open, Transfer, source,
    target,
)  # fmt: skip
from amqp_engine.driver import (
    ABORTED, ATTACH_WANTED, BEGIN_WANTED, CLOSED, DETACHED, ENDED, MORE, NONE, SETTLED, STATE_ACCEPTED, STATE_REJECTED, STATE_RELEASED,
)  # fmt: skip
from amqp_engine.linking import (
    END_ANSWERED, END_BY_PEER, END_REFUSED, EVENT_ABORTED, EVENT_ATTACHED, EVENT_BY_PEER, EVENT_ENDED, EVENT_FAULT, EVENT_FIRST, EVENT_FLOW, EVENT_FOR_GOOD,
    EVENT_GIVEN, EVENT_LAST, EVENT_NOTHING, EVENT_NUMBERED, EVENT_PART, EVENT_PASSED_OVER, EVENT_PRESETTLED, EVENT_RECEIVED, EVENT_SETTLED, FAULT_COUNT_PAST_LIMIT,
    FAULT_NONE_UNDER_WAY, FAULT_NO_NUMBER, FAULT_NO_TAG, FAULT_OTHER_DELIVERY, FAULT_OVER_CREDIT, FAULT_TOO_LARGE, LIFE_ATTACHED, LIFE_REFUSED,
    WHY_LINK_NONE_UNDER_WAY, WHY_LINK_NOT_ATTACHED, WHY_LINK_NO_CREDIT, WHY_LINK_NO_SENDER, WHY_LINK_TOO_LARGE, WISH_ANSWER, WISH_DRAIN, WISH_GRANT,
    WISH_RENEW, LinkEvent, Told, Unsettled,
)  # fmt: skip
from hostile.peers import LARGE, frame
from try_c.try_c_pair import mapped, refused

#: The client's session and the server's
OURS, THEIRS = 7, 3
WHOLE = EVENT_FIRST | EVENT_LAST
TESTS = []


def test(function):
    TESTS.append(function)
    return function


class Ends:
    """A client's driver and a server's, with a session, of which each side's links are told every record."""

    def __init__(self):
        self.client, self.server = Driver(Open("client")), Driver(Open("server"))
        for it in (self.client, self.server):
            it.open()
        self.client.begin(OURS, Begin(None, 0, LARGE, LARGE))
        assert [it.kind for it in self.there()] == [EVENT_NOTHING] * 2 == [it.kind for it in self.back()]

    def there(self):
        return [event for _, event, _ in self.carry(self.client, self.server)]

    def back(self):
        return [event for _, event, _ in self.carry(self.server, self.client)]

    def carry(self, one, other, data=None):
        """Hands on what one side has to send: of each record, what it is to the links of the other, and whether that owed anything."""
        data, at, came = one.to_send() if data is None else data, 0, []
        while at < len(data):
            taken = other.take(data, at)
            at += taken.taken
            came += [(it, *self.told(other, it, data)) for it in taken.records]
        return came

    def told(self, side, record, data):
        event = side.link_event(record, 90 + record.first)
        if record.kind in (BEGIN_WANTED, ENDED, CLOSED) and not side.has_ended:
            side.answer(record, data, THEIRS)
        return event, side.link_respond(event)

    def attached(self, low=0, high=0, limit=None, mode=0):
        """A client's sender and a server's receiver: the handle of each."""
        mine = self.client.link(OURS, "l", SENDER, mode)
        assert self.client.link_attach(OURS, attach(SENDER, rcv_settle_mode=mode)) == mine
        ((record, event, _),) = self.carry(self.client, self.server)
        assert (record.kind, event.kind, event.link) == (ATTACH_WANTED, EVENT_NOTHING, NONE)
        theirs = self.server.link_on(THEIRS, record.input, "l", RECEIVER, mode)
        assert self.server.link_attach(THEIRS, attach(RECEIVER, rcv_settle_mode=mode, max_message_size=limit), low, high) == theirs
        event = self.server.link_wanted(record, theirs)
        assert event == LinkEvent(0, 0, THEIRS, EVENT_ATTACHED, theirs, 0, 0, LIFE_ATTACHED, 0, 0), event
        assert self.server.link_respond(event) is (high > 0)
        (event, *_) = self.back()
        assert event == LinkEvent(0, 0, OURS, EVENT_ATTACHED, mine, 0, 0, LIFE_ATTACHED, 0, 0), event
        return mine, theirs

    def send(self, link, payload=b"hello", flags=0, given=70):
        return self.client.link_send(Delivery(OURS, link, b"t", payload, flags), given)


def attach(role, **how):
    return Attach("l", 99, role, source=source("from"), target=target("to"), **how)


def part(link, number, flags, size=5, credit=0, given=0):
    return LinkEvent(given, size, THEIRS, EVENT_PART, link, number, number, 0, credit, flags)


@test
def messages_go_by_credit_and_are_settled():
    ends = Ends()
    mine, theirs = ends.attached(1, 2)
    assert (ends.client.link_credit(OURS, mine), ends.server.link_credit(THEIRS, theirs), ends.client.link_credit(9, 9)) == (2, 2, 0)
    assert ends.send(mine) == Told(0, 0, None) and ends.send(mine, flags=SETTLED) == Told(1, 0, None)
    assert ends.send(mine) == Told(0, WHY_LINK_NO_CREDIT, None)
    came = [(event, owed) for _, event, owed in ends.carry(ends.client, ends.server)]
    assert came == [(part(theirs, 0, WHOLE, credit=1), False), (part(theirs, 1, WHOLE | EVENT_PRESETTLED), True)], came
    assert ends.server.link_credit(THEIRS, theirs) == 2
    assert ends.server.link_settle(THEIRS, RECEIVER, 0, 1, True, STATE_ACCEPTED) is True
    assert list(ends.server.link_settled(THEIRS, RECEIVER, 0, 1)) == [Unsettled(90, 0, theirs)]
    assert list(ends.server.link_settled(THEIRS, RECEIVER, 0, 1)) == []
    flow, settled = ends.back()
    assert flow == LinkEvent(0, 0, OURS, EVENT_FLOW, mine, 0, 0, 0, 2, 0), flow
    assert settled == LinkEvent(0, 0, OURS, EVENT_SETTLED, NONE, 0, 1, 0, 0, EVENT_BY_PEER), settled
    assert list(ends.client.link_settled_of(settled)) == [Unsettled(70, 0, mine)] and list(ends.client.link_settled_of(settled)) == []


@test
def a_delivery_in_parts_takes_one_credit():
    ends = Ends()
    mine, theirs = ends.attached()
    assert ends.server.link_flow(THEIRS, theirs, WISH_RENEW) is False
    assert ends.server.link_flow(THEIRS, theirs, WISH_GRANT, 2) is True
    ends.back()
    assert ends.send(mine, flags=ABORTED) == Told(0, WHY_LINK_NONE_UNDER_WAY, None)
    assert ends.send(mine, flags=MORE) == ends.send(mine) == Told(0, 0, None)
    # what is aborted, and unsettled, is given back
    assert ends.send(mine, flags=MORE) == Told(1, 0, None) and ends.send(mine, b"", ABORTED) == Told(1, 0, 70)
    whole = [part(theirs, 0, EVENT_FIRST, credit=1), part(theirs, 0, EVENT_LAST, 10, 1)]
    aborted = part(theirs, 1, EVENT_ABORTED | EVENT_PRESETTLED | EVENT_GIVEN, 5, given=91)
    came = ends.there()
    assert came == [*whole, part(theirs, 1, EVENT_FIRST), aborted], came
    assert ends.client.link_credit(OURS, mine) == ends.server.link_credit(THEIRS, theirs) == 0


@test
def credit_is_drained_and_flows_are_answered():
    ends = Ends()
    mine, theirs = ends.attached()
    ends.server.link_flow(THEIRS, theirs, WISH_GRANT, 5)
    assert ends.server.link_flow(THEIRS, theirs, WISH_DRAIN) is True
    came = [(event.kind, event.credit, owed) for _, event, owed in ends.carry(ends.server, ends.client)]
    assert came == [(EVENT_FLOW, 5, False), (EVENT_FLOW, 5, True)], came
    (event,) = ends.there()
    assert (event.kind, event.detail, event.credit) == (EVENT_FLOW, 5, 0) and ends.client.link_credit(OURS, mine) == 0, event
    for wish in (WISH_GRANT, WISH_DRAIN, WISH_RENEW, WISH_ANSWER):
        assert ends.client.link_flow(OURS, mine, wish, 1) is ends.client.link_flow(OURS, 9, wish, 1) is False


@test
def a_sender_past_its_credit_is_ended():
    ends = Ends()
    mine, theirs = ends.attached()
    # by the call that knows nothing of links
    ends.client.transfer(OURS, Transfer(mine, delivery_tag=b"t"), b"hello")
    ((_, event, owed),) = ends.carry(ends.client, ends.server)
    assert event == LinkEvent(0, 0, THEIRS, EVENT_FAULT, theirs, 0, 0, FAULT_OVER_CREDIT, 0, EVENT_NUMBERED) and owed, event
    data = ends.server.to_send()
    assert Detach.decode(data[8:]) == Detach(theirs, True, Error("amqp:link:transfer-limit-exceeded"))
    (record,) = ends.client.take(data).records
    event = ends.client.link_event(record)
    assert (event.kind, event.detail, event.flags) == (EVENT_ENDED, END_BY_PEER, EVENT_FOR_GOOD) and record.kind == DETACHED
    # until this side's Detach is sent the handle is kept
    refused(lambda: ends.client.link_remove(OURS, mine), "NotDetached")
    assert ends.client.link_respond(event) is True and ends.client.link_respond(event) is False
    assert [(it.kind, it.detail) for it in ends.there()] == [(EVENT_ENDED, END_ANSWERED)]
    ends.client.link_remove(OURS, mine)
    ends.server.link_remove(THEIRS, theirs)
    refused(lambda: ends.client.link_remove(OURS, mine), "NoLink")
    assert ends.attached() == (mine, theirs)


@test
def what_a_peer_may_not_do_ends_the_link():
    for given, fault in (
        (frame(Flow(0, LARGE, 0, LARGE, handle=0, delivery_count=10)), FAULT_COUNT_PAST_LIMIT),
        (frame(Transfer(0, None, None, 0), 0, b"x"), FAULT_NONE_UNDER_WAY),
        (frame(Transfer(0, None, b"t", 0), 0, b"x"), FAULT_NO_NUMBER),
        (frame(Transfer(0, 0, None, 0), 0, b"x"), FAULT_NO_TAG),
        (frame(Transfer(0, 0, b"t", 0), 0, b"longer"), FAULT_TOO_LARGE),
        (frame(Transfer(0, 0, b"t", 0, more=True), 0, b"x") + frame(Transfer(0, 1, b"u", 0), 0, b"x"), FAULT_OTHER_DELIVERY),
    ):
        ends = Ends()
        _, theirs = ends.attached(5, 9, limit=5)
        event = ends.carry(None, ends.server, given)[-1][1]
        assert (event.kind, event.link, event.detail) == (EVENT_FAULT, theirs, fault), event
        # what comes behind it is passed over
        event = ends.carry(None, ends.server, frame(Transfer(0, 5, b"v", 0), 0, b"x"))[-1][1]
        assert (event.kind, event.link) == (EVENT_PASSED_OVER, theirs), event


@test
def what_is_unsettled_is_left_once_its_link_goes():
    ends = Ends()
    mine, theirs = ends.attached(1, 10)
    assert [ends.send(mine, given=2**64 - 1 - at).number for at in range(2)] == [0, 1]
    ends.there()
    assert list(ends.server.link_left(THEIRS, theirs)) == []
    assert ends.client.link_detach(OURS, mine, error=Error("a:b")) is True and ends.client.link_detach(OURS, mine) is False
    assert ends.send(mine) == Told(0, WHY_LINK_NOT_ATTACHED, None)
    (event,) = ends.there()
    assert (event.kind, event.detail, event.flags) == (EVENT_ENDED, END_BY_PEER, 0), event
    refused(lambda: ends.server.link_remove(THEIRS, theirs), "Unsettled")
    assert list(ends.server.link_left(THEIRS, theirs)) == [Unsettled(90, 0, theirs), Unsettled(91, 1, theirs)]
    ends.server.link_remove(THEIRS, theirs)
    assert [(it.kind, it.detail) for it in ends.back()] == [(EVENT_ENDED, END_ANSWERED)]
    assert list(ends.client.link_left_of(OURS, RECEIVER)) == []
    assert list(ends.client.link_left_of(OURS, SENDER)) == [Unsettled(2**64 - 1 - at, at, mine) for at in range(2)]
    assert ends.client.link_forget(OURS) is True and ends.client.link_forget(OURS) is False


@test
def a_session_that_ends_leaves_what_is_unsettled():
    ends = Ends()
    mine, theirs = ends.attached(1, 10)
    ends.send(mine)
    ends.there()
    ends.client.end(OURS)
    ends.there()
    assert list(ends.server.link_left_of(THEIRS, RECEIVER)) == [Unsettled(90, 0, theirs)] and ends.server.link_forget(THEIRS)
    ends.back()
    assert list(ends.client.link_left_of(OURS, SENDER)) == [Unsettled(70, 0, mine)]


@test
def a_delivery_settled_second_is_settled_by_both():
    ends = Ends()
    mine, theirs = ends.attached(1, 10, mode=SECOND)
    ends.send(mine)
    ends.there()
    assert ends.server.link_settle(THEIRS, RECEIVER, 0, 0, False, STATE_RELEASED) is True
    (settled,) = ends.back()
    assert (settled.kind, settled.first, settled.last, settled.flags) == (EVENT_SETTLED, 0, 0, 0), settled
    assert list(ends.client.link_settled_of(settled)) == [Unsettled(70, 0, mine)]
    (settled,) = ends.there()
    assert (settled.kind, settled.flags) == (EVENT_SETTLED, EVENT_RECEIVED | EVENT_BY_PEER), settled
    assert list(ends.server.link_settled_of(settled)) == [Unsettled(90, 0, theirs)]


@test
def a_link_that_is_refused_tells_so():
    ends = Ends()
    mine = ends.client.link(OURS, "l", SENDER)
    ends.client.link_attach(OURS, attach(SENDER))
    ((wanted, _, _),) = ends.carry(ends.client, ends.server)
    theirs = ends.server.link_on(THEIRS, wanted.input, "l", RECEIVER)
    # without a target of its own
    ends.server.link_attach(THEIRS, Attach("l", 0, RECEIVER), 1, 9)
    ends.server.link_wanted(wanted, theirs)
    assert ends.server.link_detach(THEIRS, theirs, True, Error("amqp:not-found")) is True
    came = [(it.kind, it.link, it.detail, it.flags) for it in ends.back()]
    assert came == [(EVENT_ATTACHED, mine, LIFE_REFUSED, 0), (EVENT_ENDED, mine, END_REFUSED, EVENT_FOR_GOOD)], came
    assert ends.send(mine) == Told(0, WHY_LINK_NOT_ATTACHED, None)


@test
def what_is_none_is_refused_of_links():
    ends = Ends()
    refused(lambda: ends.client.link_attach(OURS, attach(SENDER)), "NoLink")
    refused(lambda: ends.client.link_remove(OURS, 0), "NoLink")
    assert ends.client.link_settle(9, SENDER, 0, 0, True) is ends.client.link_detach(OURS, 0) is ends.client.link_forget(9) is False
    assert ends.send(0) == Told(0, WHY_LINK_NO_SENDER, None)
    mine, theirs = ends.attached(1, 2, limit=4)
    refused(lambda: ends.client.link_attach(OURS, attach(SENDER)), "InUse")
    assert ends.send(mine) == Told(0, WHY_LINK_TOO_LARGE, None)
    assert ends.client.link_send(Delivery(OURS, mine, bytes(33), b"x")) == Told(0, 92, None)
    for call in [
        lambda: ends.client.link_settle(OURS, SENDER, 0, 0, True, STATE_REJECTED), lambda: ends.client.link_flow(OURS, mine, 4),
        lambda: ends.client.link_flow(OURS, mine, WISH_GRANT, 2**32), lambda: ends.client.link_credit(-1, 0), lambda: ends.send(mine, given=2**64),
        lambda: ends.client.link_attach(OURS, attach(SENDER), -1, 2), lambda: list(ends.client.link_left_of(OURS, 2)),
    ]:  # fmt: skip
        try:
            call()
        except BadArgument:
            continue
        raise AssertionError("taken")
    ends.client.close()
    ends.there()
    ends.back()
    refused(lambda: ends.send(mine, b"x"), "Over")


def engines(role):
    """A client's engine whose link the library has, and a server that knows nothing of links: the pair, the client's handle and the server's."""
    pair = mapped()
    mine = pair.client.link(0, "l", role)
    pair.client.link_attach(0, attach(role))
    ((event,), theirs) = pair.carry()[1], pair.server.output_of
    pair.server.attach(0, Attach("l", theirs(event), not role, source=source("from"), target=target("to"), initial_delivery_count=0 if role else None))
    (answer,) = pair.carry()[0]
    assert (answer.link.kind, answer.link.detail, answer.output_handle) == (EVENT_ATTACHED, LIFE_ATTACHED, mine), answer.link
    return pair, mine, theirs(event)


@test
def events_say_what_they_are_to_links():
    pair, mine, theirs = engines(SENDER)
    long = Delivery(0, mine, b"t", bytes(1500))
    assert pair.client.link_deliver(long) == Told(0, WHY_LINK_NO_CREDIT, None)
    pair.server.engine.flow(0, Flow(handle=theirs, delivery_count=0, link_credit=2))
    (flow,) = pair.carry()[0]
    assert (flow.link.kind, flow.link.credit) == (EVENT_FLOW, 2), flow.link
    assert [pair.client.link_deliver(it, 7) for it in (long, long._replace(payload=b"x"), long)] == [
        Told(0, 0, None), Told(1, 0, None), Told(0, WHY_LINK_NO_CREDIT, None),
    ]  # fmt: skip
    came = pair.carry()[1]
    assert b"".join(it.payload for it in came) == bytes(1500) + b"x" and len(came) == 5 and all(it.link is None for it in came)
    pair.server.engine.disposition(0, Disposition(RECEIVER, 0, 1, settled=True, state=ACCEPTED))
    (told,) = pair.carry()[0]
    # what is told and printed is what it was
    assert told == Disposed(0, None, None, RECEIVER, True, ACCEPTED, 0, 1) and "link" not in repr(told)
    assert [it.given for it in pair.client.link_settled_of(told.link)] == [7, 7]


@test
def messages_come_by_links_and_are_accepted():
    pair, mine, theirs = engines(RECEIVER)
    assert pair.client.link_flow(0, mine, WISH_GRANT, 1)
    (flow,) = pair.carry()[1]
    assert (flow.flow.delivery_count, flow.flow.link_credit) == (0, 1) and flow.link is None
    send = lambda: pair.server.engine.deliver(0, Transfer(theirs, delivery_tag=b"t", message_format=0), bytes(600))  # noqa: E731
    assert send() == 0
    first, last = pair.carry()[0]
    assert [(it.link.flags, it.link.size, it.link.credit) for it in (first, last)] == [(EVENT_FIRST, len(first.payload), 0), (EVENT_LAST, 600, 0)]
    pair.client.link_accept(last.link)
    assert pair.carry()[1] == [Disposed(0, None, None, RECEIVER, True, ACCEPTED, 0, 0)]
    assert list(pair.client.link_settled(0, RECEIVER, 0, 0)) == []
    # one past its credit ends the link
    send()
    fault, behind = pair.carry()[0]
    assert (fault.link.kind, fault.link.detail, behind.link.kind) == (EVENT_FAULT, FAULT_OVER_CREDIT, EVENT_PASSED_OVER)
    pair.client.link_respond(fault.link)
    (gone,) = pair.carry()[1]
    assert gone.detach == Detach(mine, True, Error("amqp:link:transfer-limit-exceeded")), gone
