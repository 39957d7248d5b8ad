"""What try_c.py tries of links by chance: two sides ask for what they like by the calls of links, and bytes go over in any splitting.

No side passes its credit, and none ends a link for a fault; what is sent comes, in order; each unsettled delivery is given back once on each side; and once
nothing is on the way both sides count the same credit.
"""

import random
import sys
from pathlib import Path

sys.path.insert(0, str(Path(__file__).resolve().parents[2] / "bindings" / "python"))

from amqp_engine import FIRST, RECEIVER, SECOND, SENDER, Attach, Begin, Delivery, Driver, Open, source, target
from amqp_engine.driver import ABORTED, ATTACH_WANTED, BEGIN_WANTED, MORE, SETTLED, STATE_ACCEPTED, STATE_MODIFIED, STATE_RELEASED
from amqp_engine.linking import (
    EVENT_ABORTED, EVENT_ATTACHED, EVENT_ENDED, EVENT_FAULT, EVENT_FIRST, EVENT_GIVEN, EVENT_LAST, EVENT_PART, EVENT_PRESETTLED, EVENT_RECEIVED, EVENT_SETTLED,
    WHY_LINK_NO_CREDIT, WHY_LINK_NOT_ATTACHED, WISH_ANSWER, WISH_DRAIN, WISH_GRANT, WISH_RENEW,
)  # fmt: skip
from hostile.peers import LARGE

CHAINS, STEPS, LINKS_MOST = 40, 300, 4
#: Marks of renewal; and where a sender's count begins
MARKS, COUNTS = ((0, 0), (1, 1), (2, 5), (5, 10)), (0, 2**32 - 2)
TESTS = []


def test(function):
    TESTS.append(function)
    return function


class Link:
    """An end of a link: its name and role, whether both have attached, the messages that went or came, and the one under way."""

    def __init__(self, name, role, is_attached=False):
        self.name, self.role, self.is_attached = name, role, is_attached
        self.messages, self.body, self.given = [], None, 0

    def end(self, is_whole):
        if is_whole:
            self.messages.append(self.body)
        self.body = None


class Side:
    """One side: its links by their handles, and by role what was given with each unsettled delivery, with the link."""

    def __init__(self, name, session, chance):
        self.driver, self.session, self.name, self.chance = Driver(Open(name), most=1), session, name, chance
        self.links, self.over, self.unsettled = {}, [], {SENDER: {}, RECEIVER: {}}
        self.given, self.waiting = 0, b""
        self.driver.open()

    def give(self):
        self.given += 1
        return self.given

    def back(self, role, *deliveries):
        """Each was given, on this link, and was not given back before."""
        for it in deliveries:
            assert self.unsettled[role].pop(it.given) == it.link, it

    # ---- what comes

    def hear(self, record, data):
        given = self.give()
        event = self.driver.link_event(record, given)
        assert event.kind != EVENT_FAULT, (self.name, event, record)
        if record.kind == BEGIN_WANTED:
            self.driver.answer(record, data, self.session)
        elif record.kind == ATTACH_WANTED:
            self.wanted(record, Attach.decode(data[record.at : record.at + record.size]))
        elif event.kind == EVENT_ATTACHED:
            self.links[event.link].is_attached = True
        elif event.kind == EVENT_PART:
            self.part(event, data[record.payload_at : record.payload_at + record.payload], given)
        elif event.kind == EVENT_SETTLED:
            self.back(RECEIVER if event.flags & EVENT_RECEIVED else SENDER, *self.driver.link_settled_of(event))
        self.driver.link_respond(event, self.chance.choice((0, 0, 1)))
        if event.kind == EVENT_ENDED:
            self.ended(event)

    def wanted(self, record, theirs):
        role, mode = not theirs.role, theirs.rcv_settle_mode or FIRST
        handle = self.driver.link_on(self.session, record.input, theirs.name, role, mode)
        self.attach(handle, theirs.name, role, mode)
        self.links[handle].is_attached = True
        self.driver.link_respond(self.driver.link_wanted(record, handle))

    def part(self, event, payload, given):
        link, flags = self.links[event.link], event.flags
        if flags & EVENT_FIRST:
            link.body, link.given = b"", given
            if not flags & EVENT_PRESETTLED:
                self.unsettled[RECEIVER][given] = event.link
        link.body += payload
        if flags & EVENT_GIVEN:
            assert self.unsettled[RECEIVER].pop(event.given) == event.link and event.given == link.given, event
        if flags & (EVENT_LAST | EVENT_ABORTED):
            assert flags & EVENT_ABORTED or event.size == len(link.body), event
            link.end(flags & EVENT_LAST)
        if flags & EVENT_LAST and not flags & EVENT_PRESETTLED:
            self.judge(event.first)

    def judge(self, number):
        """A message that has come is settled, is told of, or waits."""
        chance, driver = self.chance.random(), self.driver
        if chance < 0.4:
            driver.link_settle(self.session, RECEIVER, number, number, True, STATE_ACCEPTED)
            self.back(RECEIVER, *driver.link_settled(self.session, RECEIVER, number, number))
        elif chance < 0.6:
            state = self.chance.choice((STATE_ACCEPTED, STATE_RELEASED, STATE_MODIFIED))
            driver.link_settle(self.session, RECEIVER, number, number, False, state)

    def ended(self, event):
        link = self.links.pop(event.link)
        self.back(link.role, *self.driver.link_left(self.session, event.link))
        self.driver.link_remove(self.session, event.link)
        self.over.append(link)

    # ---- what this side asks for

    def act(self):
        senders = [handle for handle, it in self.links.items() if it.role == SENDER]
        receivers = [handle for handle, it in self.links.items() if it.role == RECEIVER]
        chance = self.chance.random()
        if chance < 0.1:
            self.begin()
        elif chance < 0.7 and senders:
            self.send(self.chance.choice(senders))
        elif chance < 0.85 and receivers:
            self.flow(self.chance.choice(receivers))
        elif chance < 0.9:
            self.settle(self.chance.randrange(5))
        elif chance < 0.94:
            self.detach()
        elif senders:
            self.driver.link_flow(self.session, self.chance.choice(senders), WISH_ANSWER, self.chance.choice((0, 0, 3)))

    def begin(self):
        if len(self.links) < LINKS_MOST:
            name, role, mode = f"{self.name}{self.give()}", self.chance.random() < 0.5, self.chance.choice((FIRST, FIRST, SECOND))
            self.attach(self.driver.link(self.session, name, role, mode), name, role, mode)

    def attach(self, handle, name, role, mode):
        count = None if role == RECEIVER else self.chance.choice(COUNTS)
        said = Attach(name, 0, role, rcv_settle_mode=mode, source=source("from"), target=target("to"), initial_delivery_count=count)
        assert self.driver.link_attach(self.session, said, *self.chance.choice(MARKS)) == handle
        self.links[handle] = Link(name, role)

    def send(self, handle):
        link, chance = self.links[handle], self.chance
        is_first, flags = link.body is None, chance.choice((0, 0, 0, MORE, MORE, SETTLED, SETTLED | MORE))
        if not is_first and chance.random() < 0.2:
            flags = ABORTED
        given, payload = self.give() if is_first else link.given, chance.randbytes(chance.randrange(30))
        told = self.driver.link_send(Delivery(self.session, handle, b"t" if is_first else None, payload, flags), given)
        if told.refusal:
            is_spent = told.refusal == WHY_LINK_NO_CREDIT and is_first and self.driver.link_credit(self.session, handle) == 0
            assert is_spent or told.refusal == WHY_LINK_NOT_ATTACHED, told
            return
        if is_first:
            link.body, link.given = b"", given
            if not flags & SETTLED:
                self.unsettled[SENDER][given] = handle
        link.body += payload
        if told.given is not None:
            assert self.unsettled[SENDER].pop(told.given) == handle and told.given == link.given, told
        if not flags & MORE:
            link.end(flags != ABORTED)

    def flow(self, handle):
        """Credit is never lowered: a delivery that is on its way would come past it."""
        credit = self.driver.link_credit(self.session, handle) + self.chance.randrange(4)
        self.driver.link_flow(self.session, handle, self.chance.choice((WISH_GRANT, WISH_GRANT, WISH_DRAIN, WISH_RENEW)), credit)

    def settle(self, first):
        self.driver.link_settle(self.session, SENDER, first, first + 3, True)
        self.back(SENDER, *self.driver.link_settled(self.session, SENDER, first, first + 3))

    def detach(self):
        attached = [handle for handle, it in self.links.items() if it.is_attached]
        if attached:
            self.driver.link_detach(self.session, self.chance.choice(attached), self.chance.random() < 0.8)


def carry(one, other, count=None):
    """Hands on so many of the bytes that wait, or all."""
    one.waiting += one.driver.to_send()
    data, at = one.waiting[:count], 0
    while True:
        taken = other.driver.take(data, at)
        if not taken.taken:
            break
        at += taken.taken
        for record in taken.records:
            other.hear(record, data)
    one.waiting = one.waiting[at:]


def settled_down(one, other):
    """Until nothing waits on either side."""
    for _ in range(100):
        for it in (one, other):
            it.waiting += it.driver.to_send()
        if not one.waiting and not other.waiting:
            return
        carry(one, other)
        carry(other, one)
    raise AssertionError("bytes go round and round")


def chain(seed):
    chance = random.Random(seed)
    sides = Side("a", 7, chance), Side("b", 3, chance)
    sides[0].driver.begin(7, Begin(None, 0, LARGE, LARGE))
    settled_down(*sides)
    for _ in range(STEPS):
        one, other = chance.sample(sides, 2)
        if chance.random() < 0.3:
            carry(one, other, chance.randrange(len(one.waiting) + 100))
        else:
            one.act()
    settled_down(*sides)
    agree(*sides)
    for it in sides:
        for handle in it.links:
            it.driver.link_detach(it.session, handle, True)
    settled_down(*sides)
    assert not any(it.links or it.unsettled[SENDER] or it.unsettled[RECEIVER] for it in sides)
    return sum(len(it.messages) for side in sides for it in side.over)


def agree(one, other):
    """Both sides have the same links, with the same credit and the same messages."""
    theirs = {it.name: (handle, it) for handle, it in other.links.items()}
    assert theirs.keys() == {it.name for it in one.links.values()}
    for handle, it in one.links.items():
        there, that = theirs[it.name]
        assert one.driver.link_credit(one.session, handle) == other.driver.link_credit(other.session, there), it.name
        assert it.messages == that.messages and it.body == that.body, it.name


@test
def links_keep_their_rules_whatever_is_asked():
    assert sum(chain(seed) for seed in range(CHAINS)) > 20 * CHAINS
