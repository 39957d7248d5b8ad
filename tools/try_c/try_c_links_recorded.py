#!/usr/bin/env python3
"""Tells each recorded connection to the library's links with credit, in either side's place, and compares what they say with a model of the standard.

    tools/try_c/try_c_links_recorded.py LIBRARY

LIBRARY is libamqp1.so. What the side sent is asked for by the calls of links, in the order of the recording; what the peer sent is taken, and told to the
links. The model is that of tools/amqp/session_links.py, and is given the fields as qpid-proton's decoder read them. After each frame both are compared: the
event, what goes out, what is given back or left, the credit of each link, and whether it is attached. What a recorded side did that the library's rules do
not do is counted. The last line is 'N passed, M failed', a test for each comparison.
"""

import os
import re
import sys
from pathlib import Path

sys.path.insert(0, str(Path(__file__).resolve().parents[1]))

from amqp import frames
from amqp.canonical import composite, string, uint, ushort
from amqp.links import CIRCLE, Refused
from amqp.recorded import ATTACH, BEGIN, CAPTURES, DETACH, DISPOSITION, END, FLOW, OPEN, TRANSFER
from gate.refused_of_captures import wanted
from shared.command import command
from try_c.amqp1_links_recorded import Asking, Tally, range_said

# (amqp1_links_recorded puts the package on the path)
from amqp_engine import driver as kinds
from amqp_engine import linking
from amqp_engine.linking import LinkEvent

LIVES = ("Attaching", "Refused", "Attached", "Detaching", "Detached")
ENDS = ("Refused", "ByPeer", "Answered", "Stray")
FAULTS = (
    "OverCredit", "CountPastLimit", "Part(NoneUnderWay)", "Part(NoNumber)", "Part(NoTag)", "Part(OtherDelivery)", "Part(OtherFormat)", "Part(TooLarge)",
)  # fmt: skip
#: The outcomes that are terminal, by their descriptors (part 3, section 3.4)
TERMINAL = (0x24, 0x25, 0x26, 0x27)
#: What a record says of no link: its kind, and the link
NOTHING = (linking.EVENT_NOTHING, kinds.NONE)
#: So many bytes more than the recorded one has a frame: some spell the head of a transfer shorter than the library keeps room for
SPARE = 32


class Side(Asking):
    """The library in a side's place: what the peer sent is taken."""

    def __init__(self, name, side, tally, refusals):
        """`refusals` are those that captures/refused.rows has."""
        super().__init__(name, side, tally)
        told = (re.match(r"frame (\d+), \w, \w+: (\w+)", it) for it in refusals)
        # that the peer ended is a record of another kind
        self.refusals = {int(it[1]): it[2] for it in told if not it[2].startswith("Remote")}

    def run(self):
        for self.at, frame in enumerate(self.frames):
            if frame.code is None or self.at in self.asked:
                continue
            (self.ask if frame.side == self.side else self.take)(frame)
            self.compare()
        for session in self.sessions:
            self.leave(session)

    def take(self, frame):
        session = self.by_peer.get(frame.channel)
        if frame.code == BEGIN:
            session = self.answered(frame)
        record = self.taken(self.translated(session, frame))
        self.given += 1
        event = self.driver.link_event(record, self.given)
        hears = {ATTACH: self.on_attach, FLOW: self.on_flow, TRANSFER: self.on_transfer, DISPOSITION: self.on_disposition, DETACH: self.on_detach}
        refusal = self.driver.refusal_of(record.refusal).name if record.kind == kinds.REFUSED else None
        self.check("whether the engine refuses it", refusal, self.refusals.get(self.at + 1))
        if refusal:
            self.refused(frame, refusal)
        elif frame.code in hears:
            hears[frame.code](session, frame, record, event)
        else:
            self.check("the event", event[3:5], NOTHING)
            self.goes_on(session, frame)

    def taken(self, of):
        """The record of a frame."""
        (record,) = self.driver.take((len(of) + 4).to_bytes(4, "big") + of).records
        return record

    def translated(self, session, frame):
        """The peer's frame, with the numbers that the library gives."""
        data = frames.Frame(frame.bytes)
        if frame.code == OPEN and frame["max_frame_size"] is not None:
            data[2] = uint(min(frame["max_frame_size"] + SPARE, CIRCLE - 1))
        elif frame.code == BEGIN:
            data[0] = ushort(session.channel)
        elif frame.code == DISPOSITION and frame["role"]:
            data[1], data[2] = map(uint, session.range_of(frame, True))
        return data.bytes()

    def answered(self, frame):
        """The session whose Begin the peer's answers; where it answers none, one that this side begins for it."""
        self.open()
        own = frame["remote_channel"]
        if own is None:
            answer = self.later(BEGIN, lambda it: it["remote_channel"] == frame.channel)
            self.begin(answer)
            own = answer.channel
        self.by_peer[frame.channel] = self.by_own[own]
        return self.by_own[own]

    def later(self, code, is_meant):
        """A frame that this side sends later, and that is asked for now."""
        frames_left = ((at, self.frames[at]) for at in range(self.at, len(self.frames)))
        at, frame = next((at, it) for at, it in frames_left if (it.side, it.code) == (self.side, code) and is_meant(it))
        self.asked.add(at)
        return frame

    def refused(self, frame, name):
        """What the engine refuses; where it is the Open, a plain one stands for it."""
        self.note(f"a frame that the engine refuses: {frames.NAMES[frame.code]}, {name}")
        if frame.code == OPEN:
            self.driver.link_event(self.taken(b"\2\0\0\0" + composite(OPEN, [string("")])))

    def goes_on(self, session, frame):
        """What waited for the peer's Begin is asked for behind it."""
        if frame.code == BEGIN:
            session.is_mapped = True
            for waits in session.waits:
                self.ask(waits)
        elif frame.code == END:
            del self.by_peer[frame.channel]
            session.ends.add("peer")

    def event(self, told, kind, link, **how):
        """An event of a link."""
        wanted = LinkEvent(0, 0, link.session.number, kind, link.handle, 0, 0, 0, link.end.credit(), 0)
        self.check("the event", told, wanted._replace(**how))

    def on_attach(self, session, frame, record, event):
        is_receiver = frame["role"] is True
        link = session.named.get((frame["name"], not is_receiver))
        if link is None or link.is_left or link.end.life != "Attaching":
            self.check("the event of an Attach that is wanted", event[3:5], NOTHING)
            answer = self.later(ATTACH, lambda it: (it["name"], it["role"] is True) == (frame["name"], not is_receiver))
            link = self.attach(session, answer, record)
            event = self.driver.link_wanted(record, link.handle)
        session.peers[frame["handle"]] = link
        is_accepted = frame["target" if is_receiver else "source"] is not None
        link.end.on_attach(is_accepted, frame["initial_delivery_count"] or 0, frame["max_message_size"])
        self.event(event, linking.EVENT_ATTACHED, link, detail=LIVES.index(link.end.life))
        for waits in link.waits:
            self.flow(session, waits)

    def on_flow(self, session, frame, _, event):
        link = session.peers.get(frame["handle"])
        if link is None or link.is_left:
            return
        self.tally.counts["flows"] += 1
        try:
            used = link.end.on_flow(frame["delivery_count"], frame["link_credit"], frame["drain"] is True, frame["echo"] is True)
        except Refused as refused:
            return self.fault(link, event, refused.name, refused.condition)
        self.event(event, linking.EVENT_FLOW, link, detail=used)

    def named(self, number):
        """What an event says of the delivery of a transfer that is passed over, or at fault."""
        return {} if number is None else {"first": number, "last": number, "flags": linking.EVENT_NUMBERED}

    def fault(self, link, event, name, condition, number=None):
        """The peer did what it may not do: this side ends the link for it, and what comes behind it is passed over."""
        self.event(event, linking.EVENT_FAULT, link, detail=1 + FAULTS.index(name), **self.named(number))
        self.note(f"a fault of the peer, {name}: this side detaches")
        self.said()
        self.check("whether a Detach is owed", self.driver.link_respond(event), True)
        went = [(it.said[0], it.said[1], it.said[2]["val"][0]) for it in self.said() if it.code == DETACH]
        self.check("the Detach for it", went, [(link.handle, True, {"sym": condition})])
        link.is_detached = True

    def on_transfer(self, session, frame, _, event):
        link = session.peers.get(frame["handle"])
        if link is None or link.is_left:
            return
        self.tally.counts["transfers"] += 1
        tag, is_first = frame["delivery_tag"], link.end.kind == "receiving" and link.end.current is None
        part = {"number": frame["delivery_id"], "tag": None if tag is None else "same" if is_first or tag == link.tag else "new"}
        part.update({"format": frame["message_format"], "size": len(frame.payload)}, **{name: frame[name] for name in ("settled", "more", "aborted")})
        try:
            told, back = session.model.on_transfer(link.handle, part, self.given)
        except Refused as refused:
            return self.refused_part(link, event, refused.name, refused.condition, part["number"])
        link.tag = tag if is_first else link.tag
        number, _, how, is_settled, size = told
        says = {linking.EVENT_FIRST: is_first, linking.EVENT_LAST: how == "Last", linking.EVENT_ABORTED: how == "Aborted"}
        says.update({linking.EVENT_PRESETTLED: is_settled, linking.EVENT_GIVEN: back is not None})
        flags = sum(flag for flag, is_so in says.items() if is_so)
        self.event(event, linking.EVENT_PART, link, given=back or 0, size=size, first=number, last=number, flags=flags)

    def refused_part(self, link, event, name, condition, number):
        if name.startswith("Link(Fault("):
            return self.fault(link, event, name[len("Link(Fault(") : -2], condition, number)
        self.note("a transfer on a link that is not attached")
        return self.event(event, linking.EVENT_PASSED_OVER, link, **self.named(number))

    def on_disposition(self, session, frame, _, event):
        is_receiver, state = frame["role"] is True, frame["state"] and frame["state"]["desc"]
        self.tally.counts["dispositions"] += 1
        found = session.range_of(frame, is_receiver)
        # a terminal outcome of the receiver's is answered by a settled one (section 2.6.12)
        if not frame["settled"] and not (is_receiver and state in TERMINAL):
            return self.check("the event", event[3:5], NOTHING)
        flags = (0 if is_receiver else linking.EVENT_RECEIVED) | (linking.EVENT_BY_PEER if frame["settled"] else 0)
        self.check("the event", event, LinkEvent(0, 0, session.number, linking.EVENT_SETTLED, kinds.NONE, *found, 0, 0, flags))
        settled = self.settled(session, not is_receiver, self.driver.link_settled_of(event), found)
        if not frame["settled"]:
            self.echoed([number for _, number, _ in settled])

    def echoed(self, wanted):
        """The numbers that this side's answers settle."""
        ranges = [range_said(it) for it in self.said() if it.code == DISPOSITION and it.said[3]]
        self.check("what the answers settle", [number for first, last in ranges for number in range(first, last + 1)], wanted)

    def on_detach(self, session, frame, _, event):
        link = session.peers.pop(frame["handle"], None)
        if link is None or link.is_left:
            return
        detail = ENDS.index(link.end.on_detach())
        self.event(event, linking.EVENT_ENDED, link, detail=detail, flags=linking.EVENT_FOR_GOOD if frame["closed"] else 0)
        told = self.driver.link_left(session.number, link.handle)
        self.back("what is left of a link", told, lambda: session.model.left(link.handle), session)
        self.remove(link)


def main():
    if len(sys.argv) != 2:
        sys.exit(__doc__.strip())
    os.environ["AMQP_LIBRARY"] = os.path.abspath(sys.argv[1])
    tally, table = Tally(), wanted()
    names = sorted(it.stem for it in CAPTURES.glob("*.txt"))
    for name in names:
        for side in "AB":
            Side(name, side, tally, table[name, side]).run()
    told = ", ".join(f"{tally.counts[it]} {it}" for it in ("links", "flows", "transfers", "dispositions"))
    print(f"{len(names)} connections from either side: {told}")
    for why, count in sorted(tally.others.items()):
        print(f"{count} x {why}")
    print(f"{tally.passed} passed, {tally.failed} failed")
    sys.exit(tally.failed > 0)


if __name__ == "__main__":
    command(main, __doc__)
