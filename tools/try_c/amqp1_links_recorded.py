"""A side of a recorded connection, with the library's links in its place, and the model of the standard beside them, for try_c_links_recorded.py: what both
have, what is compared, and what the side sent. The model is that of tools/amqp/session_links.py."""

import sys
from collections import Counter
from pathlib import Path

sys.path.insert(0, str(Path(__file__).resolve().parents[2] / "bindings" / "python"))

from amqp import frames
from amqp.decoder import value
from amqp.links import HALF, Refused, after
from amqp.recorded import ATTACH, BEGIN, CLOSE, DETACH, DISPOSITION, END, FLOW, OPEN, TRANSFER, recording
from amqp.session_links import SessionLinks
from amqp_engine import Attach, Begin, Delivery, Detach, Driver, Open, Refusal
from amqp_engine import driver as kinds
from amqp_engine import linking

WHYS = ("NoSender", "Link(NotAttached)", "Link(TooLarge)", "Link(NoneUnderWay)", "Link(NoCredit)", "NotNext")
#: The outcomes that a disposition of links can say, by their descriptors (part 3, section 3.4)
OUTCOMES = {None: 0, 0x24: kinds.STATE_ACCEPTED, 0x26: kinds.STATE_RELEASED, 0x27: kinds.STATE_MODIFIED}


def range_said(frame):
    """The first and the last number of a disposition that goes out."""
    return frame.said[1], frame.said[1] if frame.said[2] is None else frame.said[2]


class Tally:
    """What was compared, and what the recordings have beside the library's rules."""

    def __init__(self):
        self.passed = self.failed = 0
        self.counts, self.others = Counter(), Counter()

    def check(self, is_so):
        self.passed, self.failed = self.passed + is_so, self.failed + (not is_so)
        return is_so


class Link:
    """A link of this side. `is_left`: nothing more of it is compared. `waits` has flows that were recorded before the peer had attached."""

    def __init__(self, session, handle):
        self.session, self.handle, self.waits = session, handle, []
        self.is_left, self.is_detached, self.tag, self.number, self.given = False, False, None, None, None

    @property
    def end(self):
        return self.session.model.ends[self.handle]


class Session:
    """A session of this side: its links by the handles that either side has for them in the recording, and by name and role."""

    def __init__(self, number):
        self.number, self.model, self.is_mapped, self.ends, self.waits = number, SessionLinks(), False, set(), []
        self.own, self.peers, self.named, self.links, self.has_links = {}, {}, {}, [], False
        # the numbers that the recording has for what this side sent, each with that of the library; and the transfers that are to go out
        self.numbers, self.out = [], []

    def unsettled(self, role):
        return self.model.received if role else self.model.sent

    def range_of(self, frame, is_own):
        """The numbers of a disposition as the library has them. Some number deliveries by their transfers, and not one by one."""
        first, last = frame["first"], frame["first"] if frame["last"] is None else frame["last"]
        if not is_own:
            return first, last
        within = [it for recorded, it in self.numbers if after(recorded, first) <= after(last, first) < HALF]
        return within[0], within[-1]


class Asking:
    """The library in a side's place: what this side sent is asked for."""

    def __init__(self, name, side, tally):
        self.name, self.side, self.tally, self.frames, self.at = name, side, tally, recording(name), 0
        self.driver = Driver(Open("links", max_frame_size=262144, channel_max=65535), key=b"k" * 16, most=1)
        self.by_own, self.by_peer, self.sessions, self.asked, self.given = {}, {}, [], set(), 0

    # ---- what is compared

    def check(self, what, told, wanted):
        if not self.tally.check(told == wanted):
            print(f"{self.name} {self.side}, frame {self.at + 1}: {what}: told {told}, wanted {wanted}")

    def note(self, what):
        """What the recording has beside the library's rules."""
        self.tally.others[what] += 1

    def skip(self, link, why):
        """The link stands otherwise for this side than in the recording."""
        self.note(f"{why}: the rest of the link is left out")
        link.is_left = True

    def compare(self):
        """The credit of each link; and of senders, by a transfer that can begin nothing, whether it is attached."""
        for link in [it for session in self.sessions if not session.ends for it in session.links if not it.is_left]:
            number, handle, end = link.session.number, link.handle, link.end
            self.check("credit", self.driver.link_credit(number, handle), end.credit())
            if end.kind == "sending" and end.is_first():
                why = linking.WHY_LINK_NONE_UNDER_WAY if end.life == "Attached" else linking.WHY_LINK_NOT_ATTACHED
                self.check("whether it is attached", self.driver.link_send(Delivery(number, handle, None, b"", kinds.ABORTED)).refusal, why)
        self.said()

    def back(self, what, told, wanted, session):
        """What is given back, but of links that are left out. Answers the model's."""
        left = {it.handle for it in session.links if it.is_left}
        found = [(it["given"], it["number"], it["link"]) for it in iter(wanted, None)]
        self.check(what, *([it for it in of if it[2] not in left] for of in ([tuple(it) for it in told], found)))
        return found

    def settled(self, session, role, told, found):
        """What a disposition settles."""
        return self.back("what is settled", told, lambda: session.model.settle(session.unsettled(role), *found), session)

    def leave(self, session):
        """What is left of a session that is over, or of one whose connection is."""
        for role in (False, True):
            self.back("left of a session", self.driver.link_left_of(session.number, role), lambda: session.model.left_of(session.unsettled(role)), session)
        self.check("whether links go", self.driver.link_forget(session.number), session.has_links)
        self.check("transfers that did not go out", session.out, [])

    def said(self):
        """The frames that wait to be sent, as decoded values. Transfers are compared with those that were recorded."""
        data, found = self.driver.to_send(), []
        while data:
            size = int.from_bytes(data[:4], "big")
            frame = frames.Frame(data[4:size])
            frame.said = [value(of, 0)[1] for of in frame.fields] + [None] * 11
            found.append(frame)
            data = data[size:]
        for it in found:
            if it.code == TRANSFER:
                session = next(session for session in reversed(self.sessions) if session.channel == it.channel)
                went = (it.said[0], *it.said[2:4], *map(bool, (it.said[4], it.said[5], it.said[9])), it.payload)
                self.check("the transfer that goes out", went, session.out.pop(0) if session.out else None)
        return found

    # ---- what this side sent

    def ask(self, frame):
        if frame.code in (OPEN, CLOSE):
            return self.open() if frame.code == OPEN else self.driver.close()
        session = self.by_own.get(frame.channel)
        if frame.code == BEGIN:
            # one that answers the peer's was asked for when that came
            return self.begin(frame) if session is None or "own" in session.ends else None
        if not session.is_mapped:
            return session.waits.append(frame)
        asks = {ATTACH: self.attach, FLOW: self.flow, TRANSFER: self.transfer, DISPOSITION: self.dispose, DETACH: self.detach, END: self.end}
        return asks[frame.code](session, frame)

    def open(self):
        if self.driver.state in ("HDR_EXCH", "OPEN_RCVD"):
            self.driver.open()

    def begin(self, frame):
        """A session is begun. The peer's Begin names the channel that its Begin went out on."""
        session = self.by_own[frame.channel] = Session(len(self.sessions))
        self.sessions.append(session)
        begin = Begin.decode(frame.bytes[4:])
        begin.remote_channel = None
        self.said()
        self.driver.begin(session.number, begin)
        (session.channel,) = [it.channel for it in self.said() if it.code == BEGIN]

    def attach(self, session, frame, wanted=None):
        """A link is attached; where the peer's Attach came first, by its record."""
        name, role, mode, model = frame["name"], frame["role"] is True, frame["rcv_settle_mode"] or 0, session.model
        how = (session.number, name, role, mode) if wanted is None else (session.number, wanted.input, name, role, mode)
        handle = (self.driver.link if wanted is None else self.driver.link_on)(*how)
        self.check("the handle", self.driver.link_attach(session.number, Attach.decode(frame.bytes[4:])), handle)
        model.add(handle, model.receiving(0, None, frame["max_message_size"]) if role else model.sending(frame["initial_delivery_count"] or 0))
        link = session.own[frame["handle"]] = session.named[name, role] = Link(session, handle)
        session.links.append(link)
        session.has_links = True
        self.tally.counts["links"] += 1
        return link

    def flow(self, session, frame):
        """A flow of a link: a grant, a drain, or an answer. That of the session alone is the engine's to send."""
        link = session.own.get(frame["handle"])
        if link is None or link.is_left:
            return
        end = link.end
        self.tally.counts["flows"] += 1
        if end.kind == "sending":
            return self.report(link, frame)
        if end.life == "Attaching":
            self.note("a receiver's flow before the peer's Attach: asked for behind it")
            link.waits.append(frame)
            return self.wish(link, "grant", linking.WISH_GRANT, frame["link_credit"])
        # the limit is the count and the credit together, also where the count lies behind (section 2.6.7)
        behind = 0 if frame["delivery_count"] is None else after(end.count, frame["delivery_count"])
        if behind:
            self.note("a receiver's flow with a count behind a delivery that has begun: the limit is the recorded one")
        credit = max(0, frame["link_credit"] - behind)
        if end.echoes and credit == end.credit() and not frame["drain"]:
            return self.wish(link, "answer", linking.WISH_ANSWER, 0)
        if not frame["drain"] or credit != end.credit():
            self.wish(link, "grant", linking.WISH_GRANT, credit)
        return frame["drain"] and self.wish(link, "drain", linking.WISH_DRAIN)

    def report(self, link, frame):
        """A sender's flow, which answers a drain or an echo. One that nothing asked for may say what stands."""
        is_sent, end = self.wish(link, "answer", linking.WISH_ANSWER, frame["available"] or 0), link.end
        behind = after(end.count, frame["delivery_count"] or 0)
        if behind > (0 if end.is_first() else 1):
            self.skip(link, "a sender's flow with a count that the rules do not come to")
        elif behind:
            self.note("a sender's flow with the count before the delivery that is under way")
        elif not is_sent:
            self.note("a sender's flow that nothing asked for, with the count that stands")

    def wish(self, link, call, wish, *number):
        """A flow is asked for, and is that of the model, or none is sent by either."""
        wanted = link.session.model.say(link.handle, call, *number)
        self.said()
        self.check(f"whether a flow is sent, {call}", self.driver.link_flow(link.session.number, link.handle, wish, *number), wanted is not None)
        went = [(*it.said[5:8], bool(it.said[8])) for it in self.said() if it.code == FLOW]
        self.check(f"the flow, {call}", went, [] if wanted is None else [wanted])
        return wanted is not None

    def transfer(self, session, frame):
        link = session.own.get(frame["handle"])
        if link is None or link.is_left:
            return
        self.tally.counts["transfers"] += 1
        is_first, payload, form = link.end.is_first(), frame.payload, frame["message_format"]
        if is_first:
            link.number, link.given, self.given = len(session.numbers), self.given + 1, self.given + 1
        says = {kinds.MORE: frame["more"], kinds.SETTLED: frame["settled"], kinds.ABORTED: frame["aborted"], kinds.FORMATTED: form is not None}
        flags, tag = sum(flag for flag, is_so in says.items() if is_so) | (kinds.NUMBERED if is_first else 0), frame["delivery_tag"] if is_first else None
        of = Delivery(session.number, link.handle, tag and bytes.fromhex(tag["bin"]), payload, flags, form or 0)
        told = self.driver.link_send(of, link.given)
        how = "Aborted" if frame["aborted"] else "More" if frame["more"] else "Last"
        part = {"number": link.number, "size": len(payload), "end": how, "settled": frame["settled"], "given": link.given}
        try:
            back = session.model.send(link.handle, part)
        except Refused as refused:
            self.check("the transfer that is refused", told, (0, linking.WHY_LINK_NO_SENDER + WHYS.index(refused.name), None))
            return self.skip(link, f"a transfer that is refused, {refused.name}")
        self.check("the transfer", told, (link.number, 0, back))
        session.out.append((link.handle, tag, form, *(frame[name] is True for name in ("settled", "more", "aborted")), payload))
        if is_first:
            session.numbers.append((frame["delivery_id"], link.number))

    def dispose(self, session, frame):
        role, state, settled = frame["role"] is True, frame["state"] and frame["state"]["desc"], frame["settled"] is True
        self.tally.counts["dispositions"] += 1
        found, outcome = session.range_of(frame, not role), OUTCOMES.get(state, 0)
        if state not in OUTCOMES:
            self.note(f"a disposition with a state that link_settle has not, {state:#x}: asked for without it")
        self.said()
        self.check("the disposition", self.driver.link_settle(session.number, role, *found, settled, outcome), True)
        went = [(bool(it.said[0]), *range_said(it), bool(it.said[3])) for it in self.said() if it.code == DISPOSITION]
        self.check("the disposition that goes out", went, [(role, *found, settled)])
        if settled:
            self.settled(session, role, self.driver.link_settled(session.number, role, *found), found)

    def detach(self, session, frame):
        link = session.own.get(frame["handle"])
        if link is None or link.is_left:
            return
        told = self.driver.link_detach(session.number, link.handle, frame["closed"] is True, Detach.decode(frame.bytes[4:]).error)
        self.check("whether a Detach is sent", told, not link.is_detached)
        if not link.is_detached:
            link.end.detach()
        link.is_detached = True
        self.remove(link)

    def remove(self, link):
        """The handle is free where both sides have detached: what was left was told before."""
        wanted = told = None
        try:
            if not link.is_detached:
                raise Refused("NotDetached")
            link.session.model.remove(link.handle)
            link.session.links.remove(link)
            link.is_left = True
        except Refused as refused:
            wanted = refused.name
        try:
            self.driver.link_remove(link.session.number, link.handle)
        except Refusal as refusal:
            told = refusal.name
        self.check("the removal", told, wanted)

    def end(self, session, _):
        self.driver.end(session.number)
        session.ends.add("own")
