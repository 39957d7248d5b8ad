"""The curves of a page by a plain model, from the frames' bytes: windows, what is on the way, what is unsettled, credit (AMQP 1.0 part 2)."""

from amqp.frames import ATTACH, BEGIN, DETACH, DISPOSITION, END, FLOW, NULL, TRANSFER, Frame, Malformed, flag, integer, text
from amqp.judging import ROUND, Half
from amqp.mended import plain
from page.rows import Sessions

ACROSS = {"A": "B", "B": "A"}


def modelled(frames):
    """Of each session its curves: by a name, a list of pairs of a frame's place and the value from there on."""
    sessions, found = Sessions(), {}
    for at, (side, of) in enumerate(frames):
        try:
            frame = Frame(plain(of))
        except Malformed:
            continue
        number = sessions.of(side, frame) if frame.code and BEGIN <= frame.code <= END else 0
        if number:
            found.setdefault(number, Modelled()).take(at, side, frame)
    return {number: it.curves for number, it in found.items()}


class Modelled:
    """One session: of each side what it sent, how much it may send, how much of it came, and which deliveries of its are unsettled."""

    def __init__(self):
        self.sent = {side: Half(0, 0, None) for side in "AB"}
        self.limit, self.got, self.open = {"A": None, "B": None}, {"A": 0, "B": 0}, {"A": set(), "B": set()}
        self.on, self.links, self.curves = {"A": {}, "B": {}}, [], {}

    def take(self, at, side, frame):
        calls = {BEGIN: self.begin, ATTACH: self.attach, FLOW: self.flow, TRANSFER: self.transfer, DISPOSITION: self.dispose, DETACH: self.detach}
        if frame.code in calls:
            calls[frame.code](side, frame)
        for of in "AB":
            self.put(f"left {of}", at, None if self.limit[of] is None else self.limit[of] - self.sent[of].sent)
            self.put(f"way {of}", at, self.sent[of].sent - self.got[of])
            self.put(f"open {of}", at, len(self.open[of]))
        for place, link in enumerate(self.links):
            self.put(f"given {place}", at, link["credit"])
            self.put(f"used {place}", at, None if link["credit"] is None else link["count"] - link["seen"])

    def put(self, name, at, value):
        points = self.curves.setdefault(name, [])
        if value is not None and (not points or points[-1][1] != value):
            points.append([at, value])

    def begin(self, side, frame):
        self.sent[side].first_id, self.limit[ACROSS[side]] = integer(frame[1]), integer(frame[2])

    def flow(self, side, frame):
        across = ACROSS[side]
        self.got[across] = self.sent[across].place_of(integer(frame[0]))
        self.limit[across] = self.got[across] + integer(frame[1])
        link = self.on[side].get(integer(frame[4]))
        if link is not None and link["from"] == side:
            link["count"] = link["count"] if frame[5] == NULL else integer(frame[5])
        elif link is not None:
            link["seen"] = link["first"] if frame[5] == NULL else integer(frame[5])
            link["credit"] = integer(frame[6])

    def attach(self, side, frame):
        sender = ACROSS[side] if flag(frame[2]) else side
        waits = [it for it in self.links if (it["name"], it["from"]) == (text(frame[0]), sender) and it["ends"] == {ACROSS[side]}]
        if not waits:
            waits.append({"name": text(frame[0]), "from": sender, "ends": set(), "first": 0, "count": 0, "seen": 0, "credit": None, "goes": False, "id": None})
            self.links.append(waits[-1])
        link = self.on[side][integer(frame[1])] = waits[-1]
        link["ends"].add(side)
        if sender == side:
            link["first"] = link["count"] = link["seen"] = integer(frame[9]) or 0

    def detach(self, side, frame):
        link = self.on[side].pop(integer(frame[0]), None)
        if link is not None:
            # no Attach joins it any more
            link["ends"] = {"A", "B", "over"}

    def transfer(self, side, frame):
        self.sent[side].sent += 1
        link = self.on[side].get(integer(frame[0]))
        if link is None or link["from"] != side:
            return
        if not link["goes"]:
            link["count"], link["id"] = (link["count"] + 1) % ROUND, integer(frame[1])
            self.open[side].add(link["id"])
        if flag(frame[4]) or flag(frame[9]):
            self.open[side].discard(link["id"])
        link["goes"] = flag(frame[5]) and not flag(frame[9])

    def dispose(self, side, frame):
        if flag(frame[3]):
            first, last = integer(frame[1]), integer(frame[1] if frame[2] == NULL else frame[2])
            settled = range((last - first) % ROUND + 1)
            of = ACROSS[side] if flag(frame[0]) else side
            self.open[of] = {it for it in self.open[of] if (it - first) % ROUND not in settled}
