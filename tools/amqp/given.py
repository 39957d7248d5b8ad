"""What an engine in a side's place gives its sessions and links, and what of a recording it looks ahead to, for transcript.py."""

from bisect import bisect_left
from heapq import heappop, heappush

from amqp.frames import BEGIN, NULL, TRANSFER, integer


def in_a_line(name):
    """The name of a link; of one that no line can have, another."""
    return name if name and not set(name) & set("\r\n") else f"the name {name.encode().hex()}"


class Handles:
    """The output handles of a session: the one that was freed last is given out first."""

    def __init__(self):
        self.free, self.next = [], 0

    def give(self):
        if self.free:
            return self.free.pop()
        self.next += 1
        return self.next - 1


class Channels:
    """The channels of this side: the lowest one that no session holds is given out."""

    def __init__(self):
        self.free, self.next = [], 0

    def take(self):
        if self.free:
            return heappop(self.free)
        self.next += 1
        return self.next - 1

    def give_back(self, channel):
        heappush(self.free, channel)


class Places:
    """Where the Begins of each side stand by their channel, and by the channel that they answer, and where transfers with a number do."""

    def __init__(self, frames, read):
        self.read, self.at = read, {}
        for at, ((side, _), frame) in enumerate(zip(frames, read)):
            if frame is not None and frame.code == BEGIN:
                self.put("begin", side, frame.channel, at)
                self.put("answer", side, integer(frame[0]), at)
            elif frame is not None and frame.code == TRANSFER and frame[1] != NULL:
                self.put("transfer", side, frame.channel, at)

    def put(self, kind, side, channel, at):
        self.at.setdefault((kind, side, channel), []).append(at)

    def later(self, kind, at, side, channel):
        """The first such frame from `at` on."""
        places = self.at.get((kind, side, channel), [])
        found = bisect_left(places, at)
        return self.read[places[found]] if found < len(places) else None

    def begin(self, at, side, channel):
        return self.later("begin", at, side, channel)

    def answer(self, at, side, channel):
        return self.later("answer", at, side, channel)

    def transfer(self, at, side, channel):
        return self.later("transfer", at, side, channel)


class Session:
    """A session of this side: its number, its recorded channel and the one here, and what its recorded numbers count from."""

    def __init__(self, number, own, channel, first_id, first_delivery):
        self.number, self.own, self.channel = number, own, channel
        self.first_id, self.first_delivery = first_id, first_delivery
        self.is_mapped, self.is_held, self.ended, self.waiting = False, True, set(), []
        # links: handles by name, and names by handle
        self.handles, self.links, self.names, self.awaited, self.inputs, self.going = Handles(), {}, {}, set(), {}, set()
        # the recorded handle of a link, and its handle here
        self.given = {}

    def keep(self, name, handle):
        self.links[name] = handle
        self.names[handle] = name

    def let_go(self, handle):
        """The link of this handle stands no more."""
        name = self.names.pop(handle, None)
        if self.links.get(name) == handle:
            del self.links[name]
