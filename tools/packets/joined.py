"""Puts the streams of TCP together that a recording of packets holds (RFC 9293), for transcript.py: what each side sent, in order, and what is missing.

What one side sent goes out after all that it acknowledged of the other side by then: so frames stand in an order in which they can have been sent, however
late their packets were recorded. A segment that is sent again acknowledges more than the first one did, and may hold what came before or after; but a side
sends its bytes in order, and acknowledges no less than before: so when a byte was sent first, it acknowledged at most what any segment does that ends
behind it. Of bytes that came twice the first count. What never came is told as missing, and nothing that its side sent after it is read.
"""

from collections import deque
from heapq import heappop, heappush
from ipaddress import ip_address
from math import inf
from typing import NamedTuple

from packets.files import Unreadable, packets
from packets.headers import ACK, FIN, RST, SYN, Left, segment

ROUND = 2**32
# No window is wider (RFC 7323): a segment that stands further ahead, or behind, is of no connection that is read
WIDEST = 2**30
# So many connections are read in a recording
MOST_CONNECTIONS = 1000
HEADER = b"AMQP"
OTHER = {"A": "B", "B": "A"}


def text_of(end):
    address, port = end
    host = ip_address(address)
    return f"[{host}]:{port}" if host.version == 6 else f"{host}:{port}"


class Chunk(NamedTuple):
    """Bytes, or a text where some are missing: the packet that brought them, its time, and whether it brought others again."""

    order: int
    time: float
    what: object
    is_again: bool = False


class Way:
    """What one side sends. Places count from its first byte, which has the number `first`. Those before `at` are in order, in `ready` until they go out, those
    before `out` went out, the last of them `gone` bytes of the first chunk that is ready; and those before `end` are known to have been sent. `ahead` is a heap
    of what came too early, and `bounds` one of what segments acknowledge, with the places where they end: of what does the least first, and the longest."""

    __slots__ = ("first", "at", "out", "end", "acknowledged", "ahead", "ready", "bounds", "gone", "far", "is_over", "is_cut")

    def __init__(self):
        self.first, self.at, self.out, self.end, self.acknowledged, self.gone = None, 0, 0, 0, 0, 0
        # each is made once there is something for it, since many sides of a hostile recording send nothing
        self.ahead, self.ready, self.bounds, self.far, self.is_over, self.is_cut = (), (), (), None, False, False

    def place(self, number):
        return self.at + (number - self.first - self.at + ROUND // 2) % ROUND - ROUND // 2

    def begins(self, number):
        self.first = number % ROUND if self.first is None else self.first

    def ends(self, number):
        """The side sends nothing from this number on."""
        self.end, self.is_over = max(self.end, self.place(number)), True

    def take(self, number, chunk, size, acknowledges):
        """A segment, of whose bytes these were recorded; and how many bytes of the other side it acknowledges."""
        place = self.place(number)
        if abs(place - self.at) > WIDEST:
            self.far = self.at
        elif not size:
            self.reach(place)
        else:
            self.end, self.is_cut = max(self.end, place + size), self.is_cut or len(chunk.what) < size
            self.bound(acknowledges, place + size)
            self.ahead = self.ahead or []
            heappush(self.ahead, (place, chunk))
            while self.ahead and self.ahead[0][0] <= self.at:
                self.join(*heappop(self.ahead))

    def join(self, place, chunk):
        if new := chunk.what[self.at - place :]:
            self.put(chunk._replace(what=new, is_again=place < self.at))
            self.at += len(new)

    def bound(self, acknowledges, end):
        """When the bytes before this place were sent first, at most so many of the other side's were acknowledged."""
        if end > self.out:
            self.bounds = self.bounds or []
            heappush(self.bounds, (acknowledges, -end))

    def awaits(self):
        """How many bytes of the other side go out before what is ready."""
        if isinstance(self.ready[0].what, str):
            return 0
        while -self.bounds[0][1] <= self.out:
            heappop(self.bounds)
        return self.bounds[0][0]

    def put(self, chunk):
        self.ready = self.ready or deque()
        self.ready.append(chunk)

    def reach(self, place):
        """The bytes before this place are known to have been sent; the last of them may be the end, which counts as one."""
        if self.at < place <= self.at + WIDEST:
            self.acknowledged = max(self.acknowledged, place)

    def acknowledge(self, number):
        """How many bytes the other side says that it has."""
        if self.first is None:
            return 0
        place = self.place(number)
        self.reach(place)
        return place

    def has_gone(self, place):
        """Whether the bytes before this place went out, or all that there are."""
        return place <= self.out or self.is_over and self.out >= self.end

    def missing(self):
        """What never came, in words; `None` of a whole stream."""
        if self.far == self.at and not self.ahead:
            return f"what comes after the first {self.at:,} bytes does not follow them"
        end = max(self.end, self.acknowledged - 1)
        if end <= self.at:
            return None
        lack = min((place for place, _ in self.ahead), default=end) - self.at
        after = sum(len(chunk.what) for _, chunk in self.ahead)
        what = f"{lack:,} bytes are missing" if lack > 1 else "1 byte is missing"
        why = ", of a packet that was recorded in part" if self.is_cut else ""
        return f"{what} after the first {self.at:,}{why}" + (f"; {after:,} after that were not read" if after else "")

    def break_off(self, order, time):
        """At the end of all: where bytes are missing, a text stands for them and for what comes after them."""
        if lack := self.missing():
            order = min((chunk.order for _, chunk in self.ahead), default=order)
            self.put(Chunk(order, time, lack))
            self.ahead = ()

    def go(self):
        """What goes out next: of a chunk no more than waits for the same. With a text all that is missing counts as gone."""
        chunk = self.ready[0]
        if isinstance(chunk.what, str):
            self.ready.popleft()
            self.out = inf
            return chunk
        self.awaits()
        end = -self.bounds[0][1]
        what = chunk.what[self.gone : self.gone + end - self.out]
        self.out, self.gone = self.out + len(what), self.gone + len(what)
        if self.gone == len(chunk.what):
            self.ready.popleft()
            self.gone = 0
        return chunk._replace(what=what)


class Connection:
    """A connection: its client is who sent the first SYN, and where none was recorded who is told first; `number` is 0 until AMQP is seen in it."""

    __slots__ = ("number", "client", "server", "ways", "last", "early", "is_other", "is_over")

    def __init__(self, client, server):
        self.number, self.client, self.server, self.ways = 0, client, server, {"A": Way(), "B": Way()}
        # what goes out once it is known that it speaks AMQP
        self.early, self.last, self.is_other, self.is_over = [], 0.0, False, False

    def leave(self):
        """Nothing more of it is read."""
        self.is_other, self.early, self.ways = True, [], {}

    def name(self):
        return f"{text_of(self.client)} to {text_of(self.server)}"

    def take(self, order, time, of):
        """What a segment brings to go out, each as (time, side, bytes)."""
        side = "A" if of.source == self.client else "B"
        mine, other = self.ways[side], self.ways[OTHER[side]]
        first, acknowledges = of.sequence + bool(of.flags & SYN), 0
        mine.begins(first)
        if of.flags & ACK and not of.flags & RST:
            # the answer to a SYN that was not recorded says where the client's bytes begin
            other.begins(of.acknowledged) if of.flags & SYN else None
            acknowledges = other.acknowledge(of.acknowledged)
        if of.flags & FIN:
            mine.ends(first + of.size)
        if of.flags & RST:
            mine.is_over = other.is_over = True
        mine.take(first, Chunk(order, time, of.data), of.size, acknowledges)
        yield from self.go(self.next)

    def next(self):
        """The side whose turn it is: all that it acknowledged by then went out; of both that whose packet was recorded first."""
        waiting = sorted((side for side, way in self.ways.items() if way.ready), key=lambda side: self.ways[side].ready[0].order)
        for side in waiting:
            if self.ways[OTHER[side]].has_gone(self.ways[side].awaits()):
                return side
        if len(waiting) < 2:
            return None
        # each waits for the other: one of both packets brings bytes again, the later one where none is known to; the other side had those before it sent its own
        first, again = sorted(waiting, key=lambda side: self.ways[side].ready[0].is_again)
        self.ways[again].bound(0, self.ways[first].awaits())
        return again

    def last_turn(self):
        """The side whose turn it is once nothing more comes."""
        return self.next() or next((side for side, way in self.ways.items() if way.ready), None)

    def go(self, turn):
        """What goes out; times do not go back."""
        while side := turn():
            chunk = self.ways[side].go()
            self.last = max(self.last, chunk.time)
            yield self.last, side, chunk.what

    def finish(self, order):
        """What waits yet, and what is missing."""
        for way in self.ways.values():
            way.break_off(order, self.last)
        self.is_over = True
        yield from self.go(self.last_turn)

    def has_ended(self):
        return all(way.is_over and way.end <= way.at and not way.ahead and not way.ready for way in self.ways.values())


class Recording:
    """The connections in a file of packets that speak AMQP. In the end `notes` says what was left out, and `is_whole` whether all packets were read."""

    def __init__(self, path, went=lambda at: None):
        self.path, self.went, self.live, self.count, self.left, self.others, self.notes = path, went, {}, 0, {}, 0, []
        self.is_whole = True

    def __iter__(self):
        """Each thing that happens: its connection, the time, the side, and bytes, or a text where bytes are missing; at a connection's end three times `None`."""
        order = 0
        try:
            for order, (time, link, packet) in enumerate(packets(self.path, self.went), 1):
                of = self.segment_of(link, packet)
                if of is not None:
                    yield from self.take(order, time, of)
        except Unreadable as error:
            self.is_whole = False
            self.notes.append(f"the file can be read no further than packet {order:,}: {error}")
        for connection in [*self.live.values()]:
            yield from self.over(connection, order + 1)
        self.is_whole = self.is_whole and not self.left
        self.notes += [f"{count:,} packets were left out: {why}" for why, count in self.left.items()]
        if self.others:
            self.notes.append(f"{self.others:,} other connections: they speak TLS or no AMQP, lack their first bytes, or are past the {MOST_CONNECTIONS:,}th")

    def segment_of(self, link, packet):
        try:
            return segment(link, packet)
        except Left as why:
            self.left[str(why)] = self.left.get(str(why), 0) + 1
            return None

    def take(self, order, time, of):
        key = (of.source, of.target) if of.source < of.target else (of.target, of.source)
        connection = self.live.get(key)
        if of.flags & (SYN | ACK) == SYN and not (connection and self.is_again(connection, of)):
            if connection is not None:
                yield from self.over(connection, order)
            connection = self.live[key] = Connection(of.source, of.target)
        elif connection is None and (of.data or of.flags & SYN):
            # without its first SYN: the answer to that is the server's
            ends = (of.target, of.source) if of.flags & SYN else (of.source, of.target)
            connection = self.live[key] = Connection(*ends)
        if connection is not None and not connection.is_other and not connection.is_over:
            yield from self.goes_on(connection, order, time, of)

    def goes_on(self, connection, order, time, of):
        for time, side, what in connection.take(order, time, of):
            yield from self.seen(connection, time, side, what)
        if connection.has_ended():
            yield from self.over(connection, order)

    def is_again(self, connection, of):
        """Whether a SYN is one that was sent again."""
        if connection.is_other or connection.is_over:
            return False
        return connection.client == of.source and connection.ways["A"].first == (of.sequence + 1) % ROUND

    def over(self, connection, order):
        if connection.is_over or connection.is_other:
            return
        for time, side, what in connection.finish(order):
            yield from self.seen(connection, time, side, what)
        if connection.number:
            yield connection, None, None, None
        elif connection.early:
            self.leave(connection)

    def leave(self, connection):
        connection.leave()
        self.others += 1

    def seen(self, connection, time, side, what):
        """What is told of a connection. It speaks AMQP where its first bytes say so; what came until then goes out after that."""
        if connection.number:
            yield connection, time, side, what
        elif not connection.is_other:
            connection.early.append((time, side, what))
            front = b"".join(it for _, by, it in connection.early if by == side and isinstance(it, bytes))
            if front.startswith(HEADER) and self.count < MOST_CONNECTIONS:
                self.count += 1
                connection.number = self.count
                yield from ((connection, *it) for it in connection.early)
                connection.early = []
            elif not HEADER.startswith(front):
                self.leave(connection)
