"""A plain model of two sessions that face each other, for session_pairs.py: what the standard wants of each call of a pair.

It knows the session endpoint of the standard alone (AMQP 1.0 part 2, sections 2.5 to 2.7): the frames on the way are two lists, and after
each call the three facts of the window are counted on them.
"""

CIRCLE, LAST = 2**32, 2**32 - 1

MAPPED = "Mapped"
SENDS_BEGIN = {"Unmapped": "BeginSent", "BeginReceived": MAPPED}
TAKES_BEGIN = {"Unmapped": "BeginReceived", "BeginSent": MAPPED}
NAMES = {"a": "a", "d": "d", "h": "a", "j": "d"}


class Frame:
    def __init__(self, kind, **said):
        self.kind = kind
        self.__dict__.update(said)


class End:
    """One session."""

    def __init__(self, first, window):
        self.first, self.window = first, window
        self.state, self.next, self.left = "Unmapped", first, 0
        self.incoming, self.outgoing, self.count = 0, 0, 0
        self.held, self.delivery, self.open_sent, self.open_received = [], 0, set(), set()
        # names with a relay that waits, names that are live, and the input handles that have a relay
        self.waiting, self.live, self.attached = set(), {}, {}
        # the transfers that the links took, by their delivery numbers
        self.delivered = []

    def flow(self, handle=None, echo=False):
        return Frame("flow", to=self.incoming, window=self.window, next=self.next, outgoing=5000, handle=handle, echo=echo)

    def lets_out(self):
        """What waits goes out while the window lasts; each delivery is numbered on its first frame."""
        out = []
        while self.held and self.left:
            handle, is_first, settled = self.held.pop(0)
            number = None
            if is_first:
                number = self.delivery
                self.delivery = (self.delivery + 1) % CIRCLE
                if not settled:
                    self.open_sent.add(number)
            out.append(Frame("transfer", handle=handle, number=number, settled=settled))
            self.next, self.left = (self.next + 1) % CIRCLE, self.left - 1
        return out

    # ---- its own calls: an answer, and the frames that go out

    def begin(self):
        if self.state not in SENDS_BEGIN:
            return "i", []
        self.state = SENDS_BEGIN[self.state]
        return ".", [Frame("begin", next=self.next, window=self.window, outgoing=5000)]

    def allot(self, name):
        if self.state != MAPPED:
            return "s", []
        if name in self.live:
            return "d", []
        self.live[name] = len(self.live)
        self.waiting.add(name)
        return ".", []

    def send(self, frame):
        return (".", [frame]) if self.state == MAPPED else ("i", [])

    def transfer(self, handle, is_first, has_tag, settled):
        if self.state != MAPPED or (is_first and not has_tag):
            return "i", []
        self.held.append((handle, is_first, settled))
        return ".", self.lets_out()

    # ---- what comes

    def takes_begin(self, frame):
        self.state = TAKES_BEGIN[self.state]
        self.incoming, self.left, self.outgoing = frame.next, frame.window, frame.outgoing
        return ".", []

    def takes_attach(self, frame):
        if frame.name not in self.live:
            return "n", []
        if frame.name not in self.waiting:
            return "h", []
        self.waiting.remove(frame.name)
        self.attached[frame.handle] = self.live[frame.name]
        return ".", []

    def takes_flow(self, frame):
        self.incoming, self.outgoing = frame.next, frame.outgoing
        self.left = max(0, frame.window - (self.next - frame.to) % CIRCLE)
        if frame.handle is None:
            return ".", self.lets_out()
        if frame.handle not in self.attached:
            return "u", []
        echoes = [self.flow(self.attached[frame.handle])] if frame.echo else []
        return ".", echoes + self.lets_out()

    def takes_transfer(self, frame):
        self.incoming, self.outgoing = (self.incoming + 1) % CIRCLE, max(0, self.outgoing - 1)
        self.count = min(LAST, self.count + 1)
        if frame.handle not in self.attached:
            return "u", []
        self.delivered.append(frame.number)
        if frame.number is not None and not frame.settled:
            self.open_received.add(frame.number)
        if self.count < self.window // 2:
            return ".", []
        self.count = 0
        return ".", [self.flow()]

    def shows(self, coming):
        numbers = [self.next, self.left, self.incoming, self.outgoing, len(self.held), len(self.open_sent) + len(self.open_received)]
        return [*numbers, len(coming)]


class Pair:
    """Two sessions, and the frames on the way to each."""

    def __init__(self, first_a, window_a, first_b, window_b):
        self.ends = [End(first_a, window_a), End(first_b, window_b)]
        self.coming = [[], []]

    def arrive(self, side):
        if not self.coming[side]:
            return ".", []
        frame = self.coming[side].pop(0)
        end = self.ends[side]
        return {"begin": end.takes_begin, "attach": end.takes_attach, "flow": end.takes_flow, "transfer": end.takes_transfer}[frame.kind](frame)

    def does(self, side, letter):
        end = self.ends[side]
        if letter == "b":
            return end.begin()
        if letter == "r":
            return self.arrive(side)
        if letter in "ad":
            return end.allot(NAMES[letter])
        if letter in "hj":
            return end.send(Frame("attach", name=NAMES[letter], handle="hj".index(letter)))
        if letter in "few":
            return end.send(end.flow(7 if letter == "w" else 0, letter == "e"))
        return end.transfer(7 if letter == "v" else 0, letter != "c", letter not in "uc", letter == "s")

    def call(self, letter):
        """What a call answers: of A where the letter is small, of B where it is a capital one."""
        side = 0 if letter.islower() else 1
        said, out = self.does(side, letter.lower())
        self.coming[1 - side] += out
        self.check(0)
        self.check(1)
        return said

    def check(self, side):
        """The facts of the window, of what goes from this side to the other."""
        sender, taker = self.ends[side], self.ends[1 - side]
        on_the_way = sum(frame.kind == "transfer" for frame in self.coming[1 - side])
        assert on_the_way <= taker.window
        if sender.state == taker.state == MAPPED:
            assert on_the_way == (sender.next - taker.incoming) % CIRCLE
            if not self.coming[0] and not self.coming[1]:
                assert taker.window - taker.count <= sender.left <= taker.window

    def shows(self, side):
        return self.ends[side].shows(self.coming[side])
