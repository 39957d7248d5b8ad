"""Random rows of dispositions, answered by a plain model: a list of open deliveries, a filter, and runs that are found number by number.

The model knows the standard alone (AMQP 1.0 part 2, sections 2.6.12 and 2.7.6). Numbers stand near 0, near 2^31 and near 2^32; transfers
of both sides open deliveries under links that ask for echoes, that ask for none, and that are gone.

Of 2,300 rows that are drawn 200 are stored. What was compared are the kinds that session_kinds.py names: 802 in the
2,300, each of them in the 200, where 200 that are taken as they were drawn have 611. They are calls with their role,
settlement and state; shapes of ranges, and whether these pass 2^31 or the wrap; counts of deliveries that are meant,
left and open; runs of echoes; links that ask, ask for none or are gone; windows, and refusals. Wrong models were
compared too: 57 of 62 change an answer of the 2,300, and each of these one of the 200. `expected_session.py --random`
writes others, and says which kinds they reach that no stored row does.
"""

from random import Random

from gen import session_kinds as kinds
from gen.row import ACCEPTED, LAST, RECEIVED, RELEASED, SessionRows, detach, disposition, echo, flow, refused, transfer

CIRCLE, HALF = 2**32, 2**31
CALLS = 12

# so many rows are drawn, in the last ones of which this side settles by itself too, and so many of them are stored
DRAWN, SETTLED_HERE, STORED = 2300, 300, 200

# input handles, and whether the link that stands under one at first asks for echoes; under 9 there is none
HANDLES = {0: True, 4: False, 6: True}


class Delivery:
    def __init__(self, number, handle, tag):
        self.number, self.handle, self.tag = number, handle, tag


class Model:
    """What a session is to answer."""

    def __init__(self):
        self.sent, self.received = [], []
        # by input handles: whether a link asks for echoes, and its output handle
        self.asking, self.outputs, self.names = {}, {}, []
        self.outgoing, self.next_incoming, self.peer_window = 0, 0, 8

    def link(self, handle, asks):
        """A link stands under the input handle, in the place of another one; its output handle and name."""
        self.asking[handle] = asks
        self.outputs[handle] = len(self.names)
        self.names.append(f"l{len(self.names)}")
        return self.outputs[handle], self.names[-1]

    def unlink(self, handle):
        """The link under the input handle is gone; its output handle."""
        del self.asking[handle]
        return self.outputs[handle]

    def opened(self, deliveries, delivery):
        return [it for it in deliveries if it.number != delivery.number] + [delivery]

    def send(self, handle, tag, settled):
        """The number of the delivery."""
        if not settled:
            self.sent = self.opened(self.sent, Delivery(self.outgoing, handle, tag))
        self.outgoing += 1
        return self.outgoing - 1

    def receive(self, number, handle, tag, settled):
        """Whether a link takes the transfer."""
        self.next_incoming += 1
        self.peer_window = max(0, self.peer_window - 1)
        if handle in self.asking and not settled:
            self.received = self.opened(self.received, Delivery(number, handle, tag))
        return handle in self.asking

    def meant(self, first, last, of_receiver):
        """The open deliveries of a range, in its order."""
        end = first if last is None else last
        if (end - first) % CIRCLE >= HALF:
            return []
        deliveries = self.sent if of_receiver else self.received
        within = [it for it in deliveries if (it.number - first) % CIRCLE <= (end - first) % CIRCLE]
        return sorted(within, key=lambda it: (it.number - first) % CIRCLE)

    def settle(self, meant, of_receiver):
        if of_receiver:
            self.sent = [it for it in self.sent if it not in meant]
        else:
            self.received = [it for it in self.received if it not in meant]

    def asks(self, delivery, state):
        return self.asking.get(delivery.handle, False) and (state is None or not delivery.tag.startswith("n"))

    def echoes(self, meant, state):
        """The runs of those whose links ask: a number that follows the one before goes on with the run."""
        found = []
        for number in [it.number for it in meant if self.asks(it, state)]:
            if found and (found[-1][1] + 1) % CIRCLE == number:
                found[-1] = (found[-1][0], number)
            else:
                found.append((number, number))
        return found

    def give(self, first, last, state):
        """A disposition goes out: a terminal state opens the peer's window again."""
        end = first if last is None else last
        span = (end - first) % CIRCLE
        if state in (ACCEPTED, RELEASED):
            self.peer_window = min(LAST, self.peer_window + (span + 1 if span < HALF else 1))


class Script:
    """A row: calls that chance chooses, each with the model's answer, and the kinds of them that it reached."""

    def __init__(self, rows, seed, settles_here):
        self.rows, self.chance, self.model = rows, Random(seed), Model()
        self.kinds = 25 if settles_here else 20
        self.reached = set()
        rows.row(f"Random dispositions, {seed}")
        rows.new("Mapped")
        rows.ask("recv 7 " + flow(0, 1000), "none")
        for handle, asks in HANDLES.items():
            self.link(handle, asks)
        # a place on the circle around which the received numbers of this row stand
        self.middle = self.chance.choice([0, 0, HALF, 5, LAST, 77])

    def near(self):
        """A number around the row's place, or opposite to it."""
        opposite = HALF if self.chance.randrange(8) == 0 else 0
        return (self.middle + opposite + self.chance.randrange(-9, 10)) % CIRCLE

    def handle(self):
        return self.chance.choice([0, 0, 0, 4, 6, 6, 9])

    def tag(self):
        return self.chance.choice(["y", "y", "n", "yn", "ny"])

    def link(self, handle, asks):
        output, name = self.model.link(handle, asks)
        self.rows.ask(f"{'link-incoming' if asks else 'link-deaf'} {handle} {name}", f"handle {output}")

    def range(self):
        """The first and the last number of a range, mostly a short one; the last may be missing, or after half of the circle."""
        first = self.near()
        kind = self.chance.randrange(12)
        if kind == 0:
            return first, None
        if kind < 3:
            return first, (first + self.chance.choice([HALF - 1, HALF - 2, HALF, HALF + 1, LAST])) % CIRCLE
        if kind == 3:
            return first, self.near()
        return first, (first + self.chance.randrange(14)) % CIRCLE

    def sent(self):
        handle, tag, settled = self.handle(), self.tag(), self.chance.choice([None, False, True, None])
        self.reached.update(kinds.sent(self.model, handle, tag, settled))
        number = self.model.send(handle, tag, settled)
        self.rows.ask(f"first {handle} {transfer(text=tag, settled=settled)}6d", f"out 0 {transfer(number, tag, settled=settled)} 6d")

    def received(self):
        number, handle, tag, settled = self.near(), self.handle(), self.tag(), self.chance.choice([None, None, None, True])
        self.reached.update(kinds.received(self.model, number, handle, tag, settled))
        is_taken = self.model.receive(number, handle, tag, settled)
        self.rows.ask(f"recv 7 {transfer(number, tag, handle, settled=settled)}6d", "none" if is_taken else refused("UnattachedHandle"))

    def detached(self):
        """The peer detaches a link, or another link takes its place."""
        handle = self.chance.choice([0, 4, 6])
        self.reached.update(kinds.detached(self.model, handle))
        if handle in self.model.asking and self.chance.randrange(2):
            self.rows.ask("recv 7 " + detach(handle), "detach " + detach(self.model.unlink(handle)))
        else:
            self.link(handle, self.chance.randrange(3) > 0)

    def heard(self, settled):
        of_receiver, state = self.chance.randrange(3) == 0, self.chance.choice([ACCEPTED, ACCEPTED, RECEIVED, None])
        self.hear(*self.range(), settled, state, of_receiver)

    def hear(self, first, last, settled, state, of_receiver):
        """A disposition comes; the walk reads what it means, and at most one more."""
        meant = self.model.meant(first, last, of_receiver)
        runs = self.model.echoes(meant, state)
        self.reached.update(kinds.heard(self.model, first, last, settled, state, of_receiver, meant, runs))
        before = len(self.model.sent if of_receiver else self.model.received)
        line = "recv 7 " + disposition(first, last, settled, state, of_receiver, self.chance.randrange(4) == 0)
        if settled:
            self.model.settle(meant, of_receiver)
            self.rows.ask(line, "none")
        else:
            self.rows.ask(line, "list", *("disposition " + echo(*run, state) for run in runs))
        is_forward = ((first if last is None else last) - first) % CIRCLE < HALF
        bounds = (len(meant), len(meant) + 1, before.bit_length() + 1) if is_forward else (0, 0, 0)
        self.rows.ask("walk {} {} {}".format(*bounds), "ok")

    def given(self):
        first, last = self.range()
        state = self.chance.choice([ACCEPTED, RELEASED, RECEIVED, None])
        settled, of_receiver = self.chance.randrange(2) == 0, self.chance.randrange(2) == 0
        said = disposition(first, last, settled, state, of_receiver)
        before = self.model.peer_window
        self.model.give(first, last, state)
        self.reached.update(kinds.given(self.model, first, last, settled, state, of_receiver, before))
        self.rows.ask("disposition " + said, "out 0 " + said)

    def settled_here(self):
        """This side settles a range by itself: those that are open are let go, and no link is asked."""
        is_sender = self.chance.randrange(3) == 0
        first, last = self.range()
        gone = self.model.meant(first, last, is_sender)
        self.model.settle(gone, is_sender)
        self.reached.update(kinds.settled_here(self.model, first, last, is_sender, gone))
        role = "sender" if is_sender else "receiver"
        self.rows.ask(f"settle {role} {first}" + ("" if last is None else f" {last}"), str(len(gone)))

    def call(self):
        """A call that chance chooses: more deliveries are opened than settled."""
        kind = self.chance.randrange(self.kinds)
        if kind < 4:
            self.sent()
        elif kind < 11:
            self.received()
        elif kind < 17:
            self.heard(settled=kind < 13)
        elif kind == 17:
            self.detached()
        elif kind < 20:
            self.given()
        else:
            self.settled_here()

    def show(self):
        model = self.model
        self.rows.show(
            "Mapped",
            next_outgoing_id=model.outgoing,
            remote_incoming_window=1000 - model.outgoing,
            next_incoming_id=model.next_incoming,
            remote_outgoing_window=model.peer_window,
            open_deliveries=len(model.sent) + len(model.received),
        )

    def open_ones(self):
        """Every link asks for echoes now, so that a disposition without a state over each half of the circle shows what is open."""
        self.reached.update(kinds.open_ones(self.model))
        for handle in (*HANDLES, 9):
            self.link(handle, True)
        for of_receiver in (True, False):
            for first in (0, HALF):
                self.hear(first, (first + HALF - 1) % CIRCLE, False, None, of_receiver)


def script(rows, seed, settles_here):
    """Writes a row; the kinds that it reached."""
    it = Script(rows, seed, settles_here)
    for _ in range(CALLS):
        it.call()
        if it.chance.randrange(6) == 0:
            it.show()
    it.show()
    it.open_ones()
    return it.reached


def drawn(rows, seed):
    return script(rows, seed, settles_here=seed >= DRAWN - SETTLED_HERE)


def chosen():
    """The seeds of the rows that are stored: in turn that which reaches most that is left. Where nothing is left, all is once more."""
    reached = {seed: drawn(SessionRows(), seed) for seed in range(DRAWN)}
    seeds, left = [], set()
    for _ in range(STORED):
        left = left or set().union(*reached.values())
        seeds.append(max(reached, key=lambda seed: len(reached[seed] & left)))
        left -= reached.pop(seeds[-1])
    return sorted(seeds)


def write(rows):
    """The rows that are stored; the kinds that they reached."""
    return set().union(*(drawn(rows, seed) for seed in chosen()))


def write_random(rows, seed, count):
    """So many others, drawn from the seed; this side settles by itself in each eighth."""
    return set().union(*(script(rows, f"{seed}/{at}", settles_here=at % 8 == 7) for at in range(count)))
