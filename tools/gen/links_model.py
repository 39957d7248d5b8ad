"""Random rows of links, answered by the plain model of tools/amqp/session_links.py.

Counts and numbers stand near 0, near 2^31 and near 2^32. Senders and receivers stand under few handles; their Attaches are accepted or
refused; flows, transfers and Detaches come, faults among them; what is prepared is finished or not; what is settled are ranges of each
shape; and links come again under handles that are free.

Of 3,000 rows that are drawn 150 are stored. What was compared are the kinds that links_kinds.py names: 1,492 in the
3,000, each of them in the 150, where 150 that are taken as they were drawn have 1,260. They are calls with the life of
their end, credit beside what the receiver has not seen, places on the circle, drains and echoes, parts by number, tag,
format, settlement and size, ranges by their shape, and what is unsettled on the link and beside it.
"""

from random import Random

from amqp.links import CIRCLE, HALF
from amqp.session_links import SessionLinks
from gen import links_kinds as kinds
from gen.links_lines import Model, flag
from gen.row import LAST, Rows

CALLS = 70

# so many rows are drawn, and so many of them are stored
DRAWN, STORED = 3000, 150

LIMITS = ["-", "0", "5", "10", str(2**64 - 1)]


class Script:
    """A row: calls that chance chooses, each with the model's answer, and the kinds of them that it reached."""

    def __init__(self, rows, seed, made=SessionLinks):
        self.rows, self.chance, self.model = rows, Random(f"links {seed}"), Model(made)
        self.reached = set()
        rows.row(f"Random calls of links, {seed}")
        # places on the circle near which counts and numbers stand, and the next numbers of both directions
        self.counts = self.chance.choice([0, 0, 5, LAST, LAST - 2, HALF - 2])
        self.next = {way: self.chance.choice([0, 7, LAST, LAST - 3, HALF - 3]) for way in ("sent", "received")}
        # of each handle the number of the delivery that is being sent
        self.sending = {}
        self.ask("new")
        for handle in range(3):
            self.add(handle)

    def ask(self, line):
        facts = list(kinds.facts(self.model, line))
        answer = self.model.answer(line)
        self.reached.update(kinds.kind(fact, answer) for fact in facts)
        self.rows.ask(line, answer)
        return answer

    def one_in(self, count):
        return self.chance.randrange(count) == 0

    def handle(self):
        return self.chance.choice([0, 0, 0, 1, 1, 1, 2, 2, 3, 9]) if self.one_in(3) else self.chance.choice(list(self.model.links.ends) or [0])

    def handle_of(self, kind):
        """A handle under which mostly an end of this kind is attached."""
        fit = [handle for handle, end in self.model.links.ends.items() if end.kind == kind and end.life == "Attached"]
        return self.handle() if not fit or self.one_in(12) else self.chance.choice(fit)

    def count(self):
        return (self.counts + self.chance.randrange(4)) % CIRCLE

    # links that come and go

    def add(self, handle):
        """An end comes, and mostly it is attached and has credit."""
        if self.one_in(2):
            self.ask(f"sender {handle} {self.count()}")
        else:
            marks = self.chance.choice(["- -", "- -", "2 4", "3 3", "5 2", "0 0", "1 0"])
            self.ask(f"receiver {handle} {marks} {self.chance.choice(LIMITS)}")
        if not self.one_in(6):
            self.attach(handle)
        if not self.one_in(4):
            self.credit(handle)

    def credit(self, handle):
        end = self.model.links.end(handle)
        if end and end.kind == "sending":
            self.ask(f"flow {handle} {self.chance.choice(['-', str(end.count % CIRCLE)])} {self.chance.choice([3, 5, 10, LAST])} false false")
        else:
            self.ask(f"grant {handle} {self.chance.choice([3, 5, 10, LAST])}")

    def attach(self, handle):
        is_accepted = not self.one_in(8)
        self.ask(f"attach {handle} {flag(is_accepted)} {self.count()} {self.chance.choice(LIMITS)}")

    def gone(self, handle):
        """A link goes: both detach, what is left is told, and the handle is free; or some of this."""
        steps = [f"detach {handle}", f"on-detach {handle}", *[f"left {handle}"] * self.chance.randrange(5), f"remove {handle}"]
        for step in steps:
            if not self.one_in(3):
                self.ask(step)
        if handle not in self.model.links.ends and not self.one_in(4):
            self.add(handle)

    def coming(self):
        handle, kind = self.handle(), self.chance.randrange(8)
        if kind < 3:
            self.add(handle)
        elif kind == 3:
            self.attach(handle)
        else:
            self.ask(f"{['room', 'detach', 'on-detach', 'remove'][kind - 4]} {handle}")

    # flows

    def told(self):
        """A flow of the peer's comes."""
        handle = self.handle()
        end = self.model.links.end(handle)
        if end is None or end.kind == "sending":
            self.told_to_sender(handle, 0 if end is None else end.count)
        else:
            self.told_to_receiver(handle, end)

    def told_to_sender(self, handle, at):
        count = (at - self.chance.choice([0, 0, 0, 1, 1, 2, 3, 4, -1, -2, HALF])) % CIRCLE
        named = "-" if self.one_in(8) else count
        credit = self.chance.choice(["-", 0, 1, 1, 2, 3, 4, 10, 10, HALF, LAST])
        self.ask(f"flow {handle} {named} {credit} {flag(self.one_in(3))} {flag(self.one_in(4))}")

    def told_to_receiver(self, handle, end):
        used = self.chance.choice([0, 0, 0, 1, 2, end.credit(), end.credit(), -1, -2])
        if self.one_in(12):
            used = self.chance.choice([end.credit() + 1, end.credit() + 2, HALF - 1, HALF])
        named = "-" if self.one_in(6) else (end.count + used) % CIRCLE
        self.ask(f"flow {handle} {named} {self.chance.choice(['-', '3'])} {flag(self.one_in(4))} {flag(self.one_in(2))}")

    def says(self):
        """A flow of this side's, at once or in two halves."""
        handle = self.handle()
        call = self.chance.choice(["answer", "answer", "grant", "drain", "renew", "renew"])
        asked = [at for at, end in self.model.links.ends.items() if end.echoes and end.life == "Attached"]
        if asked and self.one_in(2):
            handle, call = self.chance.choice(asked), "answer"
        more = {"answer": [0, 0, 3], "grant": [0, 1, 2, 3, 5, 10, HALF, LAST]}.get(call)
        line = f"{call} {handle}" + (f" {self.chance.choice(more)}" if more else "")
        if not self.one_in(4):
            if self.ask(line) != "none" and self.one_in(4):
                self.ask(line)
        elif self.ask(f"prepare-flow {line}") != "none" and not self.one_in(3):
            self.ask("finish-flow")

    # parts of deliveries

    def number(self, way):
        """A number for a delivery that begins: mostly the next one."""
        kind = self.chance.randrange(24)
        if kind == 0:
            return (self.next[way] - self.chance.randrange(1, 4)) % CIRCLE
        if kind == 1:
            return (self.next[way] + self.chance.choice([HALF - 1, HALF, HALF - 4])) % CIRCLE
        if kind == 2:
            self.next[way] = (self.next[way] + self.chance.randrange(3)) % CIRCLE
        return self.next[way]

    def given(self):
        return self.chance.choice([0, LAST + 1, 2**64 - 1]) if self.one_in(9) else self.chance.randrange(1, 1000)

    def sends(self):
        handle = self.handle_of("sending")
        end = self.model.links.end(handle)
        is_first = end is None or end.kind != "sending" or end.is_first()
        number = self.number("sent") if is_first else self.sending[handle]
        ends = ["more", "more", "last", "aborted"] if not is_first else ["more", "more", "last", "last", "last", "aborted"]
        how = self.chance.choice(ends)
        size = 2**64 - 1 if self.one_in(30) else self.chance.choice([0, 1, 2, 3, 5, 5, 6, 10, 11])
        words = f"{handle} {number} {size} {how} {flag(self.one_in(4))} {self.given()}"
        is_done = self.sent(words)
        if is_done and is_first:
            self.sending[handle] = number
            self.next["sent"] = (number + 1) % CIRCLE

    def sent(self, words):
        """Whether the transfer went out, at once or in two halves."""
        if not self.one_in(3):
            return not self.ask(f"send {words}").startswith("err")
        if self.ask(f"prepare-send {words}").startswith("err"):
            return False
        if self.one_in(3):
            self.ask("cancel-send")
            return False
        self.ask("finish-send")
        return True

    def comes(self):
        """A transfer comes: the first part of a delivery, or a later one, and rarely a wrong one."""
        handle = self.handle_of("receiving")
        end = self.model.links.end(handle)
        current = end.current if end is not None and end.kind == "receiving" else None
        number, tag, form = self.first_part() if current is None else self.later_part(current)
        settled = self.chance.choice(["-", "-", "-", "false", "true"])
        ends = f"{settled} {flag(self.one_in(2))} {flag(self.one_in(10))}"
        answer = self.ask(f"transfer {handle} {number} {tag} {form} {ends} {self.chance.choice([0, 1, 1, 2, 3, 5, 6, 10])} {self.given()}")
        if answer.startswith("part first"):
            self.next["received"] = (number + 1) % CIRCLE

    def first_part(self):
        number, tag = self.number("received"), self.chance.choice(["new", "new", "new", "same"])
        if self.one_in(10):
            number, tag = self.chance.choice([("-", "-"), ("-", "new"), (number, "-"), ("-", "same")])
        return number, tag, self.chance.choice(["-", "0", "1"])

    def later_part(self, current):
        number, tag = self.chance.choice(["-", "-", current["number"]]), self.chance.choice(["-", "-", "same"])
        form = self.chance.choice(["-", "-", "-" if current["format"] is None else current["format"]])
        if self.one_in(8):
            number, tag, form = self.chance.choice([(current["number"] ^ 1, tag, form), (number, "new", form), (number, tag, "2")])
        return number, tag, form

    # what is unsettled

    def settles(self):
        """A range of either direction, called until it has nothing more, or fewer times."""
        way = self.chance.choice(["sent", "received"])
        first, last = self.range(self.next[way])
        for _ in range(self.chance.choice([1, 2, 9])):
            if self.ask(f"settle-{way} {first} {last}") == "none":
                return

    def range(self, near):
        first = (near - self.chance.randrange(12)) % CIRCLE
        kind = self.chance.randrange(10)
        if kind == 0:
            return first, (first + self.chance.choice([HALF - 1, HALF - 2, HALF, HALF + 1, LAST])) % CIRCLE
        return first, (first + self.chance.choice([0, 0, 1, 2, 3, 5, 13])) % CIRCLE

    def reads(self):
        kind = self.chance.randrange(3)
        if kind == 0:
            self.ask(f"end {self.handle()}")
        else:
            way = ["sent", "received"][kind - 1]
            self.ask(f"{way} {(self.next[way] - self.chance.randrange(6)) % CIRCLE}")

    def over(self):
        """What is left where the session is over."""
        self.ask(self.chance.choice(["left-of-sent", "left-of-received"]))

    def call(self):
        """A call that chance chooses, or several that belong together."""
        kinds_of = [self.coming, self.told, self.says, self.sends, self.comes, self.settles, self.reads, self.over]
        self.chance.choices(kinds_of, [2, 6, 6, 9, 9, 4, 3, 1])[0]()
        for handle, end in list(self.model.links.ends.items()):
            if end.life in ("Detaching", "Detached", "Refused") and self.one_in(6):
                self.gone(handle)

    def close(self):
        """What each end and what is unsettled comes to."""
        for handle in sorted(self.model.links.ends):
            self.ask(f"end {handle}")
        for way in ("sent", "received"):
            for _ in range(len(getattr(self.model.links, way)) + 1):
                self.ask(f"left-of-{way}")


def script(rows, seed):
    """Writes a row; the kinds that it reached."""
    it = Script(rows, seed)
    for _ in range(CALLS):
        it.call()
    it.close()
    return it.reached


def chosen():
    """The seeds of the rows that are stored, as those of session_model.py are chosen; and how many kinds all rows reached."""
    reached = {seed: script(Rows(), seed) for seed in range(DRAWN)}
    every = set().union(*reached.values())
    seeds, left = [], set()
    for _ in range(STORED):
        left = left or set(every)
        seeds.append(max(reached, key=lambda seed: len(reached[seed] & left)))
        left -= reached.pop(seeds[-1])
    return sorted(seeds), every


def write(rows):
    """The rows that are stored; the kinds that they reached, and those that all that were drawn reach."""
    seeds, every = chosen()
    return set().union(*(script(rows, seed) for seed in seeds)), every


def write_random(rows, seed, count):
    """So many others, drawn from the seed."""
    return set().union(*(script(rows, f"{seed}/{at}") for at in range(count)))
