"""The rows of a pair of sessions, which stand at the end of those of the program rows_session, and the answers that the standard wants.

The answers of the short rows stand here as a person wrote them. Those of the 100,000 random calls, drawn from a fixed seed, are the plain
model's in pair_model.py, which counts the facts of the window after each call. Nothing is taken from the program's output.
"""

from random import Random

from gen.pair_model import LAST, Pair

WINDOWS = [0, 1, 2, 5000, LAST]
SEED = 2026


class Rows:
    """The lines of the input, and those of the output."""

    def __init__(self):
        self.asked, self.said, self.pair, self.called = [], [], None, 0

    def row(self, title, first_a=0, window_a=5000, first_b=0, window_b=5000):
        """A row begins, with a new pair."""
        self.asked += [f"# {title}", f"new {first_a} {window_a} {first_b} {window_b}"]
        self.said.append(f"# {title}")
        self.pair = Pair(first_a, window_a, first_b, window_b)

    def calls(self, letters, answers=None, **shown):
        """Calls, what they answer, and numbers that a side shows in the end, by its name and the number's, as `a_left`."""
        given, total = "", 0
        for letter in letters:
            given += self.pair.call(letter)
            for number in self.pair.shows(0) + self.pair.shows(1):
                total = (total * 1000003 + number) % 2**64
        assert answers in (None, given), (letters, given)
        for name, number in shown.items():
            self.is_shown(name, number)
        self.asked.append(letters)
        self.said.append(f"{given} {total}")
        self.said += [self.side("A", 0), self.side("B", 1)]
        self.called += len(letters)

    def is_shown(self, name, number):
        side, _, what = name.partition("_")
        end = self.pair.ends["ab".index(side)]
        told = {"coming": len(self.pair.coming["ab".index(side)]), "left": end.left, "held": len(end.held), "next": end.next}[what]
        assert told == number, (name, told)

    def side(self, name, side):
        names = ["next", "window", "incoming", "outgoing", "held", "open", "coming"]
        numbers = " ".join(f"{it}={number}" for it, number in zip(names, self.pair.shows(side)))
        return f"{name} {self.pair.ends[side].state} {numbers}"


# both begin, the Begins come, and a link stands on both sides
OPENED, LINKED = "bBrR", "aAhRHr"


def each_call(rows):
    """Each of the calls, with all well and refused."""
    rows.row("Each call before a Begin, and once more when both are mapped")
    rows.calls("arRhfetsvuc", "s..iiiiiiii", a_coming=0, b_coming=0)
    rows.calls("b", ".", b_coming=1)
    rows.calls("bhta", "iiis")
    rows.calls("RBr", "...", a_coming=0, b_coming=0)
    rows.calls("bB", "ii")
    rows.calls("aad", ".d.")
    rows.calls("Ah", "..", b_coming=1)
    rows.calls("R", ".")
    rows.calls("hRjR", ".h.n")
    rows.calls("fRwRvR", ".. .u.u".replace(" ", ""), a_coming=0)
    rows.calls("tscu", "...i", b_coming=3, b_held=0, a_next=4)
    rows.calls("RRRR", "....")


def a_window_of_two(rows):
    """Three transfers of A, of which B's window takes two; the session flow lets the third go."""
    rows.row("B's window is 2: two are on the way, one is held back; a session flow lets it go", window_b=2)
    rows.calls(OPENED, "....", a_left=2)
    rows.calls("AaHrhR", "......")
    rows.calls("ttt", "...", b_coming=2, a_held=1, a_left=0)
    rows.calls("R", ".", a_coming=1, b_coming=1)
    rows.calls("r", ".", a_coming=0, b_coming=2, a_held=0)
    rows.row("The same without a link: both arrivals are refused, A's window stays 0, until a flow of B's comes", window_b=2)
    rows.calls(OPENED, "....", a_left=2)
    rows.calls("ttt", "...", b_coming=2, a_held=1)
    rows.calls("RR", "uu", a_coming=0, b_coming=0, a_left=0)
    rows.calls("Fr", ".u", a_left=2, a_held=1)


def begins(rows):
    """The Begins, in each order."""
    for title, letters in [("A begins, and B answers", "bRBr"), ("Both begin at once", "bBRr"), ("B begins, and A answers", "BrbR")]:
        rows.row(title, LAST, 1, LAST - 1, 2)
        rows.calls(letters, "....", a_left=2, b_left=1)
        rows.calls("tTtTt", ".....", a_held=1, b_held=1)


def echoes(rows):
    """The echo of a flow goes before what that flow lets out, and says the number from before it."""
    rows.row("An echo stands before the transfer that its flow lets out", LAST, 5, LAST, 1)
    rows.calls(OPENED + LINKED, "." * 10, a_left=1)
    rows.calls("tt", "..", b_coming=1, a_held=1)
    rows.calls("RrTEr", ".....")
    rows.calls("RRR", "...", b_coming=0)


def drawn(random, length):
    """Random calls: both sides send and receive; sometimes one side alone sends for a while, or everything arrives."""
    letters = []
    while len(letters) < length:
        kind = random.random()
        if kind < 0.02:
            letters += random.choice("tTcC") * random.randrange(1, length // 4)
        elif kind < 0.04:
            letters += random.choice("rR") * random.randrange(1, length // 4)
        elif kind < 0.06:
            letters += "rR" * random.randrange(1, 40)
        else:
            letters += random.choices("tscuvferwrrrrhjadbTSCUVFERWRRRRHJADB", k=random.randrange(1, 60))
    return letters[:length]


def random_calls(rows):
    """A hundred thousand calls, over all pairs of windows, with numbers that begin just below the wrap."""
    random = Random(SEED)
    before = rows.called
    for window_a in WINDOWS:
        for window_b in WINDOWS:
            is_long = 5000 in (window_a, window_b)
            first_a, first_b = (random.randrange(LAST - 30, LAST + 1) for _ in range(2))
            rows.row(f"Random calls, windows {window_a} and {window_b}", first_a, window_a, first_b, window_b)
            letters = random.sample(OPENED, 4) + list(LINKED) + drawn(random, 8800 if is_long else 1310)
            for at in range(0, len(letters), 400):
                rows.calls("".join(letters[at : at + 400]))
    assert rows.called - before >= 100000, rows.called - before
    print(f"{rows.called - before} random calls")


def write(session_rows):
    """Puts the rows of pairs after those of sessions."""
    rows = Rows()
    for part in (each_call, a_window_of_two, begins, echoes, random_calls):
        part(rows)
    session_rows.asked += ["pairs", *rows.asked]
    session_rows.said += rows.said
