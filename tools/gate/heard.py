"""A teller whose lines are a list, for tests of what is told: as captures/judged.rows has them."""

from amqp.telling import WHO, Teller


class Heard(Teller):
    def __init__(self):
        super().__init__()
        self.told = []

    def show(self, tally, side, frame, size, times, found):
        self.told += [f"{WHO[side]}, frame {tally.frames}, {frame.kind}: {text}" for _, text, _, _ in found]

    def note(self, number, what):
        self.told.append(what)

    def over(self, tally):
        self.told.append(f"over, after {tally.frames} frames")
