"""Draws parts of a table of plots.py as curves, several charts beside each other, over axes that are both logarithmic."""

import math
from typing import NamedTuple

from bench.shapes import WIDE, colour_of, named, text

# Charts in a row, and of a chart its width, its height with its names, and what is left free around its curves
BESIDE, ACROSS, DOWN, LEFT, RIGHT, TOP, BOTTOM = 3, WIDE / 3, 178, 42, 22, 26, 34
STEPS = (1, 2, 5)
# So much of the least number, below which the axis begins: its text has room there
ROOM = 0.7


class Axis(NamedTuple):
    """A logarithmic axis: from a number to a number, and where on the picture these are."""

    least: float
    most: float
    begins: float
    ends: float

    def at(self, number):
        part = math.log(number / self.least) / math.log(self.most / self.least)
        return round(self.begins + part * (self.ends - self.begins), 1)


def steps(least, most):
    """The numbers 1, 2, 5, 10, 20 and so on, from one that is not above the least to one that is not below the most."""
    found = [step * 10**power for power in range(int(math.log10(least)), int(math.log10(most)) + 2) for step in STEPS]
    first = max(it for it in found if it <= least)
    return [it for it in found if first <= it < most] + [min(it for it in found if it >= most)]


def place_of(column):
    """The number of a column on the axis, and of what day it is where that is told."""
    number, _, day = column.partition(" of ")
    return int(number), day


def short(number):
    for size, letter in ((10**6, "M"), (10**3, "k")):
        if number >= size and number % size == 0:
            return f"{number // size}{letter}"
    return str(number)


def curve(what, points, x, y):
    """The curve of a row through what was measured; what is of another day is hollow, and the way there is dashed."""
    colour = colour_of(what)
    for (before, _, low), (here, day, high) in zip(points, points[1:]):
        dashed = ' stroke-dasharray="4 3"' if day else ""
        yield f'<path class="curve l{colour}"{dashed} d="M{x.at(before)} {y.at(low)}L{x.at(here)} {y.at(high)}"/>'
    for here, day, number in points:
        yield f'<circle class="l{colour} {"back" if day else f"c{colour}"}" cx="{x.at(here)}" cy="{y.at(number)}" r="2.5"/>'
    if points:
        here, day, number = points[-1]
        yield text(x.at(here), round(y.at(number) + (-6 if colour or day else 14), 1), f"{number:,}", "small", "middle")


def chart(part, left, top, marks):
    places = [place_of(it) for it in part.columns]
    x = Axis(places[0][0], places[-1][0], left + LEFT, left + ACROSS - RIGHT)
    y = Axis(marks[0], marks[-1], top + DOWN - BOTTOM, top + TOP)
    yield text(left + 8, top + 14, part.name, "title")
    for it in marks:
        yield f'<path class="grid" d="M{x.begins} {y.at(it)}H{x.ends}"/>'
        yield text(x.begins - 5, y.at(it) + 4, f"{it:,}", "small", "end")
    for number, _ in places:
        yield text(x.at(number), y.begins + 15, short(number), "small", "middle")
    for what, numbers in part.rows:
        yield from curve(what, [(*place, it) for place, it in zip(places, numbers) if it is not None], x, y)


def charts(parts, y):
    """The shapes of these parts from this height on, all over one scale, and where they end."""
    names = [what for what, _ in parts[0].rows]
    days = {day for part in parts for _, day in map(place_of, part.columns) if day}
    said = ["Both axes are logarithmic."] + [f"Hollow, after a dashed line: of {day}." for day in sorted(days)]
    found, y = [*named(names, 8, y, 200), text(8, y + 28, " ".join(said), "small")], y + 42
    measured = [it for part in parts for _, numbers in part.rows for it in numbers if it is not None]
    marks = steps(ROOM * min(measured), max(measured))
    for at, part in enumerate(parts):
        found += chart(part, at % BESIDE * ACROSS, y + at // BESIDE * DOWN, marks)
    return found, y + -(-len(parts) // BESIDE) * DOWN
