"""What is the same thing in C, Python, Rust and Rattle, for api.py, as far as names show it.

A function is the same as another where both have its name, and are of the same type: `amqp1_take`, whose first pointer is to an `amqp1`, and `take` of a
`Driver` or an `Engine`; a type where both have its name; a constant where both have its name, and are of the same type or stand by themselves.
"""

import os.path
import re
from collections import defaultdict
from html import escape
from typing import NamedTuple, Optional

from reference.entry import all_of

# The type of which C has a place, by its names elsewhere
SIDE, SIDES = "a side", {"amqp1", "driver", "engine"}
# What has the name of something else
OTHERS = {
    # why a call was refused: in Python and in Rattle the error of a peer, as the standard has it
    ("Rust", "Error"),
    # what a frame says of a link; what C has under that name is `LinkEvent`
    ("Python", "Event"),
}
ORDER = ("C", "Python", "Rust", "Rattle")


def squashed(name):
    """A type's name in any spelling."""
    name = name.removeprefix("amqp1_").replace("_", "").lower()
    return SIDE if name in SIDES else name


class Thing(NamedTuple):
    language: str
    text: str
    address: str
    value: Optional[int] = None


def agree(one, other):
    return None in (one.value, other.value) or one.value == other.value


def value_of(text):
    """The number that a constant's declaration says, if it says one."""
    found = re.search(r"(?:= *|^#define \w+ )(True|False|0[xX][0-9a-fA-F]+|\d+)[uUlL]*;?$", text)
    return None if not found else {"True": 1, "False": 0}.get(found[1]) if found[1][0] in "TF" else int(found[1], 0)


class Same:
    """Things by what they are: each has a language, a text, an address, and of a constant its value, if it is known."""

    def __init__(self):
        self.found, self.loose = defaultdict(list), []

    def put(self, key, language, text, address, value=None):
        if (language, text) not in OTHERS and address not in {it.address for it in self.found[key]}:
            self.found[key].append(Thing(language, text, address, value))

    def links(self):
        """For each address those of the same thing in other languages."""
        for name, it in self.loose:
            self.settle(name, it)
        for key, group in self.found.items():
            self.found[key] = [*self.chosen(group)]
        made = defaultdict(list)
        for group in self.found.values():
            for it in group:
                others = [of for of in group if of.language != it.language and agree(it, of)]
                made[it.address] += [of for of in sorted(others, key=lambda of: ORDER.index(of.language)) if of not in made[it.address]]
        return made

    def settle(self, name, it):
        """A constant that stands by itself is the one of this name in C, where there is one alone with its value."""
        named = [(key, of) for key, of in self.found.items() if key[0] == "constant" and key[2] == name]
        keys = [key for key, of in named if any(other.language == "C" and agree(it, other) for other in of)]
        if len(keys) == 1:
            self.found[keys[0]].append(it)

    def chosen(self, group):
        """Of several types of Rattle with one name that of the crate which has the most of what other languages have; a side may have several."""
        rattle = [it for it in group if it.language == "Rattle"]
        if len({it.text for it in rattle}) == len(rattle):
            return group
        most = max(rattle, key=lambda it: self.shared(it.address.partition("#")[0]))
        return [it for it in group if it.language != "Rattle" or it is most]

    def shared(self, page):
        return sum(len({it.language for it in group}) > 1 and any(it.address.startswith(f"{page}#") for it in group) for group in self.found.values())

    # ---- each language

    def of_header(self, parts, address):
        entries = all_of(parts)
        types = {it.name for it in entries if it.kind == "type"}
        for it in entries:
            if it.kind == "function":
                self.put(function_of_header(it, types), "C", it.name, address(it))
            elif it.kind == "type":
                self.put(("type", squashed(it.name)), "C", it.name, address(it))
                front = os.path.commonprefix([of.name for of in it.inner]).rpartition("_")[0] + "_" if len(it.inner) > 1 else ""
                for of in it.inner:
                    name = of.name.removeprefix(front if len(front) > 1 else "AMQP1_").removeprefix("AMQP1_")
                    self.put(("constant", squashed(it.name), name), "C", of.name, address(of), value_of(of.text))
        for it in (it for part in parts for it in part.entries if it.kind == "constant"):
            self.put(("constant", "", it.name.removeprefix("AMQP1_")), "C", it.name, address(it), value_of(it.text))

    def of_package(self, package, address):
        """Of the classes those that the package hands out, with what they are made of."""
        for it in [it for part in package.parts() for it in part.entries]:
            if it.kind == "class" and "." not in it.name:
                self.put(("type", squashed(it.name)), "Python", it.name, address(it))
                for base in package.lineage(it):
                    for of in base.inner:
                        if of.kind in ("method", "property"):
                            self.put(("function", squashed(it.name), of.last), "Python", f"{it.name}.{of.last}", address(of))
            elif it.kind == "function" and "." not in it.name:
                self.put(("function", "", it.name), "Python", it.name, address(it))
            elif it.kind == "constant":
                self.loose.append((it.last, Thing("Python", it.name, address(it), value_of(it.text))))

    def of_wrapper(self, parts, address):
        for it in [it for part in parts for it in part.entries]:
            if it.kind == "const":
                self.put(("constant", "", it.name), "Rust", it.name, address(it), value_of(it.text))
            elif it.kind != "fn":
                self.put(("type", squashed(it.name)), "Rust", it.name, address(it))
            for of in it.inner:
                self.within(it.name, of.kind, of.name, "Rust", address(of), value_of(of.text))

    def within(self, owner, kind, name, language, address, value=None):
        """What a type or a module has."""
        own, last = squashed(owner), re.split(r"::|\.", name)[-1]
        if kind == "method" or kind == "fn":
            self.put(("function", own, last), language, name, address)
        elif kind in ("const", "variant"):
            self.put(("constant", own, re.sub(r"(?<=[a-z])(?=[A-Z])", "_", last).upper()), language, name, address, value)

    def of_crates(self, crates, names, address, inner):
        """Of Rattle, those crates alone on which the library for C stands. `inner` gives the methods and the variants of an item."""
        items = [(name, it) for name in names if name in crates for it in crates[name].public.values()]
        # a module of constants is what its name says, and no type of that name beside it
        modules = {squashed(it.path[0]) for _, it in items if it.kind == "const" and len(it.path) == 2}
        for name, it in items:
            path = "::".join(it.path)
            if it.kind in ("struct", "enum", "trait") and squashed(it.name) not in modules:
                self.put(("type", squashed(it.name)), "Rattle", path, address(name, it))
                for of in inner(crates[name], it):
                    kind = {"part": "variant", "fn": "method"}[of.kind]
                    self.within(it.name, kind, f"{it.name}::{of.name}", "Rattle", address(name, it, of.name))
            elif it.kind == "const" and len(it.path) < 3:
                self.put(("constant", *("", *it.path)[-2:]), "Rattle", path, address(name, it), value_of(it.text))


def function_of_header(it, types):
    """What a function for C is: of the first type to which it is given a pointer; one that writes a performative is of that."""
    name = it.name.removeprefix("amqp1_")
    if name.startswith("write_"):
        return "type", squashed(name.removeprefix("write_"))
    owner = next((of for of in re.findall(r"\b(\w+) \*", it.text.partition("(")[2]) if of in types), "")
    own = owner.removeprefix("amqp1_")
    return "function", squashed(owner), name.removeprefix(f"{own}_") if owner != "amqp1" else name


def line(address, links):
    """Where the same thing is in other languages, as HTML."""
    others = links.get(address, ())
    said = ", ".join(f'{it.language}: <a href="{escape(it.address)}"><code>{escape(it.text)}</code></a>' for it in others)
    return f'<p class="quiet same">The same in {said}</p>' if others else ""
