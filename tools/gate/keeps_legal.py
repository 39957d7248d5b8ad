#!/usr/bin/env python3
"""Looks that each public call that can change an engine, a session or a connection says what it does to a history.

    tools/gate/keeps_legal.py

That a history stays legal whatever is called is no theorem of one function: a public function that takes such a value by `&mut`, and says nothing of
histories, would be proved all the same. So the contract of each has to cite a definition that speaks of them: of an engine, and of a driver,
whose history is its engine's, one that reaches `Legal`; of a session or a connection the step of that call, which its history's own step names; or, in
so many words, that the value stays as it was.
"""

import re
import sys
from functools import cache
from pathlib import Path

sys.path.insert(0, str(Path(__file__).resolve().parents[1]))

from gate.reached import meant, reaches
from gate.specs_read import imports, uses_of
from shared.command import command

ROOT = Path(__file__).resolve().parents[2]
# Crates, their types that have histories, and the definition that takes a step of one.
HISTORIES = (
    ("amqp_engine", ("Engine", "HandledEngine"), None),
    ("amqp_driver", ("Driver",), None),
    ("amqp_session", ("Session",), ("amqp_session", "History", "SessionStep")),
    ("amqp_connection", ("Connection",), ("amqp_connection", "History", "Step")),
    ("amqp_idle", ("IdleClock",), ("amqp_idle", "History", "IdleStep")),
    ("amqp_credit", ("SenderCredit",), ("amqp_credit", "SenderHistory", "SenderStep")),
    ("amqp_credit", ("ReceiverCredit",), ("amqp_credit", "ReceiverHistory", "ReceiverStep")),
    ("amqp_credit", ("Assembly",), ("amqp_credit", "AssemblyHistory", "AssemblyStep")),
    ("amqp_links", ("SendingLink",), ("amqp_links", "SendingHistory", "SendingStep")),
    ("amqp_links", ("ReceivingLink",), ("amqp_links", "ReceivingHistory", "ReceivingStep")),
    ("amqp_collector", ("Collector",), ("amqp_collector", "History", "CollectorStep")),
    ("amqp_unsettled", ("Unsettled",), ("amqp_unsettled", "History", "TableStep")),
    ("amqp_endpoints", ("SessionEndpoint",), ("amqp_endpoints", "History", "EndpointStep")),
)
# Crates whose steps have names of their own: each definition of the crate that the step of its histories cites is one.
BY_OWN_NAMES = ("amqp_collector", "amqp_endpoints")
LEGAL = "amqp_engine", "Legal", "Legal"
OWNER = re.compile(r"impl(?:<.*?>)? (?:[\w:]+(?:<.*?>)? for )?(\w+)")
# The value stays as it was, or but for a driver's bytes.
STAYS = re.compile(r"self\.new ≡ (?:self\.old|record self\.old \{ to_send = [^}]*\}) \}")
PUBLIC = re.compile(r"( *)pub fn (\w+)")


def heads(lines):
    """Each public function: the type that it is of, its name, and the lines up to its body."""
    owner = None
    for at, line in enumerate(lines):
        owner = (OWNER.match(line) or [None, owner])[1] if line.startswith("impl") else None if line.startswith(("fn ", "pub fn ")) else owner
        is_public = PUBLIC.match(line)
        if is_public:
            end = next(k for k in range(at, len(lines)) if lines[k] == is_public[1] + "{" or lines[k].endswith((" {", ";", "{}")) and k >= at)
            yield owner if is_public[1] else None, is_public[2], "\n".join(lines[at : end + 1])


def changes(owner, head, types):
    """Whether a function with this head can change a value of these types."""
    return "&mut self" in head and owner in types or re.search(rf"&mut (?:{'|'.join(types)})\b", head)


@cache
def cited(of):
    """The definitions that a definition names."""
    return {use if isinstance(use, tuple) else (*of[:2], use) for use in uses_of(*of)}


@cache
def steps(step):
    """What a step of a history is made of: the definitions that say what each call does."""
    return {use for use in cited(step) if use[2].endswith("Step") or use[2] == "stopped" or use[0] == step[0] in BY_OWN_NAMES}


def speaks(of, step):
    """Whether a definition speaks of histories: it is such a step, or such a step and more."""
    if not step:
        return reaches(of, lambda it: it == LEGAL)
    return of in steps(step) or of[2].endswith("Step") and bool(cited(of) & steps(step))


def silent():
    """Each public call that can change such a value and says nothing of histories; and how many calls there are."""
    found, count = [], 0
    for crate, types, step in HISTORIES:
        for file in sorted(ROOT.glob(f"crates/{crate}/src/**/*.rt")):
            lines = file.read_text().splitlines()
            names = imports(lines)
            for owner, name, head in heads(lines):
                if changes(owner, head, types):
                    count += 1
                    if not any(speaks(of, step) for of in meant(head, *names)) and not STAYS.search(head):
                        found.append(f"{file.relative_to(ROOT)}: {owner}::{name}")
    return found, count


def main():
    found, count = silent()
    for it in found:
        print(f"{it}: no clause speaks of the history")
    print(f"{count - len(found)} passed, {len(found)} failed")
    sys.exit(bool(found))


if __name__ == "__main__":
    command(main, __doc__)
