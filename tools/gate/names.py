#!/usr/bin/env python3
"""Looks that the tree has what its pages name: files, folders, headings, and the words of its code.

    tools/gate/names.py

A page is a file .md. What a link leads to has to be there, with its heading, and each path in backticks: from the top, or as the end of a path, as
`engine/input.rt`. The endings .rt and .antt may be left out, and `engine/Calls` is also specs/Calls of amqp_engine; `*`, `..` and NAME stand for anything.
On the pages that PAGES tells each word in backticks that looks like a name (`snake_case`, `CamelCase`, `a::b`, `f()`) has to stand in a file of code
below CODE, or in a path there. Blocks of code are not read. What ALLOWED has and need not have is a miss too. A miss is told with its page and line.
The last line is 'N passed, M failed', a test for each place.
"""

import os
import re
import sys
from functools import cache
from pathlib import Path

sys.path.insert(0, str(Path(__file__).resolve().parents[1]))

from shared.command import command

ROOT = Path(__file__).resolve().parents[2]
PAGES = re.compile(r"docs/[^/]*\.md|README\.md|CONTRIBUTING\.md|SECURITY\.md")
CODE = ("crates/", "tools/", "include/", "bindings/", "examples/", ".ci/")
# What no tool or compiler reads as code: the rows of programs, and pages.
DATA = re.compile(r".*/(stdin|stdout)|.*\.(md|jsonl|rows|txt)")
# Folders that are no part of the tree: what git, the kit and Python leave.
LEFT = {".git", "out", "__pycache__", "target"}
# What a page may name that the tree has not, with the reason.
ALLOWED = {
    # it went: the line tells of that
    "CHANGELOG.md": "amqp.h",
    # what the kit makes
    "CONTRIBUTING.md": "out/incremental/*/*.Lts.oantt",
    # what a tool makes where the user wants it
    "docs/BINDINGS.md": "PREFIX/lib/libamqp1.so OUT/index.html",
    # of fe2o3-amqp: types that are not here, those of crates that it stands on, and its tests
    "docs/PORT.md": """
        Decoder DeallcoSessionError Encoder Infallible JoinError ParseError ScramError serde_amqp
        src/connection/mod.rs src/session/mod.rs
        allocate_session_distinguishes_not_opened_from_stopped buffered_split_delivery_gets_one_delivery_id
        continuation_with_stray_tag_gets_no_delivery_id first_transfer_without_tag_is_rejected
        maybe_outgoing_session_flow_fires_at_half_window maybe_outgoing_session_flow_skips_when_not_mapped
        multi_frame_delivery_consumes_one_delivery_id number_of_message_settled_by_disposition split_delivery_gets_one_delivery_id
    """,
    # what tools/api.py makes, what the kit makes, and a text of RabbitMQ
    "docs/USING.md": "OUT/index.html out/ Unattached",
    # the page names tools as they were named then
    "docs/bench/2026-11-25.md": "tools/gate_times.py tools/refuse_each.py",
}
SPAN = re.compile(r"`([^`]+)`")
LINK = re.compile(r"\]\(([^()\s]+)\)")
PATH = re.compile(r"\.?\w[\w.*-]*(/[\w.*-]+)*/?")
WORD = re.compile(r"[A-Za-z_]\w*")
LOOKS = re.compile(r"\w*[a-zA-Z0-9]_[a-zA-Z0-9]\w*|[A-Z]\w*[a-z]\w*")
# What stands for anything in a path.
ANY = re.compile(r"\*|\.\.|\b(?:NAME|MODULE|EDIT)\b")


@cache
def files():
    """The files of the tree, but for what tools left there."""
    found = []
    for folder, folders, names in os.walk(ROOT):
        folders[:] = sorted(set(folders) - LEFT)
        found += [os.path.relpath(os.path.join(folder, name), ROOT) for name in sorted(names)]
    return found


@cache
def endings():
    return {Path(name).suffix for name in files()} - {""}


@cache
def paths():
    """Each path of the tree, and each short name of a definition's file, a line each."""
    found = set(files()).union(*(map(str, Path(name).parents) for name in files()))
    for name in files():
        if it := re.fullmatch(r"crates/((?:amqp_)?(\w+))/specs/(?:.*/)?(\w+)\.antt", name):
            found |= {f"{it[1]}/{it[3]}", f"{it[2]}/{it[3]}", f"specs/{it[3]}"}
    return "\n".join(sorted(found))


@cache
def is_there(path):
    pattern = ".*".join(map(re.escape, ANY.split(path.rstrip("/"))))
    return bool(re.search(rf"(?m)^(.*/)?{pattern}(\.rt|\.antt)?$", paths()))


@cache
def words():
    """The words of the code, but for this file, and those of its paths."""
    found = set()
    for name in files():
        if name.startswith(CODE):
            found.update(re.findall(r"\w+", name))
            if not DATA.fullmatch(name) and ROOT / name != Path(__file__).resolve():
                found.update(WORD.findall((ROOT / name).read_text(errors="replace")))
    return found


@cache
def headings(page):
    """What links to a page's headings have after `#`."""
    heads = (line.lstrip("#").strip() for _, line in lines(page) if line.startswith("#"))
    return {re.sub(r"[^\w\- ]", "", head.lower()).replace(" ", "-") for head in heads}


def lines(page):
    """The lines of a page outside of its blocks of code, with their numbers."""
    is_code = False
    for number, line in enumerate((ROOT / page).read_text().splitlines(), 1):
        if line.lstrip().startswith("```"):
            is_code = not is_code
        elif not is_code:
            yield number, line


def links(page, line):
    """What a line links to: each with whether it is there."""
    for target in LINK.findall(SPAN.sub("", line)):
        path, _, heading = target.partition("#")
        if not re.match(r"\w+:", target):
            to = (ROOT / page).parent / path if path else ROOT / page
            yield target, to.exists() and (not heading or heading in headings(to))


def named(page, span):
    """What a text in backticks names: each path and each word, with whether the tree has it."""
    for part in span.split():
        part = part.rstrip(",:;")
        if PATH.fullmatch(part) and ("/" in part or Path(part).suffix in endings()):
            yield part, is_there(part)
        elif PAGES.fullmatch(page):
            yield from ((word, word in words()) for word in WORD.findall(part) if LOOKS.fullmatch(word) or "::" in part or f"{word}()" in part)


def places(page):
    """Each place of a page that names something: its line, the name, and whether the tree has it."""
    for number, line in lines(page):
        names = [*links(page, line), *(it for span in SPAN.findall(line) for it in named(page, span))]
        yield from ((number, *it) for it in names)


def main():
    passed, missed = 0, []
    for page in (name for name in files() if name.endswith(".md")):
        allowed, met = set(ALLOWED.get(page, "").split()), set()
        for number, name, is_here in places(page):
            if is_here:
                passed += 1
            elif name in allowed:
                met.add(name)
            else:
                missed.append(f"{page}:{number}: {name} is not in the tree")
        missed += [f"{page}: {name} need not be allowed" for name in sorted(allowed - met)]
    for it in missed:
        print(it)
    print(f"{passed} passed, {len(missed)} failed")
    sys.exit(bool(missed))


if __name__ == "__main__":
    command(main, __doc__)
