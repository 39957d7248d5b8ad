#!/usr/bin/env python3
"""Lists the definitions that an engine's contracts reach; keeps docs/READING.md's tables by them, and the first line of each file of specs/.

    tools/gate/definitions_read.py            prints the tables' lines, and says where docs/READING.md or a first line differs; status 1 if one does
    tools/gate/definitions_read.py --write    puts files, their order and numbers and first lines in; sentences stay

From the names in a contract it follows, definition by definition, the names that each one uses, through the `use` lines of the files of
specs/. The page has a table for each part, and a definition stands in the first part that reaches it: the promise of `Engine::run` (what
moves, and then the bytes), where the view's law and the exact steps are not followed, and neither is what a legal history is, which the promise
says by name alone; all else that `Engine::run` reaches; what the calls of handles reach beside it; what those of a pair of sessions do. What is
counted are the lines of the definitions, with the comment above each; the whole length of the file stands beside it. A name that is also a
variable's may be counted without need: a list may be too long, and is never too short. The last two tables have types of the code, by their files,
and the models of the types that the calls are of and of all that these hold; docs, comments and attributes are not counted there.

In a part a file stands after those whose definitions of that part it uses, and as it stood where that leaves it free (reading_order.py). Lines of the
page that begin as `- Words of the promise that stand in` name what stands elsewhere. docs/NOTATION.md has a line for each word of the kit's
standard library that the parts use, and no other (words_of_std.py).

Below the promise stands a list by hand, a sentence for each definition and an edit that it refuses: each definition has to be named there once, and
each edit has to be one of crates/*/mutants whose function's contract is near the definition. It goes the other way, from the top down.

Each file of specs/ that has definitions says in its first line which parts they stand in, `-- Part: the promise; every call exactly.`, in this order:
the promise, the bytes, every call exactly, handles, as the tables have them; other calls, for what else the contracts of public functions, traits
and types reach; inner, for what only contracts of private functions, models and proofs use. In a model the type of its `Value` counts as public.
"""

import re
import sys
from functools import cache
from pathlib import Path

sys.path.insert(0, str(Path(__file__).resolve().parents[1]))

import in_words
import words_of_std
from gate.reading_order import from_the_top, ordered, told, uses_within
from gate.specs_read import PART, WORD, imports, module, passed_on, uses_of
from reference.calls import public_calls, written
from reference.models import held, lines_of, plain
from reference.source import Crate, dependencies
from shared.command import command

ROOT = Path(__file__).resolve().parents[2]
PAGE = ROOT / "docs/READING.md"
ENGINE = ROOT / "crates/amqp_engine/src"
RUN = [(ENGINE / "engine/run.rt", "run")]
HANDLES = [ENGINE / "handles.rt", ENGINE / "handles/run.rt", ENGINE / "handles/connection_handle.rt", ENGINE / "handles/session_handle.rt"]
SESSION = ROOT / "crates/amqp_session/src"
PAIR = SESSION / "pair.rt"
PAIR_LAW = (SESSION / "laws.rt", "law_of_pairs")
# What the promise leaves out: of a run the law of views and the steps; what relays may answer. The page tells of each.
NOT_IN_PROMISE = {("amqp_engine", "Views", None), ("amqp_engine", "History", None), ("amqp_session", "Relay", "Relays")}
# What it says by name: its lines count, and what they use is not followed.
BY_NAME = {("amqp_engine", "Legal", "Legal"), ("amqp_engine", "EngineView", "EngineView")}
BYTES = ("amqp_frames", "amqp_types", "amqp_values")
PARTS = ["the promise", "the bytes", "every call exactly", "handles", "other calls", "inner"]
MISSING = "(a sentence is missing)"

OF_CRATE = re.compile(r"Rattle\.(\w+)\.specs\.([\w.]+)$")
TYPE = re.compile(r"^pub(?:\(\w+\))? (?:struct|enum|trait) (\w+)")


def contract(file, function):
    """The names that the clauses of the function use."""
    lines = file.read_text(encoding="utf8").splitlines()
    names, _ = imports(lines)
    at = next(i for i, line in enumerate(lines) if re.search(rf"\bfn {function}\b", line))
    end = next(i for i in range(at, len(lines)) if lines[i].strip() == "{")
    first = next(i for i in range(at, end) if re.match(r"\s+(ensures|requires)\b", lines[i]))
    words = {word for line in lines[first:end] for word in WORD.findall(line)}
    return [(*names[word], word) for word in sorted(words) if word in names]


def public(files):
    """The public functions of these files."""
    return [(file, m[1]) for file in files for m in re.finditer(r"^ *pub fn (\w+)", file.read_text(encoding="utf8"), re.M)]


def contracts(functions):
    """The names that the clauses of these functions use."""
    return [name for of in functions for name in contract(*of)]


def cited(told):
    """The names that the texts of contracts use, each given with what the names in it mean."""
    for text, names in told:
        for word in WORD.findall(text):
            head, *inner = word.strip(".").split(".")
            for at in (head, f"◌{head}◌"):
                path, name = names.get(at, ("", None))
                found = OF_CRATE.match(path)
                if found and (ROOT / "crates" / found[1]).is_dir() and (name or inner):
                    yield *passed_on(found[1], found[2]), name or inner[0]


def reach(names, found, types, is_promise=False):
    """Adds the definitions that these names reach to those that were found, and gives those that came."""
    came, todo = {}, [*names]
    while todo:
        crate, path, name = todo.pop()
        if path.startswith("contracts."):
            continue
        if path.startswith("declared."):
            parts = path.removeprefix("declared.").removesuffix(".TheVariants").split(".")
            types.add((crate, "/".join(parts[:-1]), parts[-1]))
            continue
        if is_promise and NOT_IN_PROMISE & {(crate, path, name), (crate, path, None)}:
            continue
        here = module(crate, path)
        item = here.items.get(name)
        if item is None:
            sys.exit(f"{here.file}: no definition of {name} was found")
        is_new = item not in found.setdefault(here, set())
        # What a part before has is followed all the same: it may have been left at its name there.
        if not is_new and item in SEEN.setdefault((here, is_promise), set()):
            continue
        SEEN.setdefault((here, is_promise), set()).add(item)
        if is_new:
            found[here].add(item)
            came.setdefault(here, set()).add(item)
        if is_promise and (crate, path, name) in BY_NAME:
            continue
        todo += [use if isinstance(use, tuple) else (crate, path, use) for use in here.uses(item)]
    return came


SEEN = {}


def type_lines(crate, path, name):
    """The file of a type of the code, and the lines of its definition, without docs and attributes."""
    file = ROOT / "crates" / crate / "src" / (path + ".rt")
    lines = file.read_text(encoding="utf8").splitlines()
    at = next(i for i, line in enumerate(lines) if (m := TYPE.match(line)) and m[1] == name)
    last = at
    while not (lines[last].startswith("}") or lines[last].endswith(";")):
        last += 1
    return file, plain(lines[at : last + 1])


def counted(came):
    """File by file: the lines that came, and those of the file."""
    return {str(m.file.relative_to(ROOT)): (sum(b - a for a, b in items), m.length) for m, items in came.items()}


def parted(types):
    """Part by part, from `the promise` to `handles`, the definitions that stand in it; and all of them. Adds the types of the code that they name."""
    found = {}
    promise = reach(contracts(RUN), found, types, is_promise=True)
    exactly = reach(contracts(RUN), found, types)
    handles = reach(contracts(public(HANDLES)), found, types)
    moves = {m: of for m, of in promise.items() if m.crate not in BYTES}
    spelled = {m: of for m, of in promise.items() if m.crate in BYTES}
    return [moves, spelled, exactly, handles], found


def files_of_specs():
    """Each file of specs/ that has definitions: one that only lists modules has none."""
    for file in sorted(ROOT.glob("crates/*/specs/**/*.antt")):
        crate, _, *path = file.relative_to(ROOT / "crates").with_suffix("").parts
        here = module(crate, ".".join(path))
        if here.items:
            yield here


def lines_of_parts():
    """The line with its parts that each file of specs/ begins with: those that some definition of it stands in, in the order of PARTS."""
    came, found = parted(set())
    came.append(reach(cited(public_calls(ROOT)), found, set()))
    for here in files_of_specs():
        whole = [of.get(here, set()) for of in came]
        whole.append(set(here.items.values()) - found.get(here, set()))
        yield here, PART + "; ".join(part for part, of in zip(PARTS, whole) if of) + "."


def parts_kept(is_written):
    """Names each file of specs/ whose first line is not that of its parts, or puts that line in; gives how many it named."""
    wrong = [(here, line) for here, line in lines_of_parts() if here.part != line]
    for here, line in wrong:
        if is_written:
            here.file.write_text("\n".join([line, *here.text]) + "\n", encoding="utf8")
        else:
            print(f"{here.file.relative_to(ROOT)}: its first line is to be '{line}'")
    return 0 if is_written else len(wrong)


def by_file(found):
    """File by file: the lines of what stands there, and its names; of a list of file, lines and name."""
    code = {}
    for file, lines, name in found:
        code.setdefault(str(file.relative_to(ROOT)), []).append((lines, name))
    return {file: (sum(n for n, _ in of), ", ".join(f"`{name}`" for _, name in of)) for file, of in code.items()}


@cache
def all_crates():
    """Each crate of crates.txt, by its name."""
    return {name: Crate(ROOT / "crates" / name, deps) for name, deps in dependencies(ROOT).items()}


def models(types):
    """The models of what these types hold, and of the types that the calls are of."""
    crates = all_crates()
    calls = {RUN[0][0], *HANDLES, PAIR}
    own = {(name, item.name) for name, crate in crates.items() for file in crate.files.values() for item in file.items
           if item.kind == "impl" and not item.trait and place(crate, file) in calls}
    found = held(crates, own | {(crate, name) for crate, _, name in types})
    return sorted((place(crates[crate], file), lines_of(file, name), name) for crate, file, name in found)


def place(crate, file):
    """The file of a module."""
    return crate.folder / "src" / ("/".join(file.module or ("lib",)) + ".rt")


@cache
def near(crate, function):
    """The definitions that the contract of a function cites, or that are reached from it through three others at most."""
    item = in_words.functions(all_crates()[crate]).get(function)
    seen, todo = set(), [*cited(written([item]))] if item else []
    for _ in range(4):
        todo = {of for of in todo if of not in seen and not of[1].startswith(("contracts.", "declared."))}
        seen |= todo
        todo = [use if isinstance(use, tuple) else (*of[:2], use) for of in todo if of not in BY_NAME for use in uses_of(*of)]
    return seen


def wrong_in_words(page, moves):
    """What is wrong with the list in plain words, of the definitions of the promise."""
    promise = {(here.crate, here.file.stem): [here.name_of(item) for item in items] for here, items in moves.items()}
    cites = lambda crate, function, of, names: any((*of, name) in near(crate, function) for name in names)
    return [*in_words.wrong(page, promise, ROOT, cites)]


def listed():
    """The parts that have a table each, and the types of the code that they name."""
    types = set()
    parts, found = parted(types)
    return [*parts, reach(contracts([*public([PAIR]), PAIR_LAW]), found, types)], types


def tables(parts, types):
    """What each table has: for each file its lines, and those of the file or the types' names; and which of these files each one uses there."""
    code = by_file((*type_lines(*of), of[2]) for of in sorted(types))
    return [*((counted(part), uses_within(part)) for part in parts), (code, {}), (by_file(models(types)), {})]


ROW = re.compile(r"^\| \d+ \| `(\S+)` \| .*?\| .*?\| (.*) \|$")


def table(lines, wanted, uses):
    """The table's lines anew: by what its files use, and else in the page's order, new files at the end of their crate, or last."""
    kept = {m[1]: m[2] for line in lines if (m := ROW.match(line))}
    order = [file for file in kept if file in wanted]
    for file in sorted(set(wanted) - set(kept)):
        crate = file.split("/")[1]
        last = max((i for i, other in enumerate(order) if other.split("/")[1] == crate), default=len(order) - 1)
        order.insert(last + 1, file)
    return [f"| {n} | `{file}` | {wanted[file][0]} | {wanted[file][1]} | {kept.get(file, MISSING)} |"
            for n, file in enumerate(ordered(order, uses), 1)]


TOTAL = re.compile(r"\d+ files, \d+ lines")


def page_anew(text, wanted):
    """The page's lines, with its tables anew and their counts; and table by table the order of its files."""
    whole, i, orders = [], 0, []
    while i < len(text):
        end = i
        while end < len(text) and ROW.match(text[end]):
            end += 1
        if end > i and wanted:
            of, uses = wanted.pop(0)
            # The nearest line above that counts files and lines counts those of this table.
            said = max((n for n, line in enumerate(whole) if TOTAL.search(line)), default=None)
            if said is not None:
                whole[said] = TOTAL.sub(f"{len(of)} files, {sum(n for n, _ in of.values())} lines", whole[said])
            whole += table(text[i:end], of, uses)
            orders.append(order_of(whole[-len(of) :]))
            i = end
        else:
            whole.append(text[i])
            i += 1
    for of, uses in wanted:
        whole += ["", *table([], of, uses)]
        orders.append(order_of(whole[-len(of) :]))
    return whole, orders


def order_of(lines):
    return [m[1] for m in map(ROW.match, lines) if m]


def in_order(whole, orders, parts):
    """These lines, with the list in plain words in the order of its files, and with what the page says of its order."""
    files = [*dict.fromkeys(in_words.file_of(line) for line in whole if in_words.ROW.match(line))]
    order = ordered(files, from_the_top(uses_within(parts[0])))
    words = iter(sorted((line for line in whole if in_words.ROW.match(line)), key=lambda line: order.index(in_words.file_of(line))))
    whole = [next(words) if in_words.ROW.match(line) else line for line in whole]
    for opening, line in told(parts, orders):
        at = next((n for n, it in enumerate(whole) if it.partition(" (")[0] == opening), None)
        if at is None:
            whole.append(f"{line} {MISSING}")
        else:
            whole[at] = line
    return whole


def main():
    text = PAGE.read_text(encoding="utf8").splitlines() if PAGE.exists() else []
    parts, types = listed()
    whole = in_order(*page_anew(text, tables(parts, types)), parts)
    is_written = "--write" in sys.argv
    SEEN.clear()
    unnamed = parts_kept(is_written)
    unsaid = [f"docs/READING.md: {it}" for it in wrong_in_words(text, parts[0])] + [f"docs/NOTATION.md: {it}" for it in words_of_std.wrong(parts)]
    if is_written:
        PAGE.write_text("\n".join(whole) + "\n", encoding="utf8")
    print("\n".join(line for line in whole if ROW.match(line) or TOTAL.search(line)))
    wrong = [line for line in whole if MISSING in line] + ([] if whole == text or is_written else ["differs"])
    if wrong:
        print(f"docs/READING.md is to be mended: {len(wrong)} places; --write puts in files, their order and numbers")
    if unnamed:
        print(f"{unnamed} files of specs/ begin otherwise than with their parts; --write puts these in")
    print("".join(f"{it}\n" for it in unsaid), end="")
    return 1 if wrong or unnamed or unsaid else 0


if __name__ == "__main__":
    command(lambda: sys.exit(main()), __doc__)
