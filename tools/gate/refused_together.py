#!/usr/bin/env python3
"""Tries the must-fail edits of crates/NAME/mutants, many at a time.

    tools/gate/refused_together.py [control]                               those of the gate: with a line 'gate: yes'
    tools/gate/refused_together.py [control] all | CRATE | CRATE/EDIT ..   all of them, or those that are named
    tools/gate/refused_together.py fit

An edit is a wrong body. Those of a module stand in one file, mutants/MODULE.edits. Each has a name, EDIT (a line 'edit:'), and names the
function that it makes wrong (a line 'function: PATH'); then it has the lines of the toolchain's must-fail edits: 'file:', 'old:', 'new:'. It counts
as refused where a goal of that very function cannot be proved. A function that waits for the proof of another one does not count, and neither
does a proof that misses a name which the edit took away.

A contract is judged function by function, so edits of different functions are put into one copy of the crate and checked at once: what a
check reads of the libraries is then read once for all of them. In that copy the proof of each function that no edit names is an empty file,
which is refused at once, and its body an endless loop, of which little is to be read: what calls the function is judged by its contract all
the same. An edit that such a check does not refuse is tried again alone, and then in a copy with all proofs and bodies. Edits of definitions
(specs/) are tried alone, in a copy with all bodies.

That a crate is proved as it stands is for 'rt ci' to say, which the gate calls before; a note names each crate that was changed since its
rlib was made. Beside the edits of a check stand functions as they are, whose edits are in other checks or not tried: no goal of theirs may be
open, which shows that such a copy leaves proved what was proved. They are one in twelve of the functions whose code edits of the crate change, and with
'control' as the first word all that the edits name which are tried. The last line is 'N passed, M failed'.

'fit' checks nothing: it only says which edits do not find their old text in the code.
"""

import copy
import json
import os
import re
import shutil
import sys
import tempfile
import threading
from collections import Counter
from concurrent.futures import ThreadPoolExecutor
from pathlib import Path

sys.path.insert(0, str(Path(__file__).resolve().parents[1]))

from gate import toolchain
from gate.edits import edits_of
from shared.command import command

ROOT = Path(__file__).resolve().parents[2]
ANY_GOAL = re.compile(r"(?:\./)?\S+\.(?:rt|antt):\d+:\d+: error: |\S.*: no proof: .*did not prove ")
# At most so many edits in one check, so that none takes long.
MOST = 60
# One in so many functions is checked as it stands too.
ONE_IN = 12
# How a function begins, as 'rt fmt' sets it, and the other lines of its head that stand as far out.
BEGINS = re.compile(r"( *)(?:pub(?:\([\w:]+\))? )?(?:const )?fn (\w+)")
GOES_ON = re.compile(r"\)|where$|\{$")
# A function that others call which it calls.
IN_A_CYCLE = re.compile(r"#\[cycle\(\w+\)\]\n(?:#\[.*\]\n)*(?:pub(?:\([\w:]+\))? )?fn (\w+)")
# What a check says where a proof names what is not there, or cites what was refused.
MISSES_A_NAME = re.compile(r"has no field|has no `|is not in scope|was not admitted|is no name|no goal|cannot continue|exports no")


# How the toolchain checks a crate with an edit.
RT = toolchain.rt()
# So many checks at a time.
LANES = threading.BoundedSemaphore(int(os.environ.get("RT_JOBS") or RT.processors()))


def any_goal(said):
    """The line of a check that says that a goal is not proved, of whatever function or lemma, if there is one."""
    return next((line for line in said.splitlines() if ANY_GOAL.match(line) and not MISSES_A_NAME.search(line)), None)


def open_goal(crate, function, said):
    """The line of a check that says that a goal of this very function is not proved, if there is one."""
    *module, name = function.split("::")
    unanswered = re.compile(rf"fn {crate}::{re.escape(function)}: no proof: .*did not prove ")
    own = re.compile(rf"\./proofs/{re.escape('/'.join([*module, name]))}/\w+\.antt:\d+:\d+: error: ")
    # (functions that call one another have one file, whose answers begin with the function's name, and so do their goals)
    cycle = re.compile(rf"\./proofs/{re.escape('/'.join([*module, '+']))}\w+/\w+\.antt:\d+:\d+: error: `{re.escape(name)}-")
    noted = re.compile(rf"note: src/{re.escape('/'.join(module))}\.rt:\d+:\d+: it is not proved .*\(`{re.escape(name)}-returns")
    is_goal = lambda line: any(it.match(line) for it in (unanswered, own, cycle, noted)) and not MISSES_A_NAME.search(line)
    return next(filter(is_goal, said.splitlines()), None)


def goal_of(edit, crate, said):
    """The line that says that a goal of the edit's function is not proved, if there is one. An edit of a definition is tried alone: there it may be
    any goal on the function's way."""
    return any_goal(said) if edit.is_alone() else open_goal(crate, edit.function, said)


def is_left_proved(crate, function, said):
    """Whether a check came to its end, spoke of this function, and left none of its goals open."""
    came_to_an_end = re.search(r"^only=\d+ proved=\d+$", said, re.M)
    return came_to_an_end and f"\nfn {crate}::{function}: " in f"\n{said}" and not open_goal(crate, function, said)


def is_free(function, edits):
    """Whether a check of these edits shows of a function whether it is proved as it stands: no definition is edited, nor the function."""
    return not edits[0].is_alone() and function not in [it.function for it in edits]


def is_proved(crate):
    """Whether the crate's rlib was made of its files as they are: by the sum of them beside it, or, after rt ci, since it is newer. A static library
    has none."""
    if crate.is_static:
        return True
    built = Path(crate.rlib, "format")
    if not built.is_file():
        return False
    return crate.is_built() or all(os.stat(it).st_mtime < built.stat().st_mtime for it in RT.rtlib.files_of(crate.folder))


def functions(crate):
    """The paths of the crate's functions, as its rlib names them: none of a static library, which has no rlib, and few functions."""
    if crate.is_static:
        return set()
    names = [it[0] for it in json.loads(Path(crate.rlib, "toolchain/mir.json").read_text())]
    return {it.removeprefix(f"{crate.name}::") for it in names if re.fullmatch(rf"{crate.name}(::\w+)+", it)}


def has_own_proof(folder, function):
    """Whether a function has a proof of its own: those that call one another have one, in a folder with a plus."""
    *module, name = function.split("::")
    file = Path(folder, file_of(tuple(module)))
    return not file.is_file() or name not in IN_A_CYCLE.findall(file.read_text())


def proof_of(folder, function):
    return Path(folder, "proofs", *function.split("::"))


def bodies(lines):
    """The functions of a text, as 'rt fmt' sets it, whose bodies have lines of their own: each one's name, the place of its first line, and the
    places of its braces."""
    for first, line in enumerate(lines):
        begins = BEGINS.match(line)
        opens = opening(lines, first, begins[1]) if begins else None
        if opens is not None:
            yield begins[2], first, opens, lines.index(begins[1] + "}", opens)


def opening(lines, first, indent):
    """The place of the brace that opens the body of a function, if it has one: no line before it but some of its head stands as far out."""
    for at in range(first, len(lines)):
        line = lines[at].removeprefix(indent)
        if line[:1].strip():
            if at > first and not GOES_ON.match(line):
                return None
            if line.endswith("{"):
                return at
    return None


def without_bodies(text, whole, names):
    """A text in which the functions of these names that stand in the whole text too, so that no edit is in them, have an endless loop for a body."""
    lines = text.split("\n")
    for name, first, opens, closes in reversed([*bodies(lines)]):
        if name in names and "\n".join(lines[first : closes + 1]) in whole:
            lines[opens + 1 : closes] = [lines[closes].replace("}", "    loop {}")]
    return "\n".join(lines)


def module_of(function):
    """The module of a function's path: what stands before its type, if it has one, and its name."""
    return tuple(it for it in function.split("::")[:-1] if it[0].islower())


def file_of(module):
    return "/".join(["src", *module]) + ".rt" if module else "src/lib.rt"


def may_stand_in(function, file):
    """Whether a function may stand in a file, by its path below src/: that of its module, or for a type's own functions one below it."""
    path, module = file.removesuffix(".rt"), "/".join(module_of(function)) or "lib"
    is_of_type = len(module_of(function)) + 1 < len(function.split("::"))
    return path == module or is_of_type and (path.startswith(f"{module}/") or module == "lib")


class Trial:
    """The edits of one crate. Each check begins anew: to keep what one proved, and to read it in the next, costs more than it saves."""

    def __init__(self, crate, edits):
        self.crate, self.edits = crate, edits
        self.folder, self.lines, self.checks, self.unproved = Path(crate.folder), {}, 0, []

    def check(self, names, texts, is_bare=True):
        """What the check of these functions says in a copy of the crate: a bare one, in which no other function has a proof, or a whole one."""
        with LANES, tempfile.TemporaryDirectory(prefix="rt-together-") as room:
            self.checks += 1
            crate = copy.copy(self.crate)
            crate.folder = room
            for part in RT.rtlib.PARTS:
                shutil.copytree(self.folder / part, f"{room}/{part}", dirs_exist_ok=True)
            others = {it for it in functions(self.crate) - {*names} if is_bare and has_own_proof(room, it)}
            for proof in (proof_of(room, other) for other in others):
                shutil.rmtree(proof, ignore_errors=True)
                proof.mkdir(parents=True)
                proof.joinpath("Proof.antt").touch()
            own = [word for name in names for word in ("--only", name)]
            return RT.checked(crate, {**texts, **self.bare(others, texts)}, ["--jobs", "1", *own], None).stdout

    def bare(self, others, texts):
        """The texts of the crate's files in which the other functions have no bodies."""
        if any(not path.startswith("src/") for path in texts):
            return {}
        kept, bare = functions(self.crate) - others, {}
        for file in self.folder.glob("src/**/*.rt"):
            path, whole = str(file.relative_to(self.folder)), file.read_text()
            names = lambda paths: {it.split("::")[-1] for it in paths if may_stand_in(it, path.removeprefix("src/"))}
            bare[path] = without_bodies(texts.get(path, whole), whole, names(others) - names(kept))
        return bare

    def control(self, names, said):
        """Notes which of these functions, which stand as they are in a check, are not proved there, nor by themselves."""
        for name in names:
            if not is_left_proved(self.crate.name, name, said):
                alone = self.check([name], {})
                if not is_left_proved(self.crate.name, name, alone):
                    self.unproved.append(f"{name}: {any_goal(alone) or alone[-300:] or 'nothing'}")

    def tell(self, edit, is_well, text):
        self.lines[edit.name] = is_well, f"{self.crate.name}/{edit.name}: {text}"

    def judge(self, edits, texts, names=(), is_bare=True):
        """Notes which of the edits a check refuses, in which functions of these names stand as they are, and tries each of the others alone, and
        at last in a whole copy."""
        said = self.check([*(it.function for it in edits), *names], texts, is_bare)
        self.control(names, said)
        for edit in edits:
            goal = goal_of(edit, self.crate.name, said)
            if goal:
                self.tell(edit, True, f"refused, as it must be: {goal[:160]}")
            elif len(edits) > 1 or names:
                self.judge([edit], edit.texts(self.folder))
            elif is_bare:
                self.judge(edits, texts, is_bare=False)
            else:
                last = (said.strip().splitlines() or ["nothing"])[-1]
                self.tell(edit, False, f"NOT REFUSED: no goal of {edit.function} is left unproved; the check ended in: {last[:160]}")

    def batches(self):
        """The edits that go together, with their texts, in as few checks as edits of one function take, and of like size."""
        times = Counter(it.function for it in self.edits)
        found = []
        for edit in sorted(self.edits, key=lambda it: -times[it.function]):
            why = edit.put(self.folder, {})
            if why:
                self.tell(edit, False, f"BAD EDIT: {why}")
            elif not any(self.joins(edit, *it) for it in sorted(found, key=lambda it: len(it[0]))):
                found.append(([edit], edit.texts(self.folder)))
        return found

    def joins(self, edit, edits, texts):
        """Puts the edit to those of a check, where none of them is of the same function and its old texts still stand."""
        is_alone = edit.is_alone() or edits[0].is_alone() or len(edits) == MOST
        if is_alone or edit.function in [it.function for it in edits] or edit.put(self.folder, texts):
            return False
        edits.append(edit)
        return True

    def controls(self, one_in, batches):
        """The functions that stand as they are in each of these checks, none of which edits them, and those for which there is no such check:
        of one in so many none, where others can stand in a check."""
        of = [it for it in edits_of(self.crate.folder) if not it.is_alone()] if one_in > 1 else self.edits
        free = {it.function: [at for at, (edits, _) in enumerate(batches) if is_free(it.function, edits)] for it in of}
        all_of_them = sorted(free)
        beside = [it for it in all_of_them if free[it]]
        names, without = [[] for _ in batches], []
        for function in (beside if one_in > 1 and beside else all_of_them)[::one_in]:
            place = min(free[function], key=lambda at: len(batches[at][0]) + len(names[at]), default=None)
            (without if place is None else names[place]).append(function)
        return names, without

    def run(self, one_in):
        """Whether each edit is refused, and what to say of it."""
        batches = self.batches()
        names, without = self.controls(one_in, batches)
        with ThreadPoolExecutor(len(batches) + 1) as pool:
            alone = pool.submit(lambda: self.control(without, self.check(without, {})) if without else None)
            list(pool.map(lambda it, names: self.judge(*it, names), batches, names))
            alone.result()
        if self.unproved:
            return [(False, f"{self.crate.name}: NOT PROVED without an edit: {why}") for why in self.unproved]
        return [self.lines[edit.name] for edit in self.edits]


def tried(crate, edits, one_in):
    trial = Trial(crate, edits)
    lines = trial.run(one_in)
    said = [text for _, text in lines] + [f"{crate.name}: {len(edits)} edits in {trial.checks} checks"]
    print("\n".join(said), flush=True)
    return [is_well for is_well, _ in lines]


def chosen(crate, words):
    """The crate's edits that the words name: those of the gate where there are none."""
    is_named = lambda it: {"all", crate.name, f"{crate.name}/{it.name}"} & {*words}
    return [it for it in edits_of(crate.folder) if (is_named(it) if words else it.is_of_gate)]


def fit():
    """Ends with 1 where an edit does not find its text."""
    of = lambda crate: ((crate, edit, edit.put(Path(crate.folder), {})) for edit in chosen(crate, ["all"]))
    bad = [it for crate in RT.rtlib.crates_below(str(ROOT)) for it in of(crate) if it[2]]
    for crate, edit, why in bad:
        print(f"{crate.name}/{edit.name}: BAD EDIT: {why}")
    sys.exit(bool(bad))


def main(words):
    if words == ["fit"]:
        fit()
    one_in = 1 if words[:1] == ["control"] else ONE_IN
    words = [word for word in words if word != "control"]
    # The crate with the most edits takes longest: it comes first.
    work = sorted(((crate, chosen(crate, words)) for crate in RT.rtlib.crates_below(str(ROOT))), key=lambda it: -len(it[1]))
    work = [it for it in work if it[1]]
    taken = {it.name: it for crate, _ in work for it in (*crate.below(), crate)}
    lacking = [name for name, it in taken.items() if not it.is_static and not Path(it.rlib).is_dir()]
    if lacking or not work:
        sys.exit(f"not built by rt ci or rt lib: {', '.join(lacking)}" if lacking else "no such edit")
    for it in taken.values():
        if not is_proved(it):
            print(f"note: {it.name} was changed since its rlib was made: rt ci or rt lib says whether it is proved", flush=True)
    with ThreadPoolExecutor(len(work)) as pool:
        results = list(pool.map(lambda it: tried(*it, one_in), work))
    passed = sum(map(sum, results))
    failed = sum(map(len, results)) - passed
    print(f"{passed} passed, {failed} failed")
    sys.exit(failed != 0)


if __name__ == "__main__":
    command(lambda: main(sys.argv[1:]), __doc__)
