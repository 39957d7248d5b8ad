"""The inlining attributes of functions, by the names that the compiler gives them, for unproved.py."""

import re

ATTRIBUTE = re.compile(r"\s*#\[(inline(?:\((?:always|never)\))?|cold)\]")
FUNCTION = re.compile(r'(\s*)(?:pub(?:\([\w: ]+\))? )?(?:default )?(?:const )?(?:unsafe )?(?:extern "C" )?fn (\w+)')
IMPL = re.compile(r"(?:unsafe )?impl\b(.*)")
TRAIT = re.compile(r"(?:pub(?:\([a-z]+\))? )?(?:unsafe )?trait (\w+)")
WORD = re.compile(r"[\w:]+")
# What LLVM calls them
OF_LLVM = {"inline": "inlinehint", "inline(always)": "alwaysinline", "inline(never)": "noinline", "cold": "cold"}


def depths(text):
    """How many brackets are open at each place of a text, arrows left out."""
    depth, found = 0, []
    for at, sign in enumerate(text):
        depth += sign in "<([" and 1
        depth -= sign in ">)]" and text[at - 1 : at] != "-"
        found.append(depth)
    return found


def without_parameters(text):
    """What stands after the type parameters of an impl."""
    text = text.strip()
    if not text.startswith("<"):
        return text
    closes = next((at for at, depth in enumerate(depths(text)) if not depth), len(text))
    return text[closes + 1 :].strip()


def type_name(text):
    """The word for a type in the compiler's name of its function."""
    text, before = text.strip(), ""
    while refers := re.match(r"&('\w+ )?(mut )?", text):
        before += "RefMut" if refers[2] else "Ref"
        text = text[refers.end() :]
    if text[:1] in ("[", "("):
        return before + ("Slice" if text[0] == "[" else "Tuple")
    word = WORD.match(text)
    name = word[0].split("::")[-1] if word else ""
    return before + (name[:1].upper() + name[1:] if before or name.islower() else name)


def parts_of(text):
    """The trait and the type of an impl's head: no trait where there is none."""
    text = without_parameters(text)
    splits = next((at for at, depth in enumerate(depths(text)) if not depth and text.startswith(" for ", at)), None)
    if splits is None:
        return "", type_name(text)
    return WORD.match(text)[0].split("::")[-1], type_name(text[splits + 5 :])


class Hints:
    """Each function of some folders of crates: where it stands, and its attributes."""

    def __init__(self, roots):
        self.known = {}
        for folder in sorted(folder for root in roots for folder in root.glob("*/src")):
            for file in sorted(folder.rglob("*.rt")):
                module = [it for it in file.relative_to(folder).with_suffix("").parts]
                module = module[:-1] if module[-1] in ("lib", "main", "mod") else module
                self.read(folder.parent.name, [folder.parent.name, *module], file.read_text(encoding="utf-8"))

    def read(self, crate, module, text):
        trait = kind = ""
        found = []
        for line in text.splitlines():
            if attribute := ATTRIBUTE.match(line):
                found.append(OF_LLVM[attribute[1]])
                continue
            if impl := IMPL.match(line):
                trait, kind = parts_of(impl[1])
            elif named := TRAIT.match(line):
                trait, kind = named[1], ""
            elif line.startswith("}"):
                trait = kind = ""
            if function := FUNCTION.match(line):
                of = (kind, trait) if function[1] else ("", "")
                self.known.setdefault((crate, function[2]), []).append((module, *of, " ".join(found)))
            if line.strip() and not line.strip().startswith(("//", "#[")):
                found = []

    def of(self, name):
        """The attributes of a function by the compiler's name: "" where its source has none, and `None` where no source has it."""
        *path, last = name.split("::<")[0].split("::")
        function = last if "closure" in last else last.split("+")[0]
        fits = [(near(path, module, fit(path, module, kind, trait)), hint) for module, kind, trait, hint in self.known.get((path[0] if path else "", function), [])]
        fits = [it for it in fits if it[0][0]]
        return max(fits)[1] if fits else None


def near(path, module, fits):
    """How well a function of a module fits, and how far the module's path is that of the name."""
    common = next((at for at, (one, other) in enumerate(zip(path, module)) if one != other), min(len(path), len(module)))
    return fits, common - 0.1 * abs(len(module) - common)


def fit(path, module, kind, trait):
    """How well the middle of a name fits a type and a trait: 0 where it does not."""
    middle = path[-1]
    if not kind and not trait:
        return 10 * (path == module)
    if not trait:
        return 5 * (middle.split("+")[0].lower() == kind.lower())
    if not kind:
        return 4 * (middle == trait)
    if middle.startswith(kind + trait):
        return 5 + (middle == kind + trait)
    return 2 * (middle.startswith(kind) and trait in middle)
