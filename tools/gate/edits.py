"""The must-fail edits of a crate, as they stand in crates/NAME/mutants: wrong bodies, each of which the prover has to refuse.

The folder has a file for each module: mutants/session/settling.edits for src/session/settling.rt. In it stand the edits of the functions whose
code that source has, in their order there, and in laws.edits also those of definitions, by the law that speaks of them. An edit begins with a
line 'edit: NAME', a name that no other edit of the crate has. 'function: PATH' says what it makes wrong, and 'gate: yes' that the gate
tries it. Then come the lines of the toolchain's must-fail edits: 'file:', and 'old:' and 'new:' for each change of that file, where ⏎ is the end of a
line. Empty lines, and those that begin with '#', say nothing.
"""

import sys
from collections import Counter
from pathlib import Path

FOLDER = "mutants"


class Edit:
    """A wrong body: its name, the file that it stands in, the function that it makes wrong, whether the gate tries it, and its pairs of an old and a
    new text by their file."""

    def __init__(self, name, file):
        self.name, self.file, self.function, self.pairs = name, file, "", []
        self.path = self.old = None
        self.is_of_gate = False

    def take(self, word, text):
        """Takes a line that stands below the name, and says whether it is one of an edit, in its place."""
        if word == "function" and not self.function:
            self.function = text.strip()
        elif word == "gate" and text.strip() == "yes" and not self.path:
            self.is_of_gate = True
        elif word == "file":
            self.path = text.strip()
        elif word == "old" and self.path and self.old is None:
            self.old = lines_of(text)
        elif word == "new" and self.old is not None:
            self.pairs.append((self.path, self.old, lines_of(text)))
            self.old = None
        else:
            return False
        return True

    def is_alone(self):
        """Whether it changes more than code, and so is tried alone."""
        return any(not path.startswith("src/") for path, _, _ in self.pairs)

    def put(self, folder, texts):
        """Puts the edit into the texts by their paths, or says why it does not fit them."""
        put = dict(texts)
        for path, old, new in self.pairs:
            text = put.get(path) or (folder / path).read_text()
            if text.count(old) != 1:
                return f"an old text stands {text.count(old)} times in {path}"
            put[path] = text.replace(old, new)
        texts.update(put)
        is_whole = self.function and self.pairs and self.old is None
        return None if is_whole else "it has no line 'function:', or no pair of texts, or an old text alone"

    def texts(self, folder):
        """The texts of the crate with this edit alone, by their paths."""
        texts = {}
        self.put(folder, texts)
        return texts


def lines_of(text):
    """The text of an edit, after the blank that follows the colon."""
    return text[1:].replace("⏎", "\n")


def edits_of(crate):
    """The edits of the crate in this folder, by their names. Ends the program where two have one name."""
    found = [it for file in sorted(Path(crate, FOLDER).rglob("*.edits")) for it in edits_in(file)]
    twice = [name for name, times in Counter(it.name for it in found).items() if times > 1]
    if twice:
        sys.exit(f"{Path(crate, FOLDER)}: several edits have the name {', '.join(twice)}")
    return sorted(found, key=lambda it: it.name)


def edits_in(file):
    """The edits of a file, in order. Ends the program at a line that is none of an edit, or not in its place."""
    found = []
    for at, line in enumerate(file.read_text(encoding="utf8").splitlines(), 1):
        word, _, text = line.partition(":")
        if word == "edit" and text.strip():
            found.append(Edit(text.strip(), file))
        elif line.strip() and not line.startswith("#") and not (found and found[-1].take(word, text)):
            sys.exit(f"{file}:{at}: no line of an edit, or not in its place: {line[:60]}")
    return found
