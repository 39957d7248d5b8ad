"""The header for C, for api.py: its functions, types and constants, each with the comment before it, as they stand in the files."""

import re
import textwrap

from reference.entry import Entry, Part

# What is for use within the header has no entry, nor has a function that takes what is.
WITHIN = re.compile(r"[Ff]or use within (?:this|these|the) headers?\b")
SPACE = re.compile(r"\s+")
COMMENT = re.compile(r"/\*.*?\*/", re.S)
OPAQUE = re.compile(r'/\*.*?\*/|"(?:\\.|[^"\\\n])*"|\'(?:\\.|[^\'\\\n])+\'', re.S)
DIRECTIVE = re.compile(r"#(?:/\*.*?\*/|[^\n\\]|\\.)*", re.S)
DEFINE = re.compile(r"#\s*define\s+(?P<name>\w+)(?P<of>\([^)]*\))?[ \t]*(?P<value>(?:[^\n\\]|\\.)*)", re.S)
# Beside functions: what opens and closes a block for C++, and a macro that stands as a statement
OTHERS = re.compile(r'extern "C" \{|\}|[A-Z]\w*\(')
TYPE = re.compile(r"(?:typedef\s+)?(?:struct|enum|union)\b\s*(\w*)")
MARKS = re.compile(r"^(?:AMQP1_FUNCTION|AMQP1_CHECKED|static|inline)\s+")


def comment(text):
    """The lines of a comment, as if they stood at the left margin."""
    first, *others = text[2:-2].strip().split("\n")
    lines = textwrap.dedent("\n".join(others)).split("\n") if others else []
    return [first.strip(), *(line.rstrip() for line in lines)]


class Header:
    """A file of the header, from its front to its end."""

    def __init__(self, name, source):
        self.name, self.source, self.entries, self.at = name, source, [], 0
        self.where = name if name == "amqp1.h" else f"amqp1/{name}"
        # the same text with blanks for comments and strings: what is looked at for brackets
        self.code = OPAQUE.sub(lambda found: re.sub(r"[^\n]", " ", found[0]), source)
        # the file's own comment; the one that stands before this place, and whether a name took it
        self.doc, self.said, self.is_taken = [], [], False
        while self.at < len(source):
            self.step()

    def step(self):
        """Goes over a comment, a line of the preprocessor, or a declaration."""
        if self.source[self.at].isspace():
            end = SPACE.match(self.source, self.at).end()
            if self.source.count("\n", self.at, end) > 1:
                self.alone()
            self.at = end
        elif found := COMMENT.match(self.source, self.at):
            self.said, self.at = comment(found[0]), found.end()
            if not self.doc:
                self.doc, self.said = self.said, []
        elif found := DIRECTIVE.match(self.source, self.at):
            self.define(found[0])
            self.at, self.is_taken = found.end(), True
        elif found := OTHERS.match(self.source, self.at):
            self.at = self.closed(found.end() - 1) if found[0].endswith("(") else found.end()
            self.at = self.at + 1 if self.source[self.at : self.at + 1] == ";" else self.at
        else:
            self.declared()
            self.said, self.is_taken = [], False

    def alone(self):
        """An empty line ends what a comment is of: one that nothing follows is of the file, as its first one."""
        if self.said and not self.is_taken:
            self.doc = [*self.doc, "", *self.said]
        self.said, self.is_taken = [], False

    def closed(self, at):
        """After the bracket that closes the one at `at`."""
        depth = 0
        for place in range(at, len(self.code)):
            depth += (self.code[place] in "{([") - (self.code[place] in "})]")
            if depth == 0:
                return place + 1
        raise ValueError(f"{self.name}: a bracket that nothing closes")

    def until(self, at, stops):
        """The first place from `at` on, outside of brackets, of one of these characters."""
        while at < len(self.code) and self.code[at] not in stops:
            at = self.closed(at) if self.code[at] in "{([" else at + 1
        return at

    def define(self, text):
        """A name of the preprocessor that stands for something. One that stands for nothing is a mark; of two of a name the first counts."""
        bare, beside = COMMENT.sub("", text).rstrip(), COMMENT.search(text)
        found = DEFINE.match(bare)
        if found and found["value"].strip() and found["name"] not in {it.name for it in self.entries}:
            said = self.said or (comment(beside[0]) if beside else [])
            self.put("macro" if found["of"] else "constant", found["name"], bare, said=said)

    def put(self, kind, name, text, inner=(), said=None):
        self.is_taken = True
        self.entries.append(Entry("C", kind, name, self.said if said is None else said, text, self.where, [*inner]))

    def declared(self):
        """A type, or a function, with or without its body."""
        start, stop = self.at, self.until(self.at, "{;")
        head, has_body = self.source[start:stop], self.code[stop : stop + 1] == "{"
        is_type = TYPE.match(self.code, start) and "(" not in head
        if has_body and is_type:
            return self.type(start, stop)
        self.at = self.closed(stop) if has_body else stop + 1
        if head.startswith("typedef"):
            self.put("type", (re.search(r"\(\s*\*\s*(\w+)", head) or re.search(r"(\w+)\s*$", head))[1], " ".join(head.split()) + ";")
        elif not is_type and (name := re.search(r"(\w+)\s*\(", head)):
            self.put("function", name[1], function(head))

    def type(self, start, body):
        """A struct or an enum, under the name that stands after it, or else before."""
        end, stop = self.closed(body), self.until(self.closed(body), ";")
        name = (re.findall(r"\w+", self.code[end:stop]) or TYPE.match(self.code, start).groups())[-1]
        is_enum = "enum" in self.code[start:body].split()
        self.at = stop + 1
        self.put("type", name, self.source[start : stop + 1], constants(self.source, body + 1, end - 1, self.where) if is_enum else [])


def function(head):
    """What a function is called with, without the marks of the header."""
    head = " ".join(head.split())
    while found := MARKS.match(head):
        head = head[found.end() :]
    return head + ";"


def constants(source, at, end, where):
    """The constants of an enum, each with the comment after it on its line. What stands on a line of its own is of all that follow."""
    found, group, last = [], [], at
    for it in re.finditer(r"(?P<comment>/\*.*?\*/)|(?P<name>\b[A-Za-z_]\w*)\s*(?:=\s*(?P<value>[^,/}]*))?", source[at:end], re.S):
        if it["name"]:
            text = f"{it['name']} = {it['value'].strip()}" if it["value"] else it["name"]
            found.append(Entry("C", "constant", it["name"], group, text, where, is_part=True))
        elif found and "\n" not in source[last : at + it.start()]:
            found[-1].doc = comment(it["comment"])
        else:
            group = comment(it["comment"])
        last = at + it.end()
    return found


def files(folder):
    """The files of the header, the one that a program includes first."""
    return [folder.with_suffix(".h"), *sorted(folder.glob("*.h"))]


# What stands at the left margin and is declared there, however it was read
DECLARED = re.compile(r"^(?:[a-z]|AMQP1_FUNCTION\b)[\w \t*]*?\b([a-z]\w*)\(|^(?:typedef )?(?:struct|enum|union) (\w+)|^#define (\w+)(?:\([^)]*\))?[ \t]+\S", re.M)


def read(paths):
    return [Header(path.name, path.read_text()) for path in paths]


def unread(of):
    """The names that a file declares, and that have no entry."""
    declared = {name for found in DECLARED.findall(of.code) for name in found if name}
    return sorted(declared - {it.name for it in of.entries})


def header(read):
    """The parts of the header, in the order of the files: their public names alone."""
    within = {it.name for of in read for it in of.entries if WITHIN.search(" ".join(it.doc))}
    types = {it.name for of in read for it in of.entries if it.name in within and it.kind == "type"}
    for of in read:
        kept = [it for it in of.entries if it.name not in within and not (it.kind == "function" and types & {*re.findall(r"\w+", it.text)})]
        yield Part(of.where, of.doc, kept)
