"""Tests of the reference itself, for `api.py --check`: made sources with texts that want to be markup, and with names that have no comment."""

import re
import shutil
import subprocess
import tempfile
from html import unescape
from pathlib import Path

from reference.bindings import pages
from reference.entry import all_of, lacking
from reference.header import files, header, read, unread
from reference.manual import faults, man_pages
from reference.page import search
from reference.python_package import Package
from reference.wrapper import Wrapper

# Each line of it is an order to a formatter of man pages, or markup to a browser
LINES = [
    "<script>alert(1)</script> & <img src=x onerror=alert(2)> &lt;b&gt;",
    ".so /etc/passwd",
    "'sy echo run",
    r"\X'x' \*[y] \n[z] \fBbold\fP \e \(bu \s+5 C:\new",
    '.ds x "quoted" `code` ~ ^ - -- é ☃',
]
SAID = " ".join(LINES)
HEADER = """/* The file. {said} */
#ifndef AMQP1_MADE_H
#define AMQP1_MADE_H

/* What a call answers. */
enum amqp1_status {{ AMQP1_DONE = 0, AMQP1_OTHER = 1 /* {said} */ }};

/* For use within this header. */
typedef struct amqp1_hidden {{ int it; }} amqp1_hidden;

AMQP1_FUNCTION void amqp1_of_hidden(amqp1_hidden *it)
{{
}}

/* {said}

{code}

   - {said}
   - second

   DONE; OTHER where {said} */
int32_t amqp1_made(const char *text /* {{ */, int (*then)(int, int), const char *more_of_the_text, size_t more_of_the_length);

{lines} */
int amqp1_begun(void);

int amqp1_bare(void);
#define AMQP1_BARE 1

/* A macro of two lines. */
#define AMQP1_TWO \\
    2
#define AMQP1_BESIDE 3 /* {said}
                          goes on */

/* For use within a server: it is for all. */
typedef int (*amqp1_then)(int, const char *);

/* {said} */
extern struct amqp1_there *amqp1_there_of(struct amqp1_there *it, int (*then)(int));

/* A struct with one inside. */
struct amqp1_there {{
    struct {{ int it; }} within;
}};
#endif
"""
PYTHON = '''"""The module. {said}"""

ONE, TWO = range(3, 5)
#: {said}
THREE = 3

FOUR = 4


class Made(Base):
    """{said}"""

    #: {said}
    field: str = "{quoted}"

    def __init__(self, given: str = "<script>alert(3)</script>") -> None:
        self.bare, self._own = given, 1

    def method(self, text: str = "</pre><script>") -> None:
        """{said}"""

    def without(self) -> None:
        pass

    @property
    def wide(self) -> int:
        """How wide."""

    @wide.setter
    def wide(self, to: int) -> None:
        pass


class Base:
    """`method` of a `Made`."""


def _own() -> None:
    pass
'''
RUST = """//! The file. {said}

unsafe extern "C" {{
    fn not_public(at: *const u8) -> i32;
}}

/// {said}
pub struct Made {{
    /// {said}
    pub field: u8,
    own: u8,
}}

impl Made {{
    /// {said}
    pub fn method<'a>(&self, text: &'a [u8]) -> &'a [u8] {{ text }}
    pub fn without(&self) {{}}
    fn own(&self) {{}}
}}

/// Constants.
pub mod kind {{
    pub const BARE: u8 = 1;
}}

#[cfg(test)]
#[path = "made_tests.rs"]
mod tests;
"""
BARE = {
    "C": ["AMQP1_BARE", "amqp1_bare"],
    "Python": ["made.Made.bare", "made.Made.without", "made.ONE", "made.TWO", "made.FOUR"],
    "Rust": ["Made::without", "kind::BARE"],
}


def made(folder):
    """A header, a package and a wrapper with such texts."""
    for of in ("amqp1", "package", "rust"):
        Path(folder, of).mkdir()
    code, lines = "\n".join("       " + line for line in LINES), "/* " + "\n".join(LINES)
    write = lambda name, text: Path(folder, name).write_text(text, encoding="utf-8")
    write("amqp1.h", "/* The header. */\n")
    write("amqp1/made.h", HEADER.format(said=SAID, code=code, lines=lines))
    text = PYTHON.format(said=SAID.replace("\\", "\\\\"), quoted=SAID.replace("\\", "\\\\").replace('"', '\\"'))
    write("package/__init__.py", '"""The package."""\n')
    write("package/made.py", text)
    write("rust/made.rs", RUST.format(said=SAID))
    write("rust/made_tests.rs", "pub fn a_test() {}\n")
    return read(files(Path(folder, "amqp1"))), Package(Path(folder, "package")), Wrapper(Path(folder, "rust"))


def squeezed(text):
    """Letters alone: no space, and none of the quotation marks that a formatter turns."""
    return re.sub(r"[\s`'‘’]", "", text)


def tried():
    """Each test with whether it holds."""
    with tempfile.TemporaryDirectory() as folder:
        of_header, package, of_wrapper = made(folder)
        parts, wrapper = [*header(of_header)], of_wrapper.parts()
        yield "all of them was read", not [name for of in of_header for name in unread(of)] and not [*of_wrapper.unread()]
        yield from of_pages(pages(parts, package, wrapper, {}))
        yield from of_comments({"C": parts, "Python": package.parts(), "Rust": wrapper})
        manual = man_pages(parts, '0"1')
        yield "a page for each public function", [*manual] == ["amqp1_made.3", "amqp1_begun.3", "amqp1_bare.3", "amqp1_there_of.3"]
        types = [it.name for it in all_of(parts) if it.kind == "type"]
        yield "each type, and none that is for use within", types == ["amqp1_status", "amqp1_then", "amqp1_there"]
        yield from of_manual(folder, manual)
        gone = of_header[-1].entries.pop(), of_wrapper.entries["made.rs"].pop()
        yield "what is passed over is told", bool(unread(of_header[-1])) and [*of_wrapper.unread()] == ["made.rs: kind was not read", "made.rs: BARE was not read"]
        yield "what is passed over was there", [it.last for it in gone] == ["amqp1_there", "kind"]


def of_pages(texts):
    for name, text in texts.items():
        shown = squeezed(unescape(re.sub(r"<[^>]*>", "", text)))
        yield f"{name}: texts are shown", shown.count(squeezed("<script>alert(1)</script> & <img src=x onerror=alert(2)> &lt;b&gt;")) >= 3
        yield f"{name}: texts are not run", not re.search(r"<script|<img|<b>|onerror=[^<]*>(?!.*?&)", text.split("<main>")[1])
    yield "python.html: a text in a declaration", "</pre><script>" not in texts["python.html"] and "&lt;/pre&gt;&lt;script&gt;" in texts["python.html"]
    found = search([[SAID, "function", "C", "c.html#x", SAID]])
    yield "the index: texts are data", found.count("<script") == 1 and found.count("</script") == 1 and "<img" not in found


def of_comments(languages):
    """What has no comment is told, and nothing else."""
    for language, parts in languages.items():
        told = sorted(it.split(": ")[1].split(" ")[0] for it in lacking(parts))
        yield f"{language}: names without a comment", told == sorted(BARE[language])


def of_manual(folder, manual):
    for name, text in manual.items():
        yield f"{name}: no order of a comment", not [*faults(text)]
    for order in (".so /etc/passwd", "'sy run", "\\X'x'", ".nf"):
        yield f"an order is found: {order}", bool([*faults(f"{manual['amqp1_bare.3']}{order}\n")])
    yield "an answer has its section", "RETURN VALUE" in manual["amqp1_made.3"] and "OTHER where" in manual["amqp1_made.3"].split("RETURN VALUE")[1]
    if shutil.which("groff"):
        for name, times in (("amqp1_made.3", 4), ("amqp1_begun.3", 1)):
            Path(folder, name).write_text(manual[name], encoding="utf-8")
            ran = subprocess.run(["groff", "-man", "-Tutf8", "-ww", "-P-cbou", name], cwd=folder, capture_output=True, text=True, errors="replace", timeout=60)
            yield f"{name}: groff shows the texts", squeezed(ran.stdout).count(squeezed(SAID)) >= times and not ran.stderr
