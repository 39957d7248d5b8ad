"""Man pages of the functions for C, for api.py: a page of section 3 each. No text of a comment is taken for an order to the formatter."""

import re

from reference.entry import all_of

WIDE = 76
# What a function answers where it answers a number of 32 bits
STATUS = "A status, one of `enum amqp1_status` in `amqp1/records.h`: AMQP1_DONE where it was done."
# What each page may begin a line with, to the formatter
MACROS = {"TH", "SH", "PP", "nf", "fi", "IP", "BR", "nh", "ad"}
SPECIAL = {"\\": "\\e", "-": "\\-", "^": "\\(ha", "~": "\\(ti", "`": "\\(ga"}
SENTENCE = re.compile(r"(?<=[.:])\s+(?=[A-Z0-9`\"])")
# What a function that answers no status says of its answer, beside 0 and 1
ANSWERS = re.compile(r"(?:How (?:many|long)|Whether|All of|The (?:name|number|bytes|place|version))\b")


def plain(text, is_code=False):
    """Text as the formatter shows it: letter for letter, none of it an order."""
    made = "".join(letter(it, is_code) for it in text)
    return "\n".join("\\&" + line if line[:1] in (".", "'") else line for line in made.split("\n"))


def letter(it, is_code):
    if is_code and it in "'\"":
        return {"'": "\\(aq", '"': "\\(dq"}[it]
    if it in SPECIAL:
        return SPECIAL[it]
    if it == "\n" or " " <= it < "\x7f":
        return it
    return " " if it.isspace() else f"\\[u{ord(it):04X}]" if it.isprintable() else "?"


def argument(text):
    """A text as one word of an order."""
    return '"' + plain(" ".join(text.split())).replace('"', "\\(dq").removeprefix("\\&") + '"'


def marked(text):
    """A paragraph: what stands between backquotes is slanted."""
    parts = re.split(r"`([^`\n]+)`", " ".join(text.split()))
    made = "".join(f"\\fI{plain(it).removeprefix(chr(92) + '&')}\\fP" if at % 2 else spread(it) for at, it in enumerate(parts))
    return "\\&" + made if made[:1] in (".", "'") else made


def spread(text):
    """Plain text within a line: only what begins the line could be an order, and that is looked at there."""
    return "".join(letter(it, False) for it in text)


# ---- what a comment says


def blocks(lines):
    """The paragraphs of a comment: each its text, or `code` and its lines, or `list` and its items."""
    found, block = [], []
    for line in [*lines, ""]:
        if line.strip():
            block.append(line)
        elif block:
            found += [*told(block)]
            block = []
    return found


def told(block):
    if all(line.startswith("    ") for line in block):
        yield "code", [line[4:] for line in block]
        return
    first = next((at for at, line in enumerate(block) if line.startswith("- ")), len(block))
    if block[:first]:
        yield "text", " ".join(block[:first])
    if block[first:]:
        yield "list", re.split(r"\n- ", "\n".join(block[first:])[2:])


def answers_of(it, statuses):
    """What a function's comment says of its answer, and the blocks that are left: a paragraph from the first sentence on that names a status, or
    what is 0 or 1."""
    is_status = it.text.startswith("int32_t ")
    names = re.compile(r"(?:AMQP1_)?(?:" + "|".join(map(re.escape, statuses or ["AMQP1_"])) + r")\b" if is_status else r"[01] (?!bytes are enough)")
    left, answers = [], []
    for kind, text in blocks(it.doc):
        sentences = SENTENCE.split(text) if kind == "text" else []
        at = next((at for at, sentence in enumerate(sentences) if names.match(sentence)), len(sentences))
        moved = sentences[at:] if is_status else [sentence for sentence in sentences if names.match(sentence)]
        kept = [sentence for sentence in sentences if sentence not in moved]
        if kind != "text" or kept:
            left.append((kind, " ".join(kept) if kind == "text" else text))
        answers += [" ".join(moved)] if moved else []
    first = SENTENCE.split(left[0][1])[0] if left and left[0][0] == "text" else ""
    says_first = not is_status and not it.text.startswith("void ") and ANSWERS.match(first)
    return [*([first] if says_first else []), *answers], left


# ---- a page


def synopsis(text):
    """A function's head in lines that are not too long."""
    if len(text) <= WIDE:
        return text
    head, _, rest = text.partition("(")
    lines, margin = [f"{head}("], " " * min(len(head) + 1, 24)
    for at, part in enumerate(re.split(r",\s*", rest)):
        word = part if at == 0 else f", {part}"
        if len(lines[-1]) + len(word) + 1 > WIDE and lines[-1].strip() and at:
            lines[-1] += ","
            lines.append(margin + part)
        else:
            lines[-1] += word
    return "\n".join(lines)


def shown(kind, text):
    if kind == "code":
        return [".PP", ".nf", plain("\n".join(text), is_code=True), ".fi"]
    if kind == "list":
        return [line for item in text for line in (".IP \\(bu 2", marked(item))]
    return [".PP", marked(text)]


def page(it, version, statuses, beside):
    """The page of a function; `beside` are the names of those that it leads to."""
    answers, left = answers_of(it, statuses)
    if it.text.startswith("int32_t ") and statuses:
        answers.insert(0, STATUS)
    name = marked(it.first_sentence(".:").rstrip(".:")).removeprefix("\\&")
    lines = [f'.TH {argument(it.name)} 3 "" {argument(f"libamqp1 {version}")} "AMQP 1.0"', ".nh", ".ad l", ".SH NAME", f"{spread(it.name)} \\- {name}"]
    lines += [".SH SYNOPSIS", ".nf", "#include <amqp1.h>", "", plain(synopsis(it.text), is_code=True), ".fi", ".SH DESCRIPTION"]
    lines += [line for of in left for line in shown(*of)] or [marked(it.first_sentence())]
    if answers:
        lines += [".SH \"RETURN VALUE\"", *(line for text in answers for line in shown("text", text))]
    lines += [".SH \"SEE ALSO\"", *(f".BR {argument(of)} (3){',' if of != beside[-1] else ''}" for of in beside)] if beside else []
    return "\n".join(lines) + "\n"


def man_pages(parts, version):
    """The pages by the names of their files."""
    functions = {it.name: it for it in all_of(parts) if it.kind == "function"}
    statuses = [of.name.removeprefix("AMQP1_") for it in all_of(parts) if it.name == "amqp1_status" for of in it.inner]
    return {f"{name}.3": page(it, version, statuses, leads(it, functions)) for name, it in functions.items()}


def leads(it, functions):
    """The functions that a comment names, and those that name this one; else those beside it."""
    named = {name: [of for of in dict.fromkeys(re.findall(r"\w+", " ".join(other.doc))) if of in functions and of != name] for name, other in functions.items()}
    found = [*named[it.name], *(name for name, of in named.items() if it.name in of)]
    names = [*functions]
    at = names.index(it.name)
    return sorted({*found} or {*names[max(0, at - 1) : at + 2]} - {it.name})


# ---- whether a page is one


def faults(text):
    """What is wrong with a page, told without a formatter."""
    lines = text.split("\n")
    if not lines[0].startswith(".TH "):
        yield "it does not begin with its name"
    for want in ("NAME", "SYNOPSIS", "DESCRIPTION"):
        if f".SH {want}" not in lines:
            yield f"it has no section {want}"
    for line in lines:
        if line[:1] == "'" or line[:1] == "." and line[1:].partition(" ")[0] not in MACROS:
            yield f"an order that no page gives: {line[:40]}"
        for found in re.finditer(r"\\(?!e|-|&|\(ha|\(ti|\(ga|\(aq|\(dq|\(bu|fI|fP|\[u[0-9A-F]{4,6}\])", line):
            yield f"a letter that no page writes: {line[found.start() : found.start() + 10]}"
    if lines.count(".nf") != lines.count(".fi"):
        yield "lines that are not filled, and no end of them"

