"""The pages of the API reference, for api.py: what is put between the marks of HTML. All text of the sources is escaped here."""

import json
import re
from html import escape

STYLE = """
:root { color-scheme: light; }
* { box-sizing: border-box; }
body { margin: 0 auto; padding: 1.5rem 1.25rem 6rem; max-width: 50rem; background: #fdfdfb; color: #1c1c1a;
  font: 17px/1.55 Charter, "Bitstream Charter", "Iowan Old Style", Georgia, "DejaVu Serif", serif; }
a { color: #17407a; text-decoration: none; }
a:hover { text-decoration: underline; }
header { display: flex; gap: 1rem; flex-wrap: wrap; font-size: 0.9rem; border-bottom: 1px solid #d9d8d0; padding-bottom: 0.5rem; }
h1 { font-size: 1.7rem; margin: 1.6rem 0 0.4rem; line-height: 1.25; }
h2 { font-size: 1.25rem; margin: 2.8rem 0 0.6rem; padding-bottom: 0.2rem; border-bottom: 1px solid #d9d8d0; }
h3 { font-size: 1.1rem; margin: 2.2rem 0 0.5rem; }
h4 { font-size: 1rem; margin: 1.7rem 0 0.4rem; }
h3 code { font-size: 1.1rem; } h4 code { font-size: 0.95rem; }
h3 small, h4 small, h2 small { font-weight: normal; color: #6a6960; font-size: 0.82em; }
p, ul, ol, table { margin: 0.6rem 0; }
code, pre { font-family: "DejaVu Sans Mono", "Cascadia Mono", Menlo, Consolas, monospace; font-size: 0.8rem; line-height: 1.5; }
code { font-size: 0.82em; }
pre { margin: 0.5rem 0; padding: 0.55rem 0.8rem; overflow-x: auto; background: #f3f2ec; border-radius: 3px; }
pre.contract { background: #eef3f9; border-left: 3px solid #7b9cc7; white-space: pre-wrap; overflow-wrap: anywhere; }
pre.contract span { display: block; padding-left: 2.4em; text-indent: -2.4em; }
pre.definition, pre.declared { white-space: pre-wrap; overflow-wrap: anywhere; }
pre b { font-weight: normal; color: #7a3b12; }
pre i { font-style: normal; color: #6a6960; }
.method { margin-left: 1.2rem; }
.parts { margin: 0.6rem 0 0.6rem 1.2rem; }
.parts dt { margin-top: 0.5rem; } .parts dd { margin: 0 0 0 1.4rem; }
.quiet { color: #6a6960; font-size: 0.9rem; }
.names { line-height: 1.9; } .names a { white-space: nowrap; } .names a code { margin-right: 0.7rem; }
table { border-collapse: collapse; } td, th { text-align: left; padding: 0.15rem 0.9rem 0.15rem 0; vertical-align: top; }
details summary { cursor: pointer; color: #6a6960; font-size: 0.9rem; }
:target { background: #fff4cf; }
input[type=search] { width: 100%; font: inherit; padding: 0.4rem 0.6rem; border: 1px solid #a9a89f; border-radius: 3px; background: #fff; }
#found { list-style: none; padding: 0; } #found li { margin: 0.35rem 0; } #found .quiet { margin-left: 0.4rem; }
"""

SEARCH = """
const box = document.getElementById("search"), list = document.getElementById("found"), count = document.getElementById("count");
const rank = (item, words) => {
  const name = item[0].toLowerCase();
  if (!words.every(word => (name + " " + item[1] + " " + (item[2] + " " + item[4]).toLowerCase()).includes(word))) return 99;
  const last = name.split(/::|\\.|^amqp1_/).pop();
  const place = last === words[0] ? 0 : last.startsWith(words[0]) ? 1 : words.every(word => name.includes(word)) ? 2 : 3;
  return 2 * place + (item[1] === "definition");
};
const show = () => {
  const words = box.value.toLowerCase().split(/\\s+/).filter(word => word);
  const found = words.length ? ITEMS.map(item => [rank(item, words), item]).filter(it => it[0] < 99) : [];
  found.sort((a, b) => a[0] - b[0] || a[1][0].length - b[1][0].length);
  list.replaceChildren(...found.slice(0, 60).map(([, [name, kind, crate, href, doc]]) => {
    const line = document.createElement("li"), link = document.createElement("a"), code = document.createElement("code"), more = document.createElement("span");
    code.textContent = name; link.href = href; link.append(code);
    more.className = "quiet"; more.textContent = kind + " of " + crate + (doc ? ": " + doc : "");
    line.append(link, more);
    return line;
  }));
  count.textContent = words.length ? found.length + " found" + (found.length > 60 ? ", the first 60 are shown" : "") : "";
};
box.value = new URLSearchParams(location.search).get("q") || "";
box.addEventListener("input", show);
show();
"""


def page(title, links, body):
    """A whole page; `links` are those in its head: pairs of an address and a text."""
    head = " ".join(f'<a href="{escape(href)}">{escape(text)}</a>' for href, text in links)
    return (
        f'<!doctype html>\n<html lang="en">\n<head>\n<meta charset="utf-8">\n<meta name="viewport" content="width=device-width, initial-scale=1">\n'
        f"<title>{escape(title)}</title>\n<style>{STYLE}</style>\n</head>\n<body>\n<header>{head}</header>\n<main>\n{body}\n</main>\n</body>\n</html>\n"
    )


def search(items):
    """The box, and a script that looks among these: name, kind, crate, address, first sentence."""
    data = json.dumps(items, ensure_ascii=False, separators=(",", ":")).replace("<", "\\u003c")
    return (
        '<p><input type="search" id="search" placeholder="Search names and first sentences" aria-label="Search" autofocus></p>\n'
        f'<p class="quiet" id="count" aria-live="polite"></p>\n<ul id="found"></ul>\n<noscript><p>The box needs a script, which is off here. Each page begins with the names on it.</p></noscript>\n<script>const ITEMS = {data};{SEARCH}</script>'
    )


def linked(text, pattern, href):
    """The text, escaped, with a link at each word of the pattern for which `href` has an address."""
    made, at = [], 0
    for found in pattern.finditer(text):
        address = href(found[0])
        if address:
            made += [escape(text[at : found.start()]), f'<a href="{escape(address)}">{escape(found[0])}</a>']
            at = found.end()
    return "".join([*made, escape(text[at:])])


def prose(lines, href, plain=escape):
    """A doc's lines: paragraphs, lists, tables and code, as Markdown has them. `plain` makes HTML of what is not code."""
    made = []
    for block in blocks(lines):
        if block[0].startswith("```"):
            made.append(f"<pre>{escape(chr(10).join(block[1:]))}</pre>")
        elif re.match(r"[-*] ", block[0]):
            items = re.split(r"(?:^|\n)[-*] ", "\n".join(block))[1:]
            made.append("<ul>" + "".join(f"<li>{inline(' '.join(it.split()), href, plain)}</li>" for it in items) + "</ul>")
        elif block[0].startswith("|"):
            rows = [re.split(r"(?<!\\)\|", row.strip().strip("|")) for row in block if not re.fullmatch(r"[|\s:-]+", row)]
            made.append("<table>" + "".join("<tr>" + "".join(f"<td>{inline(it.strip(), href, plain)}</td>" for it in row) + "</tr>" for row in rows) + "</table>")
        else:
            made.append(f"<p>{inline(' '.join(block), href, plain)}</p>")
    return "\n".join(made)


def blocks(lines):
    """The lines in blocks: an empty line ends one, but within code; and code, a list and a table begin one."""
    block, fenced = [], False
    for line in lines:
        if line.strip().startswith("```"):
            if not fenced and block:
                yield block
                block = []
            if fenced:
                yield block
                block = []
            else:
                block = [line.strip()]
            fenced = not fenced
        elif fenced:
            block.append(line)
        elif not line.strip() or block and any(line.startswith(it) and not block[0].startswith(it) for it in ("- ", "* ", "|")):
            if block:
                yield block
            block = [line] if line.strip() else []
        else:
            block.append(line)
    if block:
        yield block


def inline(text, href, plain=escape):
    """A paragraph: code between backquotes, a link to what it names where there is one."""
    made = []
    for at, part in enumerate(re.split(r"\[?`([^`]+)`(?:\](?:\([^)]*\))?)?", text)):
        if at % 2 == 0:
            made.append(re.sub(r"\*\*([^*]+)\*\*", r"<strong>\1</strong>", plain(part)))
            continue
        address = href(part)
        code = f"<code>{escape(part)}</code>"
        made.append(f'<a href="{escape(address)}">{code}</a>' if address else code)
    return "".join(made)
