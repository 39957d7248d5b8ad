"""The page of a crate's definitions (specs/*.antt), for api.py."""

import re
from html import escape

from reference.page import linked, page
from reference.specs import Definition

WORD = re.compile(r"[^\W\d][\w']*(?:\.[^\W\d][\w']*)*")


def specs_page(names, crate):
    """The definitions of a crate, file by file."""
    files = names.specs[crate.name]
    made = [f"<h1>Definitions of {crate.name}</h1>"]
    made.append('<p class="names">' + " ".join(f'<a href="#{it.path}"><code>{it.path}</code></a>' for it in files) + "</p>")
    for file in files:
        local = {name: (f"Rattle.{crate.name}.specs.{file.path}", name) for it in file.definitions() for name in (it.name, *it.parts.values())}
        href = names.in_contract({**file.names, **local})
        made.append(f'<h2 id="{file.path}"><code>{file.path}</code></h2>\n<p>{escape(file.comment)}</p>')
        made.append(f"<details><summary>What it brings in</summary><pre>{escape(chr(10).join(file.uses))}</pre></details>")
        taken = set()
        for piece in file.pieces:
            if isinstance(piece, Definition):
                made.append(definition(piece, file, href, taken))
            elif piece:
                made.append(f'<pre class="definition"><i>{escape(chr(10).join(piece))}</i></pre>')
    return page(f"Definitions of {crate.name}", [("index.html", "API"), (f"{crate.name}.html", crate.name)], "\n".join(made))


def definition(piece, file, href, taken):
    """A definition's text, with an anchor at its name and at each field or constructor that no other name took."""
    lines, own = [], f"{file.path}.{piece.name}"
    other = lambda word: None if (to := href(word)) and to.endswith(f"#{own}") else to
    for at, line in enumerate(piece.lines):
        name = piece.name if at == piece.head() else piece.parts.get(at)
        if line.strip().startswith("--"):
            lines.append(f"<i>{escape(line)}</i>")
        elif name and name not in taken:
            taken.add(name)
            before, _, after = line.partition(name)
            lines.append(f'{escape(before)}<b id="{file.path}.{escape(name)}">{escape(name)}</b>{linked(after, WORD, other)}')
        else:
            lines.append(linked(line, WORD, other))
    return '<pre class="definition">' + "\n".join(lines) + "</pre>"
