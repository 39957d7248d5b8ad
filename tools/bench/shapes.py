"""What bars and curves of plots.py have in common: how wide a picture is, its colours, its texts and its legend."""

from html import escape

from shared.command import told

WIDE = 740
# What is measured, in the order of its colours: a name has the same one in all pictures
NAMES = ["ours", "qpid-proton", "cheapest C", "ours, with its inputs"]
LIGHT, DARK = ("#0b62d6", "#a05a00", "#1a7f37", "#8250df"), ("#79b8ff", "#ffb870", "#6fdd8b", "#d2a8ff")


def coloured(colours):
    return " ".join(f".c{at} {{ fill: {it}; }} .l{at} {{ stroke: {it}; }}" for at, it in enumerate(colours))


STYLE = f"""text {{ font: 13px system-ui, sans-serif; fill: #1b1f24; }} .title {{ font-weight: 600; }} .small {{ font-size: 11px; }}
{coloured(LIGHT)} .axis {{ stroke: #57606a; }} .grid {{ stroke: #d0d7de; }} .back {{ fill: #ffffff; }} path.curve {{ fill: none; stroke-width: 1.5; }}
@media (prefers-color-scheme: dark) {{
text {{ fill: #e6e9ec; }} {coloured(DARK)} .axis {{ stroke: #9aa4ae; }} .grid {{ stroke: #30363d; }} .back {{ fill: #11151a; }}
}}"""


def colour_of(name):
    if name not in NAMES:
        told(f"{name} has no colour: name it in tools/bench/shapes.py")
    return NAMES.index(name)


def text(x, y, said, kind="", anchor="start"):
    kind = f' class="{kind}"' if kind else ""
    return f'<text x="{x}" y="{y}" text-anchor="{anchor}"{kind}>{escape(said)}</text>'


def named(names, x, y, apart):
    """A legend: each name beside its colour."""
    for at, name in enumerate(names):
        yield f'<rect class="c{colour_of(name)}" x="{x + apart * at}" y="{y}" width="12" height="12"/>'
        yield text(x + apart * at + 17, y + 10, name)
