"""What a screen reader is given of a page, for try_page.py: the accessibility tree of Chromium, and where keys lead."""

import json

from gate.devtools import Page
from gate.made_pages import HOSTILE, hostile
from gate.pictures import page_of
from page.make import Page as Recording

RECORDING, CHOSEN, MESSAGE = "erlang-rmq", 72, ("uamqp-proton-send", 11)
WAYS = {"A": "client to server", "B": "server to client"}
CONTROLS = {"button", "combobox", "checkbox", "searchbox", "slider", "link", "DisclosureTriangle", "grid"}
NAMED = {"figure", "complementary", "search", "table", "RootWebArea"}
KEYS = {"Tab": 9, "Enter": 13, "Escape": 27, "ArrowRight": 39, "ArrowLeft": 37}
# What can have the focus, as far as it is shown, in the order of the page
IN_ORDER = """[...document.querySelectorAll("a, button, input, select, summary, svg, table")].filter(it => it.tabIndex >= 0 && it.checkVisibility())"""
PLACE = "(it => it.id || it.parentNode.id + ' ' + it.tagName)"
# Whether each of them stands below or beside the one before it; a chart with its link counts as one, and so does what scrolls
GOES_DOWN = f"""(all => all.every((it, at) => {{
  const [before, here] = [all[at - 1], it].map(it => it && (it.closest("figure, #scroll") || it).getBoundingClientRect());
  return !at || here.top >= before.bottom || here.bottom > before.top && here.left >= before.left;
}}))({IN_ORDER})"""


def try_spoken(browser, check):
    text = page_of(RECORDING)
    path = browser.folder / "spoken.html"
    path.write_text(text, encoding="utf-8")
    rows = json.loads(text.split('<script type="application/json" id="data">', 1)[1].split("</script", 1)[0])["rows"]
    try:
        page = Page(browser.program, browser.folder, f"{path.as_uri()}#frame-{CHOSEN}&curves")
    except (OSError, RuntimeError) as error:
        return check("spoken: the browser is spoken to", False, error)
    try:
        tree = page.tree()
        names(tree, check)
        rows_say(tree, rows, check)
        rows_stay(page, check)
        curves_say(page, page.tree(), check)
        in_order(page, check)
        panel_is_told(page, check)
        breaches_are_told(page, check)
        what_is_shown_is_told(page, check)
        others_say(browser, page, check)
    finally:
        page.close()


def names(tree, check):
    """Each control has a name of its own, and each part of the page that a reader jumps to."""
    bare = [it for it in tree if (it.role in CONTROLS | NAMED or it.properties.get("focusable")) and not it.name.strip()]
    check("spoken: each control and each part has a name", not bare, *bare)
    controls = [it.name for it in tree if it.role in CONTROLS - {"link"}]
    twice = {it for it in controls if controls.count(it) > 1}
    check("spoken: no two controls have one name", len(controls) > 12 and not twice, *twice)
    grid = next(it for it in tree if it.role == "grid")
    check("spoken: the table says its keys", len(grid.name) < 60 and "Enter" in grid.description and "Escape" in grid.description, grid)
    heads = [it.name for it in tree if it.role == "columnheader"]
    check("spoken: each column has a head", len(heads) == 4 and all(heads), *heads)


def rows_say(tree, rows, check):
    """A row says side, kind and channel, and whether it was refused, and by what name."""
    of = {int(it.name.split()[0]): it.name for it in tree if it.role == "row" and it.name.split()[:1] and it.name.split()[0].isdigit()}
    wrong = [said for number, said in of.items() if not says(said, rows[number - 1])]
    check("spoken: a row says its side, kind, channel and refusal", len(of) > 20 and not wrong, *wrong)
    check("spoken: no row says a sign", not [it for it in of.values() if set(it) & set("✗•")])
    chosen = [it.name for it in tree if it.role == "row" and it.properties.get("selected")]
    check("spoken: the chosen row is told", len(chosen) == 1 and chosen[0].startswith(f"{CHOSEN} ") and "refused: UnattachedHandle" in chosen[0], *chosen)


def says(said, row):
    side, kind, channel, found = row[2], row[3], row[4], row[-1]
    refused = [name for name, _, _, is_breach in found if is_breach]
    is_told = all(f"refused: {name}" in said for name in refused) and ("refused" in said) == bool(refused)
    return f"{WAYS[side]}: {kind}" in said and f"channel {channel} " in said and is_told


def rows_stay(page, check):
    """Where nothing scrolls, each row that is drawn stays when another one is chosen: a screen reader looks again at all that come. What scrolls or
    is sifted stands in its order."""
    page.value("move(1), move(-1)")
    same = "(before => { move(1); move(-1); return before.length > 20 && before.every((it, at) => it === body.children[at]); })([...body.children])"
    check("spoken: rows stay where another one is chosen", page.value(same))
    goes = ["scroller.scrollTop = 0", "scroller.scrollTop += 300", "state.kind = 'Transfer', refresh()", "clearFilters(), refresh()", f"choose({CHOSEN - 1})"]
    numbers = "[...body.querySelectorAll('tr[data-index]')].map(it => [+it.dataset.index, +it.getAttribute('aria-rowindex')])"
    for it in goes:
        found = page.value(f"({it}, draw(), {numbers})")
        shown = page.value("state.shown")
        first = found[0][1] if found else 0
        wanted = [[shown[at - 2], at] for at in range(first, first + len(found))]
        check(f"spoken: rows in their order, {it}", len(found) > 5 and found == wanted, *found)


def curves_say(page, tree, check):
    """A chart has a name, and a text of its curves; a key on it tells the values at the next point."""
    figures = [it.name for it in tree if it.role == "figure"]
    sliders = [it.name.split(". ")[0] for it in tree if it.role == "slider"]
    check("spoken: each chart has the name of its figure", len(figures) == 4 and figures == sliders, *figures, *sliders)
    texts = page.value("[...document.querySelectorAll('figure')].map(it => [it.querySelectorAll('.key').length, it.querySelector('figcaption').textContent])")
    is_said = all(count and text.count("at least ") == text.count("at most ") == text.count("at the end ") == count for count, text in texts)
    check("spoken: each curve has a text", is_said, *texts)
    value = "document.querySelector('#credit svg').getAttribute('aria-valuetext')"
    before = page.value(value)
    page.value("document.querySelector('#credit svg').focus()")
    page.press("ArrowLeft", KEYS["ArrowLeft"])
    after = page.value(value)
    check("spoken: a chart tells its values", before.startswith(f"frame {CHOSEN}: ") and "credit" in after and before != after, before, after)
    check("spoken: a chart is told once", page.value("document.getElementById('said').textContent") == "")


def in_order(page, check):
    """Tab leads through the page from its top to its end."""
    page.value("document.activeElement.blur()")
    wanted = page.value(f"{IN_ORDER}.map({PLACE})")
    page.value("document.getElementById('side').focus()")
    went = [page.value(f"{PLACE}(document.activeElement)")]
    for _ in wanted[1:]:
        page.press("Tab", KEYS["Tab"])
        went.append(page.value(f"{PLACE}(document.activeElement)"))
    check("spoken: the focus goes in the order of the page", len(wanted) > 14 and went == wanted, *went)
    check("spoken: that order goes down the page", page.value(GOES_DOWN))


def panel_is_told(page, check):
    """Enter leads to the panel, which says what it is of; Escape leads back to the row."""
    page.value("document.getElementById('table').focus()")
    page.press("j", 74)
    number = page.value("rows[state.chosen][0]")
    page.press("Enter", KEYS["Enter"])
    focused = [it for it in page.tree() if it.properties.get("focused") and it.role != "RootWebArea"]
    check("spoken: the panel is told", [it.role for it in focused] == ["complementary"] and f"Frame {number}: " in focused[0].name, *focused)
    tables = [it.name for it in page.tree() if it.role == "table"]
    check("spoken: the panel's tables have names", {"Where it stands", "Fields"} <= {*tables}, *tables)
    page.press("Escape", KEYS["Escape"])
    row = "document.getElementById(document.activeElement.getAttribute('aria-activedescendant'))"
    where = page.value(f"[document.activeElement.id, {row}?.dataset.index == state.chosen]")
    check("spoken: back at the row", where == ["table", True], *where)
    check("spoken: a row is told once", page.value("document.getElementById('said').textContent") == "")


def told(page):
    """What the lines that speak by themselves say."""
    return page.value("[...document.querySelectorAll('[role=status]')].map(it => it.textContent)")


def breaches_are_told(page, check):
    """Where the focus is on a button, the frame that it leads to is said, or that there is none."""
    page.value("clearFilters(), refresh(), choose(0), document.getElementById('next').focus()")
    page.press("Enter", KEYS["Enter"])
    check("spoken: a breach is told", "Frame 15: Transfer, client to server, channel 1, refused: DeliveryId" in told(page), *told(page))
    page.value("state.q = 'container-id', refresh()")
    page.press("Enter", KEYS["Enter"])
    check("spoken: that there is no breach is told", "No frame that is shown was refused." in told(page), *told(page))


def what_is_shown_is_told(page, check):
    """How many frames are shown is said; and that curves are shown, or put away, with which they are no part of the tree."""
    check("spoken: how many are shown", any(it.startswith("1 of 96") or it.startswith("2 of 96") for it in told(page)), *told(page))
    page.value("document.getElementById('table').focus()")
    page.press("c", 67)
    page.until("!document.getElementById('curves').open")
    check("spoken: curves are put away", "Curves are put away." in told(page) and not [it for it in page.tree() if it.role == "slider"], *told(page))


def others_say(browser, page, check):
    """A message's sections have names; and text of a peer's that wants to be markup is said as it is."""
    path = browser.folder / "message.html"
    path.write_text(page_of(MESSAGE[0]), encoding="utf-8")
    page.go(f"{path.as_uri()}#frame-{MESSAGE[1]}")
    tree = page.tree()
    bare = [it for it in tree if (it.role in CONTROLS | NAMED or it.properties.get("focusable")) and not it.name.strip()]
    sections = [it.name for it in tree if it.role == "table" and it.name.startswith("Message: ")]
    check("spoken: a message's sections have names", not bare and len(sections) > 1, *bare, *sections)
    bytes_of = [it.name for it in tree if it.role == "group" and it.name.startswith("Bytes of ")]
    check("spoken: bytes have names", 0 < len({*bytes_of}) == page.value("document.querySelectorAll('#panel pre').length"), *bytes_of)
    made = Recording("hostile", "nobody")
    for number, (side, of) in enumerate(hostile(), 1):
        made.add(side, of, number)
    path = path.with_stem("hostile")
    path.write_text(made.text(), encoding="utf-8")
    page.go(f"{path.as_uri()}#q={HOSTILE[0][1:7]}")
    tree = page.tree()
    said = [it.name for it in tree if it.role == "row" and HOSTILE[0] in it.name]
    check("spoken: hostile text is said as it is", said and not [it for it in tree if "image" in it.role.lower()], *said)
