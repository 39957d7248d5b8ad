"""Tries the curves of pages in Chromium, for try_page.py: their points, beside a plain model's, how one goes from a point to its frame, and hostile recordings."""

import html
import json
import re

from amqp.canonical import boolean, tag, uint, ushort
from amqp.frames import BEGIN, DISPOSITION, FLOW, TRANSFER
from amqp.recorded import CAPTURES
from amqp.recordings import recorded
from gate.made_connections import RECEIVER, SENDER, attach, begun, ended, frame, opened
from gate.made_pages import NAME, ODD
from gate.modelled_curves import modelled
from page.make import Page

# What writes the points of each session's curves into the document's title
POINTS = """const pairs_of = (it) => it.rows.map((row, place) => [row, it.values[place]]);
const points_of = (it) => Object.fromEntries([
  ...["left", "way", "open"].flatMap((name) => ["A", "B"].map((side) => [name + " " + side, pairs_of(it.halves[side][name])])),
  ...it.links.flatMap((link, place) => [["given " + place, pairs_of(link.given)], ["used " + place, pairs_of(link.used)]]),
]);
document.title = JSON.stringify([...rowsOfSessions()].map(([number, indices]) => [number, points_of(sessionOf(number, indices))]));"""
# What takes the time of all curves, and of their drawing, and counts what is drawn
COSTS = """const begun_at = performance.now();
looked.sessions = null;
looked.made.clear();
lookAt(0);
for (const number of looked.sessions.keys()) madeSession(number);
for (const number of [...looked.sessions.keys()].slice(-20)) look(madeSession(number), madeSession(number).links[0]);
looked.charts.forEach(markIn);
const letters_of = [...document.querySelectorAll("#charts path")].map((it) => it.getAttribute("d").length);
document.title = JSON.stringify([performance.now() - begun_at, looked.sessions.size, Math.max(...letters_of)]);"""
HOSTILE, MOST_MILLISECONDS, MOST_LETTERS = 30_000, 3000, 40_000


def page(frames, times=lambda at: None):
    made = Page("curves", "nobody")
    for at, (side, of) in enumerate(frames, 1):
        made.add(side, of, at, times(at))
    return made.text()


def title_of(document):
    return html.unescape((re.search(r"<title>(.*?)</title>", document, re.S) or ["", ""])[1])


def points(browser, name, frames):
    """The curves of each session, as the page's script makes them."""
    return {number: of for number, of in json.loads(title_of(browser.driven(name, page(frames), POINTS)) or "[]")}


def try_curves(browser, check):
    for path in sorted(CAPTURES.glob("*.txt")):
        frames = recorded(path)
        wanted, found = modelled(frames), points(browser, f"curves of {path.stem}", frames)
        wrong = [(number, name) for number, of in wanted.items() for name, it in of.items() if it != found.get(number, {}).get(name)]
        check(f"curves of {path.stem}", not wrong and len(found) == len(wanted), *wrong[:5])
    by_hand(browser, check)
    from_point_to_frame(browser, check)
    with_times(browser, check)
    without_sessions(browser, check)
    hostile_curves(browser, check)


# ---- what they are


def transfer(number, settled=False, more=False):
    return frame("A", 0, TRANSFER, uint(0), uint(number), tag({"bin": "00"}), uint(0), boolean(settled), boolean(more))


def disposed(first, last):
    return frame("B", 0, DISPOSITION, RECEIVER, uint(first), uint(last), boolean(True))


def small():
    """A link with credit for 5; three deliveries round 2^32, of which one has two transfers; all but one are settled by one range."""
    begins = [frame("A", 0, BEGIN, ushort(None), uint(2**32 - 2), uint(7), uint(9)), frame("B", 0, BEGIN, ushort(0), uint(0), uint(3), uint(9))]
    links = [attach("A", 0, NAME, 0, SENDER), attach("B", 0, NAME, 4, RECEIVER)]
    flows = [frame("B", 0, FLOW, uint(2**32 - 2), uint(3), uint(0), uint(9), uint(4), uint(0), uint(5))]
    sent = [transfer(2**32 - 1), transfer(0, more=True), transfer(0), transfer(1)]
    later = [frame("B", 0, FLOW, uint(2), uint(3), uint(0), uint(9), uint(4), uint(3), uint(4)), disposed(2**32 - 1, 0)]
    return [*opened(), *begins, *links, *flows, *sent, *later]


def by_hand(browser, check):
    """The same as above, with the answers written out: the fourth transfer is past the window."""
    of = points(browser, "curves by hand", small()).get(1, {})
    check("window", of.get("left A") == [[3, 3], [7, 2], [8, 1], [9, 0], [10, -1], [11, 3]] and of["left B"] == [[2, 7]], of)
    check("on the way", of.get("way A") == [[2, 0], [7, 1], [8, 2], [9, 3], [10, 4], [11, 0]] and of["way B"] == [[2, 0]], of)
    check("unsettled", of.get("open A") == [[2, 0], [7, 1], [8, 2], [10, 3], [12, 1]], of)
    check("credit", of.get("given 0") == [[6, 5], [11, 4]] and of["used 0"] == [[6, 0], [7, 1], [8, 2], [10, 3], [11, 0]], of)


def with_times(browser, check):
    """Bytes a second by the times, which may go back; and where there are none, by frames."""
    told = browser.driven("times", page(small(), lambda at: [0, 1, 0.5, 2][at % 4] + at // 4), "document.title = JSON.stringify([isTimed, [...places], bytesOf()[0].values]);")
    is_timed, places, of_client = json.loads(title_of(told) or "[0, [], []]")
    check("times go on", is_timed and places == sorted(places) and places[-1] == 4 and len(of_client) == 200, places)
    sizes = [len(of) + 4 for side, of in small() if side == "A"]
    check("bytes by time", abs(sum(of_client) * (places[-1] - places[0]) / 200 - sum(sizes)) < len(sizes), sum(of_client), sizes)
    check("the axis is told", "The axis is time, in seconds." in browser.opened("axis", page(small(), lambda at: at), "#curves"))


def without_sessions(browser, check):
    """Curves of no session, and of no frame at all."""
    check("no session", "nothing to draw" in browser.opened("no session", page(opened()), "#frame-2&curves"))
    browser.opened("no frame", page([]), "#curves")


# ---- from a point to its frame, and back


KEY = 'document.querySelector("#windows svg").dispatchEvent(new KeyboardEvent("keydown", { key: "%s", bubbles: true, cancelable: true }));'
CLICK = """const room = document.querySelector("#unsettled svg").getBoundingClientRect();
const across = room.left + (room.width * (looked.charts[2].x(places[%d]) + 1)) / WIDE, up = room.top + 1;
document.querySelector("#unsettled svg").dispatchEvent(new MouseEvent("click", { clientX: across, clientY: up, bubbles: true }));
document.title = location.hash;"""


def from_point_to_frame(browser, check):
    text = page(small())
    document = browser.opened("a marked frame", text, "#frame-10&curves")
    said = html.unescape(re.sub(r"<[^>]*>", "", document.split('<details id="curves"')[1].split("</details>")[0]))
    check("a frame is marked", document.count('class="mark"><path') == 4 and said.count("frame 10: ") == 4, document.count('class="mark"><path'))
    check("what it comes to is told", "left to the client 0, left to the server 7, on the way from the client 3" in said and "credit 5, used of it 2" in said, said)
    check("a summary", "left to the client: at least -1 at frame 11, at most 3 at frame 4, at the end 3" in said and "the axis is the frame's number" in said, said)
    check("a reader is told", 'aria-valuetext="frame 10: from the client 2, from the server 0"' in document and 'aria-label="Session 1: unsettled deliveries' in document)
    keys = "".join(KEY % key + "went.push(location.hash);" for key in ("ArrowRight", "ArrowRight", "ArrowLeft", "ArrowLeft"))
    went = title_of(browser.driven("keys on a chart", text, f"const went = [];{keys}document.title = went.join(' ');", "#frame-9&curves"))
    check("keys on a chart", went == "#frame-10&curves #frame-11&curves #frame-10&curves #frame-9&curves", went)
    went = title_of(browser.driven("a click on a chart", text, CLICK % 10, "#frame-3&curves"))
    check("a click on a chart", went == "#frame-11&curves", went)


# ---- hostile recordings


def hostile(count):
    """Windows and credits of 2^32-1, names of markup, sessions that begin thousands of times, and dispositions over ranges that hold nothing, or all."""
    found, most = [*opened(), *begun(0, 0)], 2**32 - 1
    for at, name in enumerate([NAME, *ODD]):
        found += [attach("A", 0, name, at, SENDER), attach("B", 0, name, at, RECEIVER), frame("B", 0, FLOW, uint(0), uint(most), uint(0), uint(most), uint(at), uint(most), uint(most))]
    found += [transfer(at * 7919 * 65537 % 2**32) for at in range(count // 3)]
    found += [disposed(at * 7919 * 65537 % 2**32 + 1, (at * 7919 * 65537 + 2) % 2**32) if at % 2 else disposed(1, 2**31 - 7) for at in range(count // 3)]
    for _ in range(count // 12):
        found += [*begun(1, 1), *ended(1, 1)]
    return found


def costs(browser, count):
    """The least milliseconds of three, how many sessions there are, and the longest path that is drawn."""
    text = page(hostile(count), lambda at: -at if at % 3 else at * 1e6)
    ran = [json.loads(title_of(browser.driven("hostile curves", text, COSTS, "#curves")) or "[1e9, 0, 0]") for _ in range(2)]
    return min(ran)


def hostile_curves(browser, check):
    few, many = costs(browser, HOSTILE // 2), costs(browser, HOSTILE)
    print(f"the curves of {HOSTILE:,} hostile frames in {many[1]:,} sessions take {many[0]:.0f} ms, those of half of them {few[0]:.0f}")
    check("hostile curves", many[0] < MOST_MILLISECONDS and many[0] < 3.5 * few[0] + 100, few, many)
    check("hostile sessions", many[1] == 1 + HOSTILE // 12 and many[2] < MOST_LETTERS, many)
    document = browser.opened("hostile names", page(hostile(60)), "#frame-7&curves")
    check("hostile names", "&lt;script&gt;alert(1)" in document and document.count("<script") == 0 and "logarithmic" in document)
