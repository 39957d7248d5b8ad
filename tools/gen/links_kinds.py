"""What a row of links reaches: the kinds of its calls and answers, for links_model.py.

A kind is what was called, facts of the end and of what is unsettled before the call, and the shape of the answer. Counts
are one kind from four on.
"""

from amqp.links import CIRCLE, HALF, after
from amqp.session_links import settles
from gen.links_lines import number, received_part, sent_part
from gen.session_kinds import passes, place, shape, upto


# the facts with which the whole shape of an answer makes a kind: with others its first word does
WHOLE = {"call", "send", "prepare-send", "came settled", "answers"}


def kind(fact, answer):
    """The kind of a fact and an answer."""
    is_whole = fact[0] in WHOLE or fact[0] == "came" and answer.startswith("err")
    return (*fact, *(answered(answer) if is_whole else answer.split(" ")[:1]))


def answered(answer):
    """The shape of an answer: of numbers, only whether they are 0."""
    first, *words = answer.split(" ")
    if first == "used":
        return first, words[0] == "0"
    if first == "flow":
        return first, words[1] == "link-credit=0", words[-1]
    if first == "part":
        return first, words[0], words[2], words[3], "given" in words
    if first == "prepared":
        return first, words[0]
    return ("a value",) if first in ("entry", "given", "sending", "receiving") else (answer,)


def stands(end):
    return "none" if end is None else f"{end.kind} {end.life}"


def facts(model, line):
    """The facts of a call, by the model as it is before it."""
    call, *words = line.split(" ")
    if call == "prepare-flow":
        yield "prepared", words[0], stands(model.links.end(int(words[1])))
        call, *words = words
    if call in ("#", "new"):
        return
    of = {"settle-sent": settled, "settle-received": settled, "sent": found, "received": found, "left-of-sent": left_of, "left-of-received": left_of}
    if call in of:
        yield from of[call](model.links.sent if call.endswith("sent") else model.links.received, call, *map(int, words))
    elif call in ("finish-send", "cancel-send", "finish-flow"):
        yield from prepared(model, call)
    else:
        yield "call", call, stands(model.links.end(int(words[0])))
        yield from of_link(model, call, model.links.end(int(words[0])), words)


def of_link(model, call, end, words):
    if call in ("left", "remove"):
        yield from left(model.links, call, end, int(words[0]))
    if call == "attach":
        yield call, stands(end), words[1], words[3] in ("-", "0")
    if end is None or end.life != "Attached":
        return
    if call == "flow":
        yield from (heard_by_sender if end.kind == "sending" else heard_by_receiver)(end, *words[1:])
    if call in ("answer", "grant", "drain", "renew"):
        yield from said(end, call, words)
    if call in ("send", "prepare-send") and end.kind == "sending":
        yield from sent(model.links, end, call, words)
    if call == "transfer" and end.kind == "receiving":
        yield from came(model.links, end, words)


def amount(count, of):
    """How a count is to another one."""
    return "none" if count is None else "0" if count == 0 else "less" if count < of else "equal" if count == of else "one more" if count == of + 1 else "more"


def heard_by_sender(end, count, credit, drain, echo):
    named = end.initial if count == "-" else int(count)
    behind = after(end.count, named)
    far = "opposite" if CIRCLE - 99 > behind > 99 else "ahead" if behind > 99 else upto(behind)
    yield "credit", "initial" if count == "-" else far, amount(number(credit), 0 if far in ("ahead", "opposite") else behind)
    yield "credit of", credit if credit in ("-", "0", str(HALF), str(CIRCLE - 1)) else "few", far
    yield "credit at", place(named), place(end.count % CIRCLE) == place(named), credit == "-"
    yield "is told", drain, echo, credit == "-", end.drains


def heard_by_receiver(end, count, _, __, echo):
    used = 0 if count == "-" else after(int(count), end.count)
    yield "count", count == "-", "behind" if used >= HALF else amount(used, end.credit()), upto(end.credit())
    yield "count past", end.count % CIRCLE + used >= CIRCLE, place(end.count % CIRCLE), used < HALF
    yield "is heard", echo, end.echoes, end.drains, end.current is None


def said(end, call, words):
    yield call, end.kind, end.drains, end.echoes, end.credit() == 0
    if call == "answer" and end.kind == "sending":
        yield "answers", end.drains, end.echoes, words[1] == "0", end.is_first(), upto(end.credit())
        yield "answers at", place(end.count % CIRCLE), end.drains
    if call == "grant" and end.kind == "receiving":
        yield "grants", words[1], amount(int(words[1]), end.credit())
    if call == "renew" and end.kind == "receiving":
        mark = None if end.low is None else min(end.low, end.high)
        yield "renews", end.drains, mark is None or amount(end.credit(), mark), end.low != mark


def follows(unsettled, of):
    """How a number is to those that are unsettled."""
    if not unsettled:
        return "none"
    far = after(of, unsettled[-1]["number"])
    if any(it["number"] == of for it in unsettled):
        return "again"
    near = "next" if far == 1 else "after" if far < HALF else "before"
    return near if 0 < after(of, unsettled[0]["number"]) < HALF else "too far"


def own(unsettled, of, handle):
    """Whether a delivery is unsettled, and of this link."""
    return next((it["link"] == handle for it in unsettled if it["number"] == of), None)


def size_to(limit, size):
    return "no limit" if not limit else amount(size, limit)


def sent(links, end, call, words):
    part = sent_part(words[1:])
    is_first = end.is_first()
    yield call, part["end"], is_first, min(end.credit(), 1)
    yield "size sent", size_to(end.size_limit, (end.bytes or 0) + part["size"]), part["end"] == "Aborted"
    yield "sent by number", follows(links.sent, part["number"]) if is_first else None, settles(part)
    yield "sent at", place(part["number"])
    yield "counted at", place(end.count % CIRCLE)
    if not is_first:
        yield "sent later", own(links.sent, part["number"], int(words[0])), settles(part)


def fields(part, current):
    """The number, tag and format of a part, beside those of the delivery that is under way."""
    begun = current or {"number": None, "format": None}
    same = {key: "none" if part[key] is None else "same" if part[key] == begun[key] else "other" for key in ("number", "format")}
    return current is None, same["number"], part["tag"], same["format"], begun["format"] is None


def came(links, end, words):
    part = received_part(words[1:])
    is_first, of_number, tag, of_format, has_none = fields(part, end.current)
    wrong = tag == "new" and not is_first or of_number == "other" and not is_first or is_first and (tag is None or of_number == "none")
    yield "came", is_first, of_number, tag, min(end.credit(), 1)
    yield "of format", is_first, of_format, has_none
    was = end.current and end.current["settled"]
    if not wrong:
        yield "came settled", was, part["settled"], "aborted" if part["aborted"] else part["more"]
    size = (end.current["size"] if end.current else 0) + part["size"]
    yield "size", size_to(end.size_limit, size), part["aborted"], is_first
    if is_first and part["number"] is not None:
        yield "came by number", follows(links.received, part["number"]), part["settled"] is True or part["aborted"]
        yield "came at", place(part["number"])
    if end.current:
        yield "came later", own(links.received, end.current["number"], int(words[0])), part["settled"], part["aborted"]


def settled(unsettled, call, first, last):
    span = after(last, first)
    meant = [it for it in unsettled if span < HALF and after(it["number"], first) <= span]
    yield call, shape(first, last), min(len(meant), 2)
    yield call, "past", passes(first, last), upto(len(meant))
    yield call, "leaves", upto(len(meant)), upto(len(unsettled) - len(meant))
    yield call, "of links", len({it["link"] for it in meant})


def found(unsettled, call, of):
    yield call, place(of)
    yield call, "of", upto(len(unsettled))


def left_of(unsettled, call):
    yield call, upto(len(unsettled)), len({it["link"] for it in unsettled})


def left(links, call, end, handle):
    unsettled = links.sent + links.received
    own_ones = len([it for it in unsettled if it["link"] == handle])
    yield call, stands(end), min(own_ones, 2)
    yield call, "of", upto(own_ones), len(unsettled) > own_ones


def prepared(model, call):
    if call == "finish-flow":
        yield call, model.flow["end"].kind, model.flow["said"][3]
    else:
        part = model.part["part"]
        yield call, model.part["is_first"], part["settled"], part["end"]
