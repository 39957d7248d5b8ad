"""What a random row of dispositions reaches: the kinds of its calls and answers, for session_model.py.

A kind is what was called, and facts of it and of its answer. Of a range these are its shape, by how far the last number
stands after the first, and what it passes on the circle of numbers. Counts of deliveries and of runs are one kind from
four on. The model is that of before a call's answer, but where a kind says what the call left.
"""

CIRCLE, HALF = 2**32, 2**31

# how far the last number of a range stands after the first: spans that have a kind of their own
SPANS = {
    0: "equal",
    HALF - 2: "the widest but one",
    HALF - 1: "the widest",
    HALF: "too wide by one",
    HALF + 1: "too wide by two",
    CIRCLE - 1: "one back",
}


def upto(count):
    return str(count) if count < 4 else "4 and more"


def shape(first, last):
    if last is None:
        return "one number"
    span = (last - first) % CIRCLE
    return SPANS.get(span, "short" if span < 14 else "wide" if span < HALF else "too wide")


def passes(first, last):
    """What the range passes: the wrap of the numbers, the half of the circle, both, or none."""
    span = ((first if last is None else last) - first) % CIRCLE
    wraps, halves = first + span >= CIRCLE, (first - HALF) % CIRCLE + span >= CIRCLE
    return ("both" if halves else "2^32") if wraps else "2^31" if halves else "none"


def place(number):
    """Where a number stands on the circle."""
    near = {0: "0", 1: "0", HALF - 1: "2^31", HALF: "2^31", CIRCLE - 1: "2^32"}
    if number < 100:
        return near.get(number, "after 0")
    if number > CIRCLE - 100:
        return near.get(number, "before 2^32")
    return near.get(number, "before 2^31" if number < HALF else "after 2^31")


def link(model, handle):
    return {True: "asks", False: "asks for none", None: "gone"}[model.asking.get(handle)]


def sent(model, handle, tag, settled):
    yield "sent", link(model, handle), tag, settled


def received(model, number, handle, tag, settled):
    here = link(model, handle)
    again = [it for it in model.received if it.number == number]
    yield "received", here, tag, settled
    yield "received at", place(number), here, settled
    yield "received with a window of", model.peer_window == 0, here
    if again and not settled:
        yield "received once more", here, link(model, again[0].handle), again[0].handle == handle


def detached(model, handle):
    is_open = [any(it.handle == handle for it in deliveries) for deliveries in (model.sent, model.received)]
    yield "another link", handle, link(model, handle), *is_open


def heard(model, first, last, settled, state, of_receiver, meant, runs):
    yield "heard", of_receiver, settled, state, shape(first, last)
    yield "heard past", passes(first, last), shape(first, last), upto(len(meant))
    yield "means past", of_receiver, settled, passes(first, last), upto(len(meant))
    deliveries = model.sent if of_receiver else model.received
    yield "leaves", of_receiver, settled, upto(len(meant)), upto(len(deliveries) - len(meant))
    if not settled:
        yield "echoes", of_receiver, state, upto(len(runs))
        for run in runs:
            yield "a run of", of_receiver, state, upto((run[1] - run[0]) % CIRCLE + 1), passes(*run)
        for it in meant:
            yield "of a link that", link(model, it.handle), of_receiver, state, it.tag, model.asks(it, state)


def given(model, first, last, settled, state, of_receiver, before):
    yield "given", of_receiver, settled, state
    yield "given over", settled, state, shape(first, last)
    more = min(model.peer_window - before, 14)
    yield "opens the window", state, before == 0, more, model.peer_window == CIRCLE - 1


def settled_here(model, first, last, is_sender, gone):
    yield "settled here", is_sender, shape(first, last)
    yield "settled here past", passes(first, last), is_sender, upto(len(gone))
    yield "settled here, and left", is_sender, upto(len(gone)), upto(len(model.sent if is_sender else model.received))


def open_ones(model):
    yield "open at the end", upto(len(model.sent)), upto(len(model.received))
    yield "a window at the end of", min(model.peer_window, 9), model.peer_window == CIRCLE - 1
