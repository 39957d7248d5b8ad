"""Lines of the program rows_links, and what a model of tools/amqp/session_links.py answers to them, as lines."""

from amqp.links import CIRCLE, Refused
from amqp.session_links import SessionLinks

ENDS = {"more": "More", "last": "Last", "aborted": "Aborted"}
FLAGS = {"true": True, "false": False, "-": None}

FLOWS = {"answer", "grant", "drain", "renew"}

# calls whose name is that of a part of the model
CALLS = {"flow": "flow_came"}


def number(word):
    return None if word == "-" else int(word)


def flag(value):
    return "true" if value else "false"


def sent_part(words):
    """The part to send that a line says after its handle."""
    return {"number": int(words[0]), "size": int(words[1]), "end": ENDS[words[2]], "settled": FLAGS[words[3]], "given": int(words[4])}


def received_part(words):
    """What a transfer says after its handle."""
    part = {"number": number(words[0]), "tag": None if words[1] == "-" else words[1], "format": number(words[2])}
    return part | {"settled": FLAGS[words[3]], "more": FLAGS[words[4]], "aborted": FLAGS[words[5]], "size": int(words[6])}


def entry(found):
    return "none" if found is None else "entry {number} {link} {given}".format(**found)


def flow(said):
    if said is None:
        return "none"
    count, credit, available, drain = said
    ready = "" if available is None else f" available={available}"
    return f"flow delivery-count={count} link-credit={credit}{ready} drain={flag(drain)}"


def given(back):
    return "none" if back is None else f"given {back}"


def place(is_first):
    return "first" if is_first else "later"


class Model:
    """A model of a session's links, which takes lines."""

    def __init__(self, made=SessionLinks):
        self.made, self.links = made, made()
        self.part = self.flow = None

    def answer(self, line):
        """The line that answers."""
        call, *words = line.split(" ")
        if call == "#":
            return line
        try:
            return flow(self.said(call, words)) if call in FLOWS else getattr(self, CALLS.get(call, call.replace("-", "_")))(*words)
        except Refused as refused:
            return f"err {refused.name}" + (f" {refused.condition}" if refused.condition else "")

    def new(self):
        self.links = self.made()
        return "ok"

    def room(self, _):
        return "ok"

    def sender(self, handle, count):
        self.links.add(int(handle), self.links.sending(int(count)))
        return "ok"

    def receiver(self, handle, low, high, limit):
        self.links.add(int(handle), self.links.receiving(number(low), number(high), number(limit)))
        return "ok"

    def attach(self, handle, is_accepted, count, limit):
        end = self.links.end(int(handle))
        if end is None:
            return "none"
        end.on_attach(FLAGS[is_accepted], int(count), number(limit))
        return end.life

    def detach(self, handle):
        end = self.links.end(int(handle))
        if end is None:
            return "none"
        end.detach()
        return end.life

    def on_detach(self, handle):
        end = self.links.end(int(handle))
        return "none" if end is None else end.on_detach()

    def remove(self, handle):
        self.links.remove(int(handle))
        return "ok"

    def end(self, handle):
        end = self.links.end(int(handle))
        if end is None:
            return "none"
        if end.kind == "sending":
            return f"sending {end.life} credit={end.credit()} delivery-count={end.count % CIRCLE}" + ("" if end.bytes is None else f" bytes={end.bytes}")
        return f"receiving {end.life} credit={end.credit()}" + (f" delivery={end.current['number']}" if end.current else "")

    def flow_came(self, handle, count, credit, drain, echo):
        end = self.links.end(int(handle))
        return "none" if end is None else f"used {end.on_flow(number(count), number(credit), FLAGS[drain], FLAGS[echo])}"

    def said(self, call, words):
        return self.links.say(int(words[0]), call, *map(int, words[1:]))

    def prepare_flow(self, call, handle, *words):
        self.flow = self.links.prepare_flow(int(handle), call, *map(int, words))
        return flow(self.flow and self.flow["said"])

    def finish_flow(self):
        self.links.finish_flow(self.flow)
        return "ok"

    def send(self, handle, *words):
        return given(self.links.send(int(handle), sent_part(words)))

    def prepare_send(self, handle, *words):
        self.part = self.links.prepare_send(int(handle), sent_part(words))
        part = self.part["part"]
        said = f"{place(self.part['is_first'])} {part['number']} {part['size']} {part['end']} {flag(part['settled'])} {part['given']}"
        return f"prepared {said}"

    def finish_send(self):
        return given(self.links.finish_send(self.part))

    def cancel_send(self):
        self.links.cancel_send(self.part)
        return "ok"

    def transfer(self, handle, *words):
        (told, is_first, end, is_settled, size), back = self.links.on_transfer(int(handle), received_part(words), int(words[-1]))
        said = f"part {place(is_first)} {told} {end} settled={flag(is_settled)} size={size}"
        return said if back is None else f"{said} given {back}"

    def settle_sent(self, first, last):
        return entry(self.links.settle(self.links.sent, int(first), int(last)))

    def settle_received(self, first, last):
        return entry(self.links.settle(self.links.received, int(first), int(last)))

    def sent(self, of):
        return entry(self.links.find(self.links.sent, int(of)))

    def received(self, of):
        return entry(self.links.find(self.links.received, int(of)))

    def left(self, handle):
        return entry(self.links.left(int(handle)))

    def left_of_sent(self):
        return entry(self.links.left_of(self.links.sent))

    def left_of_received(self):
        return entry(self.links.left_of(self.links.received))
