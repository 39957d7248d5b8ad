"""The client's side of a recorded exchange, as the engine has to take it: its sessions, their windows, and their links.

It is kept by AMQP 1.0 part 2, sections 2.5 and 2.6, from the recorded fields alone. An output handle is the lowest that is not taken;
one whose own detach is not answered is taken. The relay of a link answers a detach that the server began, and an unsettled disposition:
that it echoes, settled, for each run of open deliveries (section 2.6.12).
"""

from amqp.canonical import boolean, composite, tag, uint
from amqp.recorded import DETACH, DISPOSITION, FLOW, TRANSFER


class Links:
    """The links of a session: live names, and which output handle an input handle stands for."""

    def __init__(self):
        self.live, self.waiting, self.awaited, self.inputs = {}, set(), set(), {}

    def allot(self, name):
        taken = self.awaited | set(self.live.values())
        handle = next(number for number in range(len(taken) + 1) if number not in taken)
        self.live[name] = handle
        self.waiting.add(name)
        return handle

    def leave(self, handle):
        """The live link of the handle goes; whether there was one."""
        for name in [name for name, its in self.live.items() if its == handle]:
            del self.live[name]
            self.waiting.discard(name)
            return True
        return False

    def attach(self, name, handle):
        """Why the server's attach is refused, if it is."""
        if name not in self.live:
            return ["err RemoteAttachingLinkNameNotFound"]
        if name not in self.waiting:
            return ["err HandleInUse"]
        self.waiting.remove(name)
        self.inputs[handle] = self.live[name]
        return []

    def detach(self, handle):
        """The output handle of the relay's answer to the server's detach, if it answers."""
        output = self.inputs.pop(handle, None)
        if output in self.awaited:
            self.awaited.remove(output)
            return None
        if output is not None:
            self.leave(output)
        return output


class Session:
    """A session of the client, on the channel of its number."""

    def __init__(self, number):
        self.number, self.links = number, Links()
        self.queue, self.handed = [], 0
        self.base, self.width = 0, 0
        self.next_incoming, self.is_mapped, self.is_ending = 0, False, False
        self.deliveries = 0
        # detaches by which the relay answered, and which the client's recording has still to show
        self.unanswered = []
        # sent deliveries that are open, and those of which an echo went out, which the client's recording has still to settle
        self.open, self.echoed = [], []

    def out(self, text):
        return f"out 020000{self.number:02x}" + text.hex()

    def drained(self):
        """The transfers that the window lets out now."""
        out = []
        while self.queue and (self.handed - self.base) % 2**32 < self.width:
            out.append(self.queue.pop(0)())
            self.handed += 1
        return out

    # what comes

    def hear_begin(self, frame):
        self.base, self.width = self.handed, frame["incoming_window"]
        self.next_incoming, self.is_mapped = frame["next_outgoing_id"], True

    def hear_flow(self, frame):
        self.base, self.width = frame["next_incoming_id"], frame["incoming_window"]
        self.next_incoming = frame["next_outgoing_id"]
        assert not frame["echo"], "no recorded flow asks for an echo"
        if frame["handle"] is not None and frame["handle"] not in self.links.inputs:
            return ["err UnattachedHandle"]
        return self.drained()

    def hear_transfer(self, frame):
        self.next_incoming += 1
        return [] if frame["handle"] in self.links.inputs else ["err UnattachedHandle"]

    def hear_disposition(self, frame):
        """A settled one closes the deliveries that it means, an unsettled one is echoed and leaves them open."""
        assert frame["role"], "the server received what it speaks of"
        meant = [number for number in self.open if number in numbers_of(frame)]
        if frame["settled"]:
            self.open = [number for number in self.open if number not in meant]
            self.echoed = [number for number in self.echoed if number not in meant]
            return []
        self.echoed = sorted({*self.echoed, *meant})
        state = frame.spelled()[4]
        of_run = lambda first, last: composite(DISPOSITION, [boolean(False), uint(first), uint(last), boolean(True), state])
        return [self.out(of_run(*run)) for run in runs(meant)]

    def hear_attach(self, frame):
        return self.links.attach(frame["name"], frame["handle"])

    def hear_detach(self, frame):
        output = self.links.detach(frame["handle"])
        if output is None:
            return []
        text = composite(DETACH, [uint(output), boolean(frame["closed"] or None)])
        self.unanswered.append(text)
        return [self.out(text)]

    # what is asked for

    def ask_attach(self, frame):
        """The link is allotted, and its attach goes out. The recorded handle is the one that is allotted."""
        handle = self.links.allot(frame["name"])
        assert handle == frame["handle"], "another handle was recorded"
        yield f"link {self.number} {frame['name']}", []
        yield self.asked(frame.body()), [self.out(frame.canonical())]

    def ask_detach(self, frame):
        """A detach that answers the server's was already given by the relay, as it was recorded."""
        if self.unanswered:
            assert self.unanswered.pop(0) == frame.canonical()
            return
        assert self.links.leave(frame["handle"])
        self.links.awaited.add(frame["handle"])
        yield self.asked(frame.body()), [self.out(frame.canonical())]

    def ask_flow(self, frame):
        """The flow's own numbers are asked for as they were recorded; those of the session go out."""
        names = ("next_incoming_id", "incoming_window", "next_outgoing_id", "outgoing_window")
        of_link = [uint(frame[name]) for name in ("handle", "delivery_count", "link_credit", "available")]
        of_link.append(boolean(frame["drain"] or None))
        asked, out = [frame[name] for name in names], [self.next_incoming, 5000, self.handed, 5000]
        texts = [composite(FLOW, [uint(it) for it in numbers] + of_link) for numbers in (asked, out)]
        yield self.asked(texts[0].hex()), [self.out(texts[1])]

    def ask_transfer(self, frame, is_first):
        """Number and tag stand on the first frame of a delivery alone; the number is given where it goes out."""

        def text(number):
            first = [uint(number), tag(frame["delivery_tag"]), uint(frame["message_format"]), boolean(frame["settled"])]
            middle = first if is_first else [b"\x40"] * 4
            return composite(TRANSFER, [uint(frame["handle"]), *middle, boolean(frame["more"] or None)]) + frame.payload

        def sent():
            number, self.deliveries = self.deliveries, self.deliveries + is_first
            assert not is_first or number == frame["delivery_id"], "deliveries go out in the recorded order"
            self.open += [number] if is_first and not frame["settled"] else []
            return self.out(text(number))

        self.queue.append(sent)
        yield self.asked(text(None).hex()), self.drained()

    def ask_disposition(self, frame):
        """One that settles what an echo has settled was already given by the relay."""
        if frame["role"] or not set(numbers_of(frame)) <= set(self.echoed):
            yield self.asked(frame.body()), [self.out(frame.canonical())]
        else:
            assert frame["settled"]
            self.echoed = [number for number in self.echoed if number not in numbers_of(frame)]

    def asked(self, body):
        return f"send {self.number} {body}"


def numbers_of(frame):
    """The deliveries of a recorded disposition, none of which passes the wrap."""
    last = frame["first"] if frame["last"] is None else frame["last"]
    return range(frame["first"], last + 1)


def runs(numbers):
    """The maximal runs of rising numbers, each as its first and last."""
    firsts = [number for number in numbers if number - 1 not in numbers]
    lasts = [number for number in numbers if number + 1 not in numbers]
    return list(zip(firsts, lasts))
