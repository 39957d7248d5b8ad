"""The links of one session, as a plain model of AMQP 1.0 part 2, sections 2.6.3 to 2.6.14 and 2.7.3 to 2.7.7.

It has lists and dicts, and may be slow. A count of deliveries is a number that never wraps: only what a frame says of it does.

Where the standard leaves something open, the model does as docs/DECISIONS.md says under "What a link counts", and as the calls of
`SessionLinks` say of themselves: which of two refusals comes first, what a flow without credit leaves, and that a number which
repeats one that is unsettled is looked at only where its delivery begins unsettled. There it is no judge of the code.

A call answers plain values: `None`, a number, a name, or a tuple; a refusal is a `Refused`.
"""

CIRCLE, HALF, LONGEST = 2**32, 2**31, 2**64 - 1


class Refused(Exception):
    """A call is refused, by this name."""

    def __init__(self, name, condition=None):
        super().__init__(name)
        self.name, self.condition = name, condition


def after(number, base):
    """How far a serial number lies after another one, going forward (section 2.8.10)."""
    return (number - base) % CIRCLE


def fits(size, limit):
    """Whether a message is within a max-message-size: zero or unset is no limit (section 2.7.3)."""
    return not limit or size <= limit


class End:
    """What both ends of a link have: where they stand (sections 2.6.3 to 2.6.6), the count, the limit of deliveries, drain and echo (section 2.6.7)."""

    def __init__(self):
        self.life = "Attaching"
        self.count = self.limit = 0
        self.drains = self.echoes = False

    def credit(self):
        return max(0, self.limit - self.count)

    def attach(self, is_accepted):
        """The peer's Attach: without a terminus of its own it refuses the link (section 2.6.3)."""
        self.life = "Attached" if is_accepted else "Refused"

    def detach(self):
        """This side's Detach: an answer is awaited, unless the peer detached before."""
        if self.life != "Detached":
            self.life = "Detaching"

    def on_detach(self):
        """The peer's Detach, and what it was."""
        was = {"Refused": "Refused", "Detaching": "Answered", "Detached": "Stray"}.get(self.life, "ByPeer")
        self.life = "Detached"
        return was


class Sending(End):
    kind = "sending"

    def __init__(self, initial):
        super().__init__()
        self.initial = self.count = self.limit = initial
        self.size_limit = self.bytes = None

    def on_attach(self, is_accepted, _, size_limit):
        if self.life == "Attaching":
            self.size_limit = size_limit
            self.attach(is_accepted)

    def seen(self, named):
        """The count that the receiver had come to. It is one that this end has come to; where none is named, the initial one."""
        return self.count - after(self.count, self.initial if named is None else named)

    def on_flow(self, count, credit, drain, echo):
        """The limit is what the receiver says: its count and its credit (section 2.6.7)."""
        if self.life != "Attached":
            return 0
        if credit is not None:
            self.limit = self.seen(count) + credit
            self.drains = drain
        self.echoes = self.echoes or echo
        return 0

    def is_first(self):
        return self.bytes is None

    def send(self, size, end):
        if self.life != "Attached":
            raise Refused("NotAttached")
        whole = min(LONGEST, (self.bytes or 0) + (0 if end == "Aborted" else size))
        if end != "Aborted" and not fits(whole, self.size_limit):
            raise Refused("TooLarge")
        if self.is_first():
            self.begin(end)
        self.bytes = whole if end == "More" else None

    def begin(self, end):
        """A delivery begins: an abort begins none, and each takes one of the credit."""
        if end == "Aborted":
            raise Refused("NoneUnderWay")
        if self.credit() == 0:
            raise Refused("NoCredit")
        self.count += 1

    def is_to_drain(self, available):
        return self.drains and available == 0 and self.is_first() and self.credit() > 0

    def answer(self, available):
        """A drain uses up all credit where nothing is there to send, and is told; an echo is answered (section 2.6.7)."""
        is_drained = self.is_to_drain(available)
        if self.life != "Attached" or not (is_drained or self.echoes):
            return None
        if is_drained:
            self.use_up()
        self.echoes = False
        return self.count % CIRCLE, self.credit(), available, self.drains

    def use_up(self):
        self.count = self.limit


class Receiving(End):
    kind = "receiving"

    def __init__(self, low, high, size_limit):
        super().__init__()
        self.low, self.high, self.size_limit = low, high, size_limit
        # the delivery that is under way: its number, format, whether it is settled, and its size
        self.current = None

    def on_attach(self, is_accepted, initial, _):
        if self.life == "Attaching":
            self.count = self.limit = initial
            self.attach(is_accepted)

    def state(self):
        return self.count % CIRCLE, self.credit(), None, self.drains

    def grant(self, credit):
        if self.life != "Attached":
            return None
        self.limit, self.drains = self.count + credit, False
        return self.state()

    def drain(self):
        if self.life != "Attached":
            return None
        self.drains = True
        return self.state()

    def renew(self):
        """Up to the high mark, where the credit is below the low one, which counts as the high one at most."""
        if self.life != "Attached" or self.drains or self.high is None or self.credit() >= min(self.low, self.high):
            return None
        return self.grant(self.high)

    def fault(self, name, condition):
        """The sender did what it may not do: this side detaches."""
        self.life = "Detaching"
        raise Refused(name, condition)

    def on_flow(self, count, _, __, echo):
        """What the sender used up: it may come to the limit, and a count that lies behind says nothing."""
        if self.life != "Attached":
            return 0
        used = 0 if count is None else after(count, self.count)
        if used > self.credit():
            if used < HALF:
                self.fault("CountPastLimit", "amqp:invalid-field")
            used = 0
        self.count += used
        self.echoes = self.echoes or echo
        return used

    def answer(self, _):
        if self.life != "Attached" or not self.echoes:
            return None
        self.echoes = False
        return self.state()

    def on_transfer(self, part):
        """What a part is to its delivery (sections 2.6.14 and 2.7.5): number, whether it is the first, how it ends, is settled, and the size."""
        if self.life != "Attached":
            raise Refused("NotAttached")
        is_first = self.current is None
        if is_first and self.credit() == 0:
            self.fault("OverCredit", "amqp:link:transfer-limit-exceeded")
        delivery = self.begun(part) if is_first else self.gone_on(part)
        end = "Aborted" if part["aborted"] else "More" if part["more"] else "Last"
        self.add(delivery, part, end)
        self.count += is_first
        self.current = delivery if end == "More" else None
        return delivery["number"], is_first, end, delivery["settled"], delivery["size"]

    def begun(self, part):
        """A first part has a number and a tag (section 2.7.5)."""
        has_number, has_tag = part["number"] is not None, part["tag"] is not None
        if not has_number or not has_tag:
            self.wrong("NoTag" if has_number else "NoNumber" if has_tag else "NoneUnderWay")
        return {"number": part["number"], "format": part["format"], "settled": False, "size": 0}

    def gone_on(self, part):
        """A later part has those of the first one, or leaves them out (section 2.7.5)."""
        if part["tag"] == "new" or part["number"] not in (None, self.current["number"]):
            self.wrong("OtherDelivery")
        if part["format"] not in (None, self.current["format"]):
            self.wrong("OtherFormat")
        return dict(self.current)

    def add(self, delivery, part, end):
        """What aborts a delivery settles it, and has no payload; a part that says nothing of settlement leaves it as it was (section 2.7.5)."""
        is_aborted = end == "Aborted"
        delivery["settled"] = delivery["settled"] or part["settled"] is True or is_aborted
        delivery["size"] += 0 if is_aborted else part["size"]
        if not is_aborted and not fits(delivery["size"], self.size_limit):
            self.wrong("TooLarge", "amqp:link:message-size-exceeded")

    def wrong(self, name, condition="amqp:invalid-field"):
        self.fault(f"Part({name})", condition)
