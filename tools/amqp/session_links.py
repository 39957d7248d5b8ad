"""The links of one session together, and what is unsettled on them, as a plain model: the ends are those of links.py.

What is unsettled in a direction is a list of dicts, in the order in which it came (AMQP 1.0 part 2, sections 2.6.12 and 2.6.13).
"""

from copy import copy

from amqp.links import HALF, Receiving, Refused, Sending, after


def settles(part):
    return part["settled"] is True or part["end"] == "Aborted"


class SessionLinks:
    # the ends that it makes
    sending, receiving = Sending, Receiving

    def __init__(self):
        self.ends, self.sent, self.received = {}, [], []

    def add(self, handle, end):
        if handle in self.ends:
            raise Refused("InUse")
        self.ends[handle] = end

    def end(self, handle, kind=None):
        """The end that has the handle, if it is of this kind."""
        end = self.ends.get(handle)
        return end if kind is None or end and end.kind == kind else None

    def remove(self, handle):
        """A handle is free again once the peer has detached and nothing is unsettled on the link."""
        if handle not in self.ends:
            raise Refused("NoLink")
        if self.ends[handle].life != "Detached":
            raise Refused("NotDetached")
        if any(it["link"] == handle for it in self.sent + self.received):
            raise Refused("Unsettled")
        del self.ends[handle]

    # what is unsettled

    def insert(self, unsettled, number, handle, given):
        """A delivery comes after all that are unsettled, in serial order (section 2.8.10)."""
        if any(not 0 < after(number, it["number"]) < HALF for it in unsettled):
            raise Refused("NotNext")
        unsettled.append({"number": number, "link": handle, "given": given})

    def find(self, unsettled, number):
        return next((it for it in unsettled if it["number"] == number), None)

    def take(self, unsettled, meant):
        """The oldest that is meant is unsettled no more."""
        if not meant:
            return None
        unsettled.remove(meant[0])
        return meant[0]

    def meant(self, unsettled, first, last):
        """Those of a range, which goes forward by less than half of the circle (sections 2.7.6 and 2.8.10)."""
        span = after(last, first)
        if span >= HALF:
            return []
        within = [it for it in unsettled if after(it["number"], first) <= span]
        return sorted(within, key=lambda it: after(it["number"], first))

    def settle(self, unsettled, first, last):
        return self.take(unsettled, self.meant(unsettled, first, last))

    def left(self, handle):
        """The oldest that is left on a link which the peer has detached."""
        end = self.ends.get(handle)
        if end is None or end.life != "Detached":
            return None
        unsettled = self.sent if end.kind == "sending" else self.received
        return self.take(unsettled, [it for it in unsettled if it["link"] == handle])

    def left_of(self, unsettled):
        return self.take(unsettled, unsettled[:1])

    def settle_own(self, unsettled, handle, number):
        """A later part settles its delivery: what was given with it."""
        found = self.find(unsettled, number)
        if found is None or found["link"] != handle:
            return None
        unsettled.remove(found)
        return found["given"]

    # parts

    def prepare_send(self, handle, part):
        """The end as it is after the transfer, and whether that begins a delivery: this one is unsettled already."""
        end = copy(self.end(handle, "sending"))
        if end is None:
            raise Refused("NoSender")
        is_first = end.is_first()
        try:
            end.send(part["size"], part["end"])
        except Refused as error:
            raise Refused(f"Link({error.name})") from None
        if is_first and not settles(part):
            self.insert(self.sent, part["number"], handle, part["given"])
        return {"handle": handle, "part": part, "is_first": is_first, "end": end}

    def finish_send(self, prepared):
        handle, part = prepared["handle"], prepared["part"]
        if handle not in self.ends:
            return None
        self.ends[handle] = prepared["end"]
        if prepared["is_first"] or not settles(part):
            return None
        return self.settle_own(self.sent, handle, part["number"])

    def cancel_send(self, prepared):
        part = prepared["part"]
        if prepared["is_first"] and not settles(part):
            self.sent.remove(self.find(self.sent, part["number"]))

    def send(self, handle, part):
        return self.finish_send(self.prepare_send(handle, part))

    def on_transfer(self, handle, part, given):
        """The part, and what is given back. A number that may not come next leaves the link as it was."""
        end = copy(self.end(handle, "receiving"))
        if end is None:
            raise Refused("NoReceiver")
        try:
            told = end.on_transfer(part)
        except Refused as error:
            self.ends[handle] = end
            name = f"Fault({error.name})" if error.condition else error.name
            raise Refused(f"Link({name})", error.condition) from None
        number, is_first, _, is_settled, _ = told
        if is_first and not is_settled:
            self.insert(self.received, number, handle, given)
        back = self.settle_own(self.received, handle, number) if is_settled and not is_first else None
        self.ends[handle] = end
        return told, back

    # flows

    def prepare_flow(self, handle, wish, *words):
        """The end as it is after its call of this name, and the flow; `None` where it says none, or the other end alone has such a call."""
        end = copy(self.ends.get(handle))
        if not hasattr(end, wish):
            return None
        said = getattr(end, wish)(*words)
        return said and {"handle": handle, "said": said, "end": end}

    def finish_flow(self, prepared):
        if prepared["handle"] in self.ends:
            self.ends[prepared["handle"]] = prepared["end"]

    def say(self, handle, wish, *words):
        prepared = self.prepare_flow(handle, wish, *words)
        if prepared is None:
            return None
        self.finish_flow(prepared)
        return prepared["said"]
