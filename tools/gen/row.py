"""Rows of text and the performatives that they name, for expected_session.py, expected_engine.py and the scripts beside them."""

from amqp import readable
from amqp.canonical import boolean, composite, string, symbol, tag, uint, ushort

OPEN, BEGIN, ATTACH, FLOW, TRANSFER, DISPOSITION, DETACH, END, CLOSE = range(0x10, 0x19)

ERROR = 0x1D

LAST = 4294967295


class Rows:
    """The lines of the input, and those of the output, in which each row begins by a mark and a title."""

    def __init__(self, mark="#"):
        self.mark, self.asked, self.said = mark, [], []

    def row(self, title):
        """A row begins."""
        self.ask(f"{self.mark} {title}", f"{self.mark} {title}")

    def ask(self, line, *answers):
        """A line, and the lines that answer it."""
        self.asked.append(line)
        self.said.extend(answers)

    def note(self):
        """Puts after each line so far, for readers, what its hexadecimal says. The programs read no further than ` ;`."""
        self.asked = [noted(line) for line in self.asked]

    def write(self, crate):
        """Writes the files of a program."""
        crate.joinpath("stdin").write_text("\n".join(self.asked) + "\n")
        crate.joinpath("stdout").write_text("\n".join(self.said) + "\n")


# the lines that end with a performative in hexadecimal, by their first word, and how many words they have
PERFORMATIVES = {"recv": 3, "send": 3, "first": 3, "later": 3} | dict.fromkeys(["flow", "attach", "detach", "detach-awaited", "disposition", "each-channel"], 2)


def noted(line):
    """The line, and after it what its frame or performative says."""
    words = line.split(" ")
    if words[0] in ("times", "retry"):
        words = words[2:]
    if words[0] == "with":
        words = words[1:]
    is_frame = words[0] == "recv" and len(words) == 2
    if not words[-1] or not is_frame and PERFORMATIVES.get(words[0]) != len(words):
        return line
    try:
        of = bytes.fromhex(words[-1])
    except ValueError:
        return line
    return f"{line}   ; {(readable.frame if is_frame else readable.performative)(of)}"


class SessionRows(Rows):
    """Rows of the program rows_session."""

    def new(self, words):
        """A session is made: its state, and what is not the default."""
        self.ask("new " + words, "ok")

    def show(self, state, **numbers):
        """The state and the numbers of the session are those; what is not named is 0."""
        names = ["next-outgoing-id", "remote-incoming-window", "next-incoming-id", "remote-outgoing-window", "held-back", "open-deliveries"]
        wanted = {name.replace("_", "-"): number for name, number in numbers.items()}
        assert set(wanted) <= set(names), wanted
        # a transfer is taken in Mapped alone (AMQP 1.0 part 2, section 2.5.5)
        sends = "true" if state == "Mapped" else "false"
        self.ask("show", f"{state} can-send={sends} " + " ".join(f"{name}={wanted.get(name, 0)}" for name in names))


def begin(remote_channel=None, next_outgoing_id=0, incoming_window=5000, outgoing_window=5000, handle_max=LAST, offered=None, desired=None):
    """A Begin (AMQP 1.0 part 2, section 2.7.2)."""
    highest = b"\x40" if handle_max == LAST else uint(handle_max)
    numbers = [uint(next_outgoing_id), uint(incoming_window), uint(outgoing_window)]
    lists = [b"\x40" if it is None else one_symbol(it) for it in (offered, desired)]
    return composite(BEGIN, [ushort(remote_channel), *numbers, highest, *lists]).hex()


def one_symbol(text):
    """An array of one symbol: the size of what follows, the count, the constructor, the item (AMQP 1.0 part 1, section 1.6.24)."""
    item = symbol(text)
    return bytes([0xE0, len(item) + 1, 1]) + item


def flow(next_incoming_id, incoming_window, next_outgoing_id=0, outgoing_window=8, handle=None, *of_link, drain=False, echo=False):
    """A Flow (AMQP 1.0 part 2, section 2.7.4); of_link are delivery-count, link-credit and available."""
    numbers = [uint(it) for it in (next_incoming_id, incoming_window, next_outgoing_id, outgoing_window, handle, *of_link)]
    numbers += [b"\x40"] * (8 - len(numbers))
    words = [boolean(True if it else None) for it in (drain, echo)]
    return composite(FLOW, numbers + words).hex()


def transfer(delivery_id=None, text=None, handle=0, format=None, settled=None, more=False):
    """A Transfer (AMQP 1.0 part 2, section 2.7.5), whose delivery-tag is these ASCII letters."""
    delivery_tag = tag(None if text is None else {"bin": text.encode().hex()})
    words = [boolean(settled), boolean(True if more else None)]
    return composite(TRANSFER, [uint(handle), uint(delivery_id), delivery_tag, uint(format), *words]).hex()


# the states of a delivery (AMQP 1.0 part 3, section 3.4): received at section 0, offset 5; accepted; rejected; released
RECEIVED, ACCEPTED, REJECTED, RELEASED = "005323c00402435205", "00532445", "00532545", "00532645"


def disposition(first, last=None, settled=False, state=ACCEPTED, of_receiver=True, batchable=False):
    """A Disposition (AMQP 1.0 part 2, section 2.7.6); without a last number it means the first alone."""
    fields = [boolean(of_receiver), uint(first), uint(last), boolean(True if settled else None)]
    fields.append(b"\x40" if state is None else bytes.fromhex(state))
    return composite(DISPOSITION, [*fields, boolean(True if batchable else None)]).hex()


def echo(first, last, state=ACCEPTED):
    """The Disposition by which this side settles a run of deliveries: its last number is always named."""
    return disposition(first, last, True, state, of_receiver=False)


def attach(name, handle, receives=True):
    """An Attach (AMQP 1.0 part 2, section 2.7.3) of a receiver, or of a sender."""
    return composite(ATTACH, [string(name), uint(handle), boolean(receives)]).hex()


def detach(handle, closed=False, condition=None):
    """A Detach (AMQP 1.0 part 2, section 2.7.7)."""
    return composite(DETACH, [uint(handle), boolean(True if closed else None), error(condition)]).hex()


def opening(name, max_frame_size=None, channel_max=None):
    """An Open (AMQP 1.0 part 2, section 2.7.1) without a hostname."""
    return composite(OPEN, [string(name), b"\x40", uint(max_frame_size), ushort(channel_max)]).hex()


def closing(condition=None):
    """A Close (AMQP 1.0 part 2, section 2.7.9)."""
    return composite(CLOSE, [error(condition)]).hex()


def error(condition):
    return b"\x40" if condition is None else composite(ERROR, [symbol(condition)])


def end(condition=None):
    """An End (AMQP 1.0 part 2, section 2.7.8)."""
    return composite(END, [error(condition)]).hex()


def refused(name, condition=None):
    """The line of a refusal."""
    if condition is None:
        return "err " + name
    return f'err {name}(Error {{ condition: Symbol("{condition}"), description: None, info: None }})'


def recv(body, channel=0):
    """A received frame of AMQP's type, with an offset of two words (AMQP 1.0 part 2, section 2.3.1)."""
    return f"recv 020000{channel:02x}{body}"


def out(body, channel=0):
    """The frame as it goes out, in one piece."""
    return f"out 020000{channel:02x}{body}"


def wire(body, channel=0):
    """The frame as it goes out, after its size, which counts its own four bytes."""
    frame = out(body, channel).removeprefix("out ")
    return f"{len(frame) // 2 + 4:08x}{frame}"


OUR_OPEN = out(opening("replay", 262144, 255))
OUR_CLOSE = out(closing())


class EngineRows(Rows):
    """Rows of the program rows_engine."""

    def __init__(self):
        super().__init__("--")

    def open(self, peer=opening("a", 262144, 255)):
        """Both Opens pass."""
        self.ask("open", OUR_OPEN)
        self.ask(recv(peer))

    def begin(self, number, channel=None):
        """A session begins, on the channel of its number where none is named."""
        self.ask(f"begin {number}", out(begin(), number if channel is None else channel))
