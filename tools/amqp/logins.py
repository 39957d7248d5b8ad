"""Headers and the login of a recording from the first byte on (AMQP 1.0 part 2, section 2.2; part 5, section 5.3), for the tests of the library for C."""

from amqp.canonical import composite, string, symbol, tag, ubyte
from amqp.decoder import parts, value
from amqp.recorded import CAPTURES, is_of_amqp, symbols
from amqp.streams import HEADER

MECHANISMS, INIT, OUTCOME = 0x40, 0x41, 0x44
OF_SASL, OF_AMQP = (HEADER + bytes([protocol, 1, 0, 0]) for protocol in (3, 0))
NULL = b"\x40"


def digits(of):
    return "-" if of is None else of.hex() or "."


def sized(of):
    return of if of.startswith(HEADER) else (len(of) + 4).to_bytes(4, "big") + of


def of_sasl(code, fields):
    return sized(b"\x02\x01\x00\x00" + composite(code, fields))


class Login:
    """What both sides sent before frames of AMQP; an engine takes the place of `side`. `peers` has what the other one sent: how many frames of AMQP stand
    before it in the recording, and its bytes."""

    @classmethod
    def recorded(cls, name, side):
        """`None` where it is no recording from the first byte on."""
        path = CAPTURES / f"{name}.txt"
        lines = path.read_text().splitlines() if path.exists() else []
        return None if all(map(is_of_amqp, lines)) else cls(lines, side)

    def __init__(self, lines, side):
        self.side, self.peers, before = side, [], 0
        for line in lines:
            of = bytes.fromhex(line[2:])
            if is_of_amqp(line):
                before += 1
                continue
            if line[0] != side:
                self.peers.append((before, sized(of)))
            if not of.startswith(HEADER):
                self.read(of)

    def read(self, of):
        """A frame of SASL."""
        _, code, at = value(of, 5)
        found, _ = parts(of, at + 1, of[at])
        said = [it for _, it, _ in found]
        start, _, end = found[0]
        if code == MECHANISMS:
            self.offered, self.spelled = said[0], of[start:end]
        elif code == INIT:
            self.mechanism, response, self.host = (said + [None, None])[:3]
            self.response = None if response is None else bytes.fromhex(response["bin"])
        else:
            assert code == OUTCOME and said[1:] in ([], [None]), "a challenge, or additional data"
            self.outcome = said[0]

    def line(self, name):
        """How the engine is made."""
        host, logins = self.logins()
        if self.side == "A":
            return f"client {name} A {digits(host)} {self.mechanism['sym']} {digits(self.response)}"
        return f"server {name} B {self.outcome} {' '.join(mechanism.decode() for mechanism, _ in logins)}"

    def logins(self):
        """The host, and each login as its mechanism and its initial response: the client's one, or what the server offers, as bytes."""
        if self.side == "A":
            return None if self.host is None else self.host.encode(), [(self.mechanism["sym"].encode(), self.response)]
        items = self.offered["items"] if "items" in self.offered else [self.offered]
        return None, [(it["sym"].encode(), None) for it in items]

    def told(self):
        """The record of each thing that the peer sent."""
        host = None if self.host is None else self.host.encode()
        asked = f"LoginAsked {self.mechanism['sym']} {digits(self.response)} {digits(host)}"
        of_client = ["SaslHeader", f"MechanismChosen 0 {self.spelled.hex()}", "LoggedIn -", "AmqpHeader"]
        return of_client if self.side == "A" else ["SaslHeader", asked, "AmqpHeader"]

    def sent(self):
        """What an engine sends before its frames, in the canonical spelling."""
        host = NULL if self.host is None else string(self.host)
        response = tag(None if self.response is None else {"bin": self.response.hex()})
        init = of_sasl(INIT, [symbol(self.mechanism["sym"]), response, host])
        offered = of_sasl(MECHANISMS, [symbols(self.offered)]) + of_sasl(OUTCOME, [ubyte(self.outcome)])
        return OF_SASL + (init if self.side == "A" else offered) + OF_AMQP

    def wanted(self):
        return [f"err 0 {it}" for it in self.told()] + [f"out {self.sent().hex()}"]
