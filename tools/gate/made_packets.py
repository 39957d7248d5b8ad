"""Files of packets, made by hand, for try_pcap.py: a recording as TCP carries it, over each link and both versions of IP, as .pcap and as .pcapng."""

from struct import pack

CLIENT, SERVER = 40000, 5672
HEADER = b"AMQP\0\1\0\0"
FIN, SYN, RST, ACK = 1, 2, 4, 16
# The first numbers of both sides: each passes the wrap soon
FIRST = {"A": 2**32 - 700, "B": 2**32 - 50}
BEGAN, STEP = 1_700_000_000.0, 0.001


class Packet:
    """A segment: its time, its side, where its data stand in that side's stream, and those; `before` is how much of the other side's was sent."""

    def __init__(self, time, side, at, data, before, flags=ACK):
        self.time, self.side, self.at, self.data, self.before, self.flags = time, side, at, data, before, flags


def packets_of(frames, cut=lambda side, data: [data]):
    """A connection from its SYN to its FINs: a segment for each frame, or those into which `cut` cuts it."""
    sent, found = {"A": 0, "B": 0}, [Packet(BEGAN, "A", -1, b"", 0, SYN), Packet(BEGAN, "B", -1, b"", 0, SYN | ACK)]
    for side, of in [("A", HEADER), ("B", HEADER), *frames]:
        of = of if of == HEADER else (len(of) + 4).to_bytes(4, "big") + of
        for data in cut(side, of):
            found.append(Packet(BEGAN + STEP * len(found), side, sent[side], data, sent["B" if side == "A" else "A"]))
            sent[side] += len(data)
    # both ends, each of which counts as a byte, and what acknowledges the second
    ends = [("A", 0, 0, FIN | ACK), ("B", 0, 1, FIN | ACK), ("A", 1, 1, ACK)]
    for side, own, of_other, flags in ends:
        other = "B" if side == "A" else "A"
        found.append(Packet(BEGAN + STEP * len(found), side, sent[side] + own, b"", sent[other] + of_other, flags))
    return found


def tcp(packet, client=CLIENT):
    ports = (client, SERVER) if packet.side == "A" else (SERVER, client)
    acknowledged = (FIRST["B" if packet.side == "A" else "A"] + packet.before) % 2**32
    return pack(">HHIIHHHH", *ports, (FIRST[packet.side] + packet.at) % 2**32, acknowledged, 5 << 12 | packet.flags, 65535, 0, 0) + packet.data


def ip_4(packet, inside, flags=0x4000):
    ends = bytes([10, 0, 0, 1]), bytes([10, 0, 0, 2])
    ends = ends if packet.side == "A" else ends[::-1]
    return pack(">BBHHHBBH4s4s", 0x45, 0, (20 + len(inside)) % 2**16, 1, flags, 64, 6, 0, *ends) + inside


def ip_6(packet, inside, extensions=b"", kind=6):
    ends = bytes(15) + b"\1", bytes.fromhex("fe80") + bytes(13) + b"\2"
    ends = ends if packet.side == "A" else ends[::-1]
    return pack(">IHBB16s16s", 6 << 28, len(extensions) + len(inside), kind, 64, *ends) + extensions + inside


def routed(packet, inside):
    """Over IP of version 6, behind options of two kinds."""
    return ip_6(packet, inside, bytes([60, 0, *bytes(6), 6, 1, *bytes(14)]), 0)


def kind_of(ip):
    return b"\x08\0" if ip[0] >> 4 == 4 else b"\x86\xdd"


# The links, by what is said of them: the type, and what stands before IP
LINKS = {
    "Ethernet": (1, lambda ip: bytes(12) + kind_of(ip)),
    "Ethernet, with two tags": (1, lambda ip: bytes(12) + b"\x88\xa8\0\1\x81\0\0\2" + kind_of(ip)),
    "loopback": (0, lambda ip: pack("<I", 2 if ip[0] >> 4 == 4 else 30)),
    "OpenBSD's loopback": (108, lambda ip: pack(">I", 2 if ip[0] >> 4 == 4 else 24)),
    "raw IP": (101, lambda ip: b""),
    "Linux cooked": (113, lambda ip: pack(">HHHQ", 0, 1, 6, 0) + kind_of(ip)),
    "Linux cooked, version 2": (276, lambda ip: kind_of(ip) + bytes(18)),
}
VERSIONS = {"4": ip_4, "6": ip_6, "6, with options": routed}


def linked(packets, link="Ethernet", version="4", client=CLIENT):
    """The packets as they stand on a link: each with its time."""
    for packet in packets:
        inside = VERSIONS[version](packet, tcp(packet, client))
        yield packet.time, LINKS[link][1](inside) + inside


def pcap(packets, link=1, order="<", nano=False, most=2**16):
    """A .pcap, of whose packets `most` bytes were recorded."""
    magic, units = (0xA1B23C4D, 10**9) if nano else (0xA1B2C3D4, 10**6)
    found = [pack(order + "IHHIIII", magic, 2, 4, 0, 0, most, link)]
    for time, data in packets:
        kept = data[:most]
        found.append(pack(order + "IIII", int(time), int(time % 1 * units), len(kept), len(data)) + kept)
    return b"".join(found)


def block(kind, inside, order="<"):
    inside += bytes(-len(inside) % 4)
    size = pack(order + "I", len(inside) + 12)
    return pack(order + "I", kind) + size + inside + size


def section(order="<"):
    return block(0x0A0D0D0A, pack(order + "IHHq", 0x1A2B3C4D, 1, 0, -1), order)


def interface(link=1, order="<", options=b""):
    return block(1, pack(order + "HHI", link, 0, 0) + options, order)


def pcapng(packets, link=1, order="<", number=0):
    """A .pcapng: a section, interfaces, of which the packets are of the one with this number, blocks that are passed over, and times by 2^-20 seconds."""
    units = pack(order + "HHBxxxHH", 9, 1, 0x80 | 20, 0, 0)
    found = [section(order), *[interface(147, order)] * number, interface(link, order, units), block(5, bytes(8), order)]
    for time, data in packets:
        ticks = int(time * 2**20)
        found.append(block(6, pack(order + "IIIII", number, ticks >> 32, ticks % 2**32, len(data), len(data)) + data, order))
    return b"".join(found)
