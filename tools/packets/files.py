"""Reads the packets of a file .pcap or .pcapng. The layouts are those of dpkt (Debian's python3-dpkt), which is imported for such a file alone.

What a file says of itself is not trusted: a length past `MOST`, or past the file's end, ends the reading, and it is told why. Dpkt's own reader of
.pcapng takes the first interface for all packets, and its options and packets cost more than their length: so sections, interfaces and packets are
followed here, and headers of packets are read by headers.py.
"""

import struct
from pathlib import Path

from shared.command import told

# No packet and no block of one is longer, nor is what describes an interface
MOST, MOST_INTERFACE = 2**20, 2**12
SECTION, BIG, LITTLE = bytes.fromhex("0a0d0d0a"), bytes.fromhex("1a2b3c4d"), bytes.fromhex("4d3c2b1a")
MAGICS = {bytes.fromhex(it) for it in ("a1b2c3d4", "d4c3b2a1", "a1b23c4d", "4d3cb2a1", "a1b2cd34", "34cdb2a1")}
INTERFACE, OLD_PACKET, SIMPLE_PACKET, PACKET = 1, 2, 3, 6
# The options of an interface: what a unit of time is, and what is added to each time
RESOLUTION, OFFSET = 9, 14


class Unreadable(Exception):
    """Why a file can be read no further."""


def has_packets(path):
    """Whether the file begins as one of packets does."""
    with open(path, "rb") as file:
        front = file.read(4)
    return front in MAGICS or front == SECTION


def library():
    try:
        import dpkt
    except ImportError:
        told("no module dpkt, by which packets are read: install Debian's python3-dpkt, and run /usr/bin/python3")
    return dpkt


class Guarded:
    """A file that is read from the front: no read is longer than `MOST`, or comes to the end but where it may. `went` is told how far it is."""

    def __init__(self, file, went):
        self.file, self.went, self.at, self.may_end = file, went, 0, True

    def read(self, count):
        if not 0 <= count <= MOST:
            raise Unreadable(f"a length of {count % 2**32:,} bytes, where {MOST:,} are the most")
        found, may_end, self.may_end = self.file.read(count), self.may_end, False
        self.at += len(found)
        if len(found) < count and (found or not may_end):
            raise Unreadable("it ends within a packet or a block")
        self.went(self.at)
        return found

    def pass_over(self, count):
        while count:
            count -= len(self.read(min(count, MOST)))


def packets(path, went=lambda at: None):
    """Each packet: its time in seconds, the type of its link, and its bytes as far as they were recorded."""
    dpkt = library()
    with Path(path).open("rb") as file:
        front = file.read(4)
        file.seek(0)
        guarded = Guarded(file, went)
        try:
            yield from Sections(guarded, dpkt).packets() if front == SECTION else plain(guarded, dpkt)
        except (dpkt.UnpackError, struct.error) as error:
            raise Unreadable(f"it is malformed ({type(error).__name__})") from None


def plain(file, dpkt):
    """The packets of a .pcap; the type of link has flags above its sixteen bits."""
    file.may_end = False
    reader = dpkt.pcap.Reader(file)
    link = reader.datalink() & 0xFFFF
    file.may_end = True
    for time, data in reader:
        yield float(time), link, data
        file.may_end = True


class Sections:
    """The sections of a .pcapng: each has its own order of bytes, and its own interfaces."""

    def __init__(self, file, dpkt):
        self.file, self.dpkt, self.order, self.interfaces, self.time = file, dpkt, "<", [], 0.0

    def packets(self):
        while front := self.file.read(8):
            if front.startswith(SECTION):
                front += self.section()
            kind, size = struct.unpack(self.order + "II", front[:8])
            if size < 12 or size % 4:
                raise Unreadable(f"a block of {size:,} bytes")
            yield from self.block(kind, front, size - len(front))
            self.file.may_end = True

    def section(self):
        """The four bytes that say in which order the others are."""
        order = self.file.read(4)
        if order not in (BIG, LITTLE):
            raise Unreadable("a section does not say its order of bytes")
        self.order, self.interfaces = "<" if order == LITTLE else ">", []
        return order

    def block(self, kind, front, left):
        if kind == INTERFACE:
            self.interfaces.append(self.interface(front, left))
        elif kind in (PACKET, OLD_PACKET, SIMPLE_PACKET):
            yield self.packet(kind, front + self.file.read(left))
        else:
            self.file.pass_over(left)

    def kind_of(self, name):
        return getattr(self.dpkt.pcapng, name + ("LE" if self.order == "<" else ""))

    def interface(self, front, left):
        """The type of its link, its units of time in a second, and what is added to each time."""
        if left > MOST_INTERFACE:
            raise Unreadable(f"an interface is described by {left:,} bytes, where {MOST_INTERFACE:,} are the most")
        of = self.kind_of("InterfaceDescriptionBlock")(front + self.file.read(left))
        options = {it.code: bytes(it.data) for it in of.opts}
        unit, offset = options.get(RESOLUTION, b"\6")[:1], options.get(OFFSET, bytes(8))
        power = unit[0] if unit else 6
        return of.linktype, float(2 ** (power & 127) if power > 127 else 10**power), struct.unpack(self.order + "q", offset)[0]

    def packet(self, kind, block):
        """A packet; one of a simple block has no time of its own, and is of the first interface."""
        if kind == SIMPLE_PACKET:
            number, data = 0, block[12 : min(12 + struct.unpack_from(self.order + "I", block, 8)[0], len(block) - 4)]
        else:
            of = self.kind_of("EnhancedPacketBlock" if kind == PACKET else "PacketBlock")()
            of.unpack_hdr(block)
            number, data = of.iface_id, block[28 : 28 + of.caplen]
            if 32 + of.caplen > len(block):
                raise Unreadable(f"a packet of {of.caplen:,} bytes in a block of {len(block):,}")
        if number >= len(self.interfaces):
            raise Unreadable(f"a packet of interface {number}, of which nothing is said")
        link, units, offset = self.interfaces[number]
        if kind != SIMPLE_PACKET:
            self.time = offset + (of.ts_high << 32 | of.ts_low) / units
        return self.time, link, data
