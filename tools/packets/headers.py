"""Reads the headers of a packet down to TCP: link, IP of version 4 or 6, TCP (RFC 791, 8200 and 9293). Each is read once, from the front."""

from struct import unpack_from
from typing import NamedTuple

FIN, SYN, RST, ACK = 1, 2, 4, 16
TCP, FRAGMENT, AUTHENTICATION = 6, 44, 51
# Headers of IP version 6 that may stand before the one of TCP (RFC 8200, section 4), each with its length in units of eight bytes
OPTIONS = (0, 43, 60, 135, 139, 140)
TAGS, VERSIONS = (0x8100, 0x88A8, 0x9100), {0x0800: 4, 0x86DD: 6}
# The types of link (tcpdump.org/linktypes.html): BSD loopback, Ethernet, raw IP, Linux cooked of both versions
LOOPS, ETHERNET, RAW, COOKED, COOKED_2 = (0, 108), 1, (12, 14, 101, 228, 229), 113, 276


class Left(Exception):
    """Why a packet is left out, where that is worth a word."""


class Segment(NamedTuple):
    """A segment of TCP: of its data, `size` bytes, `data` was recorded."""

    source: tuple
    target: tuple
    sequence: int
    acknowledged: int
    flags: int
    data: bytes
    size: int


def segment(link, packet):
    """The segment of TCP in a packet; `None` where it holds another thing, or where its headers were not recorded."""
    at = start_of_ip(link, packet)
    if at is None or at >= len(packet):
        return None
    found = {4: version_4, 6: version_6}.get(packet[at] >> 4, lambda *_: None)(packet, at)
    return found and of_tcp(packet, *found)


def start_of_ip(link, packet):
    """Where the header of IP begins, `None` where there is none."""
    if link in LOOPS:
        return 4
    if link in RAW:
        return 0
    if link == ETHERNET:
        at = 12
        while packet[at : at + 2] and int.from_bytes(packet[at : at + 2], "big") in TAGS:
            at += 4
        return after(packet, at, at + 2)
    if link == COOKED:
        return after(packet, 14, 16)
    if link == COOKED_2:
        return after(packet, 0, 20)
    raise Left(f"links of type {link} are not read")


def after(packet, at, start):
    return start if int.from_bytes(packet[at : at + 2], "big") in VERSIONS else None


def version_4(packet, at):
    """Both addresses, and where the header of TCP begins and its data end; where no length is said, as with offloaded segments, at the packet's end."""
    if len(packet) < at + 20 or packet[at + 9] != TCP or packet[at] & 15 < 5:
        return None
    begins, total, flags = at + (packet[at] & 15) * 4, *unpack_from(">H2xH", packet, at + 2)
    if flags & 0x3FFF:
        raise Left("fragments of IP are not put together")
    return packet[at + 12 : at + 16], packet[at + 16 : at + 20], begins, at + total if total else len(packet)


def version_6(packet, at):
    if len(packet) < at + 40:
        return None
    length, kind = unpack_from(">HB", packet, at + 4)
    begins, ends = at + 40, at + 40 + length if length else len(packet)
    while kind in OPTIONS or kind in (FRAGMENT, AUTHENTICATION):
        if begins + 8 > len(packet):
            return None
        if kind == FRAGMENT and packet[begins] == TCP and unpack_from(">H", packet, begins + 2)[0] & 0xFFF9:
            raise Left("fragments of IP are not put together")
        units = {FRAGMENT: 8, AUTHENTICATION: 8 + packet[begins + 1] * 4}
        kind, begins = packet[begins], begins + units.get(kind, 8 + packet[begins + 1] * 8)
    return (packet[at + 8 : at + 24], packet[at + 24 : at + 40], begins, ends) if kind == TCP else None


def of_tcp(packet, source, target, at, ends):
    if len(packet) < at + 20 or ends < at + 20:
        return None
    from_port, to_port, sequence, acknowledged, flags = unpack_from(">HHIIH", packet, at)
    begins = at + (flags >> 12) * 4
    if begins < at + 20 or begins > ends:
        return None
    return Segment((source, from_port), (target, to_port), sequence, acknowledged, flags & 0x3F, packet[begins:ends], ends - begins)
