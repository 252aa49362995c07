"""What a packet of IP carries: the segment of TCP in it, through extension headers and tunnels, or why there is none.

A packet has the length that its header says, so what is in a frame after it (padding, a check sequence) is no data. Where that length
is 0, as captures of segments have that the adapter would have split, it is that of the frame."""
from __future__ import annotations

import struct
from collections.abc import Container
from typing import Any, NamedTuple, Optional

Tags = tuple[int, ...]

SYN, FIN, RESET, PUSH, ACK = 2, 1, 4, 8, 16
HOP_BY_HOP, IP_IN_IP, TCP, UDP, IPV6_IN_IP, ROUTING, FRAGMENT, GRE, AUTHENTICATION, NO_NEXT, DESTINATION = 0, 4, 6, 17, 41, 43, 44, 47, 51, 59, 60
EXTENSIONS = (HOP_BY_HOP, ROUTING, DESTINATION, 135, 139, 140)  # headers whose second byte counts units of 8 bytes
NO_TCP = {1, 2, 9, 33, 46, 58, 88, 89, 103, 112, 132, NO_NEXT}  # protocols of IP that carry no TCP: ICMP, IGMP, OSPF, ..
SOURCE_ROUTES, SEGMENT_ROUTE = (0, 2), 4  # types of routing headers: the last address is that of the end; or the first is
IPV4, IPV6, BRIDGED, ERSPAN, ANY_IP = 0x0800, 0x86DD, 0x6558, 0x88BE, 0x0200  # what is next: types of Ethernet, or IP by its version
LEAST_ETHER_TYPE = 0x600  # below it is the length of a frame of IEEE 802.3
VXLAN, OLD_VXLAN, GENEVE = TUNNELS = 4789, 8472, 6081  # ports of UDP
BEGINNINGS = (b"\x01", b"\x04", b"\x12")  # of packets of TDS by which a server on another port is known
PART = 384  # bytes of a segment that are summed as one number
TCP_HEADER = struct.Struct(">4sIIBBxxHxx")
IPV4_HEADER = struct.Struct(">BxHxxHxBxx8s")
# Ethernet, IPv4 without options, TCP: type, version, length and fragment of the packet, protocol, both ends; sequence and acknowledgement
# number, length of the header, flags, checksum.
PLAIN = struct.Struct(">12xHBxHxxHxBxx12sIIBBxxHxx")
AFTER_PLAIN = 34  # where the header of TCP begins there
U16, U32, BYTE = struct.Struct(">H"), struct.Struct(">I"), struct.Struct("B")


class Segment(NamedTuple):
    """A segment of TCP: the tags of its frame, its two ends (address and port, as their bytes), and what its header says: the sequence
    number of its first byte, the number of the byte that its sender expects, and the flags."""

    tags: Tags
    source: bytes
    target: bytes
    sequence: int
    acknowledged: int
    flags: int
    data: bytes
    cut: int  #: bytes of it that weren't captured
    is_wrong: bool  #: whether its checksum is neither its own, nor one left to the adapter: no receiver takes it


# What the headers say of a segment: addresses and ports, sequence and acknowledgement number, length of the header, flags, checksum, and
# where it ends.
Header = tuple[bytes, int, int, int, int, int, int]


def is_single(segment: Segment) -> bool:
    """Whether a segment has one byte, and may only ask whether the other side is there."""
    return len(segment.data) == 1 and not segment.flags & (PUSH | FIN | SYN)


class Other(Exception):
    """A frame has no segment of TCP, or none that is asked for."""


class Foreign(Exception):
    """A frame has a protocol that isn't known. The message says which."""


class Unread(Exception):
    """A frame may have a segment that isn't read. The message says why."""


class Cursor:
    """A frame's bytes, and how long it was on the link; how far it is read, and what that said."""

    def __init__(self, data: bytes, length: int) -> None:
        self.data, self.length, self.at = data, length, 0
        self.end = length  # of the packet of IP
        self.addresses = b""  # of that packet, both
        self.tags: Tags = ()

    def unpack(self, form: struct.Struct, after: int = 0) -> tuple[Any, ...]:
        """What is from so many bytes on. Raises Unread if it wasn't captured."""
        return form.unpack(self.slice(after, form.size))

    def slice(self, after: int, length: int) -> bytes:
        """So many bytes from so many on. Raises Unread."""
        at = self.at + after
        if at + length > len(self.data):
            raise Unread("a frame that is too short for its headers")
        return self.data[at:at + length]


# IP (RFC 791, RFC 8200). Each function reads one header, and returns what is next.

def any_ip(cursor: Cursor) -> int:
    """A packet of IP by its version."""
    version = cursor.unpack(BYTE)[0] >> 4
    if version not in (4, 6):
        raise Unread(f"version {version} of IP")
    return IPV4 if version == 4 else IPV6


def ipv4(cursor: Cursor) -> int:
    version, total, fragment, protocol, cursor.addresses = cursor.unpack(IPV4_HEADER)
    head = (version & 15) * 4
    cursor.end = cursor.at + total if total else cursor.length
    if version >> 4 != 4 or head < 20 or total and total < head or cursor.end > cursor.length:
        raise Unread("a wrong header of IP")
    cursor.at += head
    if fragment & 0x3FFF:  # more follow, or it isn't the first
        _refuse_fragment(cursor, protocol, not fragment & 0x1FFF)
    return int(protocol)


def ipv6(cursor: Cursor) -> int:
    head = cursor.slice(0, 40)
    length, protocol, cursor.addresses = int.from_bytes(head[4:6], "big"), head[6], head[8:40]
    cursor.end = cursor.at + 40 + length if length else cursor.length
    cursor.at += 40
    if cursor.end > cursor.length or head[0] >> 4 != 6:
        raise Unread("a wrong header of IP")
    while protocol in EXTENSIONS or protocol in (FRAGMENT, AUTHENTICATION):
        following, units = cursor.slice(0, 2)
        if protocol == FRAGMENT:
            place, = cursor.unpack(U16, 2)
            cursor.at += 8
            if place & 0xFFF9:
                _refuse_fragment(cursor, following, place < 8)
        else:
            if protocol == ROUTING:
                _route(cursor, (units + 1) * 8)
            cursor.at += (units + 2) * 4 if protocol == AUTHENTICATION else (units + 1) * 8
        protocol = following
    return protocol


def _route(cursor: Cursor, length: int) -> None:
    """A routing header on whose way there are further addresses: a packet goes to its end, and so does its checksum (RFC 8200, section
    8.1)."""
    kind, left = cursor.slice(2, 2)
    if not left:
        return
    if kind not in (*SOURCE_ROUTES, SEGMENT_ROUTE) or length < 24:
        raise Unread(f"a routing header of type {kind}")
    cursor.addresses = cursor.addresses[:16] + cursor.slice(8 if kind == SEGMENT_ROUTE else length - 16, 16)


def _refuse_fragment(cursor: Cursor, protocol: int, is_first: bool) -> None:
    """The first fragment of a datagram of UDP says whether that is of a tunnel."""
    if protocol in NO_TCP or protocol == UDP and not (is_first and cursor.unpack(U16, 2)[0] in TUNNELS):
        raise Other
    raise Unread("a fragment of IP")


def ip_in_ip(cursor: Cursor) -> int:
    cursor.tags += (IP_IN_IP,)
    return ANY_IP


def authentication(cursor: Cursor) -> int:
    following, units = cursor.slice(0, 2)
    cursor.at += (units + 2) * 4
    cursor.tags += (AUTHENTICATION,)
    return following


def udp(cursor: Cursor) -> int:
    """VXLAN (RFC 7348) and Geneve (RFC 8926) by their ports."""
    port, = cursor.unpack(U16, 2)
    if port in (VXLAN, OLD_VXLAN):
        kind, size = BRIDGED, 16
    elif port == GENEVE:
        kind, size = _tunnelled(cursor.unpack(U16, 10)[0]), 16 + (cursor.unpack(BYTE, 8)[0] & 0x3F) * 4
    else:
        raise Other
    cursor.tags += (port << 24 | cursor.unpack(U32, 12)[0] >> 8,)
    cursor.at += size
    return kind


def gre(cursor: Cursor) -> int:
    """GRE (RFC 2784, RFC 2890); with ERSPAN, what a switch mirrors."""
    flags, kind = cursor.unpack(U16)[0], cursor.unpack(U16, 2)[0]
    if flags & 0x4007:
        raise Unread("another version of GRE")
    checksum, key, number = (4 if flags & bit else 0 for bit in (0x8000, 0x2000, 0x1000))
    cursor.tags += (GRE << 32 | (cursor.unpack(U32, 4 + checksum)[0] if key else 0),)
    cursor.at += 4 + checksum + key + number
    if kind == ERSPAN:
        cursor.at += 8 if number else 0
        return BRIDGED
    return _tunnelled(kind)


def _tunnelled(kind: int) -> int:
    """What a tunnel carries, by its type of Ethernet; one without any only asks whether the other side is there."""
    if kind < LEAST_ETHER_TYPE:
        raise Foreign(f"type 0x{kind:04x} in a tunnel")
    return kind


# TCP (RFC 9293).

def tcp(cursor: Cursor, ports: Container[int]) -> Segment:
    """The segment. Raises `Other` if it has no such port, and doesn't look like TDS either."""
    both, sequence, acknowledged, head, flags, checksum = cursor.unpack(TCP_HEADER)
    header = cursor.addresses + both, sequence, acknowledged, head, flags, checksum, cursor.end
    if is_elsewhere(cursor.data, header, ports, cursor.at):
        raise Other
    return segment_at(cursor.data, header, cursor.at, cursor.tags)


def plain_header(data: bytes, length: int) -> Optional[Header]:
    """What the headers of a frame of Ethernet say of its segment, if it has neither tags, options nor tunnels; None if it isn't so."""
    if len(data) < PLAIN.size:
        return None
    kind, version, total, fragment, protocol, ends, sequence, acknowledged, head, flags, checksum = PLAIN.unpack_from(data)
    if kind != IPV4 or version != 0x45 or protocol != TCP or fragment & 0x3FFF or not 40 <= total <= length - 14:
        return None
    return ends, sequence, acknowledged, head, flags, checksum, 14 + total


def is_elsewhere(data: bytes, header: Header, ports: Container[int], at: int = AFTER_PLAIN) -> bool:
    """Whether the segment whose header is at a place of a frame has none of these ports, and doesn't look like TDS either."""
    ends, start = header[0], at + (header[3] >> 4) * 4
    is_asked = ends[-2] << 8 | ends[-1] in ports or ends[-4] << 8 | ends[-3] in ports
    return not is_asked and data[start:start + 1] not in BEGINNINGS


def segment_at(data: bytes, header: Header, at: int = AFTER_PLAIN, tags: Tags = ()) -> Segment:
    """The segment whose header is at a place of a frame."""
    ends, sequence, acknowledged, head, flags, checksum, end = header
    start = at + (head >> 4) * 4
    if head >> 4 < 5 or start > end:
        raise Unread("a wrong header of TCP")
    captured, half = min(end, len(data)), len(ends) // 2 - 2
    is_wrong = captured == end and not is_sum(data[at:end], sum_of_ends(ends[:-4]), checksum)
    source, target = ends[:half] + ends[-4:-2], ends[half:-4] + ends[-2:]
    return Segment(tags, source, target, sequence, acknowledged, flags, data[start:captured], end - max(captured, start), is_wrong)


def sum_of_ends(addresses: bytes) -> int:
    """What the addresses and the protocol add to a checksum."""
    return (int.from_bytes(addresses, "big") + TCP) % 0xFFFF


def is_sum(segment: bytes, ends: int, checksum: int) -> bool:
    """Whether the checksum of a segment is right, by what the ends add to it, or was left to the adapter: then a system writes 0, or the
    sum of the addresses, the protocol and the length, or that without the length (RFC 9293, section 3.1); that sum may be written as 0 or
    as its like, FFFF.

    2^16 is 1 modulo 2^16 - 1, so a number's remainder is the sum of its units of 16 bits as RFC 1071 has it; the sum of a few shorter
    numbers is quicker to divide than one that is long."""
    length = len(segment)
    if checksum == 0 or checksum % 0xFFFF in (ends, (ends + length) % 0xFFFF):
        return True
    if length % 2:
        segment += b"\0"
    parts = sum([int.from_bytes(segment[at:at + PART], "big") for at in range(0, len(segment), PART)])
    return (parts + ends + length) % 0xFFFF == 0


def address_of(end: bytes) -> str:
    """The address and the port of an end, as they are written."""
    import ipaddress  # for connections that are read alone

    return f"{ipaddress.ip_address(end[:-2])}.{port_of(end)}"


def port_of(end: bytes) -> int:
    """The port that an end has last."""
    return end[-2] << 8 | end[-1]
