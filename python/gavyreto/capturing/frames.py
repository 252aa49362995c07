"""What a frame carries: through the link's header, tags and tunnels, up to the segment of TCP, or why there is none."""
from __future__ import annotations

from collections.abc import Container
from typing import Callable

from gavyreto.capturing import internet
from gavyreto.capturing.files import Frame
from gavyreto.capturing.internet import (
    ANY_IP, BRIDGED, BYTE, IPV4, IPV6, LEAST_ETHER_TYPE, NO_TCP, TCP, U16, U32, Cursor, Foreign, Other, Segment, Unread,
)

VLAN = (0x8100, 0x88A8, 0x9100)
MPLS = (0x8847, 0x8848)
PPPOE_SESSION, SNAP = 0x8864, 0xAA
# What is next besides types of Ethernet and protocols of IP: the headers of links.
LOGICAL_LINK, PPP, COOKED, COOKED_2, LOOPBACK = 0x201, 0x202, 0x203, 0x204, 0x205
# Types of Ethernet that carry no IP: ARP, RARP, AppleTalk, IPX, PPPoE's discovery, EAPOL, LLDP, slow protocols, PTP, wake on LAN, loopback.
NO_IP = {0x0806, 0x8035, 0x809B, 0x80F3, 0x8137, 0x8138, 0x8863, 0x888E, 0x88CC, 0x8809, 0x88F7, 0x0842, 0x9000, 0x88E1, 0x8899}
IN_PPP = {0x0021: IPV4, 0x0057: IPV6}
OF_PPP = {0x002D, 0x002F, 0x003D, 0x00FB, 0x00FD}  # what may have IP in another form: compressed headers, fragments, compressed data
MOST_LAYERS = 32  # headers of a frame, one after the other
ETHERNET = 1  # the type of a link


def segment_of(frame: Frame, ports: Container[int]) -> Segment:
    """The segment in a frame, if it has one of these ports, or looks like TDS. Raises `Other`, `Foreign` or `Unread`."""
    following = LINKS.get(frame.link)
    if following is None:
        raise Unread(f"link type {frame.link}")
    cursor = Cursor(frame.data, frame.length)
    for _ in range(MOST_LAYERS):
        if following == TCP:
            return internet.tcp(cursor, ports)
        layer = LAYERS.get(following)
        if layer is None:
            raise _unknown(following)
        following = layer(cursor)
    raise Unread(f"more than {MOST_LAYERS} tags and tunnels")


def _unknown(following: int) -> Exception:
    if following in NO_IP or following in NO_TCP:
        return Other()
    return Foreign(f"type 0x{following:04x} of Ethernet" if following >= LEAST_ETHER_TYPE or not following else f"protocol {following} of IP")


# Links (the registry of link types of draft-ietf-opsawg-pcaplinktype). Each function reads one header, and returns what is next.

def _typed(place: int, size: int) -> Callable[[Cursor], int]:
    """A header of so many bytes, which has a type of Ethernet at a place."""
    def read(cursor: Cursor) -> int:
        kind, = cursor.unpack(U16, place)
        cursor.at += size
        return _kind_of(kind)
    return read


def _kind_of(kind: int) -> int:
    return kind if kind >= LEAST_ETHER_TYPE else LOGICAL_LINK


def _loopback(cursor: Cursor) -> int:
    """BSD's loopback, whose four bytes have the family in the order of the machine."""
    cursor.unpack(U32)
    cursor.at += 4
    return ANY_IP


def _ppp(cursor: Cursor) -> int:
    if cursor.slice(0, 2) == b"\xFF\x03":
        cursor.at += 2
    number, = cursor.unpack(BYTE)
    size = 1 if number & 1 else 2
    protocol = number if size == 1 else cursor.unpack(U16)[0]
    cursor.at += size
    if protocol in OF_PPP:
        raise Unread(f"protocol 0x{protocol:04x} of PPP")
    if protocol not in IN_PPP:
        raise Other
    return IN_PPP[protocol]


# What is between the link and IP.

def _vlan(cursor: Cursor) -> int:
    tag, kind = cursor.unpack(U16)[0] & 0xFFF, cursor.unpack(U16, 2)[0]
    cursor.at += 4
    cursor.tags += (VLAN[0] << 16 | tag,) if tag else ()
    return _kind_of(kind)


def _pppoe(cursor: Cursor) -> int:
    cursor.tags += (PPPOE_SESSION << 16 | cursor.unpack(U16, 2)[0],)
    cursor.at += 6
    return PPP


def _mpls(cursor: Cursor) -> int:
    """A label of a stack (RFC 3032); after the last one there is IP."""
    label, = cursor.unpack(U32)
    cursor.at += 4
    if not label & 0x100:
        return MPLS[0]
    if cursor.unpack(BYTE)[0] >> 4 not in (4, 6):
        raise Foreign("what isn't IP after the labels of MPLS")
    return ANY_IP


def _logical_link(cursor: Cursor) -> int:
    """IEEE 802.2, whose SNAP has a type of Ethernet."""
    head = cursor.slice(0, 3)
    if head[0] != SNAP or head[1] != SNAP:
        raise Other
    kind: int = cursor.unpack(U16, 6)[0]
    if kind < LEAST_ETHER_TYPE or cursor.slice(3, 3) != bytes(3):
        raise Other
    cursor.at += 8
    return kind


LINKS = {
    0: LOOPBACK, 108: LOOPBACK, ETHERNET: BRIDGED, 9: PPP, 50: PPP, 12: ANY_IP, 14: ANY_IP, 101: ANY_IP, 228: ANY_IP, 229: ANY_IP, 113: COOKED,
    276: COOKED_2}
LAYERS: dict[int, Callable[[Cursor], int]] = {
    BRIDGED: _typed(12, 14), LOOPBACK: _loopback, PPP: _ppp, LOGICAL_LINK: _logical_link,
    COOKED: _typed(14, 16), COOKED_2: _typed(0, 20),  # Linux's cooked capture, and its version 2, as `tcpdump -i any` writes it
    **dict.fromkeys(VLAN, _vlan), **dict.fromkeys(MPLS, _mpls), PPPOE_SESSION: _pppoe,
    ANY_IP: internet.any_ip, IPV4: internet.ipv4, IPV6: internet.ipv6, internet.IP_IN_IP: internet.ip_in_ip, internet.IPV6_IN_IP: internet.ip_in_ip,
    internet.UDP: internet.udp, internet.GRE: internet.gre, internet.AUTHENTICATION: internet.authentication}
