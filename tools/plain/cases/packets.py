"""Packets: their headers, their ends, and the limits of the wire."""
from __future__ import annotations

from collections.abc import Iterator

from lib.packing import header, in_packets, joined, packet, pieces

from .spelling import (
    DONE, INT, NO_METADATA, Case, column, description, little, name_of, row, sized,
)

EMPTY, EMPTY_LAST = header(8, False), header(8, True)
GREATEST_SIZE = 32_767
# The first example: a column, a row, and a DONE.
PAYLOAD = description(column(INT, name_of("a"))) + row(little(42, 4)) + DONE
FRONT, BACK = packet(PAYLOAD[:12], False), packet(PAYLOAD[12:], True, 2)

# Payloads of a packet after which another one is needed or isn't.
FRONTS = [
    ("a refused token", b"\xAD"),
    ("no columns", b"\x81\0\0"),
    ("a row without columns", b"\xD1"),
    ("a cut token", b"\x81"),
    ("nothing", b""),
    ("no metadata", NO_METADATA),
    ("a final DONE", DONE),
    ("a cut row", PAYLOAD[:14]),
    ("a row", PAYLOAD[:-13]),
]
BAD_FOLLOWERS = [
    ("a header of Type 03", b"\x03\1\0\x09" + bytes(5)),
    ("a Length of 7", header(7, True)),
    ("no header", b""),
    ("no body", header(9, True)),
]


def with_byte(wire: bytes, at: int, byte: int) -> bytes:
    return wire[:at] + bytes([byte]) + wire[at + 1:]


# The fields of a header of one byte, by their places, with the bytes that are tried there.
FIELDS = {
    0: (0x00, 0x01, 0x03, 0x05, 0x0A, 0x10, 0x84, 0xFF), 1: (0x00, 0x01, 0x02, 0x03, 0x7E, 0x81, 0xFE, 0xFF),
    4: (0xFF,), 5: (0xFF,), 6: (0xFF,), 7: (0xFF,),
}


def headers(which: str, at: int) -> Iterator[Case]:
    """Each field of the header that begins at a place of the first example in two packets."""
    for field, tried in FIELDS.items():
        for byte in tried:
            wire = with_byte(FRONT + BACK, at + field, byte)
            yield Case(f"byte {field} of the header of the {which} packet is {byte:02X}", wire)


def lengths(which: str, at: int) -> Iterator[Case]:
    """Lengths of that header that aren't allowed, with its Type and with another."""
    wire = FRONT + BACK
    for length in (0, 1, 7, 0x8008, 0xFFFF):
        bad = wire[:at + 2] + length.to_bytes(2, "big") + wire[at + 4:]
        yield Case(f"Length {length} of the {which} packet", bad)
        yield Case(f"Type 03 and Length {length} of the {which} packet", with_byte(bad, at, 3))


def payload_of(length: int) -> bytes:
    """The first example's payload, with a token before its DONE that is passed over and makes it so long."""
    return PAYLOAD[:-13] + sized(0xA9, bytes(length - len(PAYLOAD) - 3)) + DONE


def packet_sizes() -> Iterator[Case]:
    """Packets as long as the packet size, and a byte longer, as the first and after another."""
    for size in (512, 513, 4_095, 4_096, 8_000, GREATEST_SIZE - 1, GREATEST_SIZE):
        options = ("--packet-size", str(size))
        for length in (size - 1, size, size + 1):
            wire = packet(payload_of(length - 8), True)
            yield Case(f"a packet of {length} bytes when {size} are allowed", wire, options)
            yield Case(f"an empty packet and one of {length} bytes when {size} are allowed", EMPTY + wire, options)


def full_packets() -> Iterator[Case]:
    for size in (512, 4_096, GREATEST_SIZE):
        wire = in_packets(NO_METADATA * 30_000 + DONE, size)
        yield Case(f"full packets of {size} bytes", wire, ("--packet-size", str(size)))


def default_sizes() -> Iterator[Case]:
    for length in (4_095, 4_096, 4_097):
        yield Case(f"a packet of {length} bytes when no size is named", packet(payload_of(length - 8), True))


def wire_limits() -> Iterator[Case]:
    """As many bytes as the limit, and one more, in one packet, in two, and after empty ones."""
    one = packet(PAYLOAD, True)
    wires = [("one packet", one), ("two packets", FRONT + BACK), ("empty packets and one", EMPTY * 20 + one)]
    for name, wire in wires:
        for less in (0, 1, 2, 8, 9):
            yield Case(f"{name}, {less} bytes more than the wire limit", wire, ("--max-wire", str(len(wire) - less)))


def small_wire_limits() -> Iterator[Case]:
    for limit in (8, 9, 15, 16, 23, 24):
        yield Case(f"three empty packets under a wire limit of {limit}", EMPTY * 2 + EMPTY_LAST, ("--max-wire", str(limit)))
    yield Case("the wire limit after the first of two packets", FRONT + BACK, ("--max-wire", str(len(FRONT))))
    yield Case("the greatest wire limit", FRONT + BACK, ("--max-wire", str(1 << 56)))


def header_order() -> Iterator[Case]:
    """Headers with several faults, of which the first is told: Type, Length, wire limit, and then the body."""
    options = ("--max-wire", "38")
    yield Case("too long for the wire limit, and no body", header(39, True), options)
    yield Case("too long for the wire limit and the packet size", header(4_097, True), options)
    yield Case("too long for the wire limit, and of Type 05", with_byte(header(39, True), 0, 5), options)
    yield Case("too long for the wire limit, and seven bytes of a header", header(39, True)[:7], options)
    yield Case("as long as the wire limit, and no body", header(38, True), options)
    yield Case("seven bytes of a header of Type 03", b"\x03" + FRONT[1:7])
    yield Case("seven bytes of a header of Type 03 after a packet", FRONT + b"\x03" + FRONT[1:7])
    yield Case("seven bytes of a header with Length 0", b"\4" + bytes(6))


def empty_packets() -> Iterator[Case]:
    """Packets without a body before, within and after a message."""
    yield Case("an empty packet alone", EMPTY_LAST)
    yield Case("three empty packets alone", EMPTY * 2 + EMPTY_LAST)
    yield Case("an empty packet before", EMPTY + packet(PAYLOAD, True))
    yield Case("an empty packet after", packet(PAYLOAD, False) + EMPTY_LAST)
    yield Case("two empty packets after", packet(PAYLOAD, False) + EMPTY + EMPTY_LAST)
    yield Case("three empty packets within", FRONT + EMPTY * 3 + BACK)
    yield Case("packets of one byte", joined(pieces(PAYLOAD, 1)))
    with_empty = joined(body for byte in pieces(PAYLOAD, 1) for body in (b"", byte))
    yield Case("packets of one byte, and empty ones between", with_empty)
    yield Case("an empty packet, and a row without columns", EMPTY + packet(b"\xD1", True))


def input_ends() -> Iterator[Case]:
    wire = FRONT + EMPTY + BACK
    for end in range(len(wire)):
        yield Case(f"the input ends after {end} bytes", wire[:end])


def inputs_that_go_on() -> Iterator[Case]:
    for more in (b"\0", b"\x04", FRONT, bytes(600)):
        yield Case(f"{len(more)} bytes after the message, from {more[0]:02X} on", FRONT + BACK + more)


def followers() -> Iterator[Case]:
    """What follows a packet is judged when it is needed, and not before."""
    for front_name, front in FRONTS:
        for name, follower in BAD_FOLLOWERS:
            yield Case(f"{name} after {front_name}", packet(front, False) + follower)
        wire, limit = joined([front, DONE]), str(8 + len(front))
        yield Case(f"a packet that passes the wire limit after {front_name}", wire, ("--max-wire", limit))


def two_packets() -> Iterator[Case]:
    for end in range(len(PAYLOAD) + 1):
        yield Case(f"the first example in two packets, {end} bytes in the first", joined([PAYLOAD[:end], PAYLOAD[end:]]))
    yield Case("a final DONE in each of two packets", joined([DONE, DONE]))


def cases() -> Iterator[Case]:
    for which, at in (("first", 0), ("second", len(FRONT))):
        yield from headers(which, at)
        yield from lengths(which, at)
    for part in (
        packet_sizes, full_packets, default_sizes, wire_limits, small_wire_limits, header_order, empty_packets, input_ends,
        inputs_that_go_on, followers, two_packets,
    ):
        yield from part()
