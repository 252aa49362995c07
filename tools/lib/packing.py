"""Builds packets (MS-TDS, Packet Header): the one place for the tools, the tests and the benchmarks.

A packet's header is written by the Python package; here are the ways to cut a payload into packets."""
from __future__ import annotations

import random
from collections.abc import Iterable, Iterator

from lib import repository  # noqa: F401  after it the Python package is on the path
from gavyreto import tds

ANSWER = tds.PacketType.ANSWER
# The greatest packets of random packings: small ones, large ones and those of the usual size.
RANDOM_SIZES = [12, 20, 64, 300, 2000, 4096]


def header(length: int, is_last: bool, number: int = 1) -> bytes:
    """The header of a packet of this length, which may be one that isn't allowed."""
    return tds.header(ANSWER, length, is_last, number)


def packet(body: bytes, is_last: bool, number: int = 1) -> bytes:
    """A packet of an answer."""
    return tds.packet(ANSWER, body, is_last, number)


def joined(bodies: Iterable[bytes]) -> bytes:
    """Packets with these bodies, the last of which ends the message."""
    listed = list(bodies)
    return b"".join(packet(body, number == len(listed), number) for number, body in enumerate(listed, 1))


def pieces(data: bytes, size: int) -> list[bytes]:
    """Data in pieces of a size, with the rest in the last; no data is one empty piece."""
    return [data[at:at + size] for at in range(0, len(data), size)] or [b""]


def in_packets(payload: bytes, size: int) -> bytes:
    """A payload in packets of a size, header included: all full but the last, and at least one."""
    return joined(pieces(payload, size - tds.HEADER))


def in_single_bytes(payload: bytes, between: bytes = b"") -> bytes:
    """A payload in packets of one byte, with others between them."""
    bodies = pieces(payload, 1)
    return between.join(packet(body, number == len(bodies)) for number, body in enumerate(bodies, 1))


def random_pieces(data: bytes, most: int, numbers: random.Random) -> list[bytes]:
    """Data in pieces of random sizes from 0 to a most; no data is one empty piece."""
    found: list[bytes] = []
    at = 0
    while at < len(data):
        found.append(data[at:at + numbers.randint(0, most)])
        at += len(found[-1])
    return found or [b""]


def in_random_packets(payload: bytes, seed: int) -> bytes:
    """A payload in packets of random sizes, empty ones among them, up to a greatest size that is random too."""
    numbers = random.Random(seed)
    return joined(random_pieces(payload, numbers.choice(RANDOM_SIZES) - tds.HEADER, numbers))


def packings(payload: bytes, count: int) -> Iterator[tuple[str, bytes]]:
    """A payload in packets of each size from 9 to 80 bytes, and a number of times in packets of random sizes."""
    for size in range(tds.HEADER + 1, 81):
        yield f"packets of {size} bytes", in_packets(payload, size)
    for seed in range(count):
        yield f"random packets, seed {seed}", in_random_packets(payload, seed)


def headers_of(wire: bytes) -> list[bytes]:
    """The headers of whole packets."""
    found, at = [], 0
    while at < len(wire):
        found.append(wire[at:at + tds.HEADER])
        at += tds.length_of(found[-1])
    return found
