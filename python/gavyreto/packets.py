"""Packets of TDS: their headers, and who follows them through a message (MS-TDS, Packets)."""
from __future__ import annotations

import struct
from enum import IntEnum
from typing import Callable, Iterable, Iterator, Union

from gavyreto.logins import Hidden, Waiting

Bytes = Union[bytes, bytearray, memoryview]

HEADER = 8  # bytes of a packet's header
LAST = 0x01  # the bit of a packet's status that marks the last one of a message
DONE_LENGTH = 13  # bytes of a DONE with its token byte


class PacketType(IntEnum):
    """The first byte of a packet (MS-TDS, Packet Header)."""

    STATEMENT = 0x01
    PROCEDURE = 0x03
    ANSWER = 0x04
    ATTENTION = 0x06
    BULK = 0x07
    TRANSACTION = 0x0E
    LOGIN = 0x10
    TICKET = 0x11
    PRELOGIN = 0x12


ANSWER = int(PacketType.ANSWER)  # compared with once a packet


def packets(pieces: Iterable[Bytes], size: int, kind: int = PacketType.ANSWER) -> Iterator[bytes]:
    """The joined pieces in packets of this size, headers included, the last of them marked."""
    waiting, body, number = Waiting(), size - HEADER, 1
    for piece in pieces:
        waiting += piece
        while len(waiting) > body:
            yield packet(kind, Hidden(waiting[:body]), False, number)
            del waiting[:body]
            number += 1
    yield packet(kind, waiting, True, number)


def packet(kind: int, body: Bytes, is_last: bool = True, number: int = 1) -> bytes:
    """One packet with its header."""
    return header(kind, HEADER + len(body), is_last, number) + body


def header(kind: int, length: int, is_last: bool, number: int) -> bytes:
    """The header of a packet that has this length with its header."""
    return struct.pack(">BBHHBB", kind, LAST if is_last else 0, length, 0, number % 256, 0)


def length_of(header: Bytes) -> int:
    """The bytes of a packet by its header, which is a part of them."""
    return int.from_bytes(header[2:4], "big")


def read_fully(read: Callable[[int], bytes], length: int) -> bytes:
    """As many bytes as asked for, or fewer where no more come."""
    data = bytearray()
    while len(data) < length:
        piece = read(length - len(data))
        if not piece:
            break
        data += piece
    return bytes(data)


def read_packet(read: Callable[[int], bytes]) -> tuple[bytes, bytes, int]:
    """The header of a packet, its body, and how long its header says that the body is: below 0 if it is none. Both are shorter where no
    more bytes come."""
    head = read_fully(read, HEADER)
    length = length_of(head) - HEADER
    return head, read_fully(read, length) if len(head) == HEADER else b"", length


class Framing:
    """Follows the packets of one message through blocks that are cut anywhere: those of an answer, unless a subclass says otherwise."""

    def __init__(self) -> None:
        self.is_over = False  #: after the last packet, or after a header that is none
        self.is_whole = False  #: after the last packet
        self.payload = 0  #: bytes of bodies so far
        self.empty = 0  #: packets without a body so far
        self.tail = b""  #: the last of them, as many as a DONE has
        self._header = b""
        self._left = 0  # bytes of the body under way that are still to come
        self._is_last = False

    def fits(self, block: bytes, at: int) -> bool:
        """Whether the header at a place of a block is that of the next packet of the message."""
        return block[at] == ANSWER and block[at + 2] << 8 | block[at + 3] >= HEADER

    def take(self, block: bytes) -> int:
        """How many bytes of the block, from its beginning, belong to the message; a header that is none of it among them."""
        at = 0
        while at < len(block) and not self.is_over:
            if self._left:
                at = self._take_body(block, at)
            else:
                at = self._take_header(block, at if self._header else self._take_packets(block, at))
        return at

    def _take_packets(self, block: bytes, at: int) -> int:
        """Takes the packets that are whole in the block, and not the last: where the next one begins."""
        end = at
        while end + HEADER <= len(block) and not block[end + 1] & LAST:
            length = block[end + 2] << 8 | block[end + 3]
            if length < HEADER + DONE_LENGTH or end + length > len(block) or not self.fits(block, end):
                break
            self.payload += length - HEADER
            end += length
        if end > at:
            self.tail = block[end - DONE_LENGTH:end]
        return end

    def _take_body(self, block: bytes, at: int) -> int:
        end = min(at + self._left, len(block))
        self._left -= end - at
        self.payload += end - at
        self.tail = (self.tail + block[max(at, end - DONE_LENGTH):end])[-DONE_LENGTH:]
        self._end_packet()
        return end

    def _take_header(self, block: bytes, at: int) -> int:
        end = min(at + HEADER - len(self._header), len(block))
        self._header += block[at:end]
        if len(self._header) == HEADER:
            header, self._header = self._header, b""
            if self.fits(header, 0):
                self._left, self._is_last = length_of(header) - HEADER, bool(header[1] & LAST)
                self.empty += not self._left
                self._end_packet()
            else:
                self.is_over = True
        return end

    def _end_packet(self) -> None:
        if self._is_last and not self._left:
            self.is_over = self.is_whole = True
