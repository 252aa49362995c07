"""The payload of a response, walked token by token as it comes: where descriptions and rows are, and where each cell ends.

It judges nothing: the program tds_replay does. What it can't follow raises ValueError, and `Ended` where the payload ends."""
from __future__ import annotations

import contextlib
from itertools import chain, compress, islice
from typing import Callable, Iterator, Optional, TypeVar

from gavyreto import columns, tds
from gavyreto.columns import COUNTED, FIXED, LONG, Column, Described, Type
from gavyreto.errors import check_own
from gavyreto.tds import DataType, Token

Read = Callable[[int], bytes]
Write = Callable[[bytes], object]
T = TypeVar("T")

ROW, NBCROW = int(Token.ROW), int(Token.NBCROW)  # compared with once a row
SHORT_NULL = 0xFFFF


class Ended(Exception):
    """The payload ends before what was asked for."""


class Payload:
    """The bodies of the packets of one message, joined, as far as they are asked for. What is read is handed on."""

    def __init__(self, read: Read, hand_on: Optional[Write] = None) -> None:
        self.data, self.at = b"", 0  #: what was read and not used up begins at this place
        self.is_over = False  #: whether the last packet was read
        self.tail = b""  #: the end of what was read, as long as a DONE at most
        self._read, self._hand_on = read, hand_on

    def packet(self) -> bool:
        """Reads a packet. False after the last one. Raises Ended if it isn't whole, and ValueError if it is none of an answer."""
        if self.is_over:
            return False
        header, body, length = tds.read_packet(self._read)
        if self._hand_on:
            self._hand_on(header + body)
        if len(header) == tds.HEADER and (header[0] != tds.PacketType.ANSWER or length < 0):
            self.is_over = True
            raise ValueError(f"no packet of an answer: type 0x{header[0]:02x}, {length + tds.HEADER} bytes")
        if len(header) < tds.HEADER or len(body) != length:
            raise Ended
        self.is_over = bool(header[1] & tds.LAST)
        self.data, self.at = body, 0
        self.tail = (self.tail + body[-tds.DONE_LENGTH:])[-tds.DONE_LENGTH:]
        return True

    def has_more(self) -> bool:
        """Whether a byte is still to come."""
        while self.at == len(self.data):
            if not self.packet():
                return False
        return True

    def need(self, length: int) -> bytes:
        """The next bytes. Raises Ended if there are fewer."""
        at = self.at
        if length > len(self.data) - at:
            return b"".join(self.pieces(length))
        self.at = at + length
        return self.data[at:self.at]

    def number(self, length: int) -> int:
        return int.from_bytes(self.need(length), "little")

    def pieces(self, length: int) -> Iterator[bytes]:
        """The next bytes, in the pieces in which they come."""
        while length:
            if not self.has_more():
                raise Ended
            piece = self.data[self.at:self.at + length]
            self.at += len(piece)
            length -= len(piece)
            yield piece


# Tokens, rows and cells.

def bytes_of_bitmap(byte: int, described: Optional[list[Described]]) -> int:
    """How many bytes a row begins with that say which of its values are NULL. Raises ValueError if there are no columns."""
    if described is None:
        raise ValueError("a row without columns")
    return (len(described) + 7) // 8 if byte == NBCROW else 0


def present(bitmap: bytes, columns: list[T]) -> list[T]:
    """What is said of the columns of a row whose values follow its bitmap: those whose bit is clear."""
    bits = int.from_bytes(bitmap, "little")
    return list(compress(columns, map("0".__eq__, f"{bits:0{8 * len(bitmap)}b}"[::-1]))) if bits else columns


def rest_of(payload: Payload, byte: int) -> Iterator[bytes]:
    """What follows the byte of a token that is neither a description nor a row. Raises ValueError if there is no such token."""
    if byte in (Token.ORDER, Token.ERROR, Token.INFO, Token.ENV_CHANGE):
        yield from _after(payload, payload.need(2))
    elif byte == Token.RETURN_STATUS:
        yield payload.need(4)
    elif byte in (Token.DONE, Token.DONE_PROC, Token.DONE_IN_PROC):
        yield payload.need(12)
    elif byte == Token.RETURN_VALUE:
        yield head_of_value(payload)
        type_ = columns.read_type(payload.need)
        yield type_.spelt()
        yield from cell(payload, type_)
    else:
        raise ValueError(f"no token of an answer to a statement: 0x{byte:02x}")


def head_of_value(payload: Payload) -> bytes:
    """Of a RETURNVALUE what comes before its type: ordinal, name, status, user type and flags."""
    head = payload.need(3)
    return head + payload.need(2 * head[2] + 7)


def cell(payload: Payload, type_: Type) -> Iterator[bytes]:
    """The bytes of a value with all that is before and around them, in pieces."""
    if type_.byte in FIXED:
        yield payload.need(FIXED[type_.byte])
    elif type_.byte in COUNTED:
        yield from _after(payload, payload.need(1))
    elif type_.is_chunked():
        yield from _chunks(payload)
    elif type_.byte in LONG:
        length = payload.need(2)
        yield from (length,) if length == b"\xFF\xFF" else _after(payload, length)
    elif type_.byte == DataType.VARIANT:
        yield from _after(payload, payload.need(4))
    else:
        pointer = payload.need(1)
        yield pointer
        if pointer[0]:
            yield payload.need(pointer[0] + 8)
            yield from _after(payload, payload.need(4))


def _after(payload: Payload, length: bytes) -> Iterator[bytes]:
    """A length, and as many bytes."""
    yield length
    yield from payload.pieces(int.from_bytes(length, "little"))


def _chunks(payload: Payload) -> Iterator[bytes]:
    total = payload.need(8)
    yield total
    while total != b"\xFF" * 8:
        length = payload.need(4)
        yield from _after(payload, length)
        if length == bytes(4):
            return


# The descriptions alone, which is what a reader of rows wants to know besides: rows are passed over.

def columns_of(payload: Payload) -> Iterator[list[Column]]:
    """The columns of each set of a response, in order."""
    described: Optional[list[Described]] = None
    ways: list[int] = []
    while payload.has_more():
        byte = payload.number(1)
        if byte == Token.COLUMNS:
            described = columns.read_description(payload.need)
            ways = ways_over(described or [])
            if described:
                yield [column.column() for column in described]
        elif byte in (ROW, NBCROW):
            bitmap = payload.need(bytes_of_bitmap(byte, described))
            for _ in chain.from_iterable(cell(payload, column.type) for column in present(bitmap, described or [])):
                pass
        else:
            for _ in rest_of(payload, byte):
                pass
        payload.at = after_rows(payload.data, payload.at, ways)


COUNTED_WAY, SHORT_WAY, CHUNKED_WAY, NO_WAY = -1, -2, -3, -4


def _way_over(type_: Type) -> int:
    """How a value is passed over: its length, or what tells it."""
    if type_.byte in FIXED:
        return FIXED[type_.byte]
    if type_.byte in COUNTED:
        return COUNTED_WAY
    if type_.is_chunked():
        return CHUNKED_WAY
    return SHORT_WAY if type_.byte in LONG else NO_WAY


def ways_over(described: list[Described]) -> list[int]:
    """How the values of a row are passed over."""
    return [_way_over(column.type) for column in described]


def after_rows(data: bytes, at: int, ways: list[int]) -> int:
    """Where the rows end that are whole in some bytes, from a place on at which a token begins."""
    if not ways:
        return at
    before = 1 + (len(ways) + 7) // 8  # of an NBCROW
    try:
        while data[at] == ROW or data[at] == NBCROW:
            end = after_values(data, at + 1, ways) if data[at] == ROW else after_values(data, at + before, present(data[at + 1:at + before], ways))
            if end > len(data):
                break
            at = end
    except IndexError:
        pass  # this row isn't whole
    return at


def after_values(data: bytes, at: int, ways: list[int]) -> int:
    """Where the values of a row end. Raises IndexError if they aren't whole, or there is no short way over one of them."""
    for way in ways:
        if way >= 0:
            at += way
        elif way == COUNTED_WAY:
            at += 1 + data[at]
        elif way == SHORT_WAY:
            length = data[at] | data[at + 1] << 8
            at += 2 if length == SHORT_NULL else 2 + length
        elif way == CHUNKED_WAY:
            at = _after_chunks(data, at)
        else:
            raise IndexError
    return at


def _after_chunks(data: bytes, at: int) -> int:
    """Where a value in chunks ends. Raises IndexError if it isn't whole."""
    total = data[at:at + 8]
    at += 8
    while total != b"\xFF" * 8:
        length = data[at] | data[at + 1] << 8 | data[at + 2] << 16 | data[at + 3] << 24
        at += 4 + length
        if length == 0:
            break
    return at


class Descriptions:
    """The columns of each set of a response, which are read once somebody asks, and no further than needed."""

    def __init__(self, come: Iterator[list[Column]]) -> None:
        self._come = enumerate(come)
        self._found: dict[int, list[Column]] = {}
        self._count = 0  # of sets whose columns were waited for

    def of(self, place: int) -> Optional[list[Column]]:
        """The columns of a set by its place among the sets, once they have come; None if they don't."""
        self._found.update(islice(self._come, max(place + 1 - self._count, 0)))  # each by its place, whatever comes between
        self._count = max(self._count, place + 1)
        return self._found.get(place)

    def take(self, place: int) -> Optional[list[Column]]:
        """The same of a set that is left, which isn't kept any longer, if they were read already; others are read if somebody asks."""
        return self._found.pop(place, None)


def columns_again(read: Read) -> Iterator[list[Column]]:
    """The columns of each set of packets that can be read again, as far as they can be followed: the program says what is wrong."""
    try:
        yield from columns_of(Payload(read))
    except (ValueError, Ended, OSError) as failure:
        check_own(failure)


class NotedDescriptions(Descriptions):
    """The same of packets that come once: the thread that reads them notes the columns, and another one asks."""

    def __init__(self) -> None:
        from queue import SimpleQueue  # for what a thread reads alone

        self._noted = SimpleQueue[Optional[list[Column]]]()
        super().__init__(iter(self._noted.get, None))

    def take(self, place: int) -> Optional[list[Column]]:
        self.of(place)
        return super().take(place)

    def add(self, found: list[Column]) -> None:
        """Notes the columns of the next set."""
        self._noted.put(found)

    def end(self) -> None:
        """No more sets come."""
        self._noted.put(None)

    def note(self, payload: Payload, most: Optional[int] = None) -> None:
        """Notes the descriptions of a payload, at most so many, as far as it can be followed: the program says what is wrong."""
        try:
            with contextlib.suppress(ValueError, Ended):
                for found in islice(columns_of(payload), most):
                    self.add(found)
        finally:
            self.end()

    def watch(self, payload: Payload) -> bool:
        """Reads a payload to its end, and notes its descriptions. Returns whether it is whole."""
        self.note(payload)
        with contextlib.suppress(ValueError, Ended):
            while payload.packet():
                payload.at = len(payload.data)
        return payload.is_over
