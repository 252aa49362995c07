"""Responses with columns that tds_replay refuses, rewritten with types that it reads (MS-TDS, Data Type Definitions).

float and real become varchar, with the shortest text that reads back to the same bits; xml and ntext nvarchar(max), text
varchar(max), image and CLR types varbinary(max); sql_variant nvarchar(max), with the text of its base type. All else stays."""
from __future__ import annotations

import struct
from typing import Callable, Iterator, NamedTuple, Optional, cast

from gavyreto import columns, floats, tds
from gavyreto.columns import FIXED, Column, Described, Type
from gavyreto.payload import (
    Ended, Payload, Read, Write, after_rows, bytes_of_bitmap, cell, head_of_value, present, rest_of, ways_over,
)
from gavyreto.scalars import TEXTS, check_variant
from gavyreto.tds import DataType, Token

COLLATION = bytes.fromhex("0904D00034")
NULL_CHUNKS, NO_MORE = b"\xFF" * 8, bytes(4)
LONGEST_OLD = 2**31 - 1  # bytes of a text, ntext or image
LONGEST_VARIANT = 8016  # bytes of a sql_variant with its type and properties
TEXT_OF_FLOAT = 40  # characters at most
MAX = b"\xFF\xFF"
Convert = Callable[[Payload, Type], Iterator[bytes]]
Note = Callable[[list[Column]], None]  # is told the columns of each set, as they came


class Adapted(NamedTuple):
    """The type that takes a type's place, with its byte, and what makes its values."""

    info: bytes
    convert: Convert


# Values: the bytes of the new one, made while those of the old one are read.

def _float(payload: Payload, type_: Type) -> Iterator[bytes]:
    length = FIXED[type_.byte] if type_.byte in FIXED else payload.number(1)
    if length == 0:
        yield floats.NULL_VALUE
        return
    if type_.byte == DataType.FLTN and length != type_.length:
        raise ValueError(f"a float of {length} bytes in a column of {type_.length}")
    text = TEXTS[DataType.FLT8 if length == 8 else DataType.FLT4](payload.need(length), 0).encode()
    yield struct.pack("<H", len(text)) + text


def _old(payload: Payload, type_: Type) -> Iterator[bytes]:
    """A value after a pointer and a timestamp, which are left out, as one chunk."""
    pointer = payload.number(1)
    if pointer == 0:
        yield NULL_CHUNKS
        return
    payload.need(pointer + 8)
    length = payload.number(4)
    if length > LONGEST_OLD or type_.byte == DataType.NTEXT and length % 2:
        raise ValueError(f"a value of the type 0x{type_.byte:02x} of {length} bytes")
    yield struct.pack("<Q", length) + (struct.pack("<I", length) if length else b"")
    yield from payload.pieces(length)
    yield NO_MORE


def _variant(charset: str) -> Convert:
    def convert(payload: Payload, _: Type) -> Iterator[bytes]:
        length = payload.number(4)
        if length == 0:
            yield NULL_CHUNKS
            return
        if not 2 <= length <= LONGEST_VARIANT:
            raise ValueError(f"a sql_variant of {length} bytes")
        base, size = payload.number(1), payload.number(1)
        if length < 2 + size:
            raise ValueError(f"a sql_variant of {length} bytes, with {size} of properties")
        properties = payload.need(size)
        data = variant_text(base, properties, payload.need(length - 2 - size), charset).encode("utf-16-le", "surrogatepass")
        yield struct.pack("<Q", len(data)) + (struct.pack("<I", len(data)) + data if data else b"") + NO_MORE
    return convert


def variant_text(base: int, properties: bytes, data: bytes, charset: str) -> str:
    """The text of a value of a sql_variant, by its base type and what that has besides. Raises ValueError if there is none."""
    check_variant(base, properties, len(data))
    if base in TEXTS:
        return TEXTS[base](data, properties[-1] if properties else 0)
    if base in (DataType.VARBINARY, DataType.BINARY):
        return "0x" + data.hex()
    if base in (DataType.NVARCHAR, DataType.NCHAR):
        return data.decode("utf-16-le", "surrogatepass")
    return data.decode("utf-8") if charset == "utf-8" else windows_1252(data)


def windows_1252(data: bytes) -> str:
    """As tds_replay reads it: the five bytes that the code page leaves open stand for themselves."""
    return "".join(chr(byte) if byte in (0x81, 0x8D, 0x8F, 0x90, 0x9D) else bytes([byte]).decode("cp1252") for byte in data)


def adapted(type_: Type, charset: str) -> Optional[Adapted]:
    """What takes the place of a type, or None if it stays. Raises ValueError for a float of another length than such have."""
    if type_.byte == DataType.FLTN and type_.length not in (4, 8):
        raise ValueError(f"a column of floats of {type_.length} bytes")
    if type_.byte in floats.FLOATS:
        return Adapted(struct.pack("<BH", DataType.VARCHAR, TEXT_OF_FLOAT) + COLLATION, _float)
    if type_.byte == DataType.TEXT:
        return Adapted(bytes([DataType.VARCHAR]) + MAX + type_.info[4:9], _old)
    if type_.byte == DataType.NTEXT:
        return Adapted(bytes([DataType.NVARCHAR]) + MAX + type_.info[4:9], _old)
    if type_.byte == DataType.IMAGE:
        return Adapted(bytes([DataType.VARBINARY]) + MAX, _old)
    if type_.byte == DataType.UDT:
        return Adapted(bytes([DataType.VARBINARY]) + MAX, cell)
    if type_.byte == DataType.XML:
        return Adapted(bytes([DataType.NVARCHAR]) + MAX + COLLATION, cell)
    return Adapted(bytes([DataType.NVARCHAR]) + MAX + COLLATION, _variant(charset)) if type_.byte == DataType.VARIANT else None


# Packets: those that came, up to the first change; from there on packets of the greatest size that came.

class Output:
    """Writes a payload of which some bytes are kept and others are put in the place of what came."""

    def __init__(self, write: Write) -> None:
        self._write = write
        self._held: list[bytes] = []  # packets that came and weren't written
        self._kept = 0  # bytes of their bodies that stay
        self._waiting: Optional[bytearray] = None  # after a change: payload that wasn't written
        self._size, self._number = tds.LEAST_PACKET_SIZE, 0

    def came(self, packet: bytes) -> None:
        """A packet was read, of which nothing is decided."""
        self._size = max(self._size, len(packet))
        if self._waiting is None:
            self._held.append(packet)

    def keep(self, data: bytes) -> None:
        """The next bytes of the payload stay."""
        if self._waiting is not None:
            self.put(data)
            return
        self._kept += len(data)
        while len(self._held) > 1 and len(self._held[0]) - tds.HEADER <= self._kept:
            self._kept -= len(self._held[0]) - tds.HEADER
            self._write_one(self._held.pop(0))

    def put(self, data: bytes) -> None:
        """These bytes take the place of what was read and not kept."""
        if self._waiting is None:
            self._waiting = bytearray(b"".join(packet[tds.HEADER:] for packet in self._held)[:self._kept])
        self._waiting += data
        body = self._size - tds.HEADER
        while len(self._waiting) > body:
            self._write_one(tds.packet(tds.PacketType.ANSWER, self._waiting[:body], False, self._number + 1))
            del self._waiting[:body]

    def _write_one(self, packet: bytes) -> None:
        self._number += 1
        self._write(packet)

    def finish(self, is_whole: bool) -> None:
        """Writes what waits; of a payload that is whole the last packet is marked."""
        if self._waiting is None:
            for packet in self._held:
                self._write_one(packet)
        else:
            self._write_one(tds.packet(tds.PacketType.ANSWER, self._waiting, is_whole, self._number + 1))


class Adapter:
    """Rewrites one response, in fixed memory. What can't be followed raises ValueError."""

    def __init__(self, read: Read, write: Write, charset: str, note: Optional[Note] = None) -> None:
        self._output, self._charset, self._note = Output(write), charset, note
        self._payload = Payload(read, self._output.came)
        self._columns: Optional[list[Described]] = None
        self._adapted: list[Optional[Adapted]] = []  # what takes the place of each column's type
        self._ways: list[int] = []  # over the values of a row, if none of them changes
        self._rows: Optional[floats.Rows] = None  # if floats alone change

    @property
    def tail(self) -> bytes:
        """The end of the payload, once all of it was read."""
        return self._payload.tail

    def run(self) -> None:
        """Reads the response and writes it. Raises `payload.Ended` if its packets end before its last one, and ValueError if it
        can't be followed; what came before is written then."""
        is_whole = False
        try:
            while self._payload.has_more():
                self._token(self._payload.number(1))
            is_whole = True
        finally:
            self._output.finish(is_whole)

    def _token(self, byte: int) -> None:
        if byte == Token.COLUMNS:
            self._description()
        elif byte in (Token.ROW, Token.NBCROW):
            self._row(byte)
        elif byte == Token.RETURN_VALUE:
            self._return_value()
        else:
            self._output.keep(bytes([byte]))
            for piece in rest_of(self._payload, byte):
                self._output.keep(piece)

    def _description(self) -> None:
        """Each column of a description is written once it has come: as it came, or with another type."""
        head = self._payload.need(2)
        self._output.keep(bytes([Token.COLUMNS]) + head)
        count, = struct.unpack("<H", head)
        self._columns, self._adapted = None if count == columns.NO_METADATA else [], []
        came = [self._column(columns.read_column(self._payload.need)) for _ in range(count if self._columns is not None else 0)]
        if self._note and came:
            self._note([column for column in came if column])
        described, changes = self._columns or [], [it is not None for it in self._adapted]
        self._ways = [] if any(changes) else ways_over(described)
        self._rows = floats.Rows(described) if floats.is_planned(described, changes) else None

    def _column(self, column: Described) -> Optional[Column]:
        """Writes a column, and returns it as it came, if that is to be noted."""
        new = adapted(column.type, self._charset)
        self._write(new)(column.spelt(new.info if new else b""))
        self._adapted.append(new and new._replace(info=b""))
        bare = column._replace(type=column.type._replace(info=b""), spelt_name=b"")  # without what may be long
        cast("list[Described]", self._columns).append(bare)
        return column.column() if self._note else None

    def _row(self, byte: int) -> None:
        bitmap = self._payload.need(bytes_of_bitmap(byte, self._columns))
        self._output.keep(bytes([byte]) + bitmap)
        for column, new in present(bitmap, [*zip(self._columns or [], self._adapted)]):
            self._value(column.type, new)
        self._whole_rows()

    def _value(self, type_: Type, new: Optional[Adapted]) -> None:
        """A value, as it is or converted. What comes of it in pieces is written in pieces."""
        write, convert = self._write(new), new.convert if new else cell
        for piece in convert(self._payload, type_):
            write(piece)

    def _write(self, new: Optional[Adapted]) -> Write:
        """What writes the bytes of a type, or of its values: as they came, or others in their place."""
        return self._output.put if new else self._output.keep

    def _whole_rows(self) -> None:
        """Takes the rows that are whole in what was read, if no value of them changes, or floats alone."""
        start = self._payload.at
        if self._rows:
            rows, self._payload.at = self._rows.convert(self._payload.data, start)
            self._output.put(rows)
        else:
            self._payload.at = after_rows(self._payload.data, start, self._ways)
            self._output.keep(self._payload.data[start:self._payload.at])

    def _return_value(self) -> None:
        self._output.keep(bytes([Token.RETURN_VALUE]) + head_of_value(self._payload))
        type_ = columns.read_type(self._payload.need)
        new = adapted(type_, self._charset)
        self._write(new)(new.info if new else type_.spelt())
        self._value(type_, new)


# Responses that are handed over while they come.

class Blocks:
    """A response that comes in blocks cut anywhere, read as a file is."""

    def __init__(self, following: Callable[[], bytes]) -> None:
        self._following, self._block, self._at = following, b"", 0

    def read(self, most: int) -> bytes:
        if self._at == len(self._block):
            self._block, self._at = self._following(), 0
        data = self._block[self._at:self._at + most]
        self._at += len(data)
        return data


def hand_over(following: Callable[[], bytes], write: Write, charset: Optional[str]) -> str:
    """Writes a response block by block: as it comes, or rewritten if a character set is given. Returns why it can't be followed to where
    the blocks end, or ""."""
    if charset is None:
        while block := following():
            write(block)
        return ""
    try:
        Adapter(Blocks(following).read, write, charset).run()
    except ValueError as wrong:
        return f"the response can't be followed: {wrong}"
    except Ended:
        pass  # whoever reads what was written says so
    return ""
