"""Spells tokens, columns and values as bytes, and says what a case is."""
from __future__ import annotations

from collections.abc import Iterable
from typing import NamedTuple

from lib.packing import in_packets

COLLATION = bytes.fromhex("0904D00034")
DONE = b"\xFD" + bytes(12)
NO_METADATA = b"\x81\xFF\xFF"
INT, TINYINT = b"\x38", b"\x30"
WINDOWS_1252, UTF8 = ("--charset", "windows-1252"), ("--charset", "utf-8")


class Case(NamedTuple):
    """A response in packets, and the options with which it is exported."""

    name: str
    wire: bytes
    options: tuple[str, ...] = ()


def little(number: int, size: int) -> bytes:
    """A number's lowest bytes, little-endian; a negative one as two's complement."""
    return (number % (1 << 8 * size)).to_bytes(size, "little")


def case_of(name: str, payload: bytes, *options: str) -> Case:
    """A case of a payload in packets of 4,096 bytes."""
    return Case(name, in_packets(payload, 4096), options)


# Columns

def units_name(units: bytes) -> bytes:
    """A name: its count of UTF-16 units, and the units."""
    return bytes([len(units) // 2]) + units


def name_of(text: str) -> bytes:
    return units_name(text.encode("utf-16-le"))


def column(type_info: bytes, name: bytes = b"\0") -> bytes:
    return bytes(6) + type_info + name


def description(*columns: bytes) -> bytes:
    return b"\x81" + little(len(columns), 2) + b"".join(columns)


def columns_of(*type_infos: bytes) -> bytes:
    """A description of columns without names."""
    return description(*map(column, type_infos))


# Other tokens

def row(*cells: bytes) -> bytes:
    return b"\xD1" + b"".join(cells)


def nbc_row(bitmap: bytes, *cells: bytes) -> bytes:
    return b"\xD2" + bitmap + b"".join(cells)


def returned(type_info: bytes, cell: bytes, name: bytes = b"\0") -> bytes:
    """A RETURNVALUE."""
    return b"\xAC\0\0" + name + b"\1" + bytes(6) + type_info + cell


def sized(token: int, body: bytes) -> bytes:
    """A token with a two-byte Length."""
    return bytes([token]) + little(len(body), 2) + body


def notice(token: int, message: bytes, number: int = 208, state: int = 1, severity: int = 16, line: int = 1) -> bytes:
    """An ERROR or INFO with a message of UTF-16 units, and without names."""
    front = little(number, 4) + bytes([state, severity]) + little(len(message) // 2, 2)
    return sized(token, front + message + b"\0\0" + little(line, 4))


def done(token: int, status: int) -> bytes:
    return bytes([token]) + little(status, 2) + bytes(10)


# Values

SHORT_NULL, CHUNKED_NULL = b"\xFF" * 2, b"\xFF" * 8
UNKNOWN, NO_MORE = little(-2, 8), bytes(4)


def counted(data: bytes) -> bytes:
    """A value with a one-byte length."""
    return bytes([len(data)]) + data


def short(data: bytes) -> bytes:
    """A value with a two-byte length."""
    return little(len(data), 2) + data


def chunk(data: bytes) -> bytes:
    return little(len(data), 4) + data


def chunked(chunks: Iterable[bytes], total: bytes = UNKNOWN) -> bytes:
    """A value in chunks, with its total before them."""
    return total + b"".join(map(chunk, chunks)) + NO_MORE


def known(*chunks: bytes) -> bytes:
    """A value in chunks, with their sum as its total."""
    return chunked(chunks, little(sum(map(len, chunks)), 8))
