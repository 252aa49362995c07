"""Tests of `columns` beside descriptions that are made here, by tables that share no code with the package."""
from __future__ import annotations

import csv
import io
import random
import struct
import unittest
from typing import NamedTuple, Optional

from gavyreto.commands.columns import as_csv, sets_of

CASES = 300
COLLATION = b"\x09\x04\xD0\0\x34"
NAMES = ["", "id", "Zürich", "東京", "𝄞", 'a"b', "a\r\nb", "\0", "NULL", "\u2028", "\ufeff", "x" * 128]
MORE = [0x0002, 0x0008, 0x0010, 0x0020, 0x2000, 0x4000]  # bits of the flags that say nothing of NULL


class Kind(NamedTuple):
    """A type: the bytes that describe it, as SQL writes it, length, precision and scale, a value, and NULL, if it has one."""

    description: bytes
    sql: str
    value: bytes
    null: Optional[bytes] = b"\0"
    length: Optional[int] = None
    precision: Optional[int] = None
    scale: Optional[int] = None


def chunks(numbers: random.Random) -> bytes:
    """A value in chunks, of a length that is told before or isn't."""
    parts = [numbers.randbytes(2 * numbers.randrange(1, 40)) for _ in range(numbers.randrange(4))]
    total = numbers.choice([2**64 - 2, sum(map(len, parts))])
    return struct.pack("<Q", total) + b"".join(struct.pack("<I", len(it)) + it for it in parts) + bytes(4)


def kind_of(numbers: random.Random) -> Kind:
    """One of all types, with numbers from one end of their ranges to the other."""
    scale, precision = numbers.randrange(8), numbers.randrange(1, 39)
    digits, size, units = numbers.randrange(precision + 1), numbers.choice([1, 2, 8000]), numbers.choice([1, 4000])
    some, some_units = numbers.randbytes(min(size, numbers.randrange(60))), numbers.randbytes(2 * min(units, numbers.randrange(60)))
    clock = (3, 3, 3, 4, 4, 5, 5, 5)[scale]
    old = bytes([16]) + bytes(24) + struct.pack("<I", len(some_units)) + some_units
    table, name = b"\2\1\0d\0\1\0t\0", struct.pack("<B", 2) + "ab".encode("utf-16-le")
    most, empty = b"\xFF" * 2, b"\xFF" * 8
    fixed = [(0x30, "tinyint", 1), (0x32, "bit", 1), (0x34, "smallint", 2), (0x38, "int", 4), (0x7F, "bigint", 8), (0x3A, "smalldatetime", 4), (0x3D, "datetime", 8),
             (0x7A, "smallmoney", 4), (0x3C, "money", 8), (0x3B, "real", 4), (0x3E, "float", 8)]
    counted = [(0x26, "tinyint", 1), (0x26, "smallint", 2), (0x26, "int", 4), (0x26, "bigint", 8), (0x68, "bit", 1), (0x6D, "real", 4), (0x6D, "float", 8), (0x6E, "smallmoney", 4),
               (0x6E, "money", 8), (0x6F, "smalldatetime", 4), (0x6F, "datetime", 8), (0x24, "uniqueidentifier", 16)]
    scaled = [(0x29, "time", clock), (0x2A, "datetime2", clock + 3), (0x2B, "datetimeoffset", clock + 5)]
    kinds = [Kind(bytes([byte]), sql, bytes(count), None) for byte, sql, count in fixed]
    kinds += [Kind(bytes([byte, count]), sql, bytes([count]) + bytes(count)) for byte, sql, count in counted]
    kinds += [Kind(bytes([byte, scale]), f"{sql}({scale})", bytes([count]) + bytes(count), scale=scale) for byte, sql, count in scaled]
    kinds += [Kind(bytes([byte, 17, precision, digits]), f"{sql}({precision},{digits})", b"\x05\1" + bytes(4), precision=precision, scale=digits) for byte, sql in ((0x6A, "decimal"), (0x6C, "numeric"))]
    for byte, sql, info in (0xA5, "varbinary", b""), (0xAD, "binary", b""), (0xA7, "varchar", COLLATION), (0xAF, "char", COLLATION):
        kinds.append(Kind(bytes([byte]) + struct.pack("<H", size) + info, f"{sql}({size})", struct.pack("<H", len(some)) + some, most, size))
    for byte, sql in (0xE7, "nvarchar"), (0xEF, "nchar"):
        kinds.append(Kind(bytes([byte]) + struct.pack("<H", 2 * units) + COLLATION, f"{sql}({units})", struct.pack("<H", len(some_units)) + some_units, most, units))
    for byte, sql, info in (0xA5, "varbinary", b""), (0xA7, "varchar", COLLATION), (0xE7, "nvarchar", COLLATION):
        kinds.append(Kind(bytes([byte]) + most + info, f"{sql}(max)", chunks(numbers), empty))
    kinds += [Kind(b"\xF1\0", "xml", chunks(numbers), empty), Kind(b"\xF1\1" + name + name + b"\1\0x\0", "xml", chunks(numbers), empty)]
    kinds += [Kind(b"\xF0\xFF\xFF" + name * 3 + b"\1\0c\0", "ab.ab.ab", chunks(numbers), empty), Kind(b"\x62" + struct.pack("<I", 8009), "sql_variant", b"\6\0\0\0\x38\0" + bytes(4), bytes(4))]
    return numbers.choice([*kinds, *(Kind(bytes([byte]) + b"\xFF\xFF\xFF\x7F" + info + table, sql, old) for byte, sql, info in (
        (0x22, "image", b""), (0x23, "text", COLLATION), (0x63, "ntext", COLLATION)))])


def row_of(numbers: random.Random, kinds: list[Kind]) -> bytes:
    """A row, with its NULLs as values or in a bitmap."""
    are_null = [kind.null is not None and numbers.random() < 0.3 for kind in kinds]
    if numbers.random() < 0.5:
        return b"\xD1" + b"".join(kind.null or b"" if is_null else kind.value for kind, is_null in zip(kinds, are_null))
    bitmap = sum(1 << place for place, is_null in enumerate(are_null) if is_null).to_bytes((len(kinds) + 7) // 8, "little")
    return b"\xD2" + bitmap + b"".join(kind.value for kind, is_null in zip(kinds, are_null) if not is_null)


def other(numbers: random.Random) -> bytes:
    """A token that has nothing to do with columns, with bytes within that look like them."""
    body = b"\x81\1\0\xD1\xFD"
    return numbers.choice([
        b"\x79" + body[:4], b"\xE3" + struct.pack("<H", len(body)) + body, b"\xAB" + struct.pack("<H", len(body)) + body, b"\xA9\2\0\1\0", b"\xFF" + b"\1\0" + bytes(10),
        b"\xAC\1\0\1p\0\1" + bytes(6) + b"\x26\4\4" + body[:4], b"\x81\xFF\xFF"])


def response_of(numbers: random.Random) -> tuple[bytes, list[list[list[Optional[str]]]]]:
    """A response in packets of any size, and of each set what its columns are, as text."""
    payload, sets = b"".join(other(numbers) for _ in range(numbers.randrange(3))), list[list[list[Optional[str]]]]()
    for _ in range(numbers.randrange(4)):
        kinds = [kind_of(numbers) for _ in range(numbers.choice([1, 2, 8, 9, 40]))]
        payload += b"\x81" + struct.pack("<H", len(kinds))
        sets.append([])
        for kind in kinds:
            name, null = numbers.choice(NAMES), numbers.choice([0x0000, 0x0001, 0x8000, 0x8001])
            units = name.encode("utf-16-le")
            payload += struct.pack("<IH", 0, null | numbers.choice(MORE)) + kind.description + bytes([len(units) // 2]) + units
            sets[-1].append([name, kind.sql, *("NULL" if it is None else str(it) for it in (kind.length, kind.precision, kind.scale)), str(int(null != 0))])
        payload += b"".join(row_of(numbers, kinds) for _ in range(numbers.randrange(12)))
        payload += b"".join(other(numbers) for _ in range(numbers.randrange(3)))
    payload, wire, size = payload + b"\xFD" + bytes(12), b"", numbers.choice([1, 7, 504, 32759])
    for at in range(0, len(payload), size):
        body = payload[at:at + size]
        wire += struct.pack(">BBHI", 4, at + size >= len(payload), 8 + len(body), 0) + body
    return wire, sets


class Columns(unittest.TestCase):
    def test_generated_descriptions(self) -> None:
        seen: set[str] = set()
        for seed in range(CASES):
            numbers = random.Random(seed)
            wires, wanted = zip(*(response_of(numbers) for _ in range(numbers.choice([1, 1, 2]))))
            came = list(csv.reader(io.StringIO(as_csv(sets_of(io.BufferedReader(io.BytesIO(b"".join(wires))))), newline="")))  # type: ignore[arg-type]
            expected = [[str(number), *column] for number, columns in enumerate((it for sets in wanted for it in sets), 1) for column in columns]
            self.assertEqual(came, [["set", "name", "type", "length", "precision", "scale", "nullable"], *expected], seed)
            seen |= {str(column[1]).partition("(")[0] for sets in wanted for columns in sets for column in columns}
        self.assertEqual(len(seen), 29)


if __name__ == "__main__":
    unittest.main()
