"""Responses of SQL Server for recipes, tests and benchmarks: columns of each kind, their values and texts, and tokens."""
import struct
from collections.abc import Callable, Iterator, Sequence
from datetime import date, datetime, timedelta
from decimal import Decimal
from typing import Any, Optional, Union
from uuid import UUID

from lib.served import done, server_error
from gavyreto.tds import FAILED, MORE

Written = Union[None, str, bytes]  # a value as SQL writes it, as it is on the wire, or NULL

COLLATION = bytes.fromhex("0904D00034")
CHUNK = (bytes(range(256)) * 32)[:8000]


# Values: from a text as SQL writes it to the bytes of the wire.

def whole(size: int, signed: bool = True) -> Callable[[str], bytes]:
    return lambda text: int(text).to_bytes(size, "little", signed=signed)


def decimal(size: int) -> Callable[[str], bytes]:
    def bytes_of(text: str) -> bytes:
        units = int(text.replace(".", ""))
        return bytes([units >= 0]) + abs(units).to_bytes(size - 1, "little")
    return bytes_of


def money(text: str) -> bytes:
    units = int(text.replace(".", ""))
    return struct.pack("<iI", units >> 32, units & 0xFFFFFFFF)


def small_money(text: str) -> bytes:
    return struct.pack("<i", int(text.replace(".", "")))


def units_of(text: str, scale: int) -> int:
    """A time of day in units of 10^-scale second."""
    hours, minutes, seconds = text[:8].split(":")
    return (int(hours) * 3600 + int(minutes) * 60 + int(seconds)) * int(10**scale) + int(text[9:] or "0")


def day(text: str) -> bytes:
    return (date.fromisoformat(text).toordinal() - 1).to_bytes(3, "little")


def time(size: int, scale: int) -> Callable[[str], bytes]:
    return lambda text: units_of(text, scale).to_bytes(size, "little")


def datetime2(text: str) -> bytes:
    return time(5, 7)(text[11:]) + day(text[:10])


def datetimeoffset(text: str) -> bytes:
    """With a scale of 3: time and date in UTC, then the minutes of the offset."""
    minutes = (int(text[25:27]) * 60 + int(text[28:30])) * (-1 if text[24] == "-" else 1)
    utc = (datetime.fromisoformat(text[:23]) - timedelta(minutes=minutes)).isoformat(" ", "milliseconds")
    return time(4, 3)(utc[11:]) + day(utc[:10]) + struct.pack("<h", minutes)


def days_of_1900(text: str) -> int:
    return (date.fromisoformat(text[:10]) - date(1900, 1, 1)).days


def small_datetime(text: str) -> bytes:
    return struct.pack("<HH", days_of_1900(text), units_of(text[11:], 0) // 60)


def old_datetime(text: str) -> bytes:
    return struct.pack("<iI", days_of_1900(text), round(units_of(text[11:], 3) * 3 / 10))


def narrow(text: str) -> bytes:
    return text.encode("cp1252")


def wide(text: str) -> bytes:
    return text.encode("utf-16-le")


# Cells: the bytes of a value, or of NULL, with their length.

def fixed(data: Optional[bytes]) -> bytes:
    return data or b""


def short(data: Optional[bytes]) -> bytes:
    return b"\0" if data is None else bytes([len(data)]) + data


def long(data: Optional[bytes]) -> bytes:
    return b"\xFF\xFF" if data is None else struct.pack("<H", len(data)) + data


def chunked(data: Optional[bytes]) -> bytes:
    """In two chunks, with their total before them."""
    if data is None:
        return b"\xFF" * 8
    half = len(data) // 2
    chunks = [struct.pack("<I", len(part)) + part for part in (data[:half], data[half:]) if part]
    return struct.pack("<Q", len(data)) + b"".join(chunks) + bytes(4)


class Column:
    """A column with the values of its three rows. A value is a text as SQL writes it, bytes, or None for NULL."""

    def __init__(
        self, name: str, type_info: str, cell: Callable[[Optional[bytes]], bytes], encode: Callable[[Any], bytes], python: Callable[[Any], Any],
        *values: Written,
    ) -> None:
        self.name, self.cell, self.encode, self.python, self.values = name, cell, encode, python, values
        self.type_info = bytes.fromhex(type_info)
        if self.type_info[0] in (0xA7, 0xAF, 0xE7, 0xEF):
            self.type_info += COLLATION

    def described(self) -> bytes:
        """User type, flags (NULL is allowed, unless the kind has none), type and name."""
        flags = b"\0\0" if self.cell is fixed else b"\1\0"
        return bytes(4) + flags + self.type_info + bytes([len(wide(self.name)) // 2]) + wide(self.name)

    def bytes_of(self, value: Written) -> bytes:
        return self.cell(None if value is None else self.encode(value))

    def text_of(self, value: Written) -> str:
        if value is None:
            return "NULL"
        if isinstance(value, bytes):
            return "0x" + value.hex()
        return '"' + value.replace('"', '""') + '"' if self.encode in (narrow, wide) else value

    def value_of(self, value: Written) -> Any:
        """What Python makes of it: NULL is None, and dates, times and GUIDs stay text."""
        return None if value is None else self.python(value)


COLUMNS = [
    # not NULL: the fixed kinds
    Column("tiny", "30", fixed, whole(1, False), int, "7", "255", "0"),
    Column("small", "34", fixed, whole(2), int, "-7", "32767", "-32768"),
    Column("whole", "38", fixed, whole(4), int, "42", "2147483647", "-2147483648"),
    Column("big", "7F", fixed, whole(8), int, "1000000000000", "9223372036854775807", "-9223372036854775808"),
    Column("flag", "32", fixed, whole(1), int, "1", "0", "1"),
    Column("coins", "7A", fixed, small_money, Decimal, "9.9900", "214748.3647", "-214748.3648"),
    Column("cash", "3C", fixed, money, Decimal, "12345.6789", "922337203685477.5807", "-922337203685477.5808"),
    Column("minute", "3A", fixed, small_datetime, str,
           "2024-02-29 12:34:00", "2079-06-06 23:59:00", "1900-01-01 00:00:00"),
    Column("moment", "3D", fixed, old_datetime, str,
           "2024-02-29 12:34:56.003", "9999-12-31 23:59:59.997", "1753-01-01 00:00:00.000"),
    # the same kinds where NULL is allowed
    Column("tiny_or_null", "2601", short, whole(1, False), int, "8", "255", None),
    Column("small_or_null", "2602", short, whole(2), int, "-8", "-32768", None),
    Column("whole_or_null", "2604", short, whole(4), int, "43", "-2147483648", None),
    Column("big_or_null", "2608", short, whole(8), int, "-1", "-9223372036854775808", None),
    Column("flag_or_null", "6801", short, whole(1), int, "0", "1", None),
    Column("coins_or_null", "6E04", short, small_money, Decimal, "-0.0001", "-214748.3648", None),
    Column("cash_or_null", "6E08", short, money, Decimal, "-0.5000", "-922337203685477.5808", None),
    Column("minute_or_null", "6F04", short, small_datetime, str, "2024-12-31 00:01:00", "1900-01-01 00:00:00", None),
    Column("moment_or_null", "6F08", short, old_datetime, str,
           "1999-12-31 23:59:59.997", "1753-01-01 00:00:00.007", None),
    # the other kinds of one value
    Column("amount", "6A050902", short, decimal(5), Decimal, "-12.50", "9999999.99", None),
    Column("total", "6C11260A", short, decimal(17), Decimal,
           "0.0000000001", "9999999999999999999999999999.9999999999", None),
    Column("guid", "2410", short, lambda text: UUID(text).bytes_le, str,
           "6f9619ff-8b86-d011-b42d-00c04fc964ff", "ffffffff-ffff-ffff-ffff-ffffffffffff", None),
    Column("day", "28", short, day, str, "2024-02-29", "9999-12-31", None),
    Column("clock", "2907", short, time(5, 7), str, "12:34:56.7890123", "23:59:59.9999999", None),
    Column("second", "2900", short, time(3, 0), str, "00:00:01", "23:59:59", None),
    Column("stamp", "2A07", short, datetime2, str, "2024-02-29 12:34:56.1234567", "0001-01-01 00:00:00.0000001", None),
    Column("zoned", "2B03", short, datetimeoffset, str,
           "2024-02-29 01:00:00.125 +05:30", "2024-12-31 23:59:59.999 -08:00", None),
    # text and binary
    Column("code", "AF0300", long, narrow, str, "EUR", "  x", None),
    Column("name", "A72800", long, narrow, str, 'Ann "A" Lee, Zürich', "NULL", None),
    Column("note", "A7FFFF", chunked, narrow, str, "5 € \r\n\r\nthird line", "", None),
    Column("pair", "EF0400", long, wide, str, "äß", "東京", None),
    Column("title", "E75000", long, wide, str, "déjà vu", "NULL", None),
    Column("story", "E7FFFF", chunked, wide, str, "𝄞 and 東京, \"quoted\"", "\n", None),
    Column("mark", "AD0400", long, bytes, bytes, bytes(4), b"\xFF\xFE\xFD\xFC", None),
    Column("hash", "A50800", long, bytes, bytes, b"0xAB", b"", None),
    Column("data", "A5FFFF", chunked, bytes, bytes, bytes(range(40)), b"", None),
]
ROWS = list(zip(*(column.values for column in COLUMNS)))
NAMES = [column.name for column in COLUMNS]
VALUES = [[column.value_of(value) for column, value in zip(COLUMNS, row)] for row in ROWS]


# Cells and columns of the kinds that are refused (MS-TDS, Data Type Definitions).

POINTER = bytes(range(16)) + b"dummy TS"


def double(text: str) -> bytes:
    return struct.pack("<d", float(text))


def single(text: str) -> bytes:
    return struct.pack("<f", float(text))


def after_pointer(data: Optional[bytes]) -> bytes:
    """A value of text, ntext or image: a pointer, a timestamp and a length come before it."""
    return b"\0" if data is None else b"\x10" + POINTER + struct.pack("<I", len(data)) + data


def variant(value: Optional[bytes]) -> bytes:
    """A value of sql_variant, whose base type and properties are its first bytes."""
    return bytes(4) if value is None else struct.pack("<I", len(value)) + value


def as_it_is(value: bytes) -> bytes:
    return value


def names(*parts: str) -> str:
    """Names with a count of one byte before each, in hexadecimal digits."""
    return "".join(bytes([len(part)]).hex() + wide(part).hex() for part in parts)


def table(name: str) -> str:
    """The parts of a table's name, as text, ntext and image have it in their description."""
    return "01" + struct.pack("<H", len(name)).hex() + wide(name).hex()


LAST = "FFFFFF7F"  # the length of text and image; of ntext it is half that
ASSEMBLY = "Types, Version=1.0"
REFUSED = [
    Column("real", "3B", fixed, single, str, "0.1", "3.4028235e+38", "-1e-45"),
    Column("float", "3E", fixed, double, str, "0.1", "1.7976931348623157e+308", "-5e-324"),
    Column("real_or_null", "6D04", short, single, str, "16777216.0", "-0.0", None),
    Column("float_or_null", "6D08", short, double, str, "123456789.125", "1e+16", None),
    Column("text", "23" + LAST + COLLATION.hex() + table("dbo.t"), after_pointer, narrow, str, 'Zürich, "5 €"', "", None),
    Column("ntext", "63" + "FEFFFF7F" + COLLATION.hex() + table("dbo.t"), after_pointer, wide, str, "𝄞 東京", "", None),
    Column("image", "22" + LAST + table("dbo.t"), after_pointer, as_it_is, bytes, bytes(range(40)), b"", None),
    Column("xml", "F100", chunked, wide, str, "<a b=\"1\">Zürich</a>", "", None),
    Column("clr", "F0FFFF" + names("db", "sys", "geography") + struct.pack("<H", len(ASSEMBLY)).hex() + wide(ASSEMBLY).hex(),
           chunked, as_it_is, bytes, b"\xE6\x10\0\0\x01", b"", None),
    Column("variant", "62491F0000", variant, as_it_is, bytes, b"\x38\0" + whole(4)("42"), b"\xE7\x07" + COLLATION + b"\x40\x1F", None),
    Column("note", "A72800", long, narrow, str, "as it is", "", None),
]
NAMES_OF_REFUSED = [column.name for column in REFUSED]
REFUSED_ROWS = list(zip(*(column.values for column in REFUSED)))
TEXT_PROPERTIES = COLLATION + b"\x40\x1F"
VARIANTS: list[tuple[bytes, str]] = [
    (b"\x30\0\xFF", "255"), (b"\x34\0" + whole(2)("-32768"), "-32768"), (b"\x38\0" + whole(4)("-2147483648"), "-2147483648"),
    (b"\x7F\0" + whole(8)("9223372036854775807"), "9223372036854775807"), (b"\x32\0\x01", "1"),
    (b"\x3B\0" + single("0.1"), "0.1"), (b"\x3E\0" + double("1e+16"), "1e+16"),
    (b"\x3C\0" + money("-922337203685477.5808"), "-922337203685477.5808"), (b"\x7A\0" + small_money("9.9900"), "9.9900"),
    (b"\x6C\x02\x26\x0A" + decimal(17)("0.0000000001"), "0.0000000001"), (b"\x6A\x02\x09\x02" + decimal(5)("-12.50"), "-12.50"),
    (b"\x3D\0" + old_datetime("2024-02-29 12:34:56.003"), "2024-02-29 12:34:56.003"),
    (b"\x3A\0" + small_datetime("2079-06-06 23:59:00"), "2079-06-06 23:59:00"), (b"\x28\0" + day("9999-12-31"), "9999-12-31"),
    (b"\x29\x01\x07" + time(5, 7)("23:59:59.9999999"), "23:59:59.9999999"), (b"\x2A\x01\x07" + datetime2("0001-01-01 00:00:00.0000001"), "0001-01-01 00:00:00.0000001"),
    (b"\x2B\x01\x03" + datetimeoffset("2024-12-31 23:59:59.999 -08:00"), "2024-12-31 23:59:59.999 -08:00"),
    (b"\x24\0" + UUID("6f9619ff-8b86-d011-b42d-00c04fc964ff").bytes_le, "6f9619ff-8b86-d011-b42d-00c04fc964ff"),
    (b"\xA7\x07" + TEXT_PROPERTIES + narrow('5 € "x"'), '5 € "x"'), (b"\xAF\x07" + TEXT_PROPERTIES + narrow("EUR"), "EUR"),
    (b"\xE7\x07" + TEXT_PROPERTIES + wide("𝄞 東京"), "𝄞 東京"), (b"\xEF\x07" + TEXT_PROPERTIES + wide("äß"), "äß"),
    (b"\xA5\x02\x40\x1F" + b"\0\xFF", "0x00ff"), (b"\xAD\x02\x02\0" + b"0x", "0x3078"), (b"\xE7\x07" + TEXT_PROPERTIES, ""),
]


# Tokens of a result set; tds.py has the others, and the packets.

def description(columns: Sequence[Column]) -> bytes:
    return b"\x81" + struct.pack("<H", len(columns)) + b"".join(column.described() for column in columns)


def row(columns: Sequence[Column], values: Sequence[Written]) -> bytes:
    return b"\xD1" + b"".join(column.bytes_of(value) for column, value in zip(columns, values))


def row_with_bitmap(columns: Sequence[Column], values: Sequence[Written]) -> bytes:
    """An NBCROW: each NULL is a bit of the bitmap and has no bytes."""
    bits = sum(1 << place for place, value in enumerate(values) if value is None)
    cells = [column.bytes_of(value) for column, value in zip(columns, values) if value is not None]
    return b"\xD2" + bits.to_bytes((len(columns) + 7) // 8, "little") + b"".join(cells)


# Responses.

def in_turn(columns: Sequence[Column], values: Sequence[Sequence[Written]], count: int) -> Iterator[bytes]:
    """A set of so many rows: the first values, the second, the third as an NBCROW, and these again."""
    rows = [row(columns, values[0]), row(columns, values[1]), row_with_bitmap(columns, values[2])]
    yield description(columns)
    for number in range(count or 3):
        yield rows[number % 3]
    yield done()


def kinds(count: int) -> Iterator[bytes]:
    yield from in_turn(COLUMNS, ROWS, count)


def text_of(columns: Sequence[Column], rows: Sequence[Sequence[Written]]) -> bytes:
    """The text that a set with these rows has."""
    lines = [",".join(f'"{column.name}"' for column in columns)]
    lines += [",".join(column.text_of(value) for column, value in zip(columns, values)) for values in rows]
    return "".join(line + "\r\n" for line in lines).encode()


def expected() -> bytes:
    return text_of(COLUMNS, ROWS)


def sets(_: int) -> Iterator[bytes]:
    number = Column("id", "38", fixed, whole(4), int)
    note = Column("note", "E75000", long, wide, str)
    total = Column("total", "6A050902", short, decimal(5), Decimal)
    yield description([number, note])
    yield row([number, note], ["1", "first\r\n\r\nthird line"])
    yield row([number, note], ["2", None])
    yield done(MORE)
    yield description([total])
    yield row([total], ["12.50"])
    yield done(MORE)
    yield description([number])
    yield done()


def error(_: int) -> Iterator[bytes]:
    number = Column("id", "38", fixed, whole(4), int)
    yield description([number]) + row([number], ["1"]) + done(MORE)
    yield server_error(208, "Invalid object name 'orders'.", 1) + done(FAILED)


ORDER_COLUMNS = [
    Column("id", "38", fixed, whole(4), int),
    Column("customer", "E75000", long, wide, str),
    Column("total", "6A090C02", short, decimal(9), Decimal),
    Column("ordered", "2A07", short, datetime2, str),
    Column("note", "E7FFFF", chunked, wide, str),
]
ORDER_ROWS: list[list[Written]] = [
    ["1", 'Ann "A" Lee, Zürich', "12.50", "2024-02-29 12:34:56.1234567", "two\r\nlines"],
    ["2", "NULL", "-0.05", "2024-03-01 00:00:00.0000000", ""],
    ["3", "東京", None, "2024-03-02 23:59:59.9999999", None],
]


def order_rows(count: int) -> Iterator[bytes]:
    yield description(ORDER_COLUMNS)
    rows = [row(ORDER_COLUMNS, values) for values in ORDER_ROWS]
    for number in range(count or 3):
        yield rows[number % 3]


def orders(count: int) -> Iterator[bytes]:
    yield from order_rows(count)
    yield done()


def broken(count: int) -> Iterator[bytes]:
    yield from order_rows(count)
    yield server_error(8134, "Divide by zero error encountered.", 1) + done(FAILED)


def refused_float(_: int) -> Iterator[bytes]:
    number = Column("id", "38", fixed, whole(4), int)
    ratio = Column("ratio", "6D08", short, bytes, float)
    yield description([number, ratio]) + row([number, ratio], ["1", None]) + done()


def refused(count: int) -> Iterator[bytes]:
    yield from in_turn(REFUSED, REFUSED_ROWS, count)


def variants(_: int) -> Iterator[bytes]:
    column = Column("variant", "62491F0000", variant, as_it_is, bytes)
    yield description([column])
    for value in [*(value for value, _ in VARIANTS), None]:
        yield row([column], [value])
    yield done()


def long_value(count: int) -> Iterator[bytes]:
    chunks = -(-count // len(CHUNK))
    yield description([Column("data", "A5FFFF", chunked, bytes, bytes)]) + b"\xD1" + struct.pack("<Q", chunks * len(CHUNK))
    for _ in range(chunks):
        yield struct.pack("<I", len(CHUNK)) + CHUNK
    yield bytes(4) + done()


RESPONSES = {
    "kinds": kinds, "sets": sets, "error": error, "orders": orders, "broken": broken, "float": refused_float, "refused": refused,
    "variants": variants, "long": long_value,
}
