"""Long values: text of each character set, binary data, chunks, and values longer than 65,536 bytes."""
from __future__ import annotations

from collections.abc import Iterator
from typing import NamedTuple

from lib.packing import in_packets, joined, pieces

from .spelling import (
    CHUNKED_NULL, COLLATION, DONE, INT, NO_MORE, SHORT_NULL, TINYINT, UNKNOWN, UTF8, WINDOWS_1252, Case, case_of, chunk,
    chunked, columns_of, known, little, nbc_row, returned, row, short,
)

CHARSETS = (WINDOWS_1252, UTF8)
# Characters of one to four bytes, as UTF-8, a pair of units among them, and quotes.
MIXED = 'a"é€\U0001F600""\r\n\U0010FFFFz'
E_ACUTE = "é".encode()


class Type(NamedTuple):
    """A type byte of a long kind, the form of its data, and what follows the length after it."""

    name: str
    byte: int
    form: str
    rest: bytes = b""

    def described(self, length: int) -> bytes:
        return bytes([self.byte]) + little(length, 2) + self.rest


VARBINARY, BINARY = Type("varbinary", 0xA5, "binary"), Type("binary", 0xAD, "binary")
VARCHAR, CHAR = Type("varchar", 0xA7, "narrow", COLLATION), Type("char", 0xAF, "narrow", COLLATION)
NVARCHAR, NCHAR = Type("nvarchar", 0xE7, "wide", COLLATION), Type("nchar", 0xEF, "wide", COLLATION)
TYPES = [VARBINARY, BINARY, VARCHAR, CHAR, NVARCHAR, NCHAR]
# Those whose values come in chunks if FFFF is described.
UNLIMITED = [VARBINARY, VARCHAR, NVARCHAR]


def short_rows(of: Type, *values: bytes) -> bytes:
    """A ROW for each value, between two numbers."""
    return rows_of(of.described(10), *map(short, values))


def rows_of(type_info: bytes, *cells: bytes) -> bytes:
    """A ROW for each cell, between two numbers."""
    return columns_of(INT, type_info, TINYINT) + b"".join(row(little(42, 4), cell, b"\7") for cell in cells) + DONE


def chunked_rows(of: Type, *cells: bytes) -> bytes:
    """A ROW for each chunked cell, between two numbers."""
    return rows_of(of.described(0xFFFF), *cells)


def everywhere(name: str, type_info: bytes, cell: bytes, *options: str) -> Iterator[Case]:
    """A cell in a ROW, in two NBCROWs and in a RETURNVALUE."""
    yield case_of(f"{name} in a ROW", rows_of(type_info, cell), *options)
    nbc_rows = nbc_row(b"\3", cell) + nbc_row(b"\6", cell)
    yield case_of(f"{name} in an NBCROW", columns_of(type_info, INT, type_info) + nbc_rows + DONE, *options)
    yield case_of(f"{name} in a RETURNVALUE", returned(type_info, cell) + DONE, *options)


# Small values

def described_lengths() -> Iterator[Case]:
    """What is described says nothing of a value's length, but FFFF."""
    for of in TYPES:
        for length in (0, 1, 2, 8_000, 0x7FFF, 0x8000, 0xFFFE):
            yield from described_cases(f"{of.name} of {length} described", of.described(length), short(b"abcd"), SHORT_NULL)
        yield from described_cases(f"{of.name} of FFFF described", of.described(0xFFFF), known(b"abcd"), CHUNKED_NULL)


def described_cases(name: str, type_info: bytes, *cells: bytes) -> Iterator[Case]:
    """Cells in ROWs, in NBCROWs and in RETURNVALUEs."""
    yield case_of(f"{name}, in ROWs", rows_of(type_info, *cells))
    yield case_of(f"{name}, in NBCROWs", columns_of(type_info) + b"".join(nbc_row(b"\0", cell) for cell in cells) + DONE)
    yield case_of(f"{name}, in RETURNVALUEs", b"".join(returned(type_info, cell) for cell in cells) + DONE)


SMALL_SHORT = [("NULL", SHORT_NULL), ("no data", short(b"")), ("a quote", short(b'"\0')), ("text", short(b'a\0"\0'))]
SMALL_CHUNKED = [
    ("NULL", CHUNKED_NULL), ("no data", known()), ("no data of an unknown total", chunked([])), ("a chunk", known(b'a\0"\0')),
    ("two chunks", known(b"a\0", b'"\0')), ("odd chunks", known(b"a", b'\0"', b"\0")),
    ("odd chunks of an unknown total", chunked([b"a", b'\0"', b"\0"])),
]


def small_short_values(options: tuple[str, ...]) -> Iterator[Case]:
    """NULL, no data, and a little of each type."""
    for of in TYPES:
        for name, cell in SMALL_SHORT:
            yield from everywhere(f"{name} of {of.name}, {options[1]}", of.described(10), cell, *options)


def small_chunked_values(options: tuple[str, ...]) -> Iterator[Case]:
    """The same of each type in chunks."""
    for of in UNLIMITED:
        for name, cell in SMALL_CHUNKED:
            yield from everywhere(f"{name} of {of.name}(max), {options[1]}", of.described(0xFFFF), cell, *options)


# Characters

def every_byte() -> Iterator[Case]:
    """Each byte of binary data, of Windows-1252, and of ASCII as UTF-8."""
    data = bytes(range(256))
    for options in CHARSETS:
        yield case_of(f"each byte of varbinary, {options[1]}", short_rows(VARBINARY, data), *options)
        yield case_of(f"each byte of ASCII, {options[1]}", short_rows(VARCHAR, data[:128], data[127::-1]), *options)
        value = returned(VARCHAR.described(10), short(data))
        yield case_of(f"each byte of varchar, returned, {options[1]}", value + DONE, *options)
    yield case_of("each byte of varchar", short_rows(VARCHAR, data, data[::-1]))
    yield case_of("each byte of varchar, by itself", short_rows(VARCHAR, *pieces(data, 1)))
    yield case_of("each byte of varchar(max)", chunked_rows(VARCHAR, known(*pieces(data, 1)), known(data)))


def every_unit() -> Iterator[Case]:
    """Each unit of UTF-16 in order, and those around the surrogates beside one another."""
    units = b"".join(little(unit, 2) for unit in range(0x10000))
    yield case_of("each unit of nvarchar(max)", chunked_rows(NVARCHAR, known(*pieces(units, 4_001))))
    plain = [little(unit, 2) for unit in (0x0000, 0x0041, 0xD7FF, 0xE000, 0xFFFD, 0xFFFF)]
    halves = [little(unit, 2) for unit in (0xD800, 0xDBFF, 0xDC00, 0xDFFF)]
    around = plain + halves
    yield case_of("two units of nvarchar", short_rows(NVARCHAR, *(first + second for first in around for second in around)))
    threes = [first + second + third for first in halves for second in halves for third in halves]
    yield case_of("three units of nvarchar", short_rows(NVARCHAR, *threes))


# The first and the last character of each row of Unicode's table of well-formed UTF-8.
WHOLE = [bytes.fromhex(it) for it in (
    "00", "7F", "C280", "DFBF", "E0A080", "E0BFBF", "E18080", "ECBFBF", "ED8080", "ED9FBF", "EE8080", "EFBFBF", "F0908080",
    "F0BFBFBF", "F1808080", "F3BFBFBF", "F4808080", "F48FBFBF",
)]
# Bytes of which the last is out of place: it begins no character, or doesn't go on with one.
WRONG = [bytes.fromhex(it) for it in (
    "80", "BF", "C0", "C1", "C27F", "C2C0", "DF7F", "DFC0", "E09F", "E0C0", "E0A07F", "E0A0C0", "E17F", "E1C0", "EC807F",
    "EC80C0", "ED7F", "EDA0", "EDBF", "ED807F", "ED80C0", "EE7F", "EFC0", "EFBF7F", "EFBFC0", "F08F", "F0C0", "F0907F",
    "F090C0", "F090807F", "F09080C0", "F17F", "F1C0", "F3807F", "F380C0", "F380807F", "F38080C0", "F47F", "F490", "F4807F",
    "F480C0", "F480807F", "F48080C0", "F5", "F7", "F8", "FC", "FE", "FF",
)]


def whole_utf8() -> Iterator[Case]:
    """The characters in a value, each by itself, and in chunks."""
    text = b"".join(WHOLE) + b'"'
    for options in CHARSETS:
        yield case_of(f"characters of UTF-8, {options[1]}", short_rows(VARCHAR, text, *WHOLE), *options)
        cells = known(text), known(*pieces(text, 1)), known(*pieces(text, 3))
        yield case_of(f"characters of UTF-8 in chunks, {options[1]}", chunked_rows(VARCHAR, *cells), *options)


def wrong_utf8() -> Iterator[Case]:
    """Bytes that are out of place, with more after them and at the end."""
    yield case_of("bytes that aren't UTF-8, windows-1252", short_rows(VARCHAR, *WRONG))
    for data in WRONG:
        value = b"a" + data + b"\x80a"
        yield from everywhere(f"UTF-8 with {data.hex()}", VARCHAR.described(10), short(value), *UTF8)
        yield from everywhere(f"UTF-8 with {data.hex()} in a chunk", VARCHAR.described(0xFFFF), chunked([value]), *UTF8)
        yield case_of(f"UTF-8 with {data.hex()} at its end", short_rows(VARCHAR, b"a" + data), *UTF8)
        yield case_of(f"UTF-8 with {data.hex()} in single bytes", chunked_rows(VARCHAR, known(*pieces(value, 1))), *UTF8)


def cut_characters() -> Iterator[Case]:
    """Beginnings of characters at the end of a value, and before another character."""
    for character in (E_ACUTE, "€".encode(), "\U0001F600".encode()):
        for end in range(1, len(character)):
            cut, name = b"a" + character[:end], f"{end} bytes of {character.hex()}"
            for options in CHARSETS:
                yield from everywhere(f"{name}, {options[1]}", VARCHAR.described(10), short(cut), *options)
                yield from everywhere(f"{name} in a chunk, {options[1]}", VARCHAR.described(0xFFFF), known(cut), *options)
                two = chunked([cut[:-1], cut[-1:]])
                yield from everywhere(f"{name} in two chunks, {options[1]}", VARCHAR.described(0xFFFF), two, *options)
            yield case_of(f"{name} before a letter", short_rows(VARCHAR, cut + b"b"), *UTF8)
            yield case_of(f"{name} before a chunk of a letter", chunked_rows(VARCHAR, known(cut, b"b")), *UTF8)


SPLIT = [
    ("UTF-16", NVARCHAR, MIXED.encode("utf-16-le") + b"\x3D\xD8", WINDOWS_1252),
    ("halves of characters", NVARCHAR, bytes.fromhex("00DC 3DD8 3DD8 00DE 3DD8 6100"), WINDOWS_1252),
    ("UTF-8", VARCHAR, MIXED.encode(), UTF8),
    ("Windows-1252", VARCHAR, MIXED.encode(), WINDOWS_1252),
    ("binary data", VARBINARY, bytes(range(200, 230)), WINDOWS_1252),
]


def split_by_chunks() -> Iterator[Case]:
    """Text of characters of each length, cut anywhere by chunks."""
    for name, of, data, options in SPLIT:
        for at in range(1, len(data)):
            cells = known(data[:at], data[at:]), chunked([data[:at], data[at:]])
            yield case_of(f"{name} in two chunks, the first of {at} bytes", chunked_rows(of, *cells), *options)
        for size in (1, 2, 3, 5):
            yield case_of(f"{name} in chunks of {size} bytes", chunked_rows(of, known(*pieces(data, size))), *options)


def split_by_packets() -> Iterator[Case]:
    """The same text, short and in chunks, cut anywhere by packets."""
    for name, of, data, options in SPLIT:
        for form, type_info, cell in (
            ("short", of.described(10), short(data)), ("in chunks", of.described(0xFFFF), chunked(pieces(data, 3))),
        ):
            front = columns_of(type_info) + b"\xD1"
            for at in range(len(cell) + 1):
                wire = joined([front + cell[:at], cell[at:] + DONE])
                yield Case(f"{name}, {form}, in two packets after {at} bytes", wire, options)


# Lengths

def odd_lengths() -> Iterator[Case]:
    """Short data of an odd length, which wide text can't have."""
    for of in TYPES:
        for length in (1, 2, 3, 254, 255, 256, 257, 0xFFFD, 0xFFFE) if of.form == "wide" else (1, 3):
            yield from everywhere(f"{of.name} of {length} bytes", of.described(10), short(b"a" * length))
        for length in (0xFFFD, 0xFFFE):
            yield from everywhere(f"{of.name} of {length} bytes without data", of.described(10), little(length, 2))


ODD_CHUNKS = [[b"a"], [b"a", b"bc"], [b"ab", b"c"], [b"a", b"b"], [b"a", b"b", b"c"], [b"abc", b"d"], [b"ab", b"cd", b"e"]]


def odd_totals() -> Iterator[Case]:
    """Totals and sums of chunks that are odd."""
    for of in UNLIMITED:
        type_info = of.described(0xFFFF)
        for total in (1, 3, 255, 256, (1 << 32) + 1, (1 << 64) - 5, (1 << 64) - 4, (1 << 64) - 3):
            yield from everywhere(f"{of.name}(max) of {total} bytes without chunks", type_info, little(total, 8))
        for chunks in ODD_CHUNKS:
            yield from everywhere(f"{of.name}(max) in the chunks {chunks}", type_info, chunked(chunks))
            yield case_of(f"{of.name}(max) in the chunks {chunks}, of a known total", rows_of(type_info, known(*chunks)))


CHUNK_LISTS: list[list[bytes]] = [
    [], [b"ab"], [b"abcd"], [b"ab", b"cd"], [b"ab", b"cdef"], [b"abcd", b"ef"], [b"abcd", b"efg"], [b"ab", b"cd", b"ef"],
    [b"abcdefg", b"h"],
]


def totals() -> Iterator[Case]:
    """Chunks that reach their total, pass it, and end before it."""
    for of in UNLIMITED:
        type_info = of.described(0xFFFF)
        for total in (0, 4, 6):
            name, begin, passing = f"{of.name}(max) of {total} bytes", little(total, 8), little(total + 1, 4)
            for chunks in CHUNK_LISTS:
                yield case_of(f"{name} in the chunks {chunks}", rows_of(type_info, chunked(chunks, begin)))
            yield from everywhere(f"{name}, and a chunk that passes them", type_info, begin + passing)
            longer = little(total + 4, 8)
            second = longer + chunk(b"abcd") + passing
            yield from everywhere(f"{name} after others, and a chunk that passes them", type_info, second)
            early = longer + chunk(b"abc") + NO_MORE
            yield from everywhere(f"{name} and four more, and a terminator after three", type_info, early)
            yield from everywhere(f"{name} and two more, and no chunk", type_info, little(total + 2, 8) + NO_MORE)
        greatest = little(-4, 8) + chunk(b"ab") + NO_MORE
        yield from everywhere(f"{of.name}(max) of the greatest even total, and two bytes", type_info, greatest)


def totals_of_half_characters() -> Iterator[Case]:
    for total in (UNKNOWN, little(1, 8), little(2, 8)):
        half = total + chunk(E_ACUTE[:1]) + NO_MORE
        yield case_of(f"half a character under the total {total.hex()}", chunked_rows(VARCHAR, half), *UTF8)


def great_chunks() -> Iterator[Case]:
    """Lengths of chunks that fill four bytes, with less data than that."""
    for of in UNLIMITED:
        for total in (UNKNOWN, little(-4, 8), little(1 << 32, 8), little(4, 8)):
            for length in (0x8000_0000, 0xFFFF_FFFF):
                name = f"{of.name}(max), a chunk of {length} under the total {total.hex()}"
                yield from everywhere(name, of.described(0xFFFF), total + little(length, 4) + b"abc")


# Long values

def long_data(form: str, length: int) -> bytes:
    """So many bytes that are fit for a form of data, with quotes and characters of several bytes."""
    unit = {"wide": MIXED.encode("utf-16-le"), "narrow": MIXED.encode(), "binary": bytes(range(256))}[form]
    whole, rest = divmod(length, len(unit))
    return unit * whole + b"a\0" * (rest // 2) + b"a" * (rest % 2)


def long_case(name: str, type_info: bytes, cell: bytes, size: int, options: tuple[str, ...]) -> Case:
    """A long value in a ROW, an NBCROW and a RETURNVALUE, in packets of a size."""
    payload = columns_of(type_info) + row(cell) + nbc_row(b"\0", cell) + returned(type_info, cell) + DONE
    return Case(f"{name}, packets of {size} bytes", in_packets(payload, size), ("--packet-size", str(size), *options))


def long_short_values() -> Iterator[Case]:
    """Short values up to 65,534 bytes."""
    for of in TYPES:
        for length, size in ((4_096, 512), (65_534, 4_096), (65_534, 32_767)):
            cell = short(long_data(of.form, length))
            for options in CHARSETS if of.form == "narrow" else CHARSETS[:1]:
                yield long_case(f"{of.name} of {length} bytes, {options[1]}", of.described(1), cell, size, options)


def long_chunked_values() -> Iterator[Case]:
    """Chunked values beyond 65,536 bytes, in one chunk and in several."""
    lengths = ((65_536, 65_536, 4_096), (65_538, 65_538, 32_767), (70_000, 8_000, 512), (150_000, 70_001, 32_767))
    for of in UNLIMITED:
        for length, chunk_length, size in lengths:
            cell = known(*pieces(long_data(of.form, length), chunk_length))
            name = f"{of.name}(max) of {length} bytes in chunks of {chunk_length}"
            yield long_case(name, of.described(0xFFFF), cell, size, UTF8)
        cut = columns_of(of.described(0xFFFF)) + row(little(65_540, 8) + chunk(long_data(of.form, 65_538)))
        yield case_of(f"{of.name}(max) of 65,538 bytes, and no more", cut)


def long_cut_characters() -> Iterator[Case]:
    """A character that isn't whole at the end of a long value."""
    data = b"a" * 65_533 + E_ACUTE[:1]
    yield case_of("half a character after 65,533 bytes", short_rows(VARCHAR, data), *UTF8)
    yield case_of("half a character and a letter after 65,533 bytes", chunked_rows(VARCHAR, known(data, b"a")), *UTF8)
    yield case_of("half a character at the end of 65,534 bytes in chunks", chunked_rows(VARCHAR, known(data)), *UTF8)


def cases() -> Iterator[Case]:
    for options in CHARSETS:
        yield from small_short_values(options)
        yield from small_chunked_values(options)
    for part in (
        described_lengths, every_byte, every_unit, whole_utf8, wrong_utf8, cut_characters, split_by_chunks, split_by_packets,
        odd_lengths, odd_totals, totals, totals_of_half_characters, great_chunks, long_short_values, long_chunked_values,
        long_cut_characters,
    ):
        yield from part()
