"""Scalar kinds: values at the ends of their ranges, values and lengths that are refused, and type information that is."""
from __future__ import annotations

from collections.abc import Iterator
from typing import NamedTuple

from lib.packing import in_packets

from .spelling import (
    DONE, INT, TINYINT, Case, case_of, columns_of, counted, little, nbc_row, returned, row,
)

FIRST_1900, LAST_DAY = 693_595, 3_652_058
TIME_LENGTHS = [3, 3, 3, 4, 4, 5, 5, 5]
FORTY_TWO = little(42, 4)
LONG_TYPES = {0xA5, 0xAD, 0xA7, 0xAF, 0xE7, 0xEF}
REFUSED_BY_NAME = [0x3B, 0x3E, 0x6D, 0x23, 0x63, 0x22, 0x62, 0xF0, 0xF1]
OLD_TYPES = [0x1F, 0x2F, 0x27, 0x2D, 0x25, 0x37, 0x3F]


class Kind(NamedTuple):
    """A kind by its type information, with values that are read, values out of range, and lengths that aren't allowed. A kind
    without such lengths is fixed: its values have no length before them."""

    name: str
    type_info: bytes
    values: list[bytes]
    out_of_range: list[bytes]
    bad_lengths: list[int]

    def cell(self, value: bytes) -> bytes:
        return counted(value) if self.bad_lengths else value


# Numbers

def whole_numbers(size: int) -> list[bytes]:
    most = 1 << 8 * size - 1
    return [little(number, size) for number in (0, 1, -1, 10, -10, 127, 128, most - 1, -most)]


def small_amounts() -> list[bytes]:
    return [little(units, 4) for units in (0, 1, -1, 9_999, 10_000, -10_000, (1 << 31) - 1, -1 << 31)]


def amounts() -> list[bytes]:
    """Money: the high 4 bytes first."""
    units_of = (0, 1, -1, 9_999, 10_000, -10_000, -10_001, 1 << 31, 1 << 32, -1 << 32, (1 << 63) - 1, -1 << 63)
    return [little(units >> 32, 4) + little(units, 4) for units in units_of]


def decimals(described: int, scale: int) -> list[bytes]:
    """Both signs of magnitudes of each length up to the described one, and other sign bytes."""
    found = [bytes([sign, 5, 0, 0, 0]) for sign in (2, 0x80, 0xFF)]
    for length in range(5, described + 1, 4):
        most = (1 << 8 * (length - 1)) - 1
        for magnitude in (0, 1, 10 ** scale - 1, 10 ** scale, most):
            found += [bytes([sign]) + little(magnitude, length - 1) for sign in (0, 1)]
    return found


# Days and times

def day(days: int) -> bytes:
    return little(days, 3)


def days() -> list[bytes]:
    """28 February and the day after it in the years 1, 4, 100, 400, 1900 and 2000, and the ends of years."""
    februaries = (58, 59, 1_153, 1_154, 36_217, 36_218, 145_789, 145_790, 693_653, 693_654, 730_177, 730_178)
    return [day(it) for it in (0, 1, *februaries, 364, 365, 1_460, 1_461, 146_096, 146_097, LAST_DAY - 1, LAST_DAY)]


def small_datetimes(*fields: tuple[int, int]) -> list[bytes]:
    return [little(days_of_1900, 2) + little(minutes, 2) for days_of_1900, minutes in fields]


SMALL_DATETIMES = small_datetimes(
    (0, 0), (0, 59), (1, 60), (58, 719), (59, 720), (36_584, 1), (32_768, 1_438), (65_535, 1_439),
)
BAD_SMALL_DATETIMES = small_datetimes((0, 1_440), (65_535, 1_440), (1, 65_535))


def datetimes(*fields: tuple[int, int]) -> list[bytes]:
    return [little(days_of_1900, 4) + little(thirds, 4) for days_of_1900, thirds in fields]


FIRST_DATE, LAST_DATE, LAST_THIRD = -FIRST_1900, LAST_DAY - FIRST_1900, 25_919_999
DATETIMES = datetimes(
    (0, 0), (0, 1), (0, 2), (-1, 3), (1, 299), (58, 300), (59, 301), (60, 18_000), (36_584, 1_080_000), (0, LAST_THIRD),
    (FIRST_DATE, 0), (FIRST_DATE, LAST_THIRD), (LAST_DATE, 0), (LAST_DATE, LAST_THIRD),
)
BAD_DATETIMES = datetimes(
    (FIRST_DATE - 1, 0), (LAST_DATE + 1, 0), (0, LAST_THIRD + 1), (0, 0xFFFF_FFFF), (-1 << 31, 0), ((1 << 31) - 1, 0),
)


def time(units: int, scale: int) -> bytes:
    return little(units, TIME_LENGTHS[scale])


def times(scale: int) -> list[bytes]:
    second = 10 ** scale
    seconds = (1, 59, 60, 3_599, 3_600, 43_200, 86_399)
    units = {0, 1, second - 1, 86_400 * second - 1, *(it * second for it in seconds)}
    return [time(it, scale) for it in sorted(units)]


def bad_times(scale: int) -> list[bytes]:
    return [time(86_400 * 10 ** scale, scale), time(-1, scale)]


def moments(scale: int, *fields: tuple[int, int]) -> list[bytes]:
    return [time(units, scale) + day(days_of_1) for units, days_of_1 in fields]


def good_moments(scale: int) -> list[bytes]:
    last = 86_400 * 10 ** scale - 1
    return moments(scale, (0, 0), (last, 0), (0, LAST_DAY), (last, LAST_DAY), (last // 2, 730_178))


def bad_moments(scale: int) -> list[bytes]:
    after = 86_400 * 10 ** scale
    return moments(scale, (after, 0), (-1, LAST_DAY), (0, LAST_DAY + 1), (0, -1))


def offset_moments(scale: int, *fields: tuple[int, int, int]) -> list[bytes]:
    return [time(units, scale) + day(days_of_1) + little(minutes, 2) for units, days_of_1, minutes in fields]


def good_offset_moments(scale: int) -> list[bytes]:
    """With the greatest offsets, and with local times that are the first and the last."""
    minute, last = 60 * 10 ** scale, 86_400 * 10 ** scale - 1
    offsets = (0, 1, -1, 59, -59, 60, -60, 61, -61, 330, -570, 839, -839, 840, -840)
    return offset_moments(
        scale, *((0, 730_178, offset) for offset in offsets), (last, 730_178, 1), (last - minute + 1, 730_178, 1),
        (0, 0, 0), (0, 0, 840), (minute, 0, -1), (840 * minute, 0, -840),
        (last, LAST_DAY, 0), (last, LAST_DAY, -840), (last - minute, LAST_DAY, 1), (last - 840 * minute, LAST_DAY, 840),
    )


def bad_offset_moments(scale: int) -> list[bytes]:
    """With offsets beyond the greatest, local times before the first and after the last, and bad times and dates."""
    minute, after = 60 * 10 ** scale, 86_400 * 10 ** scale
    offsets = (841, -841, 1_440, -1_440, 32_767, -32_768)
    return offset_moments(
        scale, *((0, 730_178, offset) for offset in offsets),
        (0, 0, -1), (minute - 1, 0, -1), (840 * minute - 1, 0, -840),
        (after - 1, LAST_DAY, 1), (after - minute, LAST_DAY, 1), (after - 840 * minute, LAST_DAY, 840),
        (after, 730_178, 0), (after, 730_178, -1), (0, LAST_DAY + 1, 0), (0, LAST_DAY + 1, -1), (0, -1, 0),
    )


# Kinds

def fixed_kinds() -> Iterator[Kind]:
    yield Kind("tinyint", b"\x30", [b"\0", b"\1", b"\x7F", b"\x80", b"\xFF"], [], [])
    yield Kind("bit", b"\x32", [b"\0", b"\1", b"\2", b"\x80", b"\xFF"], [], [])
    yield Kind("smallint", b"\x34", whole_numbers(2), [], [])
    yield Kind("int", b"\x38", whole_numbers(4), [], [])
    yield Kind("bigint", b"\x7F", whole_numbers(8), [], [])
    yield Kind("smalldatetime", b"\x3A", SMALL_DATETIMES, BAD_SMALL_DATETIMES, [])
    yield Kind("datetime", b"\x3D", DATETIMES, BAD_DATETIMES, [])
    yield Kind("smallmoney", b"\x7A", small_amounts(), [], [])
    yield Kind("money", b"\x3C", amounts(), [], [])


def counted_kinds() -> Iterator[Kind]:
    """Those whose type information is a length."""
    guids = [bytes(range(16)), bytes(range(0xA0, 0xB0)), bytes(16), b"\xFF" * 16]
    yield Kind("uniqueidentifier", b"\x24\x10", guids, [], [1, 15, 17, 255])
    yield Kind("tinyint or NULL", b"\x26\1", [b"\0", b"\x80", b"\xFF"], [], [2, 3, 4, 8])
    yield Kind("smallint or NULL", b"\x26\2", whole_numbers(2), [], [1, 3, 4])
    yield Kind("int or NULL", b"\x26\4", whole_numbers(4), [], [1, 2, 3, 5, 8])
    yield Kind("bigint or NULL", b"\x26\x08", whole_numbers(8), [], [4, 7, 9])
    yield Kind("bit or NULL", b"\x68\1", [b"\0", b"\1", b"\2", b"\xFF"], [], [2, 255])
    yield Kind("smallmoney or NULL", b"\x6E\4", small_amounts(), [], [3, 5, 8])
    yield Kind("money or NULL", b"\x6E\x08", amounts(), [], [4, 7, 9])
    yield Kind("smalldatetime or NULL", b"\x6F\4", SMALL_DATETIMES, BAD_SMALL_DATETIMES, [3, 5, 8])
    yield Kind("datetime or NULL", b"\x6F\x08", DATETIMES, BAD_DATETIMES, [4, 7, 9])


DECIMALS = [
    (0x6A, 5, 1, 0), (0x6A, 5, 1, 1), (0x6A, 5, 9, 2), (0x6A, 5, 38, 38), (0x6A, 9, 19, 0), (0x6A, 13, 28, 5),
    (0x6A, 17, 38, 37), (0x6C, 5, 9, 0), (0x6C, 9, 19, 19), (0x6C, 13, 28, 1), (0x6C, 17, 38, 0), (0x6C, 17, 38, 38),
]


def decimal_kinds() -> Iterator[Kind]:
    for byte, length, precision, scale in DECIMALS:
        bad_lengths = [1, 4, 6, 8, 10, 12, 14, 16, 18, 255] + [it for it in (9, 13, 17) if it > length]
        name = f"decimal({precision}, {scale}) of {length} bytes, type {byte:02X}"
        yield Kind(name, bytes([byte, length, precision, scale]), decimals(length, scale), [], bad_lengths)


def day_kinds() -> Iterator[Kind]:
    yield Kind("date", b"\x28", days(), [day(LAST_DAY + 1), day(-1)], [1, 2, 4, 255])
    for scale, length in enumerate(TIME_LENGTHS):
        time_info, moment_info, offset_info = bytes([0x29, scale]), bytes([0x2A, scale]), bytes([0x2B, scale])
        yield Kind(f"time({scale})", time_info, times(scale), bad_times(scale), [length - 1, length + 1, length + 3])
        bad_lengths = [length, length + 2, length + 4, length + 5]
        yield Kind(f"datetime2({scale})", moment_info, good_moments(scale), bad_moments(scale), bad_lengths)
        bad_lengths = [length, length + 3, length + 4, length + 6]
        yield Kind(f"datetimeoffset({scale})", offset_info, good_offset_moments(scale), bad_offset_moments(scale), bad_lengths)


def kinds() -> Iterator[Kind]:
    yield from fixed_kinds()
    yield from counted_kinds()
    yield from decimal_kinds()
    yield from day_kinds()


# Type information that is refused

BAD_LENGTHS = {
    0x24: (0, 1, 15, 17, 255), 0x26: (0, 3, 5, 7, 9, 16, 255), 0x68: (0, 2, 255), 0x6E: (0, 1, 2, 3, 5, 7, 9, 255),
    0x6F: (0, 1, 2, 3, 5, 7, 9, 255), 0x29: (8, 255), 0x2A: (8, 255), 0x2B: (8, 255),
}
BAD_DECIMALS = [
    (0, 5, 2), (4, 5, 2), (6, 5, 2), (8, 5, 2), (12, 5, 2), (16, 5, 2), (18, 5, 2),
    (5, 0, 0), (5, 39, 0), (5, 255, 0), (5, 5, 6), (5, 5, 255),
]


def bad_type_infos() -> list[bytes]:
    lengths = [bytes([byte, length]) for byte, bad in BAD_LENGTHS.items() for length in bad]
    return lengths + [bytes([byte, *numbers]) for byte in (0x6A, 0x6C) for numbers in BAD_DECIMALS]


def bad_type_bytes() -> list[int]:
    """Each type byte that isn't read."""
    read = {kind.type_info[0] for kind in kinds()} | LONG_TYPES
    return [byte for byte in range(256) if byte not in read]


# Cases

def in_sizes(name: str, payload: bytes) -> Iterator[Case]:
    """A payload in whole packets, and in packets of one byte and of five: so values are cut at each of their bytes."""
    for size in (4_096, 13, 9):
        yield Case(f"{name}, packets of {size} bytes", in_packets(payload, size))


def read_cases(kind: Kind) -> Iterator[Case]:
    """All values of a kind, and NULLs, in ROWs, NBCROWs and RETURNVALUEs."""
    cells = [kind.cell(value) for value in kind.values] + [b"\0"] * (kind.bad_lengths != [])
    columns = columns_of(kind.type_info, TINYINT)
    rows = b"".join(row(cell, b"\7") for cell in cells)
    yield from in_sizes(f"{kind.name} in ROWs", columns + rows + DONE)
    rows = b"".join(nbc_row(b"\0", cell, b"\7") + nbc_row(b"\2", cell) + nbc_row(b"\1", b"\7") for cell in cells)
    yield from in_sizes(f"{kind.name} in NBCROWs", columns + rows + nbc_row(b"\3") + DONE)
    values = b"".join(returned(kind.type_info, cell) for cell in cells)
    yield from in_sizes(f"{kind.name} in RETURNVALUEs", values + DONE)


class Stopping(NamedTuple):
    """A cell that stops the reading, by a name, and what comes after it."""

    name: str
    cell: bytes
    after: bytes


def stopping_cells(kind: Kind) -> Iterator[list[Stopping]]:
    """Values out of range, lengths that aren't allowed, and values that are cut."""
    cell = kind.cell(kind.values[0])
    yield [Stopping(f"{kind.name} out of range, {value.hex()}", kind.cell(value), DONE) for value in kind.out_of_range]
    yield [Stopping(f"{kind.name}, a value of {length} bytes", counted(bytes(length)), DONE) for length in kind.bad_lengths]
    ends = sorted({len(cell) - 1, min(1, len(cell) - 1), 0}, reverse=True)
    yield [Stopping(f"{kind.name}, cut after {end} bytes", cell[:end], b"") for end in ends]


def stopping_cases(kind: Kind) -> Iterator[Case]:
    """Each of them in a ROW, and the last two of each sort in an NBCROW and a RETURNVALUE too."""
    columns = columns_of(INT, kind.type_info)
    for cells in stopping_cells(kind):
        for name, cell, after in cells:
            yield case_of(f"{name} in a ROW", columns + row(FORTY_TWO, cell) + after)
        for name, cell, after in cells[-2:]:
            yield case_of(f"{name} in an NBCROW", columns + nbc_row(b"\1", cell) + after)
            yield case_of(f"{name} in a RETURNVALUE", returned(kind.type_info, cell) + after)


def type_info_cases() -> Iterator[Case]:
    """Type information that is refused, of a column and of a RETURNVALUE."""
    for type_info in bad_type_infos():
        yield case_of(f"type information {type_info.hex()} of a column", columns_of(INT, type_info) + DONE)
        yield case_of(f"type information {type_info.hex()} of a RETURNVALUE", returned(type_info, b"") + DONE)


def type_byte_cases() -> Iterator[Case]:
    for byte in bad_type_bytes():
        yield case_of(f"type byte {byte:02X} of a column", columns_of(bytes([byte])) + DONE)


def other_type_byte_cases() -> Iterator[Case]:
    for byte in (*REFUSED_BY_NAME, *OLD_TYPES, 0x00, 0xFF):
        yield case_of(f"type byte {byte:02X} of a second column", columns_of(INT, bytes([byte])) + DONE)
        yield case_of(f"type byte {byte:02X} of a RETURNVALUE", returned(bytes([byte]), b"") + DONE)


def cases() -> Iterator[Case]:
    for kind in kinds():
        yield from read_cases(kind)
        yield from stopping_cases(kind)
    yield from type_info_cases()
    yield from type_byte_cases()
    yield from other_type_byte_cases()
