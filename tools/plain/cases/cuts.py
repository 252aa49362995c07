"""Messages that end after each of their bytes, and packets that do."""
from __future__ import annotations

from collections.abc import Iterator

from lib.packing import in_packets, joined, pieces

from .spelling import (
    CHUNKED_NULL, COLLATION, DONE, INT, SHORT_NULL, TINYINT, UTF8, Case, case_of, chunked, column, columns_of, counted,
    description, done, known, little, name_of, nbc_row, notice, returned, row, short, sized,
)

EURO, FACE = "€".encode(), "\U0001F600".encode("utf-16-le")
# A column of each way to spell a value: type information, name, value and NULL.
COLUMNS = [
    (INT, "i", little(42, 4), little(7, 4)),
    (b"\x26\4", "", counted(little(-1, 4)), b"\0"),
    (b"\x6A\5\5\2", "d", counted(b"\1" + little(12_345, 4)), b"\0"),
    (b"\xA7\x0A\0" + COLLATION, "c", short(b"a" + EURO), SHORT_NULL),
    (b"\xE7\x14\0" + COLLATION, "wide", short(FACE), SHORT_NULL),
    (b"\xA5\xFF\xFF", "b", known(b"\1\2", b"\3"), CHUNKED_NULL),
    (b"\xE7\xFF\xFF" + COLLATION, "", chunked(pieces(b"\xE9\0" + FACE, 3)), CHUNKED_NULL),
    (b"\xA7\xFF\xFF" + COLLATION, "v", known(EURO[:1], EURO[1:]), CHUNKED_NULL),
]


def every_element() -> bytes:
    """A response with each token, and with each element of it."""
    columns = [column(type_info, name_of(name)) for type_info, name, _, _ in COLUMNS]
    cells, nulls = [cell for _, _, cell, _ in COLUMNS], [null for _, _, _, null in COLUMNS]
    rows = row(*cells) + row(*nulls) + nbc_row(b"\0", *cells) + nbc_row(b"\0", *nulls) + nbc_row(b"\xC7", *cells[3:6])
    quiet = sized(0xA9, b"\1\0") + sized(0xE3, b"\4\1\2") + sized(0xA9, b"") + sized(0xE3, b"")
    notices = notice(0xAA, b"n\0o\0") + notice(0xAB, b"x\0")
    values = b"".join(returned(type_info, cell, name_of("@" + name)) for type_info, name, cell, _ in COLUMNS)
    other = b"\x79" + little(-6, 4) + done(0xFF, 0) + done(0xFE, 1) + columns_of(TINYINT) + row(b"\7") + done(0xFE, 0)
    return description(*columns) + rows + quiet + notices + values + other + DONE


def ends() -> Iterator[Case]:
    payload = every_element()
    for end in range(len(payload)):
        yield case_of(f"the message ends after {end} bytes", payload[:end], *UTF8)
        yield Case(f"a packet ends after {end} bytes", joined([payload[:end], payload[end:]]))


def sizes() -> Iterator[Case]:
    payload = every_element()
    for size in range(9, 41):
        yield Case(f"each element in packets of {size} bytes", in_packets(payload, size))
    singles = [body for byte in pieces(payload, 1) for body in (b"", byte)]
    yield Case("each element in packets of one byte, and empty ones between", joined(singles))
    around = [b""] * 100 + pieces(payload, 504) + [b""] * 100
    yield Case("each element, and empty packets before and after", joined(around))


def cases() -> Iterator[Case]:
    yield from ends()
    yield from sizes()
