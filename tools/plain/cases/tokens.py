"""Tokens: their order, ERROR and INFO, descriptions of columns, and bitmaps."""
from __future__ import annotations

from collections.abc import Iterator

from .spelling import (
    COLLATION, DONE, INT, NO_METADATA, TINYINT, Case, case_of, chunked, column, columns_of, counted, description, done,
    little, name_of, nbc_row, notice, returned, row, short, sized, units_name,
)

READ = {0x81, 0xD1, 0xD2, 0xA9, 0xAA, 0xAB, 0xAC, 0xE3, 0x79, 0xFD, 0xFE, 0xFF}
SEVEN, EIGHT = little(7, 4), little(8, 4)
A_SET = columns_of(INT) + row(SEVEN)
ORDER, ENVCHANGE, STATUS, INFO = b"\xA9\0\0", b"\xE3\0\0", b"\x79" + SEVEN, notice(0xAB, b"")
INT_N, DECIMAL, NVARCHAR = b"\x26\4", b"\x6A\5\5\2", b"\xE7\x14\0" + COLLATION


def refused_tokens() -> Iterator[Case]:
    for byte in range(256):
        if byte not in READ:
            yield case_of(f"token {byte:02X}", NO_METADATA + bytes([byte]) + DONE)


def rows_without_columns() -> Iterator[Case]:
    fronts = [("first", b""), ("after no metadata", NO_METADATA), ("after a set that is no more", A_SET + NO_METADATA)]
    for name, front in (*fronts, ("after a DONE", DONE)):
        for byte in (0xD1, 0xD2):
            yield case_of(f"row {byte:02X} {name}", front + bytes([byte]) + SEVEN + DONE)


def last_tokens(token: int) -> Iterator[Case]:
    """What follows a DONE, and which of its bits count."""
    for status in (0, 1, 2, 3, 4, 0x10, 0x11, 0x20, 0x0100, 0x0101, 0xFFFE, 0xFFFF):
        yield case_of(f"{token:02X} with status {status:04X}", done(token, status))
    yield case_of(f"{token:02X} with each byte FF after its status", done(token, 0)[:3] + b"\xFF" * 10)
    yield case_of(f"{token:02X} before a DONE", done(token, 1) + DONE)
    yield case_of(f"{token:02X} twice", done(token, 0) * 2)
    followers = (("no metadata", NO_METADATA), ("a set", A_SET), ("an ORDER", ORDER), ("a status", STATUS), ("an INFO", INFO))
    for name, follower in followers:
        yield case_of(f"{token:02X} and {name}", done(token, 0) + follower)
        yield case_of(f"{token:02X}, {name} and a DONE", done(token, 0) + follower + DONE)


def quiet_tokens() -> Iterator[Case]:
    """Tokens that are passed over by their Length."""
    for token in (0xA9, 0xE3):
        for length in (0, 1, 2, 255, 256, 4_096, 65_535):
            whole = sized(token, b"\xFD" * length)
            yield case_of(f"{token:02X} of {length} bytes", whole + DONE)
            yield case_of(f"{token:02X} of {length} bytes, without the last", whole[:-1])


def return_statuses() -> Iterator[Case]:
    for statuses in ((0,), (1,), (-1,), (-6,), ((1 << 31) - 1,), (-1 << 31,), (1, 2), (2, 0)):
        yield case_of(f"return statuses {statuses}", b"".join(b"\x79" + little(it, 4) for it in statuses) + DONE)


def return_values() -> Iterator[Case]:
    """Returned values, beside what is asked of their types."""
    for count in (1, 2, 10):
        yield case_of(f"{count} returned values and a status", returned(INT, SEVEN) * count + STATUS + DONE)
    yield case_of("a returned value with fields of FF", b"\xAC\xFF\xFF\0" + b"\xFF" * 7 + INT + SEVEN + DONE)
    between = returned(b"\xE7\xFF\xFF" + COLLATION, chunked([b"a\0"]))
    yield case_of("a returned value between rows", A_SET + between + row(EIGHT) + DONE)


def return_names() -> Iterator[Case]:
    for units in (0, 1, 127, 128, 255):
        name = units_name(b"\0\xD8" * units)
        yield case_of(f"a returned value whose name has {units} units", returned(INT, SEVEN, name) + DONE)


# ERROR and INFO

def body_of(units: int, server: int, procedure: int) -> bytes:
    """A body whose message and names have so many units."""
    message, names = b"m\0" * units, bytes([server]) + b"s\0" * server + bytes([procedure]) + b"p\0" * procedure
    return SEVEN + b"\1\x10" + little(units, 2) + message + names + little(1, 4)


def notice_lengths(token: int) -> Iterator[Case]:
    for length in (0, 5, 12, 13, 14, 15):
        yield case_of(f"{token:02X} of {length} zeros", sized(token, bytes(length)) + DONE)
    yield case_of(f"{token:02X} with the longest body", sized(token, body_of(32_760, 0, 0) + b"\xFF") + DONE)


def inner_lengths(token: int) -> Iterator[Case]:
    """Inner lengths that just fit their body, and bodies that lack bytes or have more."""
    for units, server, procedure in ((0, 0, 0), (2, 0, 0), (0, 2, 0), (0, 0, 2), (1, 1, 1), (3, 255, 255), (300, 0, 0)):
        body = body_of(units, server, procedure) + b"\1\2"
        for length in range(max(14, len(body) - 8), len(body) + 1):
            name = f"{token:02X} with {units}, {server} and {procedure} units in {length} bytes"
            yield case_of(name, sized(token, body[:length]) + DONE)


def passing_lengths(token: int) -> Iterator[Case]:
    """Inner lengths that pass a body of 14 bytes."""
    for units, server, procedure in ((0xFFFF, 0, 0), (0, 255, 0), (0, 0, 255), (4, 0, 0), (0, 3, 0), (0, 0, 1)):
        body = SEVEN + b"\1\x10" + little(units, 2) + bytes([server, procedure]) + bytes(4)
        yield case_of(f"{token:02X} of 14 bytes that names {units}, {server} and {procedure} units", sized(token, body) + DONE)


def cut_notices(token: int) -> Iterator[Case]:
    for end in range(1, 17):
        yield case_of(f"{token:02X} of 14 bytes, cut after {end}", notice(token, b"")[:end])


def message_case(name: str, message: str) -> Case:
    return case_of(f"a message of {name}", notice(0xAA, message.encode("utf-16-le")) + DONE)


def message_lengths() -> Iterator[Case]:
    """Messages around the 512 bytes that are kept."""
    for length in (0, 1, 510, 511, 512, 513, 600):
        yield message_case(f"{length} letters", "a" * length)


def cut_messages() -> Iterator[Case]:
    """Characters of each length at the 512th byte."""
    for character in ("é", "€", "\U0001F600", "\uFFFD"):
        for letters in range(511 - len(character.encode()), 514):
            yield message_case(f"{letters} letters and {character}", "a" * letters + character + "b")
        yield message_case(f"300 {character}", character * 300)


def messages_cut_at_halves() -> Iterator[Case]:
    """Half a character, which is printed by three bytes, at the 512th byte."""
    for letters in (509, 510, 511):
        units = b"a\0" * letters + b"\0\xD8"
        yield case_of(f"a message of {letters} letters and half a character", notice(0xAA, units) + DONE)


def message_characters() -> Iterator[Case]:
    for first, last in ((0x00, 0x10), (0x10, 0x20), (0x20, 0x7E), (0x7E, 0x80), (0x80, 0xA0)):
        yield message_case(f"the characters {first:02X} to {last:02X}", "".join(map(chr, range(first, last + 1))))


def message_spaces() -> Iterator[Case]:
    """Characters that are printed as spaces, at several places."""
    for at in (0, 254, 255, 256, 510, 511, 512):
        yield message_case(f"7F after {at} letters", "a" * at + "\x7Fb")
        yield message_case(f"a line feed after {at} letters", "a" * at + "\nb")


def message_halves() -> Iterator[Case]:
    for units in ("6100 00D8", "00DC 6200", "00D8 00D8", "00DC 00D8", "3DD8 00DE", "3DD8 3DD8 00DE 00DE"):
        yield case_of(f"a message of the units {units}", notice(0xAA, bytes.fromhex(units)) + DONE)


def notice_numbers() -> Iterator[Case]:
    for number in (0, 1, -1, (1 << 31) - 1, -1 << 31):
        yield case_of(f"an ERROR with number {number}", notice(0xAA, b"", number=number) + DONE)
        yield case_of(f"an ERROR at line {number}", notice(0xAA, b"", line=number) + DONE)


def notice_bytes() -> Iterator[Case]:
    for byte in (0, 2, 127, 128, 255):
        yield case_of(f"an ERROR with state {byte}", notice(0xAA, b"", state=byte) + DONE)
        yield case_of(f"an ERROR of class {byte}", notice(0xAA, b"", severity=byte) + DONE)


def notice_counts() -> Iterator[Case]:
    """Which notices count, and which of several is reported."""
    first, second = notice(0xAA, b"1\0", number=1), notice(0xAA, b"2\0", number=2)
    for name, notices in (
        ("one INFO", INFO), ("an INFO and an ERROR", INFO + first), ("two ERRORs", first + second),
        ("two ERRORs, the other first", second + first), ("three INFOs", INFO * 3), ("300 ERRORs", first + second * 299),
    ):
        yield case_of(name, notices + DONE)
        yield case_of(f"{name} between rows", A_SET + notices + row(EIGHT) + DONE)
        yield case_of(f"{name} and no DONE", A_SET + notices)


# Descriptions

def counts() -> Iterator[Case]:
    for count in (0, 1, 2, 0x7FFF, 0x8000, 0xFFFD, 0xFFFE, 0xFFFF):
        columns = b"\x81" + little(count, 2) + column(INT) * 2
        yield case_of(f"a Count of {count}", columns)
        yield case_of(f"a Count of {count} after a set", A_SET + columns + DONE)
        yield case_of(f"a Count of {count} in little room", columns, "--column-room", "10")
    for end in (1, 2):
        yield case_of(f"a Count that is cut after {end} bytes", A_SET + columns_of(INT)[:end])


def column_counts() -> Iterator[Case]:
    for count in (8, 9, 16, 17, 255, 256, 1_000):
        columns, bits = columns_of(*[TINYINT] * count), bytes((count + 7) // 8)
        rows = row(b"\7" * count) + nbc_row(bits, b"\7" * count) + nbc_row(b"\xFF" * len(bits))
        yield case_of(f"{count} columns", columns + rows + DONE)
    yield case_of("a column with fields of FF", b"\x81\1\0" + b"\xFF" * 6 + INT + b"\0" + row(SEVEN) + DONE)


def sets() -> Iterator[Case]:
    """Which description is current, and the lines between sets."""
    other = columns_of(TINYINT, TINYINT)
    yield case_of("two sets", A_SET + other + row(b"\1\2") + DONE)
    yield case_of("three sets without rows", other * 3 + DONE)
    yield case_of("two sets, and no metadata between", A_SET + NO_METADATA + A_SET + DONE)
    yield case_of("two sets, and no metadata before", NO_METADATA * 2 + A_SET * 2 + DONE)
    betweens = (("a DONE", DONE), ("an ORDER", ORDER), ("an INFO", INFO), ("an ENVCHANGE", ENVCHANGE), ("a status", STATUS))
    for name, between in betweens:
        yield case_of(f"{name} between rows", A_SET + between + row(EIGHT) + nbc_row(b"\1") + DONE)
    yield case_of("a set and a refused one", A_SET + columns_of(b"\x3E"))
    yield case_of("a set and a cut one", A_SET + other[:-1])
    yield case_of("a set and no DONE", A_SET)
    one, another = (description(column(INT, name_of("a")), column(INT, name_of(name))) for name in "bc")
    values = row(SEVEN, SEVEN)
    yield case_of("a description again", one + values + one + values + DONE)
    yield case_of("a description again, but for its last name", one + values + another + values + DONE)
    yield case_of("a description again, cut", one + values + one[:-1])
    yield case_of("a description again, and a column more", one + values + description(*[column(INT, name_of("a"))] * 3) + values + SEVEN + DONE)
    yield case_of("a description again, after no metadata", one + values + NO_METADATA + one + values + DONE)


def names() -> Iterator[Case]:
    """Names of columns: their lengths, quotes and surrogates."""
    long_names = [b"n\0" * units for units in (0, 1, 2, 127, 128, 254, 255)]
    texts = ['"', '""', 'a "b" c', "a,b", "größe", "€", "\r\n", "\uFFFD", "\uD7FF\uE000\uFFFF", "\0"]
    halves = (
        "3DD8", "00DE", "3DD800DE", "00DE3DD8", "3DD83DD800DE", "3DD86100", "610000DE", "3DD800DE00DE", "FFDBFFDF", "00D800DC",
        "FFDBFFD7", "00D800E0", "FFDBFFDB", "00DC00DC", "FFD700DC",
    )
    for units in (*long_names, *(text.encode("utf-16-le") for text in texts), *map(bytes.fromhex, halves)):
        columns = description(column(INT, units_name(units)), column(INT, name_of("b")))
        yield case_of(f"a name of {len(units) // 2} units, {units[:8].hex()}", columns + DONE)


# Room

def room_cases(name: str, *columns: bytes) -> Iterator[Case]:
    """A description that just fits the column room, and that needs a byte more, at each element that is judged."""
    needed = 2 + sum(map(len, columns))
    for room in range(max(10, needed - 34), needed + 2):
        yield case_of(f"{name} in a column room of {room}", description(*columns) + DONE, "--column-room", str(room))


def rooms() -> Iterator[Case]:
    yield from room_cases("an int", column(INT))
    yield from room_cases("an int with a name", column(INT, name_of("a")))
    yield from room_cases("an int with the longest name", column(INT, units_name(b"n\0" * 255)))
    yield from room_cases("two ints", column(INT), column(INT))
    yield from room_cases("nine ints", *[column(INT)] * 9)
    yield from room_cases("a date", column(b"\x28"))
    yield from room_cases("nvarchar", column(NVARCHAR))
    yield from room_cases("a decimal with a name", column(DECIMAL, name_of("d")))
    three = column(NVARCHAR, name_of("w")), column(INT), column(DECIMAL, name_of("de"))
    yield from room_cases("nvarchar, int and decimal", *three)
    yield from room_cases("a nullable int, and an int", column(INT_N), column(INT))
    yield from room_cases("two of varbinary", *[column(b"\xA5\x08\0", name_of("b"))] * 2)


def other_rooms() -> Iterator[Case]:
    """Other faults in little room, and the room of a second set."""
    for byte in (0x3E, 0x1F):
        yield case_of(f"type {byte:02X} in a column room of 10", columns_of(bytes([byte])) + DONE, "--column-room", "10")
    yield case_of("an int of 3 bytes in a column room of 11", columns_of(b"\x26\3") + DONE, "--column-room", "11")
    longer = A_SET + description(column(INT, name_of("ab"))) + DONE
    for room in (13, 14):
        yield case_of(f"a second set in a column room of {room}", longer, "--column-room", str(room))
    yield case_of("a set in the greatest column room", A_SET + DONE, "--column-room", "67108864")


def many_columns() -> Iterator[Case]:
    """The most columns, in as much room as they need and in a byte less, and with values."""
    columns = columns_of(*[INT] * 65_534)
    for room in (524_274, 524_273):
        yield case_of(f"65534 columns in a column room of {room}", columns + DONE, "--column-room", str(room))
    nulls = row(bytes(65_534)) + nbc_row(b"\xFF" * 8_192)
    yield case_of("65534 columns of NULLs", columns_of(*[INT_N] * 65_534) + nulls + DONE)


def default_rooms() -> Iterator[Case]:
    """The beginning of a description that needs as much as fits when no room is named, and of one that needs a byte more."""
    begun = [column(INT, units_name(b"n\0" * 255))] * 1_028
    for type_info in (INT, INT_N):
        begun_columns = b"".join(begun) + column(type_info, units_name(b"n\0" * 11))
        needed = 2 + len(begun_columns) + 8 * (65_534 - 1_029)
        yield case_of(f"a description that needs {needed} bytes when no room is named", b"\x81\xFE\xFF" + begun_columns)


def bitmaps() -> Iterator[Case]:
    """Each bit by itself, all of them, and those after the last column."""
    for count in (1, 7, 8, 9, 15, 16, 17):
        columns, length = columns_of(*[b"\x26\1"] * count), (count + 7) // 8
        cells = [counted(bytes([at])) for at in range(count)]
        rows = nbc_row(bytes(length), *cells) + nbc_row(bytes(length), bytes(count))
        for at in range(count):
            rows += nbc_row(little(1 << at, length), *cells[:at], *cells[at + 1:])
            rows += nbc_row(little(~(1 << at), length), cells[at])
        yield case_of(f"bitmaps of {count} columns", columns + rows + DONE)
        yield case_of(f"a bitmap of {count} columns, cut", columns + b"\xD2" + bytes(length - 1))
    varchar = b"\xA7\x0A\0" + COLLATION
    rows = nbc_row(b"\2", short(b"a")) + nbc_row(b"\1", SEVEN)
    yield case_of("text before NULL, and NULL before a number", columns_of(varchar, INT) + rows + DONE)


def cases() -> Iterator[Case]:
    for token in (0xFD, 0xFE, 0xFF):
        yield from last_tokens(token)
    for of_notices in (notice_lengths, inner_lengths, passing_lengths, cut_notices):
        yield from of_notices(0xAA)
        yield from of_notices(0xAB)
    for part in (
        refused_tokens, rows_without_columns, quiet_tokens, return_statuses, return_values, return_names, message_lengths,
        cut_messages, messages_cut_at_halves, message_characters, message_spaces, message_halves, notice_numbers, notice_bytes,
        notice_counts, counts, column_counts, sets, names, rooms, other_rooms, many_columns, default_rooms, bitmaps,
    ):
        yield from part()
