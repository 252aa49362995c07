"""Statements for a SQL Server with the text, the lines and the status that docs/PROTOCOL.md and docs/COMMAND.md give to their
answers, and the answers by which the stand-in takes its place."""
from __future__ import annotations

import re
import struct
from collections.abc import Callable, Sequence
from datetime import date
from typing import Any, NamedTuple, Optional
from uuid import UUID

from lib import sample_responses as samples, served
from lib.served import done
from gavyreto.tds import FAILED, MORE, Token

Value = Optional[str]  # a value as SQL takes it in quotes, or NULL
NARROW = "{} COLLATE Latin1_General_CI_AS"  # whose code page is Windows-1252
PLAIN = "{}"
INTERRUPTED = "interrupted"


class Typed(NamedTuple):
    """A column: its type in SQL, what is cast to it, the column as the stand-in has it, and its values with their texts."""

    sql: str
    wire: samples.Column
    values: Sequence[tuple[Value, str]]
    of: str = PLAIN

    def cast(self) -> str:
        """The expression that selects the column."""
        source = self.of.format(self.wire.name)
        if self.sql.startswith(("binary", "varbinary", "rowversion")):
            return f"CONVERT({self.sql}, {source}, 1) AS {self.wire.name}"
        return f"CAST({source} AS {self.sql}) AS {self.wire.name}"


class Case(NamedTuple):
    """A statement, by a word of its own: the text wanted with LF at the ends of lines, the lines of standard error as a pattern, and
    the status. `tokens` are the stand-in's answer; `table` has the columns of a case that is one table."""

    name: str
    statement: str
    text: str
    lines: str
    status: int
    tokens: list[bytes]
    table: Sequence[Typed] = ()

    @property
    def is_held(self) -> bool:
        """Whether the statement ends only by Ctrl-C."""
        return self.lines == INTERRUPTED

    def said(self) -> str:
        """The statement as it is sent, with the word by which the stand-in knows it."""
        return f"/* {self.name} */ {self.statement}"


def report(text: str, sets: int = 1, rows: int = 1, errors: int = 0, infos: int = 0) -> str:
    """The pattern of the first line for a text."""
    written = len(text.replace("\n", "\r\n").encode())
    return f"sets {sets} rows {rows} errors {errors} infos {infos} written {written}\n"


# Tables.

def quoted(value: Value) -> str:
    """A value in a statement."""
    return "NULL" if value is None else "N'" + value.replace("'", "''") + "'"


def answer_of(columns: Sequence[Typed], rows: Sequence[Sequence[Value]]) -> list[bytes]:
    """The tokens of a table: rows with NULL as NBCROW."""
    wires = [it.wire for it in columns]
    written = [[None if value is None else wire_value(it, value) for it, value in zip(columns, row)] for row in rows]
    return [samples.description(wires), *(samples.row_with_bitmap(wires, row) if None in row else samples.row(wires, row) for row in written), done()]


def wire_value(column: Typed, value: str) -> samples.Written:
    """A value as the stand-in's column takes it: the text of it, but bytes of binary data and characters as they are."""
    if column.wire.encode is bytes:
        return bytes.fromhex(value[2:])
    return value if column.wire.encode in (samples.narrow, samples.wide) else dict(column.values)[value]


def table(name: str, *columns: Typed) -> Case:
    """A case of one table, with a row for each value of its columns."""
    rows = list(zip(*(it.values for it in columns)))
    listed = ", ".join(f"({at}, {', '.join(quoted(value) for value, _ in row)})" for at, row in enumerate(rows))
    names = ", ".join(it.wire.name for it in columns)
    statement = f"SELECT {', '.join(it.cast() for it in columns)} FROM (VALUES {listed}) AS listed(place, {names}) ORDER BY place"
    lines = [",".join(f'"{it.wire.name}"' for it in columns), *(",".join(text for _, text in row) for row in rows)]
    text = "".join(line + "\n" for line in lines)
    answer = answer_of(columns, [[value for value, _ in row] for row in rows])
    return Case(name, statement, text, report(text, rows=len(rows)), 0, answer, columns)


def same(*values: Value) -> list[tuple[Value, str]]:
    """Values whose text is how SQL takes them."""
    return [(value, "NULL" if value is None else value) for value in values]


def column(name: str, type_info: str, cell: Callable[[Optional[bytes]], bytes], encode: Callable[[Any], bytes]) -> samples.Column:
    """A column of the stand-in."""
    return samples.Column(name, type_info, cell, encode, str)


def scalar(name: str, sql: str, type_info: str, encode: Callable[[Any], bytes], *values: Value) -> Typed:
    """A column of a scalar type."""
    return Typed(sql, column(name, type_info, samples.short, encode), same(*values))


def guid(text: str) -> bytes:
    return UUID(text).bytes_le


def datetime2(size: int, scale: int) -> Callable[[str], bytes]:
    return lambda text: samples.time(size, scale)(text[11:]) + samples.day(text[:10])


def zoned(size: int, scale: int) -> Callable[[str], bytes]:
    """A datetimeoffset: time and date in UTC, then the minutes of the offset."""
    def bytes_of(text: str) -> bytes:
        local, offset = text[:-7], text[-6:]
        minutes = (int(offset[1:3]) * 60 + int(offset[4:])) * (-1 if offset[0] == "-" else 1)
        a_day = 86_400 * int(10**scale)
        whole = (date.fromisoformat(local[:10]).toordinal() - 1) * a_day + samples.units_of(local[11:], scale) - minutes * 60 * int(10**scale)
        days, units = divmod(whole, a_day)
        return units.to_bytes(size, "little") + days.to_bytes(3, "little") + struct.pack("<h", minutes)
    return bytes_of


def moments(*values: str) -> list[tuple[Value, str]]:
    """Values of datetime or smalldatetime, which SQL takes with a T in whatever language a session has, and NULL."""
    return [*((text.replace(" ", "T"), text) for text in values), (None, "NULL")]


NINES = "9" * 38
QUOTED = [('a "b", c', '"a ""b"", c"'), ("", '""'), (None, "NULL")]
TABLES = [
    table(
        "whole_numbers", scalar("tiny", "tinyint", "2601", samples.whole(1, False), "0", "255", None), scalar("small", "smallint", "2602", samples.whole(2), "-32768", "32767", None),
        scalar("whole", "int", "2604", samples.whole(4), "-2147483648", "2147483647", None),
        scalar("big", "bigint", "2608", samples.whole(8), "-9223372036854775808", "9223372036854775807", None), scalar("flag", "bit", "6801", samples.whole(1), "0", "1", None)),
    table(
        "decimals", scalar("d9", "decimal(9, 2)", "6A050902", samples.decimal(5), "-9999999.99", "9999999.99", None),
        scalar("d19", "decimal(19, 4)", "6A091304", samples.decimal(9), "-999999999999999.9999", "0.0001", None),
        scalar("d28", "decimal(28, 6)", "6A0D1C06", samples.decimal(13), "-9999999999999999999999.999999", "0.000000", None),
        scalar("d38", "decimal(38, 0)", "6A112600", samples.decimal(17), "-" + NINES, NINES, None),
        scalar("n38", "numeric(38, 38)", "6C112626", samples.decimal(17), "-0." + NINES, "0." + NINES, None)),
    table(
        "amounts", scalar("cash", "money", "6E08", samples.money, "-922337203685477.5808", "922337203685477.5807", None),
        scalar("coins", "smallmoney", "6E04", samples.small_money, "-214748.3648", "214748.3647", None)),
    table(
        "moments", scalar("a_day", "date", "28", samples.day, "0001-01-01", "9999-12-31", None),
        Typed("smalldatetime", column("minute", "6F04", samples.short, samples.small_datetime), moments("1900-01-01 00:00:00", "2079-06-06 23:59:00")),
        Typed("datetime", column("moment", "6F08", samples.short, samples.old_datetime), moments("1753-01-01 00:00:00.003", "9999-12-31 23:59:59.997"))),
    table(
        "clocks", scalar("t0", "time(0)", "2900", samples.time(3, 0), "00:00:00", "23:59:59", None), scalar("t3", "time(3)", "2903", samples.time(4, 3), "00:00:00.000", "23:59:59.999", None),
        scalar("t7", "time(7)", "2907", samples.time(5, 7), "00:00:00.0000001", "23:59:59.9999999", None),
        scalar("d0", "datetime2(0)", "2A00", datetime2(3, 0), "0001-01-01 00:00:00", "9999-12-31 23:59:59", None),
        scalar("d3", "datetime2(3)", "2A03", datetime2(4, 3), "0001-01-01 00:00:00.001", "2024-02-29 23:59:59.999", None),
        scalar("d7", "datetime2(7)", "2A07", datetime2(5, 7), "0001-01-01 00:00:00.0000000", "9999-12-31 23:59:59.9999999", None)),
    table(
        "offsets", scalar("o0", "datetimeoffset(0)", "2B00", zoned(3, 0), "0001-01-01 14:00:00 +14:00", "9999-12-31 09:59:59 -14:00", "2024-02-29 00:00:00 +00:00", None),
        scalar("o7", "datetimeoffset(7)", "2B07", zoned(5, 7), "2024-03-01 00:00:00.0000001 +05:30", "9999-12-31 23:59:59.9999999 +00:00", "2024-12-31 23:59:59.9999999 -00:30", None)),
    table(
        "bytes_and_keys", Typed("uniqueidentifier", column("guid", "2410", samples.short, guid), same("6f9619ff-8b86-d011-b42d-00c04fc964ff", "ffffffff-ffff-ffff-ffff-ffffffffffff", None)),
        Typed("binary(4)", column("mark", "AD0400", samples.long, bytes), same("0x00010203", "0xffffffff", None)),
        Typed("varbinary(8)", column("hash", "A50800", samples.long, bytes), same("0xff", "0x", None)),
        Typed("varbinary(max)", column("data", "A5FFFF", samples.chunked, bytes), same("0x0a1b", "0x", None))),
    table(
        "narrow_text", Typed("char(3)", column("code", "AF0300", samples.long, samples.narrow), [("EUR", '"EUR"'), ("x  ", '"x  "'), (None, "NULL")], NARROW),
        Typed("varchar(20)", column("name", "A71400", samples.long, samples.narrow), [("Zürich, 5 €", '"Zürich, 5 €"'), ("NULL", '"NULL"'), (None, "NULL")], NARROW),
        Typed("varchar(max)", column("note", "A7FFFF", samples.chunked, samples.narrow), QUOTED, NARROW)),
    table(
        "wide_text", Typed("nchar(3)", column("code", "EF0600", samples.long, samples.wide), [("äßé", '"äßé"'), ("x  ", '"x  "'), (None, "NULL")]),
        Typed("nvarchar(20)", column("name", "E72800", samples.long, samples.wide), [("東京 𝄞", '"東京 𝄞"'), ("NULL", '"NULL"'), (None, "NULL")]),
        Typed("nvarchar(max)", column("note", "E7FFFF", samples.chunked, samples.wide), QUOTED)),
]


# What isn't one table with a value in each cell.

NUMBER = column("a", "2604", samples.short, samples.whole(4))
ONE = '"a"\n1\n'
SET = [samples.description([NUMBER]), samples.row([NUMBER], ["1"])]
DONE_IN_PROC, DONE_PROC = (bytes([byte]) + done()[1:] for byte in (Token.DONE_IN_PROC, Token.DONE_PROC))


def one_row(name: str, statement: str, columns: Sequence[samples.Column], values: Sequence[samples.Written], text: str) -> Case:
    """A case of one row."""
    return Case(name, statement, text, report(text), 0, [samples.description(columns), samples.row(columns, values), done()])


def told(number: int, message: str, state: int, severity: int, token: Token) -> bytes:
    """An ERROR, or an INFO, whose body is the same (MS-TDS, INFO)."""
    return bytes([token]) + served.server_error(number, message, 1, state, severity)[1:]


def wire_of(name: str, kind: str) -> samples.Column:
    """A wide or binary column."""
    return {"wide": column(name, "E7FFFF", samples.chunked, samples.wide), "narrow": column(name, "A7FFFF", samples.chunked, samples.narrow), "binary": column(name, "A5FFFF", samples.chunked, bytes)}[kind]


def refused(name: str, expression: str, kind: str, sample: str) -> Case:
    """A case of a column that is refused by name."""
    found = next(it for it in samples.REFUSED if it.name == sample)
    described = samples.Column("a", found.type_info[:1].hex(), found.cell, found.encode, str)
    described.type_info = found.type_info
    tokens = [samples.description([described]), samples.row([described], [found.values[0]]), done()]
    return Case(name, f"SELECT {expression} AS a", "", rf"fault 10 RefusedColumn 0 ({kind}) at payload 3, written 0, unwritten 0\n(--adapt reads [^\n]*\n)?", 4, tokens)


def many_columns(count: int) -> Case:
    """A case of many columns, every other of them NULL."""
    columns = [column(f"c{at}", "2604", samples.short, samples.whole(4)) for at in range(count)]
    values = [str(at) if at % 2 else None for at in range(count)]
    listed = ", ".join(f"CAST({value or 'NULL'} AS int) AS c{at}" for at, value in enumerate(values))
    text = ",".join(f'"c{at}"' for at in range(count)) + "\n" + ",".join(value or "NULL" for value in values) + "\n"
    return Case("many_columns", f"SELECT {listed}", text, report(text), 0, [samples.description(columns), samples.row_with_bitmap(columns, values), done()])


BEGUN = served.counted_body(Token.ENV_CHANGE, bytes([8, 8]) + bytes(8) + b"\0")  # MS-TDS, ENVCHANGE: Begin Transaction, Rollback Transaction
ROLLED_BACK = served.counted_body(Token.ENV_CHANGE, bytes([10, 0, 8]) + bytes(8))
SETS = '"a"\n1\n\n"b"\n\n"c"\n"x"\n'
MISSING = "gavyreto_no_such_table"
OTHERS = [
    one_row("collations", "SELECT CAST(N'Я' COLLATE Cyrillic_General_CI_AS AS varchar(max)) AS a, CAST(CAST(N'Я' COLLATE Cyrillic_General_CI_AS AS varchar(max)) AS nvarchar(max)) AS b",
            [wire_of("a", "narrow"), wire_of("b", "wide")], ["ß", "Я"], '"a","b"\n"ß","Я"\n'),
    Case("surrogates", "SELECT CAST(0x34D8 AS nvarchar(max)) AS a, CAST(0x34D81EDD AS nvarchar(max)) AS b", '"a","b"\n"\ufffd","𝄞"\n', report('"a","b"\n"\ufffd","𝄞"\n'), 0,
         [samples.description([wire_of("a", "wide"), wire_of("b", "wide")]), b"\xD1" + samples.chunked(b"\x34\xD8") + samples.chunked(b"\x34\xD8\x1E\xDD"), done()]),
    one_row("long_values", "SELECT REPLICATE(CAST(N'ä' AS nvarchar(max)), 100000) AS a, REPLICATE(CAST('\"' AS varchar(max)), 100000) AS b, CAST(REPLICATE(CAST('a' AS varchar(max)), 50000) AS varbinary(max)) AS c",
            [wire_of("a", "wide"), wire_of("b", "narrow"), wire_of("c", "binary")], ["ä" * 100_000, '"' * 100_000, b"a" * 50_000],
            '"a","b","c"\n"' + "ä" * 100_000 + '","' + '"' * 200_000 + '",0x' + "61" * 50_000 + "\n"),
    one_row("column_names", "SELECT 1, 2 AS [a \"b\", c], 3 AS [東京]", [column(name, "2604", samples.short, samples.whole(4)) for name in ("", 'a "b", c', "東京")], ["1", "2", "3"],
            '"","a ""b"", c","東京"\n1,2,3\n'),
    many_columns(200),
    Case("several_sets", "SELECT 1 AS a; SELECT CAST(NULL AS int) AS b WHERE 1 = 0; SELECT CAST(N'x' AS nvarchar(max)) AS c", SETS, report(SETS, 3, 2), 0,
         [*SET, done(MORE), samples.description([column("b", "2604", samples.short, samples.whole(4))]), done(MORE), samples.description([wire_of("c", "wide")]), samples.row([wire_of("c", "wide")], ["x"]), done()]),
    Case("messages", "PRINT N'hello'; SELECT 1 AS a", ONE, report(ONE, infos=1), 0, [told(0, "hello", 1, 0, Token.INFO), *SET, done()]),
    Case("error_after_a_row", "SELECT 1 AS a; RAISERROR(N'seven %d', 16, 3, 7)", ONE, report(ONE, errors=1) + "server error 50000, state 3, class 16, line 1: seven 7\n", 3,
         [*SET, done(MORE), told(50000, "seven 7", 3, 16, Token.ERROR), done(FAILED)]),
    Case("no_such_table", f"SELECT * FROM {MISSING}", "", report("", 0, 0, 1) + rf"server error 208, state \d+, class 16, line 1: .*{MISSING}.*\n", 3,
         [told(208, f"Invalid object name '{MISSING}'.", 1, 16, Token.ERROR), done(FAILED)]),
    Case("return_status", "EXEC sp_executesql N'SELECT 1 AS a'", ONE, report(ONE) + "return status 0\n", 0, [*SET, DONE_IN_PROC, bytes([Token.RETURN_STATUS]) + bytes(4), DONE_PROC]),
    Case("transaction", "BEGIN TRANSACTION; SELECT 1 AS a; ROLLBACK TRANSACTION", ONE, report(ONE), 0, [BEGUN, done(MORE), *SET, done(MORE), ROLLED_BACK, done()]),
    Case("aborted", "SELECT 1 AS a; RAISERROR(N'', 0, 1) WITH NOWAIT; WAITFOR DELAY '00:02:00'", ONE, INTERRUPTED, 130, [*SET, done(MORE)]),
    refused("floats", "CAST(1 AS float)", "FLTN|FLT8", "float_or_null"), refused("reals", "CAST(1 AS real)", "FLTN|FLT4", "real_or_null"),
    refused("markup", "CAST(N'<a/>' AS xml)", "XML", "xml"), refused("variants", "CAST(1 AS sql_variant)", "SSVARIANT", "variant"),
    refused("old_text", "CAST('x' AS text)", "TEXT", "text"), refused("old_ntext", "CAST(N'x' AS ntext)", "NTEXT", "ntext"),
    refused("old_image", "CAST(0x00 AS image)", "IMAGE", "image"), refused("places", "geography::Point(1, 2, 4326)", "UDT", "clr"),
]
CASES = [*TABLES, *OTHERS]


def differences(case: Case, text: bytes, said: str, status: int) -> list[str]:
    """What of an answer isn't as wanted, a line each."""
    found = []
    came, wanted = text.decode("utf-8", "replace"), case.text.replace("\n", "\r\n")
    if came != wanted:
        found.append(f"text: {shortened(came)}, not {shortened(wanted)}")
    holds = INTERRUPTED in said if case.is_held else re.fullmatch(case.lines, said)
    if not holds:
        found.append(f"lines: {shortened(said)}, not {shortened(case.lines)}")
    return found + ([f"status: {status}, not {case.status}"] if status != case.status else [])


def shortened(text: str) -> str:
    """A text in one line, its middle left out if it is long."""
    return repr(text if len(text) <= 300 else f"{text[:140]} .. {len(text) - 280} characters .. {text[-140:]}")
