"""The worked rows: those of examples/worked.txt, whose head says how a row is written, and those that are too long for it.

tools/worked runs the program over them, and tools/generated holds the plain reading to them."""
from __future__ import annotations

import csv
import re
import shlex
import sys
from collections.abc import Iterator
from dataclasses import dataclass, field
from fractions import Fraction
from typing import NamedTuple

from lib import repository as repo
from plain.cases.spelling import COLLATION, DONE, INT, columns_of, little, nbc_row, short
from lib.packing import in_packets, packet

ROWS = repo.path_of("examples", "worked.txt")
NAMES = {"then any byte": "is_refused", "cut anywhere": "is_cut", "split anywhere": "is_split", "wire": "is_wire"}
TOKEN = re.compile(r"((?:[0-9A-F]{2})+|([0-9A-F]{2})\.\.([0-9A-F]{2}))(?:\*(\d+))?")
Part = tuple[bool, bytes, bytes]


@dataclass
class Row:
    """A row: its words, the parts of its input and text, and what is wanted."""

    name: str
    words: list[str] = field(default_factory=lambda: ["export"])
    # whether a part begins a token, its bytes, and the text that it adds
    parts: list[Part] = field(default_factory=list)
    said: str = ""
    status: int = 0
    left: int = 0
    headers: list[bytes] = field(default_factory=list)
    shown: list[str] = field(default_factory=list)
    # how many parts stand before each response but the first
    before: list[int] = field(default_factory=list)
    is_wire: bool = False
    is_refused: bool = False
    is_cut: bool = False
    is_split: bool = False

    def input(self) -> bytes:
        """The bytes of all parts."""
        return b"".join(data for _, data, _ in self.parts)

    def payloads(self) -> list[bytes]:
        """The bytes of the parts of each response."""
        ends = zip([0, *self.before], [*self.before, len(self.parts)])
        return [b"".join(data for _, data, _ in self.parts[begin:end]) for begin, end in ends]

    def is_of_all(self) -> bool:
        """Whether the row is responses one after another."""
        return "--all" in self.words

    def text(self) -> bytes:
        """The text of all parts."""
        return b"".join(text for _, _, text in self.parts)


class Reading(NamedTuple):
    """A response of a row in packets, its options, and the text, lines and status that are wanted."""

    name: str
    wire: bytes
    options: list[str]
    text: bytes
    said: str
    status: int


def bytes_of(spelt: str) -> bytes:
    """Bytes of hexadecimal digits: `00*6` is a byte six times, `00..FA` are those from the one to the other."""
    found = b""
    for word in spelt.split():
        match = TOKEN.fullmatch(word)
        if not match:
            raise ValueError(f"no bytes: {word}")
        data = bytes(range(int(match[2], 16), int(match[3], 16) + 1)) if match[2] else bytes.fromhex(match[1])
        found += data * int(match[4] or 1)
    return found


def add_text(row: Row, text: str) -> None:
    """Adds text to the part before it."""
    begins, data, before = row.parts.pop() if row.parts else (True, b"", b"")
    row.parts.append((begins, data, before + text.encode()))


def take(row: Row, line: str) -> None:
    """Takes a line of a row."""
    word, _, rest = line.partition(" ")
    repeated = re.fullmatch(r"(\d*)>", word)
    if line in NAMES:
        setattr(row, NAMES[line], True)
    elif line == "next":
        row.before.append(len(row.parts))
    elif word in ("with", "recut", "args"):
        row.words = ["export"] * (word == "with") + ["recut"] * (word == "recut") + shlex.split(rest)
    elif word == "exit":
        row.status = int(rest)
    elif word == "left":
        row.left = int(rest)
    elif word == "!":
        row.said += rest + "\n"
    elif word == "?":
        row.shown.append(rest)
    elif word == "<":
        row.headers.append(bytes_of(rest))
    elif word == "~":
        add_text(row, rest)
    elif repeated:
        add_text(row, (rest + "\r\n") * int(repeated[1] or 1))
    else:
        row.parts.append((not line.startswith(" "), bytes_of(line.split(";")[0]), b""))


def read_rows(path: str) -> list[Row]:
    """The rows of a file."""
    rows: list[Row] = []
    with open(path, encoding="utf-8") as lines:
        for number, line in enumerate(lines, 1):
            line = line.rstrip("\n")
            if line.startswith("== "):
                rows.append(Row(line[3:]))
            elif line and not line.startswith("#"):
                try:
                    take(rows[-1], line)
                except (ValueError, IndexError) as error:
                    sys.exit(f"{path}: line {number}: {error}")
    names = [row.name for row in rows]
    for name in names:
        if names.count(name) > 1:
            sys.exit(f"{path}: two rows are named {name}")
    return rows


# Rows that are too long for the file

def made_rows() -> list[Row]:
    """The rows that are too long for the file."""
    return [longest_row(), null_row(), thirds_row(), careful_row("windows-1252", "cp1252"), careful_row("utf-8", "utf-8")]


def longest_row() -> Row:
    """65,534 columns, and an NBCROW with a value in each 769th: so clear bits stand at each place of a byte."""
    columns = range(65_534)
    bitmap = bytes(sum(1 << bit for bit in range(8) if (at + bit) % 769) for at in range(0, 65_536, 8))
    values = [little(column, 4) for column in columns if column % 769 == 0]
    fields = ",".join("NULL" if column % 769 else str(column) for column in columns)
    text = ",".join(['""'] * len(columns)) + f"\r\n{fields}\r\n"
    row = Row("the longest row", said="sets 1 rows 1 errors 0 infos 0 written 524342\n")
    row.parts = [(True, columns_of(*[INT] * len(columns)), b"")]
    row.parts += [(True, nbc_row(bitmap, *values), text.encode()), (True, DONE, b"")]
    return row


def null_row() -> Row:
    """65,534 columns, and an NBCROW with all bits set: a header line of 196,603 bytes, and a line of 327,671."""
    names, nulls = ",".join(['""'] * 65_534) + "\r\n", ",".join(["NULL"] * 65_534) + "\r\n"
    row = Row("the longest row of NULLs", said="sets 1 rows 1 errors 0 infos 0 written 524274\n")
    row.parts = [(True, columns_of(*[INT] * 65_534), names.encode())]
    row.parts += [(True, nbc_row(b"\xFF" * 8_192), nulls.encode()), (True, DONE, b"")]
    return row


def thirds_row() -> Row:
    """A datetime of each of the 300 parts of a second, in the first second of a day and in the last."""
    payload, text = columns_of(b"\x3D"), '""\r\n'
    for clock, ticks in (("00:00:00", 0), ("23:59:59", 25_919_700)):
        for part in range(300):
            payload += b"\xD1" + little(0, 4) + little(ticks + part, 4)
            text += f"1900-01-01 {clock}.{round(Fraction(1000 * part, 300)):03}\r\n"
    row = Row("the parts of a second", said=f"sets 1 rows 600 errors 0 infos 0 written {len(text)}\n")
    row.parts = [(True, payload, text.encode()), (True, DONE, b"")]
    return row


def careful_row(charset: str, codec: str) -> Row:
    """Text of 150 characters with one that needs care in each place, of one byte a character and of two, and all bytes:
    Python's reader of CSV reads them back."""
    every = bytes(range(256))
    rows = []
    lines, read_back = ['"","",""'], [["", "", ""]]
    for place in range(150):
        for care in ('"', "é"):
            text = "a" * place + care + "a" * (149 - place)
            binary = every[place:] + every[:place]
            rows.append(b"\xD1" + short(text.encode(codec)) + short(text.encode("utf-16-le")) + short(binary))
            quoted = '"' + text.replace('"', '""') + '"'
            lines.append(f"{quoted},{quoted},0x{binary.hex()}")
            read_back.append([text, text, f"0x{binary.hex()}"])
    if list(csv.reader(lines)) != read_back:
        sys.exit("Python's reader of CSV reads something else")
    words = ["export", "--packet-size", "32767", "--charset", charset]
    row = Row(f"a character that needs care in each place, {charset}", words)
    written = "".join(line + "\r\n" for line in lines).encode()
    description = columns_of(b"\xA7\xFF\0" + COLLATION, b"\xE7\xFE\1" + COLLATION, b"\xA5\0\1")
    row.parts = [(True, description + b"".join(rows), written), (True, DONE, b"")]
    row.said = f"sets 1 rows 300 errors 0 infos 0 written {len(written)}\n"
    return row


def all_rows() -> list[Row]:
    """The rows of examples/worked.txt, and those that are too long for it."""
    return [*read_rows(ROWS), *made_rows()]


# What a row says of a response

def size_of(row: Row) -> int:
    """The greatest packet that the row's words allow."""
    return int(row.words[row.words.index("--packet-size") + 1]) if "--packet-size" in row.words else 4096


def reached(row: Row, length: int) -> tuple[str, bytes]:
    """What is said where a message ends after the first bytes of a payload, and the text of the parts that are whole."""
    place, text, begins = 0, b"", True
    for begins, data, adds in row.parts:
        if place + len(data) > length:
            break
        place, text = place + len(data), text + adds
    fault = "8 EndWithoutDone" if begins else "7 MessageEnded"
    return f"fault {fault} at payload {place}, written {len(text)}, unwritten 0\n", text


def is_export(row: Row) -> bool:
    """Whether the row is a response that is exported, and not one that is recut, or arguments that are refused."""
    return row.words[:1] == ["export"] and not row.shown


def readings(row: Row) -> Iterator[Reading]:
    """The responses of a row that is exported: as it stands, and ended after each byte if it may be cut anywhere."""
    data, options = row.input(), row.words[1:]
    wire = data if row.is_wire else b"".join(in_packets(payload, size_of(row)) for payload in row.payloads())
    yield Reading(row.name, wire, options, row.text(), row.said, row.status)
    for length in range(len(data)) if row.is_cut else ():
        said, text = reached(row, length)
        yield Reading(f"{row.name}: a message of {length} bytes", packet(data[:length], True), options, text, said, 4)
