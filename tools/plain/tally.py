"""Counts in how many cases each fault, token, element, kind and size came, and names what came in too few."""
from __future__ import annotations

from collections import Counter
from collections.abc import Iterator, Sequence
from typing import NamedTuple

from plain import reader as plain
from plain.cases.spelling import Case

# In how many cases all that a table counts has to come at least.
LEAST = {"ends": 8, "elements": 3, "values": 3, "described": 9, "sizes": 3}

# How a response ends: by a report or a fault.
ENDS = [
    "report", "InputEnded", "WrongPacketType", "BadPacketLength", "ResponseTooLong", "RefusedToken", "MessageEnded",
    "EndWithoutDone", "NoColumns", "RefusedColumn", "UnknownType", "BadTypeInfo", "DescriptionTooLong", "RowWithoutColumns",
    "BadValueLength", "BadValue", "OddText", "PlpLength", "BadNotice", "BadText",
]


class Element(NamedTuple):
    """An element of some tokens, and the faults that it may have beside MessageEnded."""

    tokens: str
    name: str
    faults: str = ""


ELEMENTS = [
    Element("COLMETADATA", "Count", "NoColumns DescriptionTooLong"),
    Element("COLMETADATA", "column head", "RefusedColumn UnknownType DescriptionTooLong"),
    Element("COLMETADATA", "rest of the type information", "BadTypeInfo"),
    Element("COLMETADATA", "unit count of the name", "DescriptionTooLong"),
    Element("COLMETADATA", "units of the name"),
    Element("ORDER ENVCHANGE", "Length"),
    Element("ORDER ENVCHANGE", "body"),
    Element("ERROR INFO", "Length", "BadNotice"),
    Element("ERROR INFO", "body", "BadNotice"),
    Element("RETURNSTATUS", "value"),
    Element("DONE DONEPROC DONEINPROC", "body"),
    Element("RETURNVALUE", "ordinal"),
    Element("RETURNVALUE", "unit count of the name"),
    Element("RETURNVALUE", "units of the name"),
    Element("RETURNVALUE", "status to type byte", "RefusedColumn UnknownType"),
    Element("RETURNVALUE", "rest of the type information", "BadTypeInfo"),
    Element("NBCROW", "bitmap"),
    Element("ROW NBCROW RETURNVALUE", "bytes of a fixed kind", "BadValue"),
    Element("ROW NBCROW RETURNVALUE", "length", "BadValueLength"),
    Element("ROW NBCROW RETURNVALUE", "bytes after a length", "BadValue"),
    Element("ROW NBCROW RETURNVALUE", "length of a short value", "OddText"),
    Element("ROW NBCROW", "data of a short value", "BadText"),
    Element("RETURNVALUE", "data of a short value"),
    Element("ROW NBCROW RETURNVALUE", "total", "OddText"),
    Element("ROW NBCROW RETURNVALUE", "length of a chunk", "PlpLength"),
    Element("ROW NBCROW", "data of a chunk", "BadText"),
    Element("RETURNVALUE", "data of a chunk"),
    Element("ROW NBCROW", "terminator", "PlpLength OddText BadText"),
    Element("RETURNVALUE", "terminator", "PlpLength OddText"),
]
BETWEEN_TOKENS = ["RefusedToken", "RowWithoutColumns", "EndWithoutDone"]

COUNTED = {
    0x24: "Guid", 0x26: "IntN", 0x68: "BitN", 0x6E: "MoneyN", 0x6F: "DateTimeN", 0x6A: "Decimal", 0x6C: "Decimal", 0x28: "Date",
    0x29: "Time", 0x2A: "DateTime2", 0x2B: "DateTimeOffset",
}
NAMES = {**plain.FIXED, **COUNTED, **plain.LONG}
# The lengths or scales after these type bytes, each of which counts by itself.
DESCRIBED: dict[int, Sequence[int]] = {
    0x26: (1, 2, 4, 8), 0x6E: (4, 8), 0x6F: (4, 8), 0x6A: (5, 9, 13, 17), 0x6C: (5, 9, 13, 17), 0x29: range(8), 0x2A: range(8),
    0x2B: range(8),
}
# In which token a value is, and how it is spelt.
SPELLINGS = [
    ("ROW", "value"), ("ROW", "NULL"), ("NBCROW", "value"), ("NBCROW", "NULL"), ("NBCROW", "by bit"), ("RETURNVALUE", "value"),
    ("RETURNVALUE", "NULL"),
]

PACKETS = {8: "packets without a body", 32_767: "packets of 32,767 bytes"}
FORMS = ("Binary", "Narrow", "Wide")
SIZES = [
    *PACKETS.values(), *(f"{form} of 65,534 bytes" for form in FORMS), *(f"{form} beyond 65,536 bytes" for form in FORMS),
]
Key = tuple[str, ...]


# What is counted

def label(byte: int, is_chunked: bool = False) -> str:
    """A kind by its type byte and its name."""
    return f"{byte:02X} {NAMES[byte]}{' in chunks' if is_chunked else ''}"


def labels() -> Iterator[tuple[str, bool]]:
    """The labels of all kinds, and whether a value of the kind may be spelt as NULL: a fixed one is NULL by its bit alone."""
    for byte in NAMES:
        yield label(byte), byte not in plain.FIXED
    for byte in (0xA5, 0xA7, 0xE7):
        yield label(byte, True), True


def elements() -> Iterator[tuple[str, Element]]:
    for element in ELEMENTS:
        for token in element.tokens.split():
            yield token, element


def described() -> Iterator[tuple[str, str]]:
    for byte, numbers in DESCRIBED.items():
        for number in numbers:
            yield label(byte), str(number)


def wanted() -> Iterator[Key]:
    """All that has to come: keys whose first word names their table."""
    yield from (("ends", name) for name in ENDS)
    yield from (("elements", token, "token", "whole") for token in plain.TOKENS.values())
    yield from (("elements", "", "token", fault) for fault in BETWEEN_TOKENS)
    for token, element in elements():
        yield from (("elements", token, element.name, what) for what in ("whole", "MessageEnded", *element.faults.split()))
    for name, may_be_null in labels():
        yield from (("values", name, *it) for it in SPELLINGS if may_be_null or it[1] != "NULL")
    yield from (("described", *it) for it in described())
    yield from (("sizes", size) for size in SIZES)


# What came

def cell_keys(cell: plain.Cell) -> Iterator[Key]:
    kind = cell.kind
    yield "values", label(kind.byte, kind.is_chunked()), cell.token, cell.spelt
    if kind.byte in DESCRIBED:
        yield "described", label(kind.byte), str(kind.rest[0])
    if kind.is_chunked() and cell.length > 65_536:
        yield "sizes", f"{NAMES[kind.byte]} beyond 65,536 bytes"
    elif cell.length == 65_534:
        yield "sizes", f"{NAMES[kind.byte]} of 65,534 bytes"


def packet_keys(wire: bytes) -> Iterator[Key]:
    """The sizes of the packets of a wire, as far as they can be followed."""
    at = 0
    while at + 8 <= len(wire):
        length = int.from_bytes(wire[at + 2:at + 4], "big")
        if length in PACKETS:
            yield "sizes", PACKETS[length]
        at += max(length, 8)


def keys_of(case: Case, answer: plain.Answer) -> Iterator[Key]:
    """What came in a case."""
    stop, reader = answer.stop, answer.reader
    end = stop.name.split()[0] if stop else "report"
    yield "ends", end
    if stop:
        yield "elements", reader.token, stop.element, end
    for token, element in reader.elements:
        yield "elements", token, element, "whole"
    for cell in reader.cells:
        yield from cell_keys(cell)
    yield from packet_keys(case.wire)


class Tally:
    """In how many cases each key came."""

    def __init__(self) -> None:
        self.counts: Counter[Key] = Counter()

    def add(self, case: Case, answer: plain.Answer) -> None:
        self.counts.update(set(keys_of(case, answer)))

    def too_few(self) -> list[str]:
        """What came in fewer cases than it has to."""
        short = [key for key in wanted() if self.counts[key] < LEAST[key[0]]]
        return [f"{' '.join(filter(None, key[1:]))} came in {self.counts[key]} cases, not in {LEAST[key[0]]}" for key in short]

    def summary(self) -> str:
        """How the cases ended."""
        return ", ".join(f"{count:,} {key[1]}" for key, count in self.counts.most_common() if key[0] == "ends")


# Tables

def grid(title: str, items: list[tuple[str, int]]) -> str:
    """Names with their counts, four to a line."""
    cells = [f"{count:>8,}  {name:<26}" for name, count in items]
    return "\n".join([title, *("".join(cells[at:at + 4]).rstrip() for at in range(0, len(cells), 4))])


def element_table(counts: Counter[Key]) -> str:
    lines = [f"{'elements':<43}{'whole':>8}{'cut':>8}  refused"]
    for token, element in elements():
        key = ("elements", token, element.name)
        refused = ", ".join(f"{fault} {counts[(*key, fault)]:,}" for fault in element.faults.split())
        whole, cut = counts[(*key, "whole")], counts[(*key, "MessageEnded")]
        lines.append(f"{token:<13}{element.name:<30}{whole:>8,}{cut:>8,}  {refused}".rstrip())
    return "\n".join(lines)


def value_table(counts: Counter[Key]) -> str:
    heads = [f"{token if spelt == 'value' else spelt:>12}" for token, spelt in SPELLINGS]
    lines = [f"{'values':<20}" + "".join(heads)]
    for name, _ in labels():
        cells = [f"{counts[('values', name, *it)]:>12,}" for it in SPELLINGS]
        lines.append(f"{name:<20}" + "".join(cells))
    return "\n".join(lines)


def tables(counts: Counter[Key]) -> str:
    tokens = [(name, counts["elements", name, "token", "whole"]) for name in plain.TOKENS.values()]
    return "\n\n".join([
        grid("ends", [(name, counts["ends", name]) for name in ENDS]),
        grid("tokens", tokens),
        element_table(counts),
        value_table(counts),
        grid("described lengths and scales", [(" ".join(it), counts[("described", *it)]) for it in described()]),
        grid("sizes", [(size, counts["sizes", size]) for size in SIZES]),
    ])
