"""Rows with columns of float and real, converted many at once, as far as they are whole in what was read."""
from __future__ import annotations

import struct
from itertools import chain
from typing import NamedTuple, Sequence

from gavyreto.columns import FIXED, Described
from gavyreto.payload import NBCROW, NO_WAY, ROW, after_values, bytes_of_bitmap, present, ways_over
from gavyreto.scalars import doubles, singles
from gavyreto.tds import DataType

FLOATS = (DataType.FLT4, DataType.FLT8, DataType.FLTN)
MOST_PLANNED = 1 << 15  # columns of the plans that are remembered, by the bitmaps of their rows
FEW = 16  # rows that are converted value by value
NULL_VALUE = b"\xFF\xFF"
LENGTHS = [struct.pack("<H", length) for length in range(64)]  # before a text


class Step(NamedTuple):
    """A part of a row: the ways over values that stay, then a float of so many bytes, if there is one, with its length before it or not."""

    ways: list[int]
    size: int = 0
    is_counted: bool = False


Plan = list[Step]


class Layout:
    """Rows without NULL whose values have one length each: they are converted together."""

    def __init__(self, plan: Plan) -> None:
        self.length, self._marks, self._form, self._parts = 1, [(0, ROW)], "x", list[tuple[int, int]]()
        self.is_there = all(way >= 0 for step in plan for way in step.ways)  #: whether rows can be so
        start = 0
        for ways, size, is_counted in plan:
            self.length += sum(ways)
            self._parts.append((start, self.length))
            if is_counted:
                self._marks.append((self.length, size))
            start = self.length + is_counted + size
            self._form += f"{sum(ways) + is_counted}x" + {0: "", 4: "f", 8: "d"}[size]
            self.length = start
        self._sizes = [size for _, size, _ in plan if size]

    def count(self, data: bytes, at: int) -> int:
        """How many rows from a place on are so."""
        count = (len(data) - at) // self.length
        for place, byte in self._marks:
            marks = data[at + place:at + count * self.length:self.length]
            count = len(marks) - len(marks.lstrip(bytes([byte])))
        return count

    def convert(self, data: bytes, at: int, count: int) -> bytes:
        """So many rows. Raises ValueError if a float has no text."""
        values = struct.unpack_from("<" + self._form * count, data, at)
        columns, starts = list[list[bytes]](), range(at, at + count * self.length, self.length)
        for place, (start, end) in enumerate(self._parts):
            columns += [[data[it + start:it + end] for it in starts]] if start < end else []
            if place < len(self._sizes):
                columns.append(spelt(self._sizes[place], values[place::len(self._sizes)]))
        return b"".join(chain.from_iterable(zip(*columns)))


def spelt(size: int, values: Sequence[float]) -> list[bytes]:
    """The texts of floats of so many bytes, each with its length. Raises ValueError if one has none."""
    return [LENGTHS[len(text)] + text.encode() for text in (singles if size == 4 else doubles)(values)]


def is_planned(described: list[Described], changes: list[bool]) -> bool:
    """Whether rows can be converted here: floats change, and no other columns, and there is a short way over these."""
    others = [(column, changed) for column, changed in zip(described, changes) if column.type.byte not in FLOATS]
    return any(changes) and not any(changed for _, changed in others) and NO_WAY not in ways_over([column for column, _ in others])


def plan_of(described: list[Described]) -> Plan:
    """How rows of these columns are read."""
    plan, ways = Plan(), list[int]()
    for column, way in zip(described, ways_over(described)):
        if column.type.byte not in FLOATS:
            ways.append(way)
            continue
        is_counted = column.type.byte not in FIXED
        plan.append(Step(ways, column.type.length or 0 if is_counted else FIXED[column.type.byte], is_counted))
        ways = []
    return [*plan, Step(ways)] if ways or not plan else plan  # of no columns there is the beginning of the row


class Found:
    """The bytes of rows in pieces, some of which are floats that become texts."""

    def __init__(self) -> None:
        self.pieces = list[bytes]()
        self.places: dict[int, list[int]] = {4: [], 8: []}  #: of floats among them, by their bytes
        self.kept = 0  #: pieces of the rows that are whole

    def joined(self) -> bytes:
        """The rows that are whole, with texts. Raises ValueError if a float has none."""
        pieces = self.pieces[:self.kept]
        for size, form in (4, "f"), (8, "d"):
            places = [place for place in self.places[size] if place < self.kept]
            values = struct.unpack(f"<{len(places)}{form}", b"".join([pieces[place] for place in places]))
            for place, text in zip(places, spelt(size, values)):
                pieces[place] = text
        return b"".join(pieces)


class Rows:
    """Converts rows of one description."""

    def __init__(self, described: list[Described]) -> None:
        self._described = described
        self._plan = plan_of(described)
        self._layout = Layout(self._plan)
        self._plans: dict[bytes, Plan] = {}  # by the bitmaps of rows with NULL
        self._wrong = b""  # the last bytes among whose rows is a value that none has: these are read one by one

    def convert(self, data: bytes, at: int) -> tuple[bytes, int]:
        """The rows that are whole in some bytes, from a place on at which a token begins, converted, and where they end: before a row whose
        values none has, too."""
        try:
            found, end = self._found(data, at) if data is not self._wrong else (Found(), at)
            return found.joined(), end
        except ValueError:
            self._wrong = data
            return b"", at

    def _found(self, data: bytes, at: int) -> tuple[Found, int]:
        """The pieces of these rows, and where they end. Raises ValueError if a float has no text."""
        found, layout = Found(), self._layout
        try:
            while data[at] == ROW or data[at] == NBCROW:
                count = layout.count(data, at) if layout.is_there and data[at] == ROW else 1
                if count > FEW:
                    found.pieces.append(layout.convert(data, at, count))
                    at += count * layout.length
                else:
                    for _ in range(count or 1):
                        at = self._scan(data, at, found)
                found.kept = len(found.pieces)
        except IndexError:
            pass  # this row isn't whole
        return found, at

    def _scan(self, data: bytes, at: int, found: Found) -> int:
        """Finds the values of a row, and returns where it ends. Raises IndexError if it isn't whole, or has a value that none has."""
        pieces, places, start, plan, at = found.pieces, found.places, at, self._plan, at + 1
        if data[start] == NBCROW:
            after = at + bytes_of_bitmap(NBCROW, self._described)
            plan, at = self._plan_of(data[at:after]), after
        for ways, size, is_counted in plan:
            at = after_values(data, at, ways) if ways else at
            pieces.append(data[start:at])
            start = at
            if not size:
                continue
            if is_counted:
                length, at = data[at], at + 1
                if not length:
                    pieces.append(NULL_VALUE)
                    start = at
                    continue
                if length != size:
                    raise IndexError
            start = at + size
            places[size].append(len(pieces))
            pieces.append(data[at:start])
            at = start
        if at > len(data):
            raise IndexError
        return at

    def _plan_of(self, bitmap: bytes) -> Plan:
        if len(self._plans) * len(self._described) > MOST_PLANNED:
            self._plans.clear()
        if bitmap not in self._plans:
            self._plans[bitmap] = plan_of(present(bitmap, self._described))
        return self._plans[bitmap]
