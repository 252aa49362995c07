"""The values of the fields of a text: each column has one shape, that of its first field that isn't NULL."""
from __future__ import annotations

import re
from datetime import date, datetime, time
from decimal import Decimal
from typing import Callable, Literal, NamedTuple, Optional, Sequence, Union, cast
from uuid import UUID

Dates = Union[bool, Literal["truncate"]]
NULL, QUOTE = "NULL", '"'
SOME = 100  # fields of a column, which tell whether equal ones come often
DATES: tuple[Dates, ...] = (False, True, "truncate")
Value = Union[None, int, float, Decimal, bytes, str, date, time, datetime, UUID]


def check_dates(dates: Dates) -> None:
    """Raises ValueError if dates are asked for in a way that isn't there."""
    if dates not in DATES:
        raise ValueError(f"dates is one of {', '.join(map(repr, DATES))}, not {dates!r}")


class Shape(NamedTuple):
    """How the fields of a column look, NULL aside, and what they are."""

    name: str
    pattern: str
    value: Callable[[str], Value]  #: of a field, without quotes around it. Raises ValueError
    is_quoted: bool = False


def _float(field: str) -> float:
    if not FLOATS.fullmatch(field):
        raise ValueError(f"no float: {field[:60]!r}")
    return float(field)


DAY, CLOCK, OFFSET = r"[0-9]{4}-[0-9]{2}-[0-9]{2}", r"[0-9]{2}:[0-9]{2}:[0-9]{2}", r" [+-][0-9]{2}:[0-9]{2}"
GUID = "[0-9a-f]{8}(?:-[0-9a-f]{4}){3}-[0-9a-f]{12}"
FLOATS = re.compile("[-+.0-9e]+")
TEXT = Shape("text", r'"[^"]*(?:""[^"]*)*"', str, True)
FLOAT = Shape("float", f'"{FLOATS.pattern}"', _float, True)
BINARY = Shape("binary", "0x(?:[0-9a-f]{2})*", lambda field: bytes.fromhex(field.removeprefix("0x")))
INTEGER = Shape("integer", "-?[0-9]+", int)
DECIMAL = re.compile(r"-?[0-9]+\.([0-9]+)")
MOMENT = re.compile(rf"({DAY})?(?:(?(1) )({CLOCK})(?:\.([0-9]{{1,7}}))?(?(1)({OFFSET})?))?")


def shape_of(field: str, dates: Dates) -> Shape:
    """The shape of a column by one of its fields. Raises ValueError if no field looks so."""
    for shape in (TEXT, BINARY, INTEGER):
        if re.fullmatch(shape.pattern, field):
            return shape
    if found := DECIMAL.fullmatch(field):
        return Shape("decimal", rf"-?[0-9]+\.[0-9]{{{len(found[1])}}}", Decimal)
    if re.fullmatch(GUID, field):
        return Shape("guid", GUID, UUID if dates else str)
    found = MOMENT.fullmatch(field)
    if not field or not found:
        raise ValueError(f"not a field of a text of tds_replay: {field[:60]!r}")
    return _moment(found, dates)


def _moment(found: re.Match[str], dates: Dates) -> Shape:
    """The shape of dates, times or both. Of seven digits of a second Python's types would lose one: such a column is text,
    unless the last digit is to be cut off."""
    day, clock, fraction, offset = found.groups()
    digits = len(fraction or "")
    parts = [DAY] * bool(day) + [CLOCK + (rf"\.[0-9]{{{digits}}}" if digits else "")] * bool(clock)
    pattern = " ".join(parts) + (OFFSET if offset else "")
    if not dates or digits == 7 and dates != "truncate":
        return Shape("moment", pattern, str)
    if not clock:
        return Shape("date", pattern, date.fromisoformat)
    kind: Union[type[datetime], type[time]] = datetime if day else time
    missing, cut = ("." if not digits else "") + "0" * (6 - digits), digits == 7  # `fromisoformat` of each version reads six digits
    if offset:
        return Shape("moment", pattern, lambda field: kind.fromisoformat(field[:-7 - cut] + missing + field[-6:]))
    return Shape("moment", pattern, lambda field: kind.fromisoformat(field[:len(field) - cut] + missing))


def value_of(field: str, dates: Dates = False) -> Value:
    """The value of a field of the text, quotes and all. Raises ValueError if no field looks so."""
    return Converter("", dates).value(field)


class Converter:
    """Makes values of the fields of a column."""

    def __init__(self, name: str, dates: Dates, is_float: bool = False) -> None:
        self.name = name
        self.shape: Optional[Shape] = FLOAT if is_float else None  # once a value has come
        self._dates = dates

    def value(self, field: str) -> Value:
        """The value of a field. Raises ValueError if it isn't like those before it."""
        if field == NULL:
            return None
        self.shape = self.shape or shape_of(field, self._dates)
        if not re.fullmatch(self.shape.pattern, field):
            raise ValueError(f"in the column {self.name!r} {field[:60]!r} is no {self.shape.name}, as those before it are")
        return self.shape.value(field[1:-1].replace('""', '"') if self.shape.is_quoted else field)

    def accept(self, shape: Shape) -> None:
        """Sees to it that a value of a shape is like those before it. Raises ValueError if it isn't."""
        self.shape = self.shape or shape
        if self.shape.name != shape.name:
            raise ValueError(f"in the column {self.name!r} a {shape.name} is no {self.shape.name}, as those before it are")

    def long_value(self, value: Union[str, bytes], shape: Shape) -> Value:
        """The value of a field that was read piece by piece. Raises ValueError if it isn't like those before it."""
        if self.shape is FLOAT and shape is TEXT:
            return _float(str(value))
        self.accept(shape)
        return value

    @property
    def is_quoted(self) -> bool:
        """Whether the fields have quotes around them."""
        return self.shape is not None and self.shape.is_quoted

    def pattern(self) -> str:
        """The pattern of a field in an outline, where each digit is 0."""
        if self.shape is None:
            return NULL
        return f"(?:{QUOTE if self.is_quoted else self.shape.pattern}|{NULL})"

    def values(self, fields: Sequence[Optional[str]]) -> list[Value]:
        """The values of fields, without quotes around them; NULL is None among those that had some. Raises ValueError if one isn't like those
        before. Those that come often are made once."""
        if self.shape is None:
            return [None] * len(fields)
        if self.shape is TEXT:
            return list(fields)
        null = None if self.is_quoted else NULL
        value, some = cast("Callable[[Optional[str]], Value]", self.shape.value), fields[:SOME]
        if value is not str and 2 * len(set(some)) < len(some):
            known = {field: value(field) for field in set(fields) - {null}} | {null: None}
            return list(map(known.__getitem__, fields))
        if null in fields:
            return [None if field == null else value(field) for field in fields]
        return list(fields if value is str else map(value, fields))
