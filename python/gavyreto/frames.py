"""The rows of a result set as a DataFrame of pandas, typed by the columns. It is imported where a frame is asked for, as pandas is here."""
from __future__ import annotations

from typing import Any, Callable, Optional, cast

import pandas  # type: ignore[import]  # first: it brings numpy
import numpy

from gavyreto.columns import Column
from gavyreto.text import Columns, ResultSet
from gavyreto.values import Value

KINDS = {
    "tinyint": "UInt8", "smallint": "Int16", "int": "Int32", "bigint": "Int64", "bit": "UInt8", "char": "string", "nchar": "string",
    "varchar": "string", "nvarchar": "string", "text": "string", "ntext": "string", "xml": "string", "sql_variant": "string",
    "float": "float64", "real": "float32",
}
MOMENTS = ("date", "smalldatetime", "datetime", "datetime2")
GREATEST = 2**63 - 1  # of a whole number of pandas


class Gathered:
    """The values of a column, in an array for each batch of rows, and then as a series. Values that a batch has often are held once."""

    def __init__(self, column: Optional[Column], is_dated: bool) -> None:
        kind = column.kind if column else ""
        self._kind = KINDS.get(kind, "")
        self._is_whole, self._is_float = "Int" in self._kind, "float" in self._kind
        self._is_known = column is not None
        self._is_moment = is_dated and kind in MOMENTS
        self._parts: list[Any] = []
        self._types: set[type] = set()  # of the values of a column whose type in SQL isn't known
        self._greatest = 0

    def add(self, values: list[Value]) -> None:
        if self._is_float:
            self._parts.append(numpy.array(values, dtype="float64"))  # None becomes NaN, which no float of a server is
        elif self._is_whole:
            self._parts.append(_whole_numbers(values, self._kind))
        else:
            self._parts.append(_objects(values))
            self._types |= set() if self._is_known else set(map(type, values)) - {type(None)}
            if self._types == {int}:
                self._greatest = max(self._greatest, *(abs(value) for value in values if isinstance(value, int)), 0)

    def values(self) -> list[Value]:
        """The values again, with the types that they had."""
        values = (value for part in self._parts for value in numpy.asarray(part, dtype=object).tolist())
        return [None if value is pandas.NA or value != value else value for value in values]

    def series(self) -> Any:
        if self._is_whole:
            return pandas.concat([pandas.Series(part) for part in self._parts], ignore_index=True) if self._parts else pandas.Series([], dtype=self._kind)
        whole = numpy.concatenate(self._parts) if self._parts else numpy.array([], dtype="float64" if self._is_float else object)
        self._parts = [whole]
        if self._is_moment:
            return _moments(whole)
        return pandas.Series(whole, dtype=self._kind or self._kind_by_values())

    def _kind_by_values(self) -> str:
        """The type of a column in pandas, where it isn't given by that in SQL."""
        if self._types == {int} and self._greatest <= GREATEST:
            return "Int64"
        return "string" if self._types == {str} else "object"


def _whole_numbers(values: list[Value], kind: str) -> Any:
    """Whole numbers and NULL as pandas has them."""
    try:
        numbers = numpy.fromiter(cast("list[int]", values), dtype=kind.lower(), count=len(values))
        mask = numpy.zeros(len(values), dtype=bool)
    except TypeError:  # for NULL
        objects = numpy.fromiter(values, dtype=object, count=len(values))
        mask = objects == None  # noqa: E711 - each of them
        objects[mask] = 0
        numbers = objects.astype(kind.lower())
    return pandas.arrays.IntegerArray(numbers, mask)


def _objects(values: list[Value]) -> Any:
    """Values as objects; equal texts and binary values are one."""
    if isinstance(next((value for value in values if value is not None), None), (str, bytes)):
        known: dict[Value, Value] = {}
        values = list(map(known.setdefault, values, values))
    return numpy.fromiter(values, dtype=object, count=len(values))


def _moments(values: Any) -> Any:
    """Dates and times of a column; they stay objects if one is out of the range that pandas has."""
    try:
        return pandas.Series(pandas.to_datetime(pandas.Series(values, dtype=object))).astype("datetime64[ns]")
    except ValueError:
        return pandas.Series(values, dtype=object)


def frame_of(rows: ResultSet, made: Callable[[Any], Any] = lambda frame: frame) -> Any:
    """A DataFrame with the rows that are left of a set, or what is made of it."""
    described = dict(enumerate(rows.columns or []))
    gathered = [Gathered(described.get(place), rows.is_dated) for place in range(len(rows.names))]

    def take(columns: Columns) -> None:
        for it, values in zip(gathered, columns):
            it.add(values)

    def frame() -> Any:
        frame = pandas.DataFrame({place: it.series() for place, it in enumerate(gathered)})
        frame.columns = pandas.Index(rows.names)
        return made(frame)

    return rows.each(take, lambda: [it.values() for it in gathered], frame)
