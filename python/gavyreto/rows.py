"""A row of a result set: a tuple whose values have the names of their columns too."""
from __future__ import annotations

import functools
from collections import Counter
from operator import itemgetter
from typing import TYPE_CHECKING, Any

from gavyreto.values import Value

FEW = 1000  # columns: the types of sets with more take megabytes each


class Row(tuple[Value, ...]):
    """The values of a row. `row.name` is that of the column `name`, if one column alone has it; `getattr` reads names that
    Python's syntax doesn't have."""

    __slots__ = ()
    __names__: tuple[str, ...] = ()

    if TYPE_CHECKING:
        def __getattr__(self, name: str) -> Any: ...

    def __reduce__(self) -> tuple[Any, ...]:
        return _restored, (type(self).__names__, tuple(self))


def row_type(names: tuple[str, ...]) -> type[Row]:
    """The type of the rows of a set with these columns; of those that were asked for last it is the same."""
    return (_of_few if len(names) <= FEW else _of_many)(names)


def _made(names: tuple[str, ...]) -> type[Row]:
    """The same, made anew. Python's own names, as `__len__`, stay."""
    counts = Counter(names)
    fields: dict[str, Any] = {
        name: property(itemgetter(place)) for place, name in enumerate(names)
        if counts[name] == 1 and not name.startswith("__")
    }
    return type("Row", (Row,), {**fields, "__slots__": (), "__names__": names})


_of_few, _of_many = functools.lru_cache(maxsize=100)(_made), functools.lru_cache(maxsize=2)(_made)


def _restored(names: tuple[str, ...], values: tuple[Value, ...]) -> Row:
    return row_type(names)(values)
