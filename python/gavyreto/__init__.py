"""Rows of SQL Server's responses as Python values, read by the program tds_replay.

    import gavyreto

    with gavyreto.export("response.tds") as response:
        for result_set in response:
            print(result_set.names)
            for row in result_set:
                print(row)
    print(response.report)

`export` runs the program on the packets of one response and yields its result sets and their rows while they come. `read`
does the same with a text that the program wrote before, and `query` with the answer of a server. They hold some rows at a
time, of a few hundred kilobytes of text; a value that is longer is held once, and for a moment twice.

Values are exact:

    whole numbers, bit                          int
    decimal, numeric, money, smallmoney         Decimal, or int if the scale is 0
    char, varchar, nchar, nvarchar              str
    binary, varbinary, rowversion               bytes
    dates, times, uniqueidentifier              str as the program writes them, or with `dates=True`
                                                date, time, datetime, UUID
    NULL                                        None

All values of a column have one type. Python's times have six digits of a second: with `dates=True` a column of seven, as
datetime2(7), stays text, so that nothing is lost; `dates="truncate"` cuts the seventh off. A datetimeoffset is a datetime with its
own offset. A row is a tuple, and `row.name` is its value in the column `name`.

A connection is one of Python's DB-API (PEP 249) too, by `cursor`; one thread at a time reads from it, and a second one is refused.

Python 3.9 or later, standard library alone. `python3 -m gavyreto` has commands for a terminal."""
from __future__ import annotations

TYPE_CHECKING = False  # as typing has it, which isn't imported for it: a command begins with this module
if TYPE_CHECKING:
    from typing import Any

    from gavyreto.client import Connection, Cursor, connect, query
    from gavyreto.errors import (
        BadAnswer, CertificateRefused, ConnectionFailed, DatabaseError, DataError, EncryptionRefused, Error, Fault, IntegrityError,
        InterfaceError, InternalError, Interrupted, LoginRefused, MalformedText, NotOneSet, NotSupportedError, OperationalError, PassedOver,
        ProgramFailed, ProgrammingError, Report, ServerError, TimedOut, UnfinishedAnswer, UnfinishedText, Warning,
    )
    from gavyreto.response import Response, Source, export
    from gavyreto.rows import Row
    from gavyreto.text import ResultSet, Sets, read
    from gavyreto.values import Value, value_of
    from gavyreto.version import __version__

__all__ = [
    "export", "read", "query", "connect", "value_of", "Connection", "Cursor", "Sets", "Response", "ResultSet", "Row", "Report", "Value",
    "Source", "Error", "Fault", "ServerError", "ProgramFailed", "NotOneSet", "UnfinishedAnswer", "UnfinishedText", "MalformedText",
    "PassedOver", "Interrupted", "ConnectionFailed", "TimedOut", "CertificateRefused", "EncryptionRefused", "LoginRefused", "BadAnswer",
    "Warning", "InterfaceError", "DatabaseError", "OperationalError", "InternalError", "ProgrammingError", "NotSupportedError", "DataError",
    "IntegrityError", "apilevel", "threadsafety", "paramstyle", "__version__",
]
# As Python's DB-API has them (PEP 249): threads may share the module, and no connection; statements have no parameters.
apilevel, threadsafety, paramstyle = "2.0", 1, "qmark"
_MODULES = ["errors", "version", "values", "rows", "text", "response", "client"]


def __getattr__(name: str) -> Any:
    """A name of `__all__`, imported when it is first asked for: so a command imports no more than it uses."""
    import importlib

    if name in __all__:
        for module in _MODULES:
            found = importlib.import_module(f"gavyreto.{module}")
            if hasattr(found, name):
                globals()[name] = getattr(found, name)
                return globals()[name]
    raise AttributeError(f"module 'gavyreto' has no attribute {name!r}")


def __dir__() -> list[str]:
    return sorted({*globals(), *__all__})
