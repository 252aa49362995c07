"""Prints the columns of a recorded response, and of those behind it: as CSV, or as statements that create tables for the rows.

The CSV has a line for each column of each result set: name, type as SQL writes it, length, precision, scale, and whether NULL is
allowed. With --as sqlite or --as postgresql each set gives a CREATE TABLE whose columns hold everything that `gavyreto.export`
returns.

The status is 0; 4 if the response ends too early or can't be followed; 5 if it can't be read; 2 if the arguments are refused, or if
the names of the columns don't make a table."""
from __future__ import annotations

import argparse
from io import BufferedReader

from gavyreto.columns import TABLES, Column, create_table
from gavyreto.commands.common import STANDARD_OUTPUT, Once, Stopped, line, named, needed, open_response, parser_of, put
from gavyreto.payload import Payload, columns_of
from gavyreto.program import BAD_INPUT, REFUSED

HEADER = ("set", "name", "type", "length", "precision", "scale", "nullable")


def arguments(words: list[str]) -> argparse.Namespace:
    parser = parser_of("columns", __doc__)
    parser.add_argument("--as", dest="form", choices=["csv", *TABLES], default="csv", help="form of the output (default: csv)")
    parser.add_argument(
        "--table", metavar="NAME", type=named, action=Once,
        help="with --as, the name of the table, or SCHEMA.NAME (default: response; response{} for several sets); {} is the number of "
             "the set, from 1")
    parser.add_argument("file", metavar="FILE", nargs="?", type=named, default="-", help="the response (default, or -: standard input)")
    asked = parser.parse_args(words)
    if asked.table and asked.form == "csv":
        parser.error(f"--table needs --as {' or --as '.join(TABLES)}")
    return asked


def as_csv(sets: list[list[Column]]) -> str:
    lines = [line(HEADER)]
    for number, columns in enumerate(sets, 1):
        lines += [line((number, it.name, it.type, it.length, it.precision, it.scale, int(it.nullable))) for it in columns]
    return "".join(lines)


def as_tables(sets: list[list[Column]], asked: argparse.Namespace) -> str:
    """Raises ValueError if there is no table for a set."""
    table = asked.table or ("response" if len(sets) < 2 else "response{}")
    if len(sets) > 1 and "{}" not in table:
        raise ValueError(f"{len(sets)} sets, and one table: a name with {{}} gets the number of each")
    return "".join(create_table(table.replace("{}", str(number)), columns, TABLES[asked.form]) for number, columns in enumerate(sets, 1))


def sets_of(file: BufferedReader) -> list[list[Column]]:
    """The sets of a response, and of those behind it."""
    sets: list[list[Column]] = []
    is_more = True
    while is_more:
        sets += columns_of(Payload(file.read))
        is_more = bool(file.peek(1))
    return sets


def run(words: list[str]) -> int:
    """The command `columns`. Returns its exit status, or raises what ended it."""
    asked = arguments(words)
    needed(STANDARD_OUTPUT)
    try:
        with open_response(asked.file) as file:
            sets = sets_of(file)
    except ValueError as wrong:
        raise Stopped(f"the response can't be followed: {wrong}", BAD_INPUT) from None
    try:
        put(as_csv(sets) if asked.form == "csv" else as_tables(sets, asked))
    except ValueError as refused:
        raise Stopped(str(refused), REFUSED) from None
    return 0
