"""Rewrites a recorded response whose columns tds_replay refuses, with types that it reads; and those behind it, one after the other.

float and real become varchar, with the shortest text that reads back to the same bits; xml and ntext become nvarchar(max), text
becomes varchar(max), image and CLR types varbinary(max), and sql_variant nvarchar(max), with the text of its base type. Everything
else is copied byte for byte, and so is a response without such columns, with its packets. A value of any length goes through in
pieces.

The status is 0; 4 if the response ends too early or can't be followed, after everything before that point was written; 5 if a read
or a write failed; 2 if the arguments are refused. The file of -o gets its name when it is whole; until then it has .partial behind it."""
from __future__ import annotations

import argparse
import os

from gavyreto.adapting import Adapter
from gavyreto.commands.common import (
    STANDARD_ERROR, STANDARD_OUTPUT, STREAMS, Once, Stopped, is_one_file, named, needed, open_response, parser_of,
)
from gavyreto.places import Opened, Place, are_shared, place_of, stats_of
from gavyreto.program import BAD_INPUT, CHARSETS, REFUSED


def arguments(words: list[str]) -> argparse.Namespace:
    parser = parser_of("adapt", __doc__)
    parser.add_argument("-o", "--output", metavar="FILE", type=named, action=Once, help="file to write (default: standard output)")
    parser.add_argument("--charset", choices=CHARSETS, default=CHARSETS[0], help="character set of char and varchar within a sql_variant")
    parser.add_argument("file", metavar="FILE", nargs="?", type=named, default="-", help="the response (default, or -: standard input)")
    return parser.parse_args(words)


def check(place: Place, source: int) -> None:
    """Raises `Stopped` if what is read or written elsewhere would be lost in a place, or it can't be written."""
    for number, what in ((source, "the response is read from"), (STANDARD_ERROR, "the lines are written to"), (STANDARD_OUTPUT, "standard output is written to")):
        if are_shared(stats_of(number), stats_of(*place.names())) if place.path else number == source and is_one_file(place.descriptor, number):
            raise Stopped(f"{place.name}: {what} it", REFUSED)
    place.check()


def adapt(asked: argparse.Namespace) -> None:
    place = place_of(asked.output) if asked.output else Place(STREAMS[STANDARD_OUTPUT], needed(STANDARD_OUTPUT))
    if not asked.output and os.isatty(STANDARD_OUTPUT):
        raise Stopped(f"{place.name} is a terminal, and packets aren't text: > FILE or -o FILE takes them", REFUSED)
    with open_response(asked.file) as source:
        check(place, source.fileno())
        output, is_more = Opened(place), True
        try:
            while is_more:
                Adapter(source.read, output.write, asked.charset).run()
                is_more = bool(source.peek(1))
            output.close(True)
        finally:
            output.close(False)


def run(words: list[str]) -> int:
    """The command `adapt`. Returns its exit status, or raises what ended it."""
    asked = arguments(words)
    try:
        adapt(asked)
    except ValueError as wrong:
        raise Stopped(f"the response can't be followed: {wrong}", BAD_INPUT) from None
    return 0
