"""Writes the rows of a response as COPY of PostgreSQL reads them, with the options FORMAT csv, NULL 'NULL'.

    python3 examples/recipes/postgresql_copy.py RESPONSE > rows.copy

Needs: `python3`.

It prints a line for each row of the one set of the response, for the table that `gavyreto columns --as postgresql` makes. Binary
values are bytea there, which COPY reads after `\\x`. `time(7)` and `datetime2(7)` stay text, since PostgreSQL rounds to six
digits, and a `datetimeoffset` too, since `timestamptz` keeps the moment and not the offset."""
import sys
from decimal import Decimal

import gavyreto


def copied(value):
    if isinstance(value, bytes):
        return "\\x" + value.hex()
    if isinstance(value, str):
        return '"' + value.replace('"', '""') + '"'
    return "NULL" if value is None else f"{value:f}" if isinstance(value, Decimal) else str(value)


sys.stdout.reconfigure(encoding="utf-8")  # whatever the environment says
for row in gavyreto.export(sys.argv[1]).only():
    print(",".join(map(copied, row)))
