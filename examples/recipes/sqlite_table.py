"""Loads a response of one set into a new table of SQLite, or changes nothing.

    python3 examples/recipes/sqlite_table.py RESPONSE DATABASE TABLE

Needs: `python3`, Python's `sqlite3`.

SQLite has whole numbers of 64 bits and no decimals, so decimals are stored as text with all their digits. NULL is NULL, and
binary values are blobs. Columns without a name, or two of one name, need names of your own in the query. A response with a
second set is refused.

It prints nothing, or a line with what is wrong or missing, with status 1."""
import sqlite3
import sys
from decimal import Decimal

import gavyreto
from gavyreto.columns import create_table, sqlite_type, table_name


def stored(value):
    if isinstance(value, Decimal):
        return f"{value:f}"
    return str(value) if isinstance(value, int) and abs(value) >= 2**63 else value


if len(sys.argv) != 4:
    sys.exit("usage: sqlite_table.py RESPONSE DATABASE TABLE")
response, database, table = sys.argv[1:]
try:
    connection = sqlite3.connect(database)
except sqlite3.Error as stop:
    sys.exit(f"{database}: {stop}")
try:
    with connection, gavyreto.export(response) as sets:
        rows = sets.only()
        connection.execute("BEGIN")
        connection.execute(create_table(table, rows.columns, sqlite_type))
        marks = ", ".join("?" * len(rows.names))
        connection.executemany(f"INSERT INTO {table_name(table)} VALUES ({marks})", (list(map(stored, row)) for row in rows))
except sqlite3.Error as stop:
    sys.exit(f"{database}: {stop}")
except (gavyreto.Error, OSError, ValueError) as stop:
    sys.exit(f"{response}: {stop}")
finally:
    connection.close()
