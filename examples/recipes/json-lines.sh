#!/bin/sh
# Writes each set of a response as JSON lines, and as a table of SQLite of its own.
#
# Needs: `python3`, `sqlite3`, Python's `sqlite3` (`libpython3-stdlib`).
#
# What was there is replaced once all of the response is read and accepted; until then the lines have .partial behind their names.
#
# NULL is null and NULL, apart from the text `NULL`. Decimals and dates are texts with all digits, since JSON and SQLite have no
# types for them, and binary values are their hexadecimal digits in JSON.
#
# It prints the lines of the first set, and a row of each table.
set -eu

tools/response sets > sets.tds
python3 - <<'PYTHON'
import json
import os
import sqlite3
from decimal import Decimal

import gavyreto
from gavyreto.columns import create_table, sqlite_type


def spelt(value):
    return value.hex() if isinstance(value, bytes) else f"{value:f}" if isinstance(value, Decimal) else str(value)


def stored(value):
    return spelt(value) if isinstance(value, Decimal) else value


with gavyreto.export("sets.tds") as response, sqlite3.connect("sets.db") as database:
    database.execute("BEGIN")
    for number, rows in enumerate(response, 1):
        database.execute(f'DROP TABLE IF EXISTS "set{number}"')
        database.execute(create_table(f"set{number}", rows.columns, sqlite_type))
        with open(f"set{number}.jsonl.partial", "w", encoding="utf-8") as file:
            for row in rows:
                print(json.dumps(dict(zip(rows.names, row)), default=spelt, ensure_ascii=False), file=file)
                database.execute(f'INSERT INTO "set{number}" VALUES ({", ".join("?" * len(row))})', [stored(value) for value in row])
for number in range(1, response.sets + 1):
    os.replace(f"set{number}.jsonl.partial", f"set{number}.jsonl")
PYTHON
cat set1.jsonl
sqlite3 sets.db "SELECT id, quote(note) FROM set1 WHERE id = 2; SELECT quote(total) FROM set2; SELECT count(*) FROM set3"
