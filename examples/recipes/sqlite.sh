#!/bin/sh
# Loads a response with a column of each kind into SQLite, and shows that one with several sets changes nothing.
#
# Needs: `python3`, `sqlite3`, Python's `sqlite3`.
#
# sqlite_table.py, beside this script, loads them. With your own data, the line that runs it is enough: it takes the response, the
# database and a name for the table.
#
# It prints five columns of three rows, the line of the response that is refused, and the tables that are there in the end.
set -eu

tools/response kinds > kinds.tds
tools/response sets > sets.tds
rm -f kinds.db
python3 examples/recipes/sqlite_table.py kinds.tds kinds.db kinds
sqlite3 kinds.db "SELECT quote(whole_or_null), quote(total), quote(day), quote(name), quote(hash) FROM kinds"
python3 examples/recipes/sqlite_table.py sets.tds kinds.db sets || echo "status $?"
sqlite3 kinds.db .tables
