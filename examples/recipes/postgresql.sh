#!/bin/sh
# Loads responses into PostgreSQL: one straight from its text, and one with a column of each kind.
#
# Needs: `python3`, `initdb`, `pg_ctl` (`postgresql`), `psql` (`postgresql-client`), a user that isn't root.
#
# `gavyreto columns` makes the table, and `psql` loads the text of `tds_replay` as it is; the options of `\copy` keep NULL and the
# text `NULL` apart. Binary values alone are written otherwise there: rows with them are those of postgresql_copy.py, beside this
# script. PostgreSQL refuses two things with an error: text with the character U+0000, which
# SQL Server allows, and by `\copy` (seen with psql 15) a value in which a line is `\.`, which it takes for the end. `COPY kinds
# FROM` a path on the server's machine, with the same options, reads such a line.
#
# The server here is one of its own, in the folder `postgresql`, reached by a socket in this folder, and stopped at the end of the
# brackets. Debian's package keeps `initdb` and `pg_ctl` off the path, in a folder of the version. With a server of yours the
# lines of `gavyreto`, postgresql_copy.py and `psql` are enough.
#
# It prints the rows of the first, and eight columns of the three rows of the second.
set -eu

tools/response orders > orders.tds
tds_replay export orders.tds > orders.csv 2> orders.notes
python3 -m gavyreto columns --as postgresql --table orders orders.tds > orders.sql
cat >> orders.sql <<'SQL'
\copy orders FROM 'orders.csv' WITH (FORMAT csv, HEADER, NULL 'NULL')
\pset null (null)
\pset tuples_only on
\pset format unaligned
SELECT id, customer, total, ordered, replace(note, E'\r\n', '/') FROM orders;
SQL
tools/response kinds > kinds.tds
python3 -m gavyreto columns --as postgresql --table kinds kinds.tds > kinds.sql
python3 examples/recipes/postgresql_copy.py kinds.tds > kinds.copy
cat >> kinds.sql <<'SQL'
\copy kinds FROM 'kinds.copy' WITH (FORMAT csv, NULL 'NULL')
\pset null (null)
\pset tuples_only on
\pset format unaligned
SELECT whole_or_null, flag_or_null, cash_or_null, total, moment_or_null, zoned, name, hash FROM kinds;
SQL
for folder in /usr/lib/postgresql/*/bin; do PATH=$PATH:$folder; done
rm -rf postgresql
(
    initdb -D postgresql -A trust -E UTF8 --locale=C > initdb.log
    trap 'pg_ctl -D postgresql -m fast stop > stop.log' EXIT
    pg_ctl -D postgresql -w -l server.log -o "-c listen_addresses= -k '$PWD'" start > start.log
    psql -X -q -h "$PWD" -d postgres -v ON_ERROR_STOP=1 -f orders.sql -f kinds.sql
)
