#!/bin/sh
# Exports some tables of a server by four connections, as a job of each night does: a text each, and a table of outcomes.
#
# Needs: `python3`, `openssl`.
#
# On each line of the file a name stands, and behind it a statement, or a table of which all rows are read; alone it is a table.
# `--adapt` rewrites columns that the program refuses, and `--retries` sends a statement again whose connection broke. A table that
# is refused ends nothing: it leaves NAME.csv.partial, and the status is 4. A folder for each night keeps them apart.
#
# With your own server, leave tools/stand-in out, and name your host after -S and your user after -U, or write -E for Kerberos.
#
# It prints the sums, the names, and what the table of outcomes says.
set -eu

for name in orders kinds float; do tools/response $name > $name.tds; done
cat > tables.txt <<'TABLES'
-- name and table, or statement
orders  dbo.orders
kinds
ratios  SELECT * FROM float WHERE ratio IS NULL
TABLES
export SQLCMDPASSWORD=secret
rm -rf tonight
tools/stand-in orders.tds kinds.tds float.tds -- sh -eu <<'SESSION'
python3 -m gavyreto query -S localhost,$PORT -U reader --certificates "$CERTIFICATE" --adapt --tables tables.txt -j 4 --retries 3 -o tonight
SESSION
ls tonight
cut -d, -f1-4 tonight/outcomes.csv | sort
