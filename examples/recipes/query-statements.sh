#!/bin/sh
# Asks a server several statements on one connection, one after the other, each with a file of its own.
#
# Needs: `python3`, `openssl`.
#
# Statements are arguments, or are in files named by `-i` or on standard input, with a line `GO` after each. `{}` in the name after
# `-o` is the number of the statement.
#
# With your own server, leave tools/stand-in out, and name your host after -S and your user after -U.
#
# It prints the report of each statement.
set -eu

tools/response orders > orders.tds
tools/response kinds > kinds.tds
export SQLCMDPASSWORD=secret
printf 'SELECT * FROM orders\nGO\nSELECT * FROM kinds\n' > statements.sql
tools/stand-in orders.tds kinds.tds -- sh -eu <<'SESSION'
python3 -m gavyreto query -S localhost,$PORT -U reader --certificates "$CERTIFICATE" -i statements.sql -o live{}.csv
SESSION
for name in orders kinds; do tds_replay export $name.tds > $name.csv 2> $name.notes; done
cmp live1.csv orders.csv
cmp live2.csv kinds.csv
