#!/bin/sh
# Exports the responses in the dump of a client of FreeTDS, also where all is encrypted.
#
# Needs: `python3`, `openssl`, `tsql`.
#
# A client of FreeTDS (`tsql`, `freebcp`, pymssql, PHP's and Perl's drivers on it) writes each packet that it sends and receives
# to the file that the variable TDSDUMP names, before encryption and after decryption. The dump has the statements and all rows
# in it: keep it as you would keep those.
#
# The client here is `tsql`, and the server tools/stand-in, which encrypts all. With your own, set TDSDUMP in the environment
# of your client, and give the dump to `gavyreto capture`, as in the last line.
#
# It prints the table of `gavyreto capture`, with a line for each of two responses. Their texts are in the folder `dumped`.
set -eu

tools/response orders > orders.tds
tools/response sets > sets.tds
printf '[global]\ntds version = 7.4\nencryption = require\n' > freetds.conf
printf 'SELECT * FROM orders\ngo\nSELECT * FROM sets\ngo\nexit\n' > statements
rm -rf dumped dump.log
export FREETDSCONF="$PWD/freetds.conf" TDSDUMP="$PWD/dump.log"
tools/stand-in --encrypt all --seconds 30 orders.tds sets.tds -- sh -eu <<'SESSION'
tsql -H 127.0.0.1 -p "$PORT" -U reader -P secret < statements > tsql.out 2> tsql.notes
SESSION
python3 -m gavyreto capture dump.log dumped
