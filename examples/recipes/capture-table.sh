#!/bin/sh
# Makes a typed table, and one of pandas, of what a client and a server say on the network.
#
# Needs: `python3`, `openssl`, `tsql`, `tcpdump`, Python's `pandas`.
#
# Three commands are enough with your own server, whose port is 1433:
#
#     tcpdump -i any -s 0 -B 65536 -w orders.pcap 'tcp port 1433'
#     gavyreto capture --packets --adapt orders.pcap captured
#     python3 -c 'import gavyreto; print(gavyreto.export("captured/NAME.tds").only().frame())'
#
# `-s 0` keeps whole frames, and `-i any` those of all interfaces; `tcpdump` needs the right to read them. `-B 65536` is room for 64 MB
# of frames that wait to be written: what has no room is lacking in the capture, and `tcpdump` says how many those were. With --packets
# the packets of each response are beside its text, for all that reads a response; with --adapt columns that are refused are rewritten.
#
# The client here is `tsql`, and the server tools/stand-in, whose port is in PORT.
#
# It prints the types of the columns in SQL and in pandas.
set -eu

rm -rf orders.pcap captured tcpdump.notes
tools/response orders > orders.tds
printf '[global]\ntds version = 7.4\nencryption = request\n' > freetds.conf
export FREETDSCONF="$PWD/freetds.conf"
tools/stand-in --seconds 60 orders.tds -- sh -eu <<'SESSION'
tcpdump -i any -s 0 -B 65536 -U --immediate-mode -w orders.pcap "tcp port $PORT" 2> tcpdump.notes &
until grep -qs 'listening on' tcpdump.notes; do
    kill -0 $! || { cat tcpdump.notes; exit 1; }
    sleep 0.1
done
printf 'SELECT * FROM orders\ngo\nexit\n' | tsql -H 127.0.0.1 -p "$PORT" -U reader -P secret > tsql.out 2> tsql.notes
until [ "$(tcpdump -r orders.pcap 'tcp[tcpflags] & tcp-fin != 0' 2> reading.notes | wc -l)" -ge 2 ]; do
    sleep 0.1
done
kill $!
python3 -m gavyreto capture --packets --adapt --port "$PORT" orders.pcap captured > captured.table 2> captured.notes
SESSION
python3 -m gavyreto columns captured/*.1.tds
python3 -c 'import glob, gavyreto; print(gavyreto.export(*glob.glob("captured/*.1.tds")).only().frame().dtypes.to_string())'
