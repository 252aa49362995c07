#!/bin/sh
# Keeps what a server sends to a client, by a proxy between them, and exports the responses in it.
#
# Needs: `python3`, `openssl`, `socat`, `tsql`.
#
# `socat` takes a client's connection, opens one to the server, passes on all bytes of both, and keeps those of the server in
# the file after -R; `gavyreto capture` reads what it kept. No capture of the network is needed, and no right to make one. It
# takes one connection here; with `fork` after the port it takes many, and mixes their bytes in one file. Only the login is
# encrypted: where all is, the proxy sees no rows.
#
# The client here is `tsql` of FreeTDS, and the server tools/stand-in, whose port is in PORT. With your own, two lines are
# enough: that of `socat`, with the server's name and port, 1433, in place of 127.0.0.1:$PORT, and that of `gavyreto`. Let the
# client connect to the port after TCP-LISTEN.
#
# It prints the table of `gavyreto capture`, with a line for each of two responses. Their texts are in the folder `proxied`.
set -eu

rm -rf proxied proxied.bin
tools/response orders > orders.tds
tools/response sets > sets.tds
printf '[global]\ntds version = 7.4\nencryption = request\n' > freetds.conf
export FREETDSCONF="$PWD/freetds.conf"
tools/stand-in --seconds 30 orders.tds sets.tds -- sh -eu <<'SESSION'
listen=$(python3 -c 'import socket; print(socket.create_server(("127.0.0.1", 0)).getsockname()[1])')
timeout 30 socat -R proxied.bin "TCP-LISTEN:$listen,bind=127.0.0.1" "TCP:127.0.0.1:$PORT" &
until printf 'SELECT * FROM orders\ngo\nSELECT * FROM sets\ngo\nexit\n' | tsql -H 127.0.0.1 -p "$listen" -U reader -P secret; do
    sleep 0.1
done > tsql.out 2> tsql.notes
wait
SESSION
python3 -m gavyreto capture proxied.bin proxied
