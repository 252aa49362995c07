#!/bin/sh
# Asks a server from Python: one statement, and several on one connection.
#
# Needs: `python3`, `openssl`.
#
# `gavyreto.query` yields the sets of the answer; `gavyreto.connect` keeps a connection for several statements, of which each
# answer is read to its end before the next statement.
#
# The server here is tools/stand-in, with its port and its certificate in the environment. With your own, put its name, port,
# user and password into `server`; `certificates` is for authorities that the system doesn't trust.
#
# It prints three rows, and how many rows two statements on one connection have.
set -eu

tools/response orders > orders.tds
tools/response kinds > kinds.tds
cat > asking.py <<'PYTHON'
import os
import gavyreto

server = dict(server="localhost", port=int(os.environ["PORT"]), user="reader", password="secret", certificates=os.environ["CERTIFICATE"])
with gavyreto.query("SELECT * FROM orders", **server) as answer:
    for row in answer.only():
        print(row[:3])
with gavyreto.connect(**server) as connection:
    for name in "orders", "kinds":
        print(name, len(list(connection.query(f"SELECT * FROM {name}").only())), "rows")
PYTHON
tools/stand-in orders.tds kinds.tds -- python3 asking.py
