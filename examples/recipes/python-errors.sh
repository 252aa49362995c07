#!/bin/sh
# Catches a fault of the input and an error of the server in Python.
#
# Needs: `python3`.
#
# They come after the last whole row, and have the number, the name, the place and what was read before. With your own data, put
# your files in place of broken.tds and cut.tds.
#
# It prints the rows before an error of the server, that error, and the fault of a response that was cut.
set -eu

tools/response orders > orders.tds
tools/response broken 2 > broken.tds
head -c 100 orders.tds > cut.tds
python3 - <<'PYTHON'
import gavyreto

for name in "broken.tds", "cut.tds":
    try:
        for row in gavyreto.export(name).only():
            print(row[:3])
    except gavyreto.ServerError as error:
        print("server error", error.number, error.message, "after", error.rows, "rows")
    except gavyreto.Fault as fault:
        print("fault", fault.number, fault.name, "at", fault.where, fault.place, "after", fault.rows, "rows")
PYTHON
