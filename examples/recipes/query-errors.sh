#!/bin/sh
# Shows what `gavyreto query` says and ends with when something goes wrong.
#
# Needs: `python3`, `openssl`.
#
# The server here is tools/stand-in, with its port and its certificate in the environment, and a password of its own. With a
# server of yours, take a line of `query` with its name and your user.
#
# It prints the line and the status of four queries: the first finds a certificate that isn't trusted, the second is refused the
# login, the third can't open its output, and so sends nothing, and the answer to the fourth has an error of the server. What
# came before that error is in broken.csv.
set -eu

tools/response broken > broken.tds
export SQLCMDPASSWORD=secret
tools/stand-in --password another broken.tds -- sh -u <<'SESSION' || echo "status $?"
query="python3 -m gavyreto query -S localhost,$PORT -U reader"
$query "SELECT 1" || echo "status $?"
$query --certificates "$CERTIFICATE" "SELECT 1" || echo "status $?"
export SQLCMDPASSWORD=another
$query --certificates "$CERTIFICATE" -o nothere/rows.csv "DELETE FROM orders" || echo "status $?"
$query --certificates "$CERTIFICATE" "SELECT * FROM broken" > broken.csv
SESSION
