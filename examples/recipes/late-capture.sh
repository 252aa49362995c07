#!/bin/sh
# Exports the responses in a capture of the network that was begun within a connection.
#
# Needs: `python3`.
#
# tools/capture makes two captures of one connection with two requests: one from the connection's beginning, and one that
# begins between the first request and its answer. Their texts are the same. With a capture of your own, the line of `gavyreto`
# is enough.
#
# It prints the status of `gavyreto capture` for each: 3, since the second response has an error of the server; 4 for the late one,
# since nothing in it shows that its first response has no beginning before it.
set -eu

tools/response kinds 100 > first.tds
tools/response error > second.tds
tools/capture first.tds second.tds > whole.pcap
tools/capture --late first.tds second.tds > late.pcap
for name in whole late; do
    rm -rf "captured-$name"
    python3 -m gavyreto capture "$name.pcap" "captured-$name" > "$name.table" 2> "$name.notes" || echo "$name: status $?"
done
diff -r captured-whole captured-late
