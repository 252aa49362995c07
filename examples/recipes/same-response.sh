#!/bin/sh
# Tells whether two recordings are of one response, whatever the sizes of their packets.
#
# Needs: `python3`.
#
# `recut` writes the payload in packets of one size, and looks at nothing in it, so two files are equal then if their payloads are.
#
# It prints what is the same, and what isn't.
set -eu

tools/response kinds 100 --packet-size 512 > small.tds
tools/response kinds 100 --packet-size 8000 > large.tds
tools/response kinds 99 --packet-size 8000 > other.tds
for name in small large other; do
    tds_replay recut --packet-size 32767 $name.tds > $name.recut 2> $name.notes
done
cmp -s small.recut large.recut && echo "small and large are the same"
cmp -s small.recut other.recut || echo "small and other aren't"
