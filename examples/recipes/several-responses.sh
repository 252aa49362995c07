#!/bin/sh
# Exports response after response from one standard input, each to a text of its own.
#
# Needs: `python3`.
#
# Of standard input `tds_replay export` reads one response and not one byte more, so a loop reads all of them. What its status
# means there, and what comes next on the input:
#
#   0                           the rows and the report are whole; the next response
#   3                           the same, and the server reported an error: fewer rows may have come than were asked for; the next
#                               response
#   4, InputEnded at wire 0     the input is over, or holds less than one packet; nothing
#   4, another fault            the rows up to the fault are written; in general the rest of this response, from which `export`
#                               can't go on
#   5                           a read or a write failed; not known
#   2, 6                        the words were refused, or memory wasn't to be had: nothing was read; the same response
#
# If a response that is refused shouldn't end the loop, `recut` takes each message off the input first, as in the second loop. It
# doesn't look at the payload, so what is wrong in a response stays in its file.
#
# With your own data, take a loop with your file in place of the stream after its `done`; a socket that blocks is read as well.
#
# It prints the status and the report of three responses and of the input's end, and then the lines of two responses of which
# the first is refused.
set -eu

{ tools/response kinds; tools/response error; tools/response sets; } > stream.bin
number=0
while :; do
    status=0
    tds_replay export > answer.$number.csv 2> answer.$number.notes || status=$?
    case $status in
        0 | 3) echo "answer $number: status $status, $(head -n 1 answer.$number.notes)" ;;
        *) break ;;
    esac
    number=$((number + 1))
done < stream.bin
echo "end: status $status, $(cat answer.$number.notes)"

{ tools/response float; tools/response sets; } > stream.bin
while tds_replay recut --packet-size 4096 > next.tds 2> next.notes; do
    tds_replay export next.tds > next.csv || echo "status $?"
done < stream.bin
