#!/bin/sh
# Exports a value that is larger than memory may be, and turns its text back into bytes.
#
# Needs: `python3`, `sha256sum`.
#
# A value of `varbinary(max)`, `varchar(max)` or `nvarchar(max)` goes through in pieces, however long it is: the program holds as
# much for 200 megabytes as for two. What reads the text after it has to go by pieces too, as binary_value.py, beside this script,
# does; a CSV reader would hold the whole field. With your own data, the line of `tds_replay` is enough.
#
# The peak of resident memory is told by /usr/bin/time. If that isn't there, Python tells it; its figure then holds what
# Python itself had when it started the program.
#
# It prints the peaks for two lengths, and fails if that of the longer value is a megabyte above that of the shorter one.
set -eu

cat > peak.py <<'PYTHON'
"""Runs a command, and adds its peak of resident memory, in kilobytes, to the file `peak`."""
import resource
import subprocess
import sys

status = subprocess.run(sys.argv[1:]).returncode
with open("peak", "a") as peak:
    print(resource.getrusage(resource.RUSAGE_CHILDREN).ru_maxrss, file=peak)
sys.exit(status)
PYTHON
measure="python3 peak.py"
if /usr/bin/time -a -o peak -f %M true 2> /dev/null; then measure="/usr/bin/time -a -o peak -f %M"; fi
rm -f peak
for length in 2000000 200000000; do
    tools/response long $length | $measure tds_replay export 2> long.notes | python3 examples/recipes/binary_value.py | sha256sum > came
    tools/response value $length | sha256sum | cmp - came
    echo "a value of $length bytes: peak $(tail -n 1 peak) kilobytes"
done
test $(($(tail -n 1 peak) - $(head -n 1 peak))) -lt 1024
