#!/bin/sh
# Shows the progress of a long export.
#
# Needs: `python3`, `pv`.
#
# `pv` copies its file to the program and shows on the terminal how much of it is read, how fast, and how long the rest will
# take. With your own data, put your file in place of long.tds. Of a live query only the text can be counted, since nobody knows
# its length before its end: `gavyreto query .. | pv > rows.csv` shows the bytes and their rate, and `pv --line-mode` the lines.
#
# It prints the report of the export, below the progress if standard error is a terminal.
set -eu

tools/response long 50000000 > long.tds
pv long.tds | tds_replay export > long.csv
