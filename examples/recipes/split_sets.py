"""Splits the text of several result sets on standard input into set1.csv, set2.csv and so on, byte for byte.

    tds_replay export response.tds | python3 examples/recipes/split_sets.py

Needs: `python3`.

An empty line separates two sets. But a value can also hold an empty line, so the text is read as CSV: only where a record ends,
an empty line is the end of a set. A row never looks so, since each value has at least one character: NULL is `NULL`, empty text
is `""`, and an empty binary value is `0x`. The lines are written as they were read, so quotes, `NULL` and line ends stay as they
are. It prints nothing, or a line with what is wrong, with status 1."""
import csv
import sys
from contextlib import ExitStack

csv.field_size_limit(2**31 - 1)
sys.stdin.reconfigure(encoding="utf-8", newline="")
lines_of_record = []


def lines():
    for line in sys.stdin:
        lines_of_record.append(line)
        yield line


number, out = 0, None
try:
    with ExitStack() as stack:
        for record in csv.reader(lines(), strict=True):
            if not lines_of_record[-1].endswith("\r\n"):
                sys.exit("the text ends within a row")
            if not record:
                stack.close()
                out = None
            else:
                if out is None:
                    number += 1
                    out = stack.enter_context(open(f"set{number}.csv", "w", encoding="utf-8", newline=""))
                out.writelines(lines_of_record)
            lines_of_record.clear()
except (OSError, csv.Error) as stop:
    sys.exit(f"set{number}.csv: {stop}")
