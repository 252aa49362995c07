#!/bin/sh
# Reads responses and their texts as values of Python: exact ones, dates and times, and by the module `csv` alone.
#
# Needs: `python3`.
#
# `gavyreto.export` reads a response, and `gavyreto.read` a text that was written before; it refuses one that the program can't
# have written. `only()` is the one set of a response, and an error if there are several.
#
# With your own data, put your file in place of kinds.tds or kinds.csv.
#
# It prints a line for each of the two ways, six values with `dates=True`, and two columns of three rows by `csv`.
set -eu

tools/response kinds > kinds.tds
tds_replay export kinds.tds > kinds.csv 2> kinds.notes

# All values of all kinds come back as they were sent.
python3 - <<'PYTHON'
import sys
sys.path.insert(0, "tools")
import gavyreto
from lib import sample_responses

for sets in gavyreto.export("kinds.tds"), gavyreto.read("kinds.csv"):
    kinds = sets.only()
    values = list(kinds)
    assert kinds.names == sample_responses.NAMES and repr([list(row) for row in values]) == repr(sample_responses.VALUES)
    print(len(values), "rows of", len(kinds.names), "columns")
PYTHON

# With `dates=True` dates, times and GUIDs are date, time, datetime and UUID. Python's times have six digits of a second; a
# column of time(7), datetime2(7) or datetimeoffset(7) stays text, so nothing is lost, and all values of a column have one type.
python3 - <<'PYTHON'
import gavyreto

kinds = gavyreto.read("kinds.csv", dates=True).only()
row = dict(zip(kinds.names, next(kinds)))
for name in "day", "guid", "moment", "zoned", "second", "clock":
    print(name, repr(row[name]))
PYTHON

# `csv` alone is enough where no column of characters can hold the text `NULL`: it drops the quotes, so it can't tell `"NULL"`
# from `NULL`. The name in the second row is a text, that in the third is NULL. Three options matter: newline="", the encoding,
# and a field size limit above the longest value. `DictReader` also passes over empty lines, so split the sets first.
python3 - <<'PYTHON'
import csv

csv.field_size_limit(2**31 - 1)
with open("kinds.csv", encoding="utf-8", newline="") as lines:
    for row in csv.DictReader(lines, strict=True):
        print(row["whole_or_null"], row["name"])
PYTHON
