#!/bin/sh
# Makes a table of pandas of a response with a column of each kind.
#
# Needs: `python3`, Python's `pandas`.
#
# `frame()` gives columns of `Int32` and its kin, with a capital letter, which have room for NULL, and of strings. Decimals stay
# Decimal, binary values bytes, and dates text, in columns of objects. With your own data, put your file in place of kinds.tds.
#
# It prints of seven columns the dtype, where NULL is, and a value; and a column of text as a time of pandas. `to_datetime` counts
# nanoseconds from 1677 to 2262: keep the text for dates outside of these years.
set -eu

tools/response kinds > kinds.tds
python3 - <<'PYTHON'
import gavyreto
import pandas

table = gavyreto.export("kinds.tds").only().frame()
for column in ("whole", "whole_or_null", "flag_or_null", "name", "total", "hash", "minute"):
    print(column, table[column].dtype, table[column].isna().tolist(), repr(table.loc[1, column]))
print(pandas.to_datetime(table["minute"].iloc[0:1]).iloc[0])
PYTHON
