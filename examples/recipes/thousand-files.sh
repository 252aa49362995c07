#!/bin/sh
# Exports a thousand files at once, among them ten that are refused and ten with an error of the server.
#
# Needs: `python3`.
#
# `gavyreto many` exports each file of a folder, and keeps the part of a text that was read before a fault as `.partial`.
#
# With your own data, put your folder in place of farm.
#
# It prints what became of the files, the sizes of the texts of the ten with an error, how many texts are those of one file, and
# how many parts there are.
set -eu

rm -rf farm texts
mkdir farm
tools/response kinds 300 > good && tools/response float > refused && tools/response error > failed
for number in $(seq 1000 1999); do
    case $number in *50) cp refused "farm/$number" ;; *99) cp failed "farm/$number" ;; *) cp good "farm/$number" ;; esac
done
python3 -m gavyreto many farm texts || echo "status $?"
tds_replay export good > good.csv 2> good.notes
for text in texts/????.csv; do if cmp -s "$text" good.csv; then echo same; else wc -c < "$text"; fi; done | sort | uniq -c | awk '{ print $1, $2 }'
find texts -name '*partial' | wc -l
