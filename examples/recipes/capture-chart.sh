#!/bin/sh
# Draws the answers in a capture by time.
#
# Needs: `python3`, Python's `matplotlib`.
#
# With your own capture the two commands in the head of capture_chart.py are enough. The picture shows when the server was busy, how much
# it answered, and when answers ended with an error or aren't whole; look for their lines in the table.
#
# It prints how many answers of each kind the picture has, and how many marks there are in it.
set -eu

rm -rf chart
mkdir chart
tools/response kinds 100 > chart/long.tds
tools/response orders > chart/short.tds
tools/response error > chart/error.tds
tools/response float > chart/float.tds
cd chart
../tools/capture long.tds short.tds error.tds long.tds float.tds short.tds > capture.pcap
python3 -m gavyreto capture capture.pcap captured > answers.csv 2> notes || echo "status $?"
python3 ../examples/recipes/capture_chart.py answers.csv answers.svg
python3 - <<'PYTHON'
from xml.etree import ElementTree

SVG = "{http://www.w3.org/2000/svg}"
for group in ElementTree.parse("answers.svg").iter(SVG + "g"):
    if group.get("id", "").startswith("status "):
        print(group.get("id"), len(list(group.iter(SVG + "use"))), "marks")
PYTHON
