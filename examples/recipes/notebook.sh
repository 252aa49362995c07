#!/bin/sh
# Looks at a capture in a notebook: the table of its answers, a chart of them by time, and the rows of one.
#
# Needs: `python3`, Python's `pandas`, Python's `matplotlib`, Python's `nbclient`, Python's `ipykernel`.
#
# With your own capture, run `gavyreto capture` as below, copy capture.ipynb beside its table, and open it by `jupyter notebook`, or in an
# editor that knows notebooks; nbclient (`python3-nbclient`, `python3-ipykernel`) is only what runs it here.
#
# It prints what each cell gives.
set -eu

rm -rf notebook
mkdir notebook
tools/response kinds 100 > notebook/long.tds
tools/response orders > notebook/short.tds
tools/response error > notebook/error.tds
cp examples/recipes/capture.ipynb notebook
cd notebook
../tools/capture long.tds short.tds error.tds > capture.pcap
python3 -m gavyreto capture capture.pcap captured > answers.csv 2> notes || echo "status $?"
python3 - 2> nbclient.notes <<'PYTHON'
import nbclient
import nbformat

notebook = nbformat.read("capture.ipynb", as_version=4)
nbclient.NotebookClient(notebook, kernel_name="python3").execute()
for cell in notebook.cells:
    for output in cell.get("outputs", ()):
        print("a picture" if "image/png" in output["data"] else output["data"]["text/plain"])
nbformat.write(notebook, "capture.ipynb")
PYTHON
