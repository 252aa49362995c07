"""Draws the answers in a capture by time: how long the text of each is, and how it ended.

    gavyreto capture network.pcap OUT > answers.csv
    python3 examples/recipes/capture_chart.py answers.csv answers.svg

Needs: `python3`, Python's `matplotlib` (`python3-matplotlib`).

A line of the table without a text, as that of a request without an answer, has a length of 0. The table of a dump or of a proxy's
recording has no times, and is refused. The ending of the picture's name says what it is: `.svg`, `.png` or `.pdf`. It prints how many
answers of each kind the picture has."""
import re
import sys
from datetime import datetime

import gavyreto
import matplotlib

matplotlib.use("agg")
from matplotlib import pyplot  # noqa: E402

KINDS = {0: ("whole", "tab:green"), 3: ("error of the server", "tab:orange"), 4: ("not whole", "tab:red"), 5: ("failed", "tab:gray")}
table, picture = sys.argv[1:]
times, lengths = {status: [] for status in KINDS}, {status: [] for status in KINDS}
for answer in gavyreto.read(table).only():
    if answer.time is None:
        sys.exit(f"{table}: the answers of a dump or a recording have no times")
    written = re.search(r"written (\d+)", answer.line)
    times[answer.status].append(datetime.fromisoformat(answer.time))
    lengths[answer.status].append(int(written[1]) if written else 0)
figure, axes = pyplot.subplots(figsize=(8, 3), layout="constrained")
for status, (name, colour) in KINDS.items():
    if times[status]:
        axes.plot(times[status], lengths[status], "o", color=colour, alpha=0.6, label=name, gid=f"status {status}")
        print(f"{name}: {len(times[status])}")
axes.set(xlabel="first byte of the answer, UTC", ylabel="bytes of its text", yscale="symlog", ylim=(0, None))
axes.legend()
figure.savefig(picture, metadata={"Date": None} if picture.endswith(".svg") else None)
