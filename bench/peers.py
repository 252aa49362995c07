"""Measures `gavyreto query` with tds_replay beside tsql and freebcp of FreeTDS on tools/stand-in, and what each loses.

Each client asks for the same stored responses on a connection of its own, unencrypted, in packets of 4,096 bytes. Counted
are the processor's seconds of the client, those in the system included, the least of seven runs, and its peak of resident
memory, as /usr/bin/time tells them; the server's aren't. Two pictures are drawn of the costs: bench/draw says how."""
from __future__ import annotations

import json
import os
import shutil
import subprocess
import sys
import tempfile
from collections.abc import Callable
from typing import NamedTuple

from lib import repository as repo, requirements

RUNS = 7
ROWS = 300_000
# The sizes of a value, in MB; the table has the last of them, and a picture all.
SIZES = [1, 25, 50, 100, 200]
NEEDED = {"/usr/bin/time": "time", "tsql": "freetds-bin", "freebcp": "freetds-bin", "openssl": "openssl"}
RESPONSES = {
    "rows": ["orders", str(ROWS)], **{f"value{size}": ["long", str(size * 1_000_000)] for size in SIZES}, "orders": ["orders"],
    "first": ["kinds", "1"], "kinds": ["kinds"], "sets": ["sets"],
}
PICTURES = repo.path_of("docs", "pictures")
# The commands of the shell that put the rows of a response to standard output, or to the file OUT.
CLIENTS = {
    "gavyreto query and tds_replay": '$TIMED $QUERY -S localhost,$PORT -U reader --encrypt none --packet-size 4096 '
                                     '--program ./timed -o "$OUT" "SELECT * FROM $NAME" 2> notes',
    "tsql": "printf 'SELECT * FROM %s\\ngo\\nexit\\n' $NAME | $TIMED tsql -S here -U reader -P secret -o q -t '|' > \"$OUT\" 2> notes",
    "freebcp": '$TIMED freebcp $NAME out "$OUT" -S here -U reader -P secret -c -t "|" > notes 2>&1',
}
SETTINGS = "[global]\ntds version = 7.4\nclient charset = UTF-8\nencryption = off\n[here]\nhost = 127.0.0.1\nport = %s\n"


class Cost(NamedTuple):
    """Seconds of the processor, and kilobytes."""

    seconds: float
    peak: int


def run(client: str, name: str, out: str, folder: str, program: str) -> tuple[int, list[Cost]]:
    """The status of a client that asks for a response, and the costs of its processes."""
    costs = os.path.join(folder, "costs")
    timed = f"/usr/bin/time -a -q -o {costs} -f %U\\t%S\\t%M"
    variables = {
        "QUERY": f"{sys.executable} -m gavyreto query", "PYTHONPATH": repo.path_of("python"), "PROGRAM": program, "OUT": out, "NAME": name, "TIMED": timed,
        "FREETDSCONF": os.path.join(folder, "freetds.conf"), "SQLCMDPASSWORD": "secret", "LC_ALL": "C.UTF-8",
    }
    if os.path.exists(costs):
        os.remove(costs)
    files = [name + ".tds" for name in RESPONSES]
    settings = f"printf '{SETTINGS}' $PORT > freetds.conf; "
    done = subprocess.run(
        [repo.path_of("tools", "stand-in"), "--encrypt", "none", *files, "--", "sh", "-uc", settings + CLIENTS[client]],
        cwd=folder, env=os.environ | variables, stdin=subprocess.DEVNULL, check=False,
    )
    with open(costs, encoding="utf-8") as lines:
        found = [line.split("\t") for line in lines]
    return done.returncode, [Cost(float(user) + float(system), int(peak)) for user, system, peak in found]


class Measured(NamedTuple):
    """The least seconds of some runs, and the greatest peak of each process, in megabytes."""

    seconds: float
    peaks: list[float]

    def cells(self) -> str:
        """The cells in the table of costs."""
        return f"{self.seconds:.2f} | " + " + ".join(f"{peak:.1f}" for peak in self.peaks)


def measured(client: str, name: str, folder: str, program: str) -> Measured:
    """What a client costs that asks for a response."""
    runs = [run(client, name, "/dev/null", folder, program) for _ in range(RUNS)]
    seconds = min(max(cost.seconds for cost in costs) for _, costs in runs)
    return Measured(seconds, [max(costs[place].peak for _, costs in runs) / 1024 for place in range(len(runs[0][1]))])


def text_of(client: str, name: str, folder: str, program: str) -> tuple[int, str]:
    """The status of a client, and the text that it writes."""
    out = os.path.join(folder, "out")
    status, _ = run(client, name, out, folder, program)
    with open(out, encoding="utf-8", errors="replace", newline="") as file:
        return status, file.read()


def field_after(text: str, mark: str) -> str:
    """The field after a mark, up to the next `,` or `|`."""
    rest = text[text.index(mark) + len(mark):].lstrip('"')[1:]
    return rest.replace("|", ",").split(",")[0]


class Probe(NamedTuple):
    """A value that may be lost on the way, the response that has it, and whether a text still has it."""

    name: str
    response: str
    is_kept: Callable[[str], bool]


PROBES = [
    Probe("NULL is told from the text `NULL`", "orders", lambda text: field_after(text, "\n2") != field_after(text, "東京")),
    Probe("NULL is told from empty text", "orders", lambda text: ",\"\"\r\n" in text or "|\0\n" in text or "|NULL\n" in text),
    Probe("a line end within a value is told from the end of a row", "orders", lambda text: '"two\r\nlines"' in text),
    Probe("a quote or separator within a value is told from one around it", "orders", lambda text: '"Ann ""A"" Lee' in text),
    Probe("all digits of `datetime2(7)`", "orders", lambda text: "12:34:56.1234567" in text),
    Probe("seconds of `datetime`", "first", lambda text: ":56.003" in text),
    Probe("the offset of `datetimeoffset`", "first", lambda text: "+05:30" in text),
    Probe("all digits of `decimal(38, 10)`", "first", lambda text: "0.0000000001" in text),
    Probe("a value whose chunks end within a character, and the rows after it", "kinds", lambda text: "-2147483648" in text),
    Probe("where a second result set begins", "sets", lambda text: '\r\n\r\n"total"\r\n' in text),
]


def table_of_costs(costs: dict[str, dict[str, Measured]]) -> None:
    """Prints what the rows and the largest value cost each client."""
    print(f"| client | {ROWS:,} rows of five columns: seconds | peak, MB | one value of {SIZES[-1]} MB: seconds | peak, MB |")
    print("|---|---:|---:|---:|---:|")
    for client, found in costs.items():
        print(f"| {client} | {found['rows'].cells()} | {found[f'value{SIZES[-1]}'].cells()} |", flush=True)


def draw(costs: dict[str, dict[str, Measured]]) -> None:
    """Draws the pictures, if Debian's Python has what bench/draw needs."""
    if not requirements.has_module(requirements.DEBIAN_PYTHON, "matplotlib"):
        print("no pictures: Python's matplotlib isn't there, `make needs` installs it", file=sys.stderr)
        return
    told = {
        "rows": ROWS, "seconds": {client: found["rows"].seconds for client, found in costs.items()}, "sizes": SIZES,
        "peaks": {client: [sum(found[f"value{size}"].peaks) for size in SIZES] for client, found in costs.items()},
    }
    subprocess.run([requirements.DEBIAN_PYTHON, repo.path_of("bench", "draw"), PICTURES], input=json.dumps(told), text=True, check=True)


def table_of_losses(folder: str, program: str) -> None:
    """Prints what each client keeps of the values."""
    print("| what is kept | " + " | ".join(CLIENTS) + " |")
    print("|---|" + "---|" * len(CLIENTS))
    texts = {(client, name): text_of(client, name, folder, program)
             for client in CLIENTS for name in {probe.response for probe in PROBES}}
    for probe in PROBES:
        kept = ("yes" if probe.is_kept(texts[client, probe.response][1]) else "no" for client in CLIENTS)
        print(f"| {probe.name} | " + " | ".join(kept) + " |")


def compare(program: str) -> None:
    """Prints both tables, and draws the pictures."""
    absent = sorted({package for name, package in NEEDED.items() if not shutil.which(name)})
    if absent:
        sys.exit(f"Debian's packages of these are needed: {' '.join(absent)}")
    with tempfile.TemporaryDirectory() as folder:
        for name, words in RESPONSES.items():
            with open(os.path.join(folder, name + ".tds"), "wb") as file:
                subprocess.run([repo.path_of("tools", "response"), *words], stdout=file, check=True)
        with open(os.path.join(folder, "timed"), "w", encoding="utf-8") as script:
            script.write('#!/bin/sh\ntest "$1" = --version || exec $TIMED "$PROGRAM" "$@"\nexec "$PROGRAM" "$@"\n')
        os.chmod(script.name, 0o755)
        names = ["rows", *(f"value{size}" for size in SIZES)]
        costs = {client: {name: measured(client, name, folder, program) for name in names} for client in CLIENTS}
        table_of_costs(costs)
        print()
        table_of_losses(folder, program)
        draw(costs)
