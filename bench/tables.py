"""Measures `gavyreto query --tables` of fifty tables on four connections and on one, beside a run of `gavyreto query` for each.

The server is tools/stand-in, unencrypted. Counted are seconds by the clock, the processor's seconds of all processes of the client, the
least of three runs, and the peak of the greatest process."""
from __future__ import annotations

import os
import shutil
import subprocess
import sys
import tempfile
import time

import beside
import drivers
from lib import repository as repo, requirements
from gavyreto import tds

TABLES, ROWS, RUNS = 50, 20_000, 3
NAMES = [f"table{number}" for number in range(TABLES)]
NEEDED = {"openssl": "openssl", "time": "time"}
QUERY = f'{requirements.DEBIAN_PYTHON} -m gavyreto query -S 127.0.0.1,$PORT -U reader --encrypt none --program "$PROGRAM"'
COMMANDS = {
    "`--tables`, four connections": f"{QUERY} --tables names -o out -j 4",
    "`--tables`, one connection": f"{QUERY} --tables names -o out -j 1",
    "a run of `query` for each": f'mkdir out; while read -r name; do {QUERY} -o out/$name.csv "SELECT * FROM $name"; done < names',
}


def measured(command: str, folder: str, program: str) -> tuple[float, beside.Cost, int]:
    """The seconds by the clock of a command of the shell, what it costs, and the bytes of its texts, whose folder is removed before."""
    out = os.path.join(folder, "out")
    shutil.rmtree(out, ignore_errors=True)
    began = time.monotonic()
    cost = beside.cost_of(["sh", "-euc", command], folder, PYTHONPATH=beside.compiled().name, PROGRAM=program, SQLCMDPASSWORD="secret")
    seconds = time.monotonic() - began
    return seconds, cost, sum(os.path.getsize(os.path.join(out, name + ".csv")) for name in NAMES)


def measure(program: str) -> None:
    """Prints the table, beside a server whose port is in the environment."""
    print("| fifty tables of 20,000 rows | seconds by the clock | of the processor | peak, MB |\n|---|---:|---:|---:|")
    lengths = set()
    for name, command in COMMANDS.items():
        runs = [measured(command, ".", program) for _ in range(RUNS)]
        lengths |= {length for *_, length in runs}
        clock, seconds, peak = min(it[0] for it in runs), min(it[1].seconds for it in runs), max(it[1].peak for it in runs)
        print(f"| {name} | {clock:.2f} | {seconds:.2f} | {peak:.0f} |", flush=True)
    if len(lengths) != 1:
        sys.exit(f"the texts differ: {sorted(lengths)} bytes")


def compare(program: str) -> None:
    """Makes the responses, and measures beside a server of them."""
    absent = beside.absent(NEEDED)
    if absent:
        sys.exit(f"Debian's packages of these are needed: {' '.join(absent)}")
    with tempfile.TemporaryDirectory() as folder:
        first = os.path.join(folder, NAMES[0] + ".tds")
        with open(first, "wb") as file:
            file.writelines(tds.packets(drivers.response(ROWS), 4096))
        for name in NAMES[1:]:
            os.link(first, os.path.join(folder, name + ".tds"))
        with open(os.path.join(folder, "names"), "w", encoding="utf-8") as file_of_names:
            file_of_names.writelines(name + "\n" for name in NAMES)
        own = [sys.executable, repo.path_of("bench", "run"), "tables", program, "--beside"]
        served = [repo.path_of("tools", "stand-in"), "--encrypt", "none", "--connections", "100000", "--seconds", "10000"]
        subprocess.run([*served, *(name + ".tds" for name in NAMES), "--", *own], cwd=folder, check=True)
