"""Times the program on many small responses: by one run of `export --all`, out of a file and out of a pipe, and by a run each; on one
long response, with `--all` and without it; and its start. If strace is there, the system's calls are counted too."""
from __future__ import annotations

import os
import re
import resource
import shutil
import subprocess
import tempfile

from exports import CHUNK, PACKET_SIZE, long_narrow
from lib import repository as repo
from lib.packing import in_packets

MANY, SOME, RUNS = 1_000_000, 1_000, 5
LONG = 200_000_000
EXAMPLE = repo.path_of("examples", "first.tds")


def seconds_of(command: list[str], source: str = os.devnull) -> float:
    """The processor's seconds of a command whose standard input is a file."""
    before = resource.getrusage(resource.RUSAGE_CHILDREN)
    with open(source, "rb") as it:
        subprocess.run(command, stdin=it, stdout=subprocess.DEVNULL, stderr=subprocess.DEVNULL, check=True)
    after = resource.getrusage(resource.RUSAGE_CHILDREN)
    return after.ru_utime - before.ru_utime + after.ru_stime - before.ru_stime


def least(command: list[str], runs: int = RUNS, source: str = os.devnull) -> float:
    """The least of several runs."""
    return min(seconds_of(command, source) for _ in range(runs))


def calls_of(command: list[str]) -> int:
    """How many calls of the system a command makes."""
    ran = subprocess.run(["strace", "-c", *command], stdin=subprocess.DEVNULL, stdout=subprocess.DEVNULL, stderr=subprocess.PIPE, text=True, check=True)
    return int(re.findall(r"(\d+) +(?:\d+ )?total", ran.stderr)[-1])


def written(folder: str, name: str, data: bytes, times: int = 1) -> str:
    """A file with the data, so many times."""
    path = os.path.join(folder, name)
    with open(path, "wb") as it:
        for _ in range(times):
            it.write(data)
    return path


def run(program: str) -> None:
    """Measures what the docstring says, and prints a line for each."""
    with open(EXAMPLE, "rb") as it:
        example = it.read()
    with tempfile.TemporaryDirectory(prefix="gavyreto-responses-") as folder:
        many = written(folder, "many.tds", example, MANY)
        print(f"{MANY:,} responses of {len(example)} bytes in a FILE: {least([program, 'export', '--all', many]) / MANY * 1e9:,.0f} ns each")
        print(f"the same on standard input: {least([program, 'export', '--all'], RUNS, many) / MANY * 1e9:,.0f} ns each")
        if shutil.which("strace"):
            some = written(folder, "some.tds", example, SOME)
            print(f"calls of the system: {calls_of([program, 'export', '--all', some]) / SOME:.2f} each of {SOME:,}")
        each = sum(seconds_of([program, "export", EXAMPLE]) for _ in range(SOME))
        print(f"a run each of {SOME:,}: {each / SOME * 1e6:,.0f} µs each")
        empty = min(sum(seconds_of(["/bin/true"]) for _ in range(100)) / 100 for _ in range(RUNS))
        print(f"of them, the start of a process that does nothing: {empty * 1e6:,.0f} µs")
        long = written(folder, "long.tds", in_packets(long_narrow(LONG // CHUNK), PACKET_SIZE))
        for option in ("", "--all"):
            seconds = least([program, "export", *option.split(), long])
            print(f"{os.path.getsize(long) / 1e6:,.1f} MB in one response {option}: {seconds:.3f} s")
