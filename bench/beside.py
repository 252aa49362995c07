"""What the benchmarks beside other programs share: the processor's seconds and the peak of a command, and tables of them."""
from __future__ import annotations

import functools
import os
import shutil
import subprocess
import tempfile
from typing import NamedTuple

from lib import repository as repo, requirements

RUNS = 5


class Cost(NamedTuple):
    """Seconds of the processor, those in the system and of all processes of a command included, and megabytes of the greatest of them."""

    seconds: float
    peak: float

    def cells(self) -> str:
        """The cells of a table."""
        return f"{self.seconds:.2f} | {self.peak:.0f}"


@functools.cache
def compiled() -> tempfile.TemporaryDirectory[str]:
    """A folder with the package, whose modules are compiled as they are once it is installed."""
    folder = tempfile.TemporaryDirectory()
    shutil.copytree(repo.path_of("python", "gavyreto"), os.path.join(folder.name, "gavyreto"))
    subprocess.run([requirements.DEBIAN_PYTHON, "-m", "compileall", "-q", folder.name], check=True)
    return folder


def cost_of(command: list[str], folder: str, **variables: str) -> Cost:
    """What a command costs that has to end with status 0, or with 4, as `capture` does where no server is."""
    with tempfile.NamedTemporaryFile("r", encoding="utf-8") as costs:
        timed = ["/usr/bin/time", "-q", "-o", costs.name, "-f", "%U %S %M", *command]
        ran = subprocess.run(
            timed, cwd=folder, env=os.environ | variables, stdin=subprocess.DEVNULL, stdout=subprocess.DEVNULL, stderr=subprocess.PIPE, check=False)
        if ran.returncode not in (0, 4):
            raise SystemExit(f"{command[0]}: status {ran.returncode}: {ran.stderr.decode(errors='replace')[-300:]}")
        user, system, peak = costs.read().split()
    return Cost(float(user) + float(system), int(peak) / 1024)


def least(command: list[str], folder: str, **variables: str) -> Cost:
    """The least of several runs, and the greatest peak."""
    costs = [cost_of(command, folder, **variables) for _ in range(RUNS)]
    return Cost(min(it.seconds for it in costs), max(it.peak for it in costs))


def absent(needed: dict[str, str]) -> list[str]:
    """The Debian packages of programs and modules that aren't there."""
    return sorted({package for name, package in needed.items() if not (
        requirements.has_program(name) or requirements.has_module(requirements.DEBIAN_PYTHON, name))})
