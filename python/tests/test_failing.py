"""Tests of commands of which one call of the system fails, chosen by chance: that is told, or what they write is the same."""
from __future__ import annotations

import csv
import errno
import io
import os
import random
import re
import socket
import subprocess
import sys
import tempfile
import unittest
from collections import defaultdict
from concurrent.futures import ThreadPoolExecutor
from typing import NamedTuple

from gavyreto.connection import Channel
from tests.beside import PROGRAM, SECONDS, log_in, need, serving_each, started, wire
from tests.capture_cases import case

CASES = {"write": 6, "read": 3, "open64": 3, "close": 2, "splice": 2, "rename": 2}  # calls of each kind, of which any other has one
ERRORS = [errno.EIO, errno.ENOSPC, errno.EMFILE, errno.EACCES, errno.ENOMEM, errno.EINVAL, errno.EPERM, errno.ECONNRESET]
STATUSES = (0, 2, 3, 4, 5, 6)
WHOLE_CAPTURE = 13  # a case with answers, all of which are whole
# Runs a command whose modules are there before its calls count; if none fails, the last line on standard error has their names.
RUN = """
import ctypes, importlib, os, sys
from gavyreto import __main__
importlib.import_module(f"gavyreto.commands.{sys.argv[3]}")
calls = ctypes.CDLL(os.environ.pop("LD_PRELOAD"))
calls.begin_failing(ctypes.c_long(int(sys.argv[1])), int(sys.argv[2]))
try:
    __main__.main(sys.argv[3:])
finally:
    count = calls.end_failing()
    calls.name_of.restype = ctypes.c_char_p
    if int(sys.argv[1]) < 0:
        print(*(calls.name_of(ctypes.c_long(it + 1)).decode() for it in range(count)), file=sys.stderr)
"""
WORDS = {
    "columns": ["float.tds"], "adapt": ["float.tds", "-o", "adapted.tds"], "many": ["--program", PROGRAM, "-j", "1", "in", "out"],
    "capture": ["--program", PROGRAM, "--packets", "net.pcap", "out"],
    "query": ["--program", PROGRAM, "-U", "reader", "--encrypt", "none", "-o", "rows{}.csv", "--packets", "kept.tds", "SELECT 1"],
}


class Came(NamedTuple):
    """The status of a command, what it said, and the files that it left, by their paths."""

    status: int
    said: str
    files: dict[str, bytes]


def prepare(folder: str) -> None:
    os.mkdir(os.path.join(folder, "in"))
    for name, data in ("float.tds", wire("float")), ("in/orders", wire("orders")), ("in/float", wire("float")), ("net.pcap", case(WHOLE_CAPTURE).data):
        with open(os.path.join(folder, name), "wb") as file:
            file.write(data)


def files_in(folder: str) -> dict[str, bytes]:
    """The files in a folder, but of a table what is the same each time."""
    found = {}
    for path in (os.path.join(above, name) for above, _, names in os.walk(folder) for name in names):
        with open(path, "rb") as file:
            data = file.read()
        if path.endswith("outcomes.csv"):
            lines = [(os.path.basename(line[0]), *line[1:3]) for line in csv.reader(io.StringIO(data.decode())) if line]
            data = repr(sorted(lines)).encode()
        found[os.path.relpath(path, folder)] = data
    return found


class Failing(unittest.TestCase):
    def setUp(self) -> None:
        need(self, "cc")
        folder = tempfile.TemporaryDirectory()
        self.addCleanup(folder.cleanup)
        self.folder = folder.name
        self.shim = os.path.join(self.folder, "failing.so")
        source = os.path.join(os.path.dirname(__file__), "failing.c")
        subprocess.run(["cc", "-shared", "-fPIC", "-O1", "-o", self.shim, source], check=True)

    def run_in_folder(self, place: int, error: int, words: list[str]) -> Came:
        """Runs a command whose call with this number fails; none does if that is below 0."""
        with tempfile.TemporaryDirectory(dir=self.folder) as folder:
            prepare(folder)
            command = [sys.executable, "-c", RUN, str(place), str(error), *words]
            with open(os.path.join(folder, "said"), "w+b") as said, open(os.path.join(folder, "table"), "wb") as table:
                own = started(LD_PRELOAD=self.shim, PYTHONHASHSEED="0")
                status = subprocess.run(command, cwd=folder, stdout=table, stderr=said, timeout=SECONDS, check=False, **own).returncode
            files = files_in(folder)
            return Came(status, files.pop("said").decode(), files)

    def wrong_in(self, came: Came, whole: Came) -> str:
        """What is wrong with a command of which a call failed, beside one of which none did; "" if nothing is."""
        if came.status not in STATUSES or "Traceback" in came.said:
            return "it isn't told as others are"
        if came.status == whole.status:
            return "" if came.files == whole.files else "files are different"
        changed = [name for name in {*came.files} & {*whole.files} if came.files[name] != whole.files[name]]
        if any(not re.search(r"outcomes\.csv$|\.partial$|^table$", name) for name in changed):
            return f"{changed} aren't whole"
        return "" if came.said else "nothing is told"

    def judge(self, words: list[str]) -> None:
        whole, numbers = self.run_in_folder(-1, 0, words), random.Random(words[0])
        places = defaultdict[str, list[int]](list)
        for place, name in enumerate(whole.said.splitlines()[-1].split(), 1):
            places[name].append(place)
        self.assertGreater(len(places), 5)
        some = [place for name, its in places.items() for place in numbers.sample(its, min(len(its), CASES.get(name, 1)))]
        chosen = [(place, numbers.choice(ERRORS), words) for place in some]
        with ThreadPoolExecutor(4) as pool:
            found = [(*it, came.status, came.said, wrong) for it, came in zip(chosen, pool.map(lambda it: self.run_in_folder(*it), chosen))
                     if (wrong := self.wrong_in(came, whole))]
        self.assertEqual(found, [])

    def test_of_each_command(self) -> None:
        def serve(connected: socket.socket) -> None:
            channel = Channel(connected, SECONDS)
            try:
                log_in(channel)
                channel.read_message()
                channel.write(wire("orders"))
                channel.receive()
            except (EOFError, OSError):
                pass  # the client goes where a call fails
            finally:
                channel.close()

        with serving_each(serve) as port:
            for name, words in WORDS.items():
                with self.subTest(name):
                    self.judge([name, *words, *(["-S", f"127.0.0.1,{port}"] if name == "query" else [])])


if __name__ == "__main__":
    unittest.main()
