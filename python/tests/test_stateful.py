"""Runs the stateful tests, by Debian's Python, which has hypothesis."""
from __future__ import annotations

import os
import subprocess
import sys
import unittest

from tests.beside import PROGRAM, ROOT, SECONDS, need, skip, started

sys.path[:0] = [os.path.join(ROOT, "tools")]
from lib import requirements  # noqa: E402


class Stateful(unittest.TestCase):
    def run_module(self, name: str, examples: int, least: int) -> None:
        """Runs some examples, and sees to it that they had so many steps."""
        if not requirements.has_module(requirements.DEBIAN_PYTHON, "hypothesis"):
            skip(self, "Python's module hypothesis isn't there: `make needs` installs it")
        command = [requirements.DEBIAN_PYTHON, "-B", "-m", f"tests.{name}", str(examples)]
        came = subprocess.run(command, cwd=os.path.join(ROOT, "python"), capture_output=True, text=True, check=False, timeout=SECONDS, **started(PROGRAM=PROGRAM))
        self.assertEqual((came.returncode, came.stderr[-3000:]), (0, ""))
        self.assertGreater(int(came.stdout.split()[0]), least)

    def test_a_server_that_does_anything(self) -> None:
        need(self, "openssl")
        self.run_module("stateful_query", 300, 700)

    def test_a_caller_who_does_anything(self) -> None:
        self.run_module("stateful_readings", 8000, 7999)

    def test_files_that_come_and_go(self) -> None:
        self.run_module("stateful_many", 50, 80)

    def test_tables_that_are_refused_or_break(self) -> None:
        self.run_module("stateful_tables", 30, 80)


if __name__ == "__main__":
    unittest.main()
