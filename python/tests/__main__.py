"""Runs the tests, and names those that were skipped, and why.

usage: python3 -m tests [unittest's arguments], in the folder python"""
from __future__ import annotations

import os
import signal
import sys
import unittest

from tests.beside import PROGRAM


class Result(unittest.TextTestResult):
    """A result that names what is skipped."""

    def addSkip(self, test: unittest.TestCase, reason: str) -> None:
        super().addSkip(test, reason)
        print(f"skipped {test.id()}: {reason}", flush=True)


if __name__ == "__main__":
    if not os.access(PROGRAM, os.X_OK):
        sys.exit(f"{PROGRAM} isn't there: build it by `make build`, or name another program by PROGRAM=")
    sys.dont_write_bytecode = True
    signal.signal(signal.SIGINT, signal.default_int_handler)  # it is ignored in the background, and what is started inherits that
    signal.signal(signal.SIGHUP, signal.SIG_DFL)  # it is under nohup, too
    folder = os.path.dirname(os.path.abspath(__file__))
    argv = sys.argv if len(sys.argv) > 1 else [sys.argv[0], "discover", "-s", folder, "-t", os.path.dirname(folder)]
    unittest.main(module=None, argv=argv, testRunner=unittest.TextTestRunner(resultclass=Result))
