"""Tests that what is missing or refused is a line that says what to do, and leaves nothing."""
from __future__ import annotations

import os
import pty
import subprocess
import sys
import tempfile
import unittest

from tests.beside import PROGRAM, ROOT, SECONDS, STAND_IN, started, wire

from gavyreto.columns import create_table, sqlite_type, table_name

GAVYRETO = [sys.executable, "-m", "gavyreto"]
SQLITE = [sys.executable, os.path.join(ROOT, "examples", "recipes", "sqlite_table.py")]
BROUGHT = "the program tds_replay isn't there, or can't be run: Debian's package gavyreto brings it, and `make install` of the source"


class Lines(unittest.TestCase):
    def setUp(self) -> None:
        folder = tempfile.TemporaryDirectory()
        self.addCleanup(folder.cleanup)
        self.folder = folder.name
        os.mkdir(self.path("there"))
        for name, data in (("orders.tds", wire("orders")), ("float.tds", wire("float")), ("words", b"no capture\n")):
            with open(self.path(name), "wb") as file:
                file.write(data)

    def path(self, name: str) -> str:
        return os.path.join(self.folder, name)

    def ended(self, words: list[str], **variables: str) -> tuple[int, list[str]]:
        """The status of a command, and what it says."""
        came = subprocess.run(words, cwd=self.folder, capture_output=True, text=True, check=False, timeout=SECONDS, **started(**variables))
        return came.returncode, came.stderr.splitlines()

    def test_what_is_missing_is_named(self) -> None:
        cases: list[tuple[list[str], int, str, dict[str, str]]] = [
            ([*GAVYRETO, "export", "x"], 2, "gavyreto: no command export: tds_replay export does that", {}),
            ([*GAVYRETO, "many", "orders.tds", "out"], 2, BROUGHT, {"PATH": "/nowhere"}),
            (SQLITE, 1, "usage: sqlite_table.py RESPONSE DATABASE TABLE", {}),
            ([*SQLITE, "nothere.tds", "a.db", "a"], 1, "nothere.tds: [Errno 2] No such file or directory: 'nothere.tds'", {}),
            ([*SQLITE, "orders.tds", "nothere/a.db", "a"], 1, "nothere/a.db: unable to open database file", {}),
            ([STAND_IN, "--", "nothere"], 1, "stand-in: nothere isn't there, or can't be run", {}),
            ([STAND_IN, "nothere.tds", "--", "true"], 1, "stand-in: nothere.tds isn't there", {}),
            ([sys.executable, STAND_IN, "--", "true"], 1, "stand-in: openssl isn't there, or can't be run", {"PATH": "/nowhere"}),
        ]
        for words, status, line, variables in cases:
            with self.subTest(line=line):
                came, said = self.ended(words, **variables)
                self.assertEqual((came, said[0]), (status, line))
                self.assertFalse(any("Traceback" in it for it in said))

    def test_help_that_cannot_be_written(self) -> None:
        for command in ("query", "capture", "columns", "adapt", "many"):
            for way, line in (("> /dev/full", "standard output: No space left on device"), (">&-", "standard output is closed")):
                words = ["sh", "-c", f'exec "$@" {way}', "sh", *GAVYRETO, command, "--help"]
                self.assertEqual(self.ended(words, PYTHONUNBUFFERED="1"), (5, [line]), (command, way))

    def test_controls_in_arguments_are_spelt(self) -> None:
        for words in ("columns --x?", "many -j ? a b", "query -S h?:7", "capture --port ? a b"):
            status, said = self.ended([*GAVYRETO, *words.replace("?", "\x1b[31m").split()])
            self.assertEqual((status, "\x1b" in "".join(said), r"\x1b[31m" in said[-1]), (2, False, True), said)

    def test_a_capture_that_is_refused_leaves_no_folder(self) -> None:
        for folder, left in (("out", False), ("there", True)):
            with self.subTest(folder=folder):
                self.assertEqual(self.ended([*GAVYRETO, "capture", "--program", PROGRAM, "words", folder])[0], 2)
                self.assertEqual(os.path.isdir(self.path(folder)), left)

    def test_a_terminal_gets_no_packets(self) -> None:
        own, terminal = pty.openpty()
        with open(own, "rb", buffering=0), open(terminal, "wb", buffering=0) as output:
            came = subprocess.run([*GAVYRETO, "adapt", "float.tds"], cwd=self.folder, stdout=output, stderr=subprocess.PIPE, check=False, timeout=SECONDS, **started())
        self.assertEqual((came.returncode, came.stderr.decode()), (2, "standard output is a terminal, and packets aren't text: > FILE or -o FILE takes them\n"))

    def test_the_first_response_that_failed_is_named(self) -> None:
        status, said = self.ended([*GAVYRETO, "many", "--program", PROGRAM, "orders.tds", "float.tds", "nothere.tds", "out"])
        self.assertEqual((status, said), (5, [
            "float.tds: fault 10 RefusedColumn 1 FLTN at payload 15, written 0, unwritten 0; out/outcomes.csv has a line for each",
            "3 responses: 1 done, 0 with an error of the server, 1 refused, 1 failed"]))

    def test_names_of_tables(self) -> None:
        for name, wanted in (("a", '"a"'), ("a.b", '"a"."b"'), ('"a.b"', '"a.b"'), ('a."b.c"', '"a"."b.c"'), ('a"b', '"a""b"')):
            with self.subTest(name=name):
                self.assertEqual(table_name(name), wanted)
                self.assertIn(f"CREATE TABLE {wanted} (", create_table(name, [], sqlite_type))
        for name in ("", ".a", "a.", "a..b", '"a'):
            with self.subTest(name=name), self.assertRaises(ValueError):
                table_name(name)
