"""Tests that tools/against-server tells each answer that isn't as it has to be."""
from __future__ import annotations

import os
import re
import subprocess
import sys
import tempfile
import unittest
from collections.abc import Iterator

from tests.beside import PROGRAM, ROOT, SECONDS, started
from lib import packing
from lib.server_cases import CASES, SET, Case, answer_of, differences
from lib.served import done

from gavyreto import tds

SCRIPT = os.path.join(ROOT, "tools", "against-server")
# What an answer can do without, and nobody sees it: ends of sets and statements, changes of the session.
UNSEEN = (tds.Token.DONE, tds.Token.DONE_PROC, tds.Token.DONE_IN_PROC, tds.Token.ENV_CHANGE)


def with_other_values(case: Case) -> Iterator[list[bytes]]:
    """The answer of a table with a value of one cell that is another row's."""
    rows = [[value for value, _ in row] for row in zip(*(it.values for it in case.table))]
    for at, row in enumerate(rows):
        for place in range(len(row)):
            yield answer_of(case.table, [*rows[:at], [*row[:place], rows[at - 1][place], *row[place + 1:]], *rows[at + 1:]])


def with_tokens_changed(case: Case) -> Iterator[list[bytes]]:
    """The answer without one of its tokens, with one of them twice, and without its end."""
    for at, token in enumerate(case.tokens):
        if token[0] not in UNSEEN:
            yield [*case.tokens[:at], *case.tokens[at + 1:]]
            yield [*case.tokens[:at], token, token, *case.tokens[at + 1:]] if token[0] != tds.Token.RETURN_STATUS else [*case.tokens[:at], b"\x79\x01\0\0\0", *case.tokens[at + 1:]]
    yield case.tokens[:-1]


def altered(case: Case) -> list[bytes]:
    """Packets with answers that aren't the case's: of a column that is refused, with one that is read, and without it."""
    if case.is_held:
        return [packing.in_packets(b"".join(case.tokens[:-1]) + done(), 4096)]
    if case.status == 4:
        return [packing.in_packets(b"".join(tokens), 4096) for tokens in ([*SET, done()], case.tokens[1:])]
    return [packing.in_packets(b"".join(tokens), 4096) for tokens in (*with_other_values(case), *with_tokens_changed(case))]


class AgainstServer(unittest.TestCase):
    def test_each_altered_answer_differs(self) -> None:
        """Each cell with another row's value, and each answer without a token or with one twice, as the program reads it."""
        for case in CASES:
            for number, wire in enumerate([packing.in_packets(b"".join(case.tokens), 4096), *altered(case)] * (not case.is_held)):
                ran = subprocess.run([PROGRAM, "export"], input=wire, capture_output=True, check=False, timeout=SECONDS)
                with self.subTest(case=case.name, number=number):
                    self.assertEqual(bool(differences(case, ran.stdout, ran.stderr.decode(), ran.returncode)), number > 0)

    def test_the_report_tells_each_answer_that_differs(self) -> None:
        """Beside the stand-in, with an altered answer to each statement: one for which it isn't ended is, for the one that is aborted."""
        with tempfile.TemporaryDirectory() as folder:
            for case in CASES:
                with open(os.path.join(folder, f"{case.name}.tds"), "wb") as file:
                    file.write(altered(case)[0])
            words = [sys.executable, SCRIPT, "--program", PROGRAM, "--answers", folder]
            came = subprocess.run(words, capture_output=True, text=True, check=False, timeout=SECONDS, **started())
        told = {name: what for what, name in re.findall(r"(?m)^(same|differs) +(\w+)$", came.stdout)}
        self.assertEqual((came.returncode, told), (1, {case.name: "differs" for case in CASES}), came.stderr)
