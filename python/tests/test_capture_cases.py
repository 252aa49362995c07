"""Tests of `capture` by captures by chance: each answer is exact, or something is told; of harmless ones nothing is."""
from __future__ import annotations

import gzip
import io
import os
import random
import unittest
import zlib
from collections import Counter
from typing import NamedTuple

from gavyreto.capturing import files
from gavyreto.capturing.accounts import Accounts
from gavyreto.capturing.connections import Connections
from gavyreto.capturing.desk import Answer, Sides
from tests.capture_cases import Case, case

CASES = int(os.environ.get("CASES", "1000"))


class Kept:
    """The packets of an answer, in memory."""

    def __init__(self) -> None:
        self.data = b""

    def write(self, data: bytes) -> None:
        self.data += data

    def cut(self, length: int) -> None:
        self.data = self.data[:-length]

    def first(self, length: int) -> bytes:
        return self.data[:length]

    def drop(self) -> None:
        pass


class Desk:
    """What was handed on: the answers that are whole, and what was told."""

    def __init__(self) -> None:
        self.answers: list[bytes] = []
        self.words: list[str] = []  # of the statements that they answer
        self.told: list[str] = []

    def keep(self) -> Kept:
        return Kept()

    def answer(self, _: Sides, answer: Answer) -> None:
        assert isinstance(answer.kept, Kept)
        if answer.why or not answer.packets.is_whole:
            self.told.append(answer.why)
        else:
            self.answers.append(answer.kept.data)
            self.words.append(answer.words())

    def tell(self, _: Sides, time: int, why: str, statement: str = "") -> None:
        self.told.append(why)


class Read(NamedTuple):
    """What a capture gave."""

    answers: list[bytes]
    told: list[str]
    accounts: Accounts
    words: list[str] = []


def read(data: bytes) -> Read:
    """What a capture gives."""
    desk, accounts, drops = Desk(), Accounts(), files.Drops()
    connections = Connections({1433}, desk, accounts)
    try:
        for frame in files.frames(files.source_of(io.BytesIO(data)), drops):
            connections.take(frame)
    except files.CutShort as cut:
        desk.told.append(str(cut))
    connections.finish()
    desk.told += list(accounts.unread) + ["lost frames"] * bool(drops.total()) + ["unknown blocks"] * bool(drops.unknown)
    desk.told += ["cut frames"] * bool(connections.cut) + ["no connection"] * (not accounts.connections)
    return Read(desk.answers, desk.told, accounts, desk.words)


def wrong(made: Case) -> str:
    """What is wrong with what a capture gives, or nothing."""
    came = read(made.data)
    if not came.accounts.meets():
        return f"{made.what}: the sums don't meet: {came.accounts.line()}"
    if made.is_whole and came.told:
        return f"{made.what}: told {came.told}"
    if made.is_whole and Counter(came.answers) != Counter(made.answers):
        return f"{made.what}: {len(came.answers)} answers of {len(made.answers)}"
    if made.is_whole is False and not came.told:
        return f"{made.what}: nothing is told, and {len(came.answers)} answers come of {len(made.answers)}"
    if not came.told and not made.has_others and Counter(came.answers) != Counter(made.answers):
        return f"{made.what}: nothing is told, and {len(came.answers)} answers come of {len(made.answers)}, although nothing says that it is whole"
    if not made.has_others and not set(came.answers) <= set(made.names):
        return f"{made.what}: an answer that wasn't sent"
    names = [(name, made.names.get(data)) for name, data in zip(came.words, came.answers)]
    if not made.has_others and any(name[:1] not in ("", "(") and right and name != right for name, right in names):
        return f"{made.what}: names of other statements: {names}"
    return ""


class Generated(unittest.TestCase):
    def test_each_answer_is_exact_or_told(self) -> None:
        found = [it for it in map(wrong, map(case, range(CASES))) if it]
        self.assertEqual("\n".join(found[:20]), "")

    def test_what_is_packed_and_cut(self) -> None:
        """Of a file of gzip that ends too early each frame counts that is there, and it is told."""
        numbers = random.Random(3)
        for seed in range(30):
            packed = gzip.compress(case(seed).data)
            cut = packed[:numbers.randrange(len(packed) // 2, len(packed))]
            came, plain = read(cut), read(zlib.decompressobj(wbits=31).decompress(cut))
            with self.subTest(seed):
                self.assertEqual((came.answers, came.accounts.line()), (plain.answers, plain.accounts.line()))
                self.assertIn("the compressed file ends too early", " ".join(came.told))


if __name__ == "__main__":
    unittest.main()
