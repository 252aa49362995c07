"""Tests of files that change while they are read, at generated places, beside a model that knows what was in them at each time.

Whatever comes, and whenever, the rows that a reading gives are all of the file as it was at one time, or it raises an error."""
from __future__ import annotations

import contextlib
import io
import os
import random
import struct
import tempfile
import unittest
from collections import Counter
from collections.abc import Callable
from itertools import product
from typing import IO, Any, NamedTuple, cast

import gavyreto
from gavyreto import tds
from gavyreto.commands import adapt
from gavyreto.commands.common import Stopped
from tests.beside import PROGRAM, meanwhile, responses, served

CASES = 40  # of each way to read
LENGTHS = (1, 40, 300, 300, 700)  # rows, of a thousand bytes; the files of the longer ones come in several blocks
LATEST = 400  # line of the package at which a change comes
LONG_AGO = (1, 1)  # before which nothing changed, whatever times the file system tells apart
FLOAT, TEXT = b"\x3e", b"\xA7\xD0\x07" + responses.COLLATION
Rows = list[tuple[gavyreto.Value, ...]]


class Content(NamedTuple):
    """What is in a file: its bytes, and the rows that a reading gives of them."""

    data: bytes
    rows: Rows


def rows_of(version: int, count: int) -> Rows:
    return [(version / 3, f"{version} {number}".ljust(1000, ".")) for number in range(count)]


def text_of(rows: Rows) -> Content:
    lines = ["t", *(str(text) for _, text in rows)]
    return Content("".join(f'"{it}"\r\n' for it in lines).encode(), [row[1:] for row in rows])


def response_of(rows: Rows, has_float: bool) -> Content:
    described = [bytes(4) + b"\x08\0" + kind + b"\x01n\0" for kind in (FLOAT, TEXT)[not has_float:]]
    tokens = [b"\x81" + struct.pack("<H", len(described)) + b"".join(described)]
    for number, text in rows:
        tokens.append(b"\xD1" + (struct.pack("<d", number) if has_float else b"") + struct.pack("<H", 1000) + str(text).encode())
    return Content(b"".join(tds.packets([*tokens, served.done()], 4096)), [row[not has_float:] for row in rows])


def all_of(sets: gavyreto.Sets) -> Rows:
    with sets:
        rows = sets.only()
        return [tuple(row) for some in iter(lambda: rows.fetchmany(50), []) for row in some]


def by_reading(path: str) -> Rows:
    return all_of(gavyreto.read(path))


def by_export(path: str, adapts: bool) -> Rows:
    return all_of(gavyreto.export(path, program=PROGRAM, adapt=adapts))


def by_open_file(path: str, opened: Callable[[str, str], IO[bytes]], adapts: bool) -> Rows:
    with opened(path, "rb") as file:
        return all_of(gavyreto.export(file, program=PROGRAM, adapt=adapts))


class OtherFile(io.FileIO):
    """A file of a type that is read by its own method."""


class ChangingFile(OtherFile):
    """A file over which others are written once some of it was read."""

    def __init__(self, path: str, data: bytes) -> None:
        super().__init__(path)
        self._path, self._data = path, data

    def read(self, most: int = -1, /) -> bytes:
        if self.tell() > 0:
            write_over_unseen(self._path, self._data)
        return super().read(most)


def by_command(path: str) -> Rows:
    """The rows of what `adapt -o` writes; what isn't whole has no name."""
    with contextlib.suppress(FileNotFoundError):
        os.remove(path + ".out")
    adapt.run(["-o", path + ".out", path])
    return [(float(str(number)), text) for number, text in all_of(gavyreto.export(path + ".out", program=PROGRAM))]


def write_over(path: str, data: bytes) -> None:
    with open(path, "r+b") as file:
        file.write(data)
        file.truncate()


def write_over_unseen(path: str, data: bytes) -> None:
    """As many bytes, by whom a file system sees nothing of, as its times are those of seconds, or by what it tells later."""
    write_over(path, data)
    os.utime(path, LONG_AGO)


def append(path: str, data: bytes) -> None:
    with open(path, "ab") as file:
        file.write(data)


def replace(path: str, data: bytes) -> None:
    with open(path + ".new", "wb") as file:
        file.write(data)
    os.replace(file.name, path)


CHANGES = (write_over, write_over_unseen, append, replace)


class Changes(unittest.TestCase):
    def run_cases(self, read: Callable[[str], Rows], content_of: Callable[[Rows], Content]) -> None:
        counts, numbers = Counter[str](), random.Random(13)
        with tempfile.TemporaryDirectory() as folder:
            path = os.path.join(folder, "file")
            for case in range(CASES):
                length, change, at = numbers.choice(LENGTHS), numbers.choice(CHANGES), int(LATEST ** numbers.random())
                old, new = content_of(rows_of(1, length)), content_of(rows_of(2, length + numbers.choice((-1, 0, 0, 1))))
                with open(path, "wb") as file:
                    file.write(old.data)
                os.utime(path, LONG_AGO)
                try:
                    found, is_come = self.read_meanwhile(read, path, at, lambda: change(path, new.data))
                    counts["old" if found == old.rows else "new"] += is_come
                    there = [old.rows, [*old.rows, ("t",), *new.rows] if change is append else new.rows]  # the header of a text behind another is a row
                    self.assertTrue(found in there, (case, at, change))
                except (gavyreto.Error, Stopped, OSError):
                    counts["error"] += 1
        print(f"{self.id().rpartition('.')[2]}: {dict(counts)}")
        self.assertGreater(counts["error"], CASES // 10)
        self.assertGreater(counts["old"] + counts["new"], CASES // 10)

    def read_meanwhile(self, read: Callable[[str], Rows], path: str, at: int, change: Callable[[], None]) -> tuple[Rows, bool]:
        """What a reading gives within which a change comes, and whether it came."""
        found: Rows = []
        is_come = meanwhile(at, lambda: found.extend(read(path)), change)
        return found, is_come

    def test_texts(self) -> None:
        self.run_cases(by_reading, text_of)

    def test_responses(self) -> None:
        for has_float in (False, True):
            self.run_cases(lambda path: by_export(path, has_float), lambda rows: response_of(rows, has_float))

    def test_responses_of_open_files(self) -> None:
        for opened, has_float in product((open, io.FileIO, OtherFile), (False, True)):
            self.run_cases(lambda path: by_open_file(path, cast(Any, opened), has_float), lambda rows: response_of(rows, has_float))

    def test_a_buffer_that_has_read_some_before(self) -> None:
        """That isn't of what is in the file now."""
        old, new = (response_of(rows_of(version, 300), True) for version in (1, 2))
        with tempfile.TemporaryDirectory() as folder:
            path = os.path.join(folder, "file")
            for way, is_other in ((write_over, True), (append, False), (replace, False)):
                with open(path, "wb") as file:
                    file.write(old.data)
                with open(path, "rb") as source, contextlib.ExitStack() as stack:
                    source.peek()
                    way(path, new.data)
                    if is_other:
                        stack.enter_context(self.assertRaisesRegex(OSError, "it changed while it was read"))
                    self.assertEqual(all_of(gavyreto.export(source, program=PROGRAM, adapt=True)), old.rows)

    def test_a_change_that_no_time_tells(self) -> None:
        """It is seen in what is read again of the file: at its beginning, in its middle and at its end."""
        rows, others = rows_of(1, 300), rows_of(2, 300)
        for place, adapts in product((0, 150, 299), (False, True)):
            old, new = (response_of(it, adapts) for it in (rows, [*rows[:place], others[place], *rows[place + 1:]]))
            with tempfile.TemporaryDirectory() as folder, self.subTest(place=place, adapts=adapts):
                path = os.path.join(folder, "file")
                replace(path, old.data)
                os.utime(path, LONG_AGO)
                with ChangingFile(path, new.data) as file:
                    self.assertRaisesRegex(OSError, "it changed while it was read", all_of, gavyreto.export(file, program=PROGRAM, adapt=adapts))
                with gavyreto.export(path, program=PROGRAM) as sets:
                    write_over_unseen(path, old.data)
                    self.assertRaisesRegex(gavyreto.Fault if adapts else OSError, "Refused" if adapts else "it changed", all_of, sets)

    def test_responses_that_are_rewritten(self) -> None:
        self.run_cases(by_command, lambda rows: response_of(rows, True))


if __name__ == "__main__":
    unittest.main()
