"""Tests of rows of generated texts, beside Python's module csv, and of texts in which a character is wrong."""
from __future__ import annotations

import csv
import io
import random
import unittest
from decimal import Decimal
from typing import Any, Callable, NamedTuple, Optional
from unittest import mock

import gavyreto
from gavyreto.text import Parser, Sets

CASES = 400
PARTS = ["a", "Zürich", "東京", "𝄞", '"', '""', ",", "\r", "\n", "\r\n", "\r\n\r\n", "NULL", '"NULL"', ",NULL,", '","', '\r\n"', "0x", "1", "\ufeff", "\uffff"]
WRONG = ['"', '""', ",", "\r", "\n", "\r\n", "N", "NULL", "0", "1", "x", "X", "-", ".", "+", "_", " ", "é", "١", "", "e"]
# A kind: a field without quotes by random numbers, whether it has quotes, and its value by what the module csv reads.
Kind = tuple[Callable[[random.Random], str], bool, Callable[[str], Any]]
KINDS: list[Kind] = [
    (lambda numbers: "".join(numbers.choices(PARTS, k=numbers.randrange(6))), True, str),
    (lambda numbers: numbers.choice(["NULL", "", "new", "old"]), True, str),
    (lambda numbers: str(numbers.randrange(-10**numbers.randrange(1, 38), 10**numbers.randrange(1, 38))), False, int),
    (lambda numbers: str(numbers.randrange(2)), False, int),
    (lambda numbers: f"{numbers.choice(['', '-'])}{numbers.randrange(10**numbers.randrange(1, 9))}.{numbers.randrange(100):02d}", False, Decimal),
    (lambda numbers: "0x" + numbers.randbytes(numbers.randrange(4)).hex(), False, lambda field: bytes.fromhex(field[2:])),
    (lambda numbers: f"20{numbers.randrange(100):02d}-0{numbers.randrange(1, 10)}-01 23:59:{numbers.randrange(60):02d}.{numbers.randrange(1000):03d}", False, str),
    (lambda numbers: f"{numbers.randrange(2**32):08x}-0000-1111-2222-{numbers.randrange(2**48):012x}", False, str),
]


class Made(NamedTuple):
    """A set: the kinds of its columns, and its records, the header first, with a field for each column, None for NULL."""

    kinds: list[Kind]
    records: list[list[Optional[str]]]

    def text(self) -> str:
        return "".join(",".join(map(self.field, range(len(it)), it, [number == 0] * len(it))) + "\r\n" for number, it in enumerate(self.records))

    def field(self, place: int, field: Optional[str], is_header: bool) -> str:
        if field is None:
            return "NULL"
        return '"' + field.replace('"', '""') + '"' if is_header or self.kinds[place][1] else field

    def values(self, read: list[list[str]]) -> list[list[Any]]:
        """The values of the rows, by what the module csv read."""
        return [
            [None if field is None else kind[2](it) for kind, field, it in zip(self.kinds, record, fields)]
            for record, fields in zip(self.records[1:], read[1:])]


def made(numbers: random.Random) -> Made:
    kinds = numbers.choices(KINDS, k=numbers.randrange(1, 7))
    nulls = [numbers.choice([0, 0, 0.2, 0.9]) for _ in kinds]
    header: list[Optional[str]] = ["".join(numbers.choices(PARTS, k=2)) for _ in kinds]
    return Made(kinds, [header] + [
        [None if numbers.random() < share else kind[0](numbers) for kind, share in zip(kinds, nulls)] for _ in range(numbers.randrange(60))])


def sets_of(text: str, step: int) -> Sets:
    """The sets of a text that comes in pieces of so many bytes."""
    data = text.encode()
    pieces = iter([data[at:at + step] for at in range(0, len(data), step)])
    return Sets(lambda most: next(pieces, b""), False)


def outcome(text: str, step: int) -> tuple[list[Any], str]:
    """The sets and rows of a text, with their types, and what is wrong with it."""
    found: list[Any] = []
    try:
        with sets_of(text, step) as sets:
            for one in sets:
                found.append(one.names)
                for row in one:
                    found.append([(it, type(it)) for it in row])
    except gavyreto.Error as wrong:
        return found, f"{type(wrong).__name__}: {wrong}"
    return found, ""


class Generated(unittest.TestCase):
    def test_rows_are_those_of_the_module_csv(self) -> None:
        with mock.patch.object(Parser, "_columns", autospec=True, side_effect=Parser._columns) as at_once:
            for seed in range(CASES):
                numbers = random.Random(seed)
                sets = [made(numbers) for _ in range(numbers.randrange(1, 4))]
                text = "\r\n".join(it.text() for it in sets)
                read = list(csv.reader(io.StringIO(text, newline="")))
                with self.subTest(seed=seed), sets_of(text, numbers.randrange(1, 2000)) as came:
                    for it in sets:
                        one = next(came)
                        own, read = read[:len(it.records)], read[len(it.records) + 1:]
                        self.assertEqual(one.names, own[0])
                        wanted = it.values(own)
                        self.assertEqual([[(value, type(value)) for value in row] for row in one], [[(value, type(value)) for value in row] for row in wanted])
                    self.assertRaises(StopIteration, next, came)
        self.assertGreater(at_once.call_count, CASES)

    def test_a_wrong_character_is_found_where_it_stands(self) -> None:
        """Rows that are read many at once are those that are read one by one, and so is what is told of others."""
        wrong = 0
        for seed in range(CASES):
            numbers = random.Random(seed)
            text, step = made(numbers).text(), numbers.randrange(1, 2000)
            for _ in range(5):
                at = numbers.randrange(len(text))
                other = text[:at] + numbers.choice(WRONG) + text[at + numbers.randrange(3):]
                came = outcome(other, step)
                with mock.patch.object(Parser, "_rows_up_to", return_value=None):
                    self.assertEqual(came, outcome(other, step), (seed, other))
                wrong += came[1] != ""
        self.assertGreater(wrong, CASES)
