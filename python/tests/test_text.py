"""Tests of reading texts: values, rows, sets, and texts that are none."""
from __future__ import annotations

import gc
import os
import pickle
import resource
import subprocess
import sys
import tempfile
import tracemalloc
import unittest
from datetime import date, datetime, time, timedelta, timezone
from decimal import Decimal
from typing import Any
from uuid import UUID

import gavyreto
from gavyreto.records import LONGEST
from gavyreto.rows import row_type
from gavyreto.text import Parser, Sets
from tests.beside import responses


def sets_of(data: bytes, step: int = 1 << 20, dates: bool = False) -> Sets:
    """The sets of a text that comes in pieces of so many bytes."""
    pieces = iter([data[at:at + step] for at in range(0, len(data), step)])
    return Sets(lambda most: next(pieces, b""), dates)


def all_of(sets: Sets) -> list[tuple[list[str], list[list[gavyreto.Value]]]]:
    with sets:
        return [(result_set.names, [list(row) for row in result_set]) for result_set in sets]


class Values(unittest.TestCase):
    def test_fields(self) -> None:
        guid = "6f9619ff-8b86-d011-b42d-00c04fc964ff"
        for field, value in (
            ("0x", b""), ("0x0aff", b"\x0a\xff"), ('""', ""), ('"NULL"', "NULL"), ("NULL", None), ('"0x0a"', "0x0a"),
            ("-0.00", Decimal("-0.00")), ("9" * 38, 10**38 - 1), ('"a""b,\r\n"', 'a"b,\r\n'), ("0001-01-01", date(1, 1, 1)),
            ("23:59:59.9999999", "23:59:59.9999999"), ("23:59:59.9999990", "23:59:59.9999990"), ("23:59:59", time(23, 59, 59)),
            ("00:00:00.1", time(0, 0, 0, 100000)), ("2024-02-29 12:34:00", datetime(2024, 2, 29, 12, 34)),
            ("0001-01-01 00:00:00 -14:00", datetime(1, 1, 1, tzinfo=timezone(-timedelta(hours=14)))),
            ("2024-02-29 01:00:00.125 +05:30", datetime(2024, 2, 29, 1, 0, 0, 125000, timezone(timedelta(hours=5, minutes=30)))),
            (guid, UUID(guid)),
        ):
            with self.subTest(field=field):
                came = gavyreto.value_of(field, dates=True)
                self.assertEqual((came, type(came)), (value, type(value)))
                self.assertEqual(gavyreto.value_of(field), str(field) if isinstance(value, (date, time, UUID)) else value)

    def test_what_is_no_field(self) -> None:
        for field in ("", "12:34", "1_000", "+1", " 1", "1.", "0x0", "0x0A", "0x0 0a", "null", '"a', '"a"b"', "2024-02-29T00:00:00", "nan", "١", " +01:00",
                      "2024-02-29 +01:00", "12:34:56 +01:00"):
            with self.subTest(field=field), self.assertRaises(ValueError):
                gavyreto.value_of(field)

    def test_a_column_has_one_type(self) -> None:
        (_, rows), = all_of(sets_of(
            b'"seven","six"\r\n12:34:56.1000000,12:34:56.100000\r\nNULL,NULL\r\n12:34:56.1000001,12:34:56.100001\r\n', dates=True))
        self.assertEqual(rows, [
            ["12:34:56.1000000", time(12, 34, 56, 100000)], [None, None], ["12:34:56.1000001", time(12, 34, 56, 100001)]])


class Pieces(unittest.TestCase):
    def test_a_text_is_the_same_in_pieces_of_any_size(self) -> None:
        names = responses.NAMES
        for step in (1, 2, 3, 7, 64, 5000):
            with self.subTest(step=step):
                (came, rows), = all_of(sets_of(responses.expected(), step))
                self.assertEqual((came, repr(rows)), (names, repr(responses.VALUES)))

    def test_sets_in_pieces_of_any_size(self) -> None:
        data = b'"a","b"\r\n1,"x\r\n\r\ny"\r\n\r\n"a"\r\n\r\n""\r\nNULL\r\n"\r\n\r\n"\r\n'
        wanted = [(["a", "b"], [[1, "x\r\n\r\ny"]]), (["a"], []), ([""], [[None], ["\r\n\r\n"]])]
        for step in (*range(1, 12), 1000):
            with self.subTest(step=step):
                self.assertEqual(all_of(sets_of(data, step)), wanted)

    def test_long_values(self) -> None:
        """A row longer than what is held as text, with each kind of field in it, cut anywhere."""
        text = 'é"\r\n,"",' * (LONGEST // 6)
        data = bytes(range(256)) * (LONGEST // 256)
        row = f'7,"{text.replace(chr(34), chr(34) * 2)}",NULL,0x{data.hex()},-12.50,0x,"",2024-02-29\r\n'
        whole = f'"a","b","c","d","e","f","g","h"\r\n8,"",NULL,0x00,1.00,0x01,NULL,NULL\r\n{row}9,NULL,NULL,0x,1.00,0x,"",2024-02-28\r\n'
        wanted = [
            [8, "", None, b"\0", Decimal("1.00"), b"\1", None, None], [7, text, None, data, Decimal("-12.50"), b"", "", "2024-02-29"],
            [9, None, None, b"", Decimal("1.00"), b"", "", "2024-02-28"]]
        for step in (4093, 65536, 1 << 24):
            with self.subTest(step=step):
                (_, rows), = all_of(sets_of(whole.encode(), step))
                self.assertEqual(rows, wanted)

    def test_a_wide_set(self) -> None:
        """More columns than a row's pattern has."""
        header, row = ",".join(['"x"'] * 3000), ",".join(["1", '"a"', "NULL"] * 1000)
        (names, rows), = all_of(sets_of(f"{header}\r\n{row}\r\n{row}\r\n".encode(), 1000))
        self.assertEqual((len(names), rows), (3000, [[1, "a", None] * 1000] * 2))

    def test_many_wide_sets(self) -> None:
        """What is kept of those before doesn't grow with them; rows of two in turn have their types."""
        text = b"\r\n".join(b",".join(b'"%d %d"' % (number, place) for place in range(5000)) + b"\r\n" for number in range(40))
        tracemalloc.start()
        sets = [0 for _ in sets_of(text)]
        gc.collect()
        held = tracemalloc.get_traced_memory()[0]
        tracemalloc.stop()
        self.assertEqual((len(sets), held < 10_000_000), (40, True), held)
        for names in ([*map(str, range(3000))], ["a"]):
            row, other = (row_type(tuple(names))(names) for _ in range(2))
            self.assertIs(type(row), type(other))
            self.assertEqual((pickle.loads(pickle.dumps(row)), type(pickle.loads(pickle.dumps(row)))), (row, type(row)))

    def test_a_long_value_is_held_once(self) -> None:
        """The peak of a process that reads a value of 200 MB, less than twice that."""
        program = (
            "import gavyreto.text as text, resource\n"
            "pieces = iter([b'\"a\"\\r\\n0x'] + [b'61' * 65536] * 1526 + [b'\\r\\n'])\n"
            "row, = text.Sets(lambda most: next(pieces, b''), False).only()\n"
            "print(len(row[0]), resource.getrusage(resource.RUSAGE_SELF).ru_maxrss)")
        came = subprocess.run([sys.executable, "-c", program], capture_output=True, check=True).stdout.split()
        self.assertEqual(int(came[0]), 1526 * 65536)
        self.assertLess(int(came[1]), 300_000 if sys.platform == "linux" else resource.RLIM_INFINITY)


class ByColumns(unittest.TestCase):
    def test_batches(self) -> None:
        data = b'"a","b"\r\n' + b"".join(b'%d,"x%d"\r\n' % (n, n) for n in range(1000))
        for step in (7, 100000):
            for size in (1, 64, 1000, 5000):
                with self.subTest(step=step, size=size), sets_of(data, step) as came:
                    rows = came.only()
                    first = next(rows)
                    batches = list(rows.batches(size))
                    self.assertEqual([len(batch[0]) for batch in batches], [size] * (999 // size) + [999 % size] * (999 % size > 0))
                    self.assertEqual([list(first), *([a, b] for batch in batches for a, b in zip(*batch))], [[n, f"x{n}"] for n in range(1000)])
                    self.assertEqual(came.rows, 1000)
        self.assertEqual(list(sets_of(b'"a"\r\n').only().batches(5)), [])

    def test_a_value_as_a_file(self) -> None:
        long, text = b"\0\xff" * LONGEST, 'é"\r\n,' * (LONGEST // 4)
        quoted = text.replace('"', '""')
        data = f'"n","text","data"\r\n1,"{quoted}",0x{long.hex()}\r\n2,"",0x\r\n3,NULL,NULL\r\n4,"x",0x0a\r\n\r\n"b"\r\n"y"\r\n'.encode()
        for step in (4093, 1 << 24):
            with self.subTest(step=step), sets_of(data, step) as came:
                rows: Any = next(came)
                with rows.open("data") as file:
                    self.assertEqual((file.read(5), file.read()), (long[:5], long[5:]))
                self.assertEqual(came.rows, 1)
                with rows.open(1) as file:
                    self.assertEqual(file.read(), "")
                self.assertEqual((rows.open("text"), rows.open(2).read(), came.rows), (None, b"\n", 4))
                with self.assertRaises(StopIteration):
                    rows.open()
                self.assertEqual(next(next(came)), ("y",))
        with sets_of(data, 4093) as came:
            rows = next(came)
            with rows.open("text") as file:
                pieces = [file.read(10), file.read(1)]
                self.assertEqual("".join(pieces), text[:11])
            self.assertEqual(next(rows), (2, "", b""))
            with self.assertRaises(ValueError):
                rows.open("n")

    def test_a_value_as_a_file_whatever_was_read_before(self) -> None:
        """What is none of text or bytes is refused, and a row that is none fails the reading, whether or not rows wait in the buffer."""
        for is_read in (False, True):
            for first, second, kind in (("1", "2", ValueError), ("2024-01-01", "2024-01-02", ValueError), ("1", "?", gavyreto.MalformedText), ('"1"', "0x00", gavyreto.MalformedText)):
                with self.subTest(second=second, is_read=is_read), sets_of(f'"a"\r\n{first}\r\n{second}\r\n3\r\n'.encode(), 1 << 20 if is_read else 5, dates=True) as came:
                    rows = came.only()
                    next(rows)
                    with self.assertRaises(kind):
                        rows.open()
                    if kind is ValueError and first == "1":
                        self.assertEqual(rows.fetchall(), [(3,)])
                    else:
                        self.assertRaises(gavyreto.MalformedText, rows.fetchall)
        for row in b'?,"x",1', b'1,"x",?', b'NULL,"x",1.5':  # also in the columns that are passed over
            with self.subTest(row), sets_of(b'"a","b","c"\r\n1,"x",1\r\n' + row + b"\r\n", 5) as came, self.assertRaises(gavyreto.MalformedText):
                rows = came.only()
                for _ in range(2):
                    file = rows.open("b")
                    assert file
                    file.close()
        for text, count in ((b'"a","b"\r\n1,2\r\n1,2,3\r\n', 1), (b'"a","b"\r\nNULL\r\n', 0)):  # a row that is none is none that was handed out
            with sets_of(text, 5) as came:
                rows = next(came)
                rows.fetchmany(count)
                with self.assertRaises(gavyreto.MalformedText) as raised:
                    rows.open()
                self.assertEqual((raised.exception.rows, came.rows), (count, count))

    def test_nothing_is_read_past_a_value_that_is_open(self) -> None:
        for text, kind in (('"a","b"\r\n"' + "x" * 3_000_000 + '",1\r\n"y",2\r\n\r\n"c"\r\n', str), ('"a","b"\r\n0x' + "ab" * 3_000_000 + ',1\r\n0x00,2\r\n', bytes)):
            came = sets_of(text.encode(), 4093)
            rows = next(came)
            file = rows.open("a")
            assert file
            for wrong in (lambda: rows.open("a"), lambda: next(rows), lambda: next(came), rows.fetchall):
                with self.assertRaisesRegex(ValueError, "isn't closed"):
                    wrong()
            self.assertEqual(len(file.read()), 3_000_000)
            file.close()
            self.assertEqual(next(rows)[1], 2)
            self.assertIs(kind, str if "x" * 9 in text else bytes)

    def test_batches_of_no_rows(self) -> None:
        for size in (0, -1):
            with self.assertRaisesRegex(ValueError, "at least 1 row"):
                next(sets_of(b'"a"\r\n1\r\n')).batches(size)

    def test_offsets_and_seven_digits_that_are_cut(self) -> None:
        for field, value in (
            ("2024-02-29 01:00:00.1259999 +05:30", datetime(2024, 2, 29, 1, 0, 0, 125999, timezone(timedelta(hours=5, minutes=30)))),
            ("23:59:59.9999999", time(23, 59, 59, 999999)), ("0001-01-01 00:00:00.0000001", datetime(1, 1, 1)),
        ):
            self.assertEqual(gavyreto.value_of(field, "truncate"), value)

    def test_a_value_as_a_file_that_ends(self) -> None:
        data = b'"a","b"\r\n0x' + b"00" * LONGEST
        for rest, kind in ((b"", gavyreto.UnfinishedText), (b"g,1\r\n", gavyreto.MalformedText), (b"\r\n", gavyreto.MalformedText), (b",1,2\r\n", gavyreto.MalformedText)):
            with self.subTest(rest=rest), sets_of(data + rest, 65536) as came, self.assertRaises(kind):
                opened: Any = came.only().open()
                with opened as file:
                    self.assertEqual(len(file.read(100)), 100)
                    file.read()


class Malformed(unittest.TestCase):
    ROWS = b'"a","b"\r\n1,"x"\r\n2,"y"\r\n'

    def test_texts_that_are_none(self) -> None:
        """What is wrong comes after all rows before it, and again at each further call."""
        for wrong in (
            b"1,,2\r\n", b'3,"x"y\r\n', b"3\r\n", b'3,"z",4\r\n', b',"z"\r\n', b'3,"z"\r\n4\r\n', b'"3","z"\r\n', b"3,4\r\n", b"3,0x00\r\n", b'3.0,"z"\r\n',
            b'3,"z\xff"\r\n', b'3,"z"\r4,"z"\r\n', b'3,"z"\n4,"z"\r\n', b'\r\n\r\n"c"\r\n', b'\r\nc\r\n', b'\r\n1\r\n', b'\r\n"c",NULL\r\n',
            b"\r\n2024-01-01\r\n", b'\r\n"c",12:34:56\r\n', b'\r\n6f9619ff-8b86-d011-b42d-00c04fc964ff,"c"\r\n',
        ):
            for step in (1, 1000):
                with self.subTest(wrong=wrong, step=step), sets_of(self.ROWS + wrong, step) as came:
                    rows: list[list[gavyreto.Value]] = []
                    with self.assertRaises(gavyreto.MalformedText) as stop:
                        for result_set in came:
                            for row in result_set:
                                rows.append(list(row))
                    self.assertEqual(rows[:2], [[1, "x"], [2, "y"]])
                    self.assertEqual(stop.exception.rows, len(rows))
                    with self.assertRaises(gavyreto.MalformedText):
                        next(came)

    def test_values_whose_characters_alone_are_right(self) -> None:
        """Among rows that are read many at once: a binary value that begins with another digit, and texts that only Python takes for floats."""
        rows = b'"a","b"\r\n0x00,"1.5"\r\n0x01,NULL\r\n'
        for wrong in (b"1x00", b"000x", b'0x00,"nan"', b'0x00,"1_0"', b'0x00," 1"', b'0x00,"1e"', b'0x00,""', '0x00,"\u0661"'.encode()):
            pieces = iter([rows, b"".join([b'0x02,"-1e+16"\r\n', wrong, b"" if b"," in wrong else b',"1.0"', b"\r\n"])])
            with self.subTest(wrong=wrong), self.assertRaises(gavyreto.MalformedText):
                parser, found = Parser(lambda most: next(pieces, b""), False, lambda _: [False, True]), list[Any]()
                parser.next_header()
                try:
                    while (columns := parser.next_rows()) is not None:
                        found += zip(*columns)
                except ValueError as error:
                    self.assertEqual(found, [(b"\0", 1.5), (b"\1", None), (b"\2", -1e16)])
                    raise gavyreto.MalformedText(str(error)) from None

    def test_a_long_row_of_another_width(self) -> None:
        long = b'"' + b"x" * (LONGEST + 10) + b'"'
        for wrong in (b"1," + long + b",2\r\n", long + b"\r\n", b'1,"x' + long + b"\r\n", b"0x0" + b"0" * LONGEST + b',"x"\r\n'):
            with self.subTest(wrong=wrong[:10]), sets_of(self.ROWS + wrong) as came, self.assertRaises(gavyreto.MalformedText):
                list(next(came))

    def test_texts_that_end_within_a_row(self) -> None:
        long = b'"' + b"x" * (LONGEST + 10)
        for rest in (b"3", b'3,"x\r\n', b"3,4\r", b'3,"x""', b"\r\n", b'\r\n"c"', long, long + b'"', b"3," + long + b'"\r', b"0x" + b"00" * LONGEST):
            for step in (1000, 1 << 22):
                with self.subTest(rest=rest[:10], step=step), sets_of(self.ROWS + rest, step) as came:
                    rows = next(came)
                    self.assertEqual([next(rows), next(rows)], [(1, "x"), (2, "y")])
                    with self.assertRaises(gavyreto.UnfinishedText) as stop:
                        list(rows)
                        list(came)
                    self.assertEqual(stop.exception.rest.encode(), rest[:LONGEST])


class Files(unittest.TestCase):
    def test_a_text_in_a_file(self) -> None:
        with tempfile.NamedTemporaryFile(suffix=".csv") as file:
            file.write(responses.expected())
            file.flush()
            (names, rows), = all_of(gavyreto.read(file.name))
            self.assertEqual((names, repr(rows)), (responses.NAMES, repr(responses.VALUES)))
        with self.assertRaises(FileNotFoundError):
            gavyreto.read("no such file")

    def test_a_text_that_changes(self) -> None:
        """As one that is under way, or is replaced: rows of it may be missing, or be those of another one."""
        for flags, data in (os.O_APPEND, b"4\r\n"), (0, b'"a"\r\n7'), (os.O_TRUNC, b'"a"\r\n'), (os.O_TRUNC, b"x"):
            with self.subTest(flags=flags, data=data), tempfile.NamedTemporaryFile() as file:
                file.write(b'"a"\r\n' + b"1\r\n" * 100_000)
                file.flush()
                os.utime(file.name, (0, 0))  # a change has another time
                with gavyreto.read(file.name) as came:
                    rows = came.only()
                    self.assertEqual(rows.fetchone(), (1,))
                    changed = os.open(file.name, os.O_WRONLY | flags)
                    os.write(changed, data)
                    os.close(changed)
                    for _ in range(2):
                        self.assertRaisesRegex(OSError, "it changed while it was read", rows.fetchall)

    def test_the_only_set(self) -> None:
        two = b'"a"\r\n1\r\n\r\n"b"\r\n'
        with sets_of(two) as came, self.assertRaisesRegex(gavyreto.NotOneSet, "split them first") as stop:
            list(came.only())
        self.assertEqual((stop.exception.sets, stop.exception.rows), (1, 1))
        with sets_of(b"") as came, self.assertRaises(gavyreto.NotOneSet):
            came.only()
        self.assertEqual(list(sets_of(b'"a"\r\n1\r\n').only()), [(1,)])

    def test_rows_that_were_passed_over(self) -> None:
        data = b'"a"\r\n1\r\n2\r\n\r\n"b"\r\n3\r\n\r\n"c"\r\n\r\n"d"\r\n'
        first, second, third, _ = sets = list(sets_of(data))
        self.assertEqual([one.names for one in sets], [["a"], ["b"], ["c"], ["d"]])
        for one in (first, second):
            with self.assertRaises(gavyreto.PassedOver):
                next(one)
        self.assertEqual(list(third), [])
        came = sets_of(data)
        first = next(came)
        self.assertEqual(list(first), [(1,), (2,)])
        self.assertEqual([one.names for one in came], [["b"], ["c"], ["d"]])
        self.assertEqual((list(first), came.sets, came.rows), ([], 4, 2))

    def test_a_reading_that_was_closed(self) -> None:
        with sets_of(b'"a"\r\n1\r\n\r\n"b"\r\n', 3) as came:
            first = next(came)
        with self.assertRaisesRegex(ValueError, "closed"):
            next(came)
        with self.assertRaisesRegex(ValueError, "closed"):
            list(first)
        with sets_of(b'"a"\r\n1\r\n') as came:
            list(came.only())
        self.assertEqual(list(came), [])

    def test_counts(self) -> None:
        pieces = iter([b'"a"\r\n1\r\n2\r\n\r\n"b"\r\n'])
        parser = Parser(lambda most: next(pieces, b""), False)
        while parser.next_header():
            while parser.next_rows() is not None:
                pass
        self.assertEqual((parser.sets, parser.rows, parser.records.length), (2, 2, 18))
