"""Tests of reading responses by the program: sources, sets, reports and stops."""
from __future__ import annotations

import bz2
import contextlib
import gc
import gzip
import io
import os
import pickle
import random
import select
import socket
import subprocess
import sys
import tempfile
import textwrap
import threading
import time
import unittest
from collections.abc import Iterator
from datetime import datetime
from decimal import Decimal
from itertools import product
from types import SimpleNamespace
from typing import Any, Optional
from unittest import mock

import gavyreto
from gavyreto import tds
from gavyreto.payload import Descriptions, NotedDescriptions, Payload, columns_again
from gavyreto.program import report_of
from tests.beside import PROGRAM, answered, interrupted, is_waiting, responses, served, started, wait_for, wire


def export(source: Any, **options: Any) -> gavyreto.Response:
    return gavyreto.export(source, program=PROGRAM, **options)


def all_of(sets: gavyreto.Sets) -> list[tuple[list[str], list[gavyreto.Row]]]:
    with sets:
        return [(result_set.names, list(result_set)) for result_set in sets]


SETS = [
    (["id", "note"], [(1, "first\r\n\r\nthird line"), (2, None)]),
    (["total"], [(Decimal("12.50"),)]),
    (["id"], []),
]


class SetsAndRows(unittest.TestCase):
    def test_a_value_of_each_kind(self) -> None:
        for dates in (False, True):
            (names, rows), = all_of(export(wire("kinds", 900), dates=dates))
            self.assertEqual((names, len(rows)), (responses.NAMES, 900))
            for column in zip(*rows):
                self.assertEqual(len({type(value) for value in column if value is not None}), 1)
        self.assertEqual(repr([list(row) for row in all_of(export(wire("kinds")))[0][1]]), repr(responses.VALUES))

    def test_several_sets_and_one_without_rows(self) -> None:
        with export(wire("sets")) as came:
            self.assertEqual([(one.names, list(one)) for one in came], SETS)
            self.assertEqual(came.report, gavyreto.Report(3, 3, 0, 0, 72))
            self.assertEqual((came.sets, came.rows), (3, 3))

    def test_sets_that_are_passed_over(self) -> None:
        with export(wire("sets")) as came:
            sets = list(came)
            self.assertEqual([one.names for one in sets], [names for names, _ in SETS])
            self.assertEqual(came.report, gavyreto.Report(3, 3, 0, 0, 72))
            with self.assertRaises(gavyreto.PassedOver):
                list(sets[0])

    def test_a_response_without_sets(self) -> None:
        came = export(answered(served.done()))
        self.assertEqual((list(came), came.report), ([], gavyreto.Report(0, 0, 0, 0, 0)))

    def test_reading_may_be_left_in_the_middle(self) -> None:
        with export(wire("kinds", 20000)) as came:
            next(next(came))
        self.assertIsNone(came.report)
        with self.assertRaisesRegex(ValueError, "closed"):
            next(came)

    def test_readings_that_are_dropped(self) -> None:
        """Their programs end, and their descriptors don't get more with each."""
        before = len(os.listdir("/proc/self/fd"))
        for _ in range(300):
            next(export(wire("kinds", 10)).only())
        gc.collect()  # Python looks the more seldom for what isn't used, the more other tests have left
        for _ in range(100):  # Popen looks at those that still ran with each that is started
            all_of(export(wire("sets")))
            if len(os.listdir("/proc/self/fd")) < before + 15:
                return
        self.fail("the descriptors of programs that were killed are left")

    def test_what_is_left_of_readings(self) -> None:
        """Of those that are dropped within a long response neither a thread nor a program; of those, and of others, nothing that Python warns of."""
        script = """
            import gc, io, os, socket, subprocess, sys, threading, time
            from pathlib import Path
            from gavyreto import export
            short, path = Path(sys.argv[1]).read_bytes(), sys.argv[2]
            program, threads = sys.argv[3], threading.active_count()
            def put(write):
                try:
                    write(Path(path).read_bytes())
                except OSError:
                    pass  # nobody reads it any more
            def programs():
                return len(subprocess.run(["pgrep", "-P", str(os.getpid()), "tds_replay"], capture_output=True).stdout.split())
            (one, other), (source, sink) = socket.socketpair(), os.pipe()
            for write in other.sendall, lambda data: os.write(sink, data):
                threading.Thread(target=put, args=(write,), daemon=True).start()
            with open(path, "rb", buffering=0) as file, open(path, "rb") as buffered:
                for long in file.readall(), path, file, buffered, source, one:
                    if long is file:
                        file.seek(0)
                    rows = export(long, program=program, adapt=long is buffered).only()
                    assert rows.fetchone() and programs() == 1
                    del rows
                    gc.collect()
            os.close(source), one.close(), other.close(), os.close(sink)
            for adapt in False, True:
                for make in lambda: short, lambda: io.BytesIO(short), lambda: sys.argv[1]:
                    list(export(make(), program=program, adapt=adapt))
                    with export(make(), program=program, adapt=adapt) as came:
                        next(came)
            until = time.monotonic() + 60
            while threading.active_count() > threads and time.monotonic() < until:
                time.sleep(0.01)
            print(threading.active_count() - threads, programs())
            """
        with tempfile.TemporaryDirectory() as folder:
            paths = [os.path.join(folder, name) for name in ("short", "long")]
            for path, data in zip(paths, (wire("orders"), wire("orders", 300_000))):
                with open(path, "wb") as file:
                    file.write(data)
            command = [sys.executable, "-X", "dev", "-W", "error", "-c", textwrap.dedent(script), *paths, PROGRAM]
            came = subprocess.run(command, capture_output=True, text=True, check=False, **started())
        self.assertEqual((came.stdout, came.stderr), ("0 0\n", ""))

    def test_rows_come_before_the_response_has_ended(self) -> None:
        data = wire("orders", 5000)
        for is_buffered in (False, True):
            reader, writer = os.pipe()
            with open(writer, "wb", buffering=0) as pipe, open(reader, "rb", buffering=-1 if is_buffered else 0) as source:
                os.set_blocking(writer, False)
                sent = pipe.write(data)  # what a pipe takes, without the end of the response
                self.assertLess(sent or 0, len(data))
                with export(source) as came:
                    self.assertEqual(next(came.only())[0], 1)
                    os.set_blocking(writer, True)
                    pipe.close()

    def test_a_buffered_file_that_is_left(self) -> None:
        """Nobody has its lock then: neither its `close` nor the end of Python waits for what doesn't come."""
        reader, writer = os.pipe()
        with open(reader, "rb") as source, open(writer, "wb", buffering=0) as pipe:
            pipe.write(wire("orders", 2000)[:60_000])
            with export(source) as came:
                self.assertEqual(next(came.only())[0], 1)
                wait_for(lambda: not select.select([reader], [], [], 0)[0])
                time.sleep(0.1)  # for what the buffer holds
            closing = threading.Thread(target=source.close, daemon=True)
            closing.start()
            closing.join(20)
            self.assertFalse(closing.is_alive())
        script = "import sys, gavyreto; it = gavyreto.export(sys.stdin.buffer, program=sys.argv[1]); print(next(it.only())[0])"
        with tempfile.TemporaryFile() as file:
            file.write(wire("orders", 60_000))
            for place in range(24):
                file.seek(0)
                command = [sys.executable, "-c", script + "; it.close()" * (place % 2), PROGRAM]
                own: dict[str, Any] = {**started(), "stdin": file}
                came_of = subprocess.run(command, capture_output=True, check=False, **own)
                self.assertEqual((came_of.returncode, came_of.stdout, came_of.stderr), (0, b"1\n", b""))


TYPES = (
    "tinyint smallint int bigint bit smallmoney money smalldatetime datetime tinyint smallint int bigint bit smallmoney money smalldatetime datetime "
    "decimal(9,2) numeric(38,10) uniqueidentifier date time(7) time(0) datetime2(7) datetimeoffset(3) char(3) varchar(40) varchar(max) nchar(2) "
    "nvarchar(40) nvarchar(max) binary(4) varbinary(8) varbinary(max)").split()


class Columns(unittest.TestCase):
    def sources(self, name: str, count: int = 0) -> Iterator[Any]:
        data = wire(name, count, 512)
        yield data
        yield io.BytesIO(data)
        with tempfile.TemporaryDirectory() as folder:
            path = os.path.join(folder, "response")
            with open(path, "wb") as file:
                file.write(data)
            yield path
            fifo = os.path.join(folder, "pipe")
            os.mkfifo(fifo)
            threading.Thread(target=self.write_to, args=(fifo, data), daemon=True).start()
            yield fifo

    def write_to(self, path: str, data: bytes) -> None:
        with open(path, "wb") as file:
            file.write(data)

    def test_the_type_of_each_kind(self) -> None:
        for source in self.sources("kinds", 300):
            with self.subTest(source=type(source).__name__), export(source) as came:
                kinds = came.only()
                columns = kinds.columns or []
                self.assertEqual([(it.name, it.type) for it in columns], list(zip(responses.NAMES, TYPES)))
                self.assertEqual(len(list(kinds)), 300)
                described = dict((name, rest) for name, *rest in kinds.description or [])
                self.assertEqual(described["total"], ["numeric(38,10)", None, None, 38, 10, True])
                self.assertEqual(described["title"], ["nvarchar(40)", None, 40, None, None, True])
                self.assertEqual(described["story"], ["nvarchar(max)", None, None, None, None, True])
                self.assertEqual(described["whole"], ["int", None, None, None, None, False])

    def test_each_of_several_sets(self) -> None:
        wanted = [["int", "nvarchar(40)"], ["decimal(9,2)"], ["int"]]
        for source in self.sources("sets"):
            with self.subTest(source=type(source).__name__), export(source) as came:
                self.assertEqual([[it.type for it in one.columns or []] for one in came], wanted)
        with export(wire("sets")) as came:
            sets = list(came)
            self.assertEqual([it.type for it in sets[2].columns or []], ["int"])

    def test_an_interrupt_while_types_are_read(self) -> None:
        """They are there after it, or the reading has failed: a frame would have others without them."""
        for at, raised in product(range(1, 150, 4), (KeyboardInterrupt(), ValueError("late"), OSError("late"))):
            with self.subTest(at=at, raised=raised), export(wire("sets")) as came:
                rows = next(came)
                interrupted(at, lambda rows=rows: rows.columns, raised)  # type: ignore[misc]
                if rows.columns is None:
                    self.assertRaises(gavyreto.Interrupted, rows.fetchall)

    def test_an_interrupt_between_two_sets(self) -> None:
        """What is lost by one leaves no types of another set in its place."""
        def noted() -> NotedDescriptions:
            found = NotedDescriptions()
            found.note(Payload(io.BytesIO(wire("sets")).read))
            return found

        for make in (lambda: Descriptions(columns_again(io.BytesIO(wire("sets")).read)), noted):
            wanted, at = [make().of(place) for place in range(4)], 0
            is_come = True
            while is_come:
                at, found = at + 1, make()
                is_come = interrupted(at, lambda found=found: [found.of(place) for place in range(3)])  # type: ignore[misc]
                for place in range(4):
                    self.assertIn(found.of(place), (None, wanted[place]), at)
            self.assertGreater(at, 5)

    def test_a_text_has_names_alone(self) -> None:
        with tempfile.NamedTemporaryFile() as file:
            subprocess.run([PROGRAM, "export"], input=wire("sets"), stdout=file, check=True, stderr=subprocess.DEVNULL)
            for one in gavyreto.read(file.name):
                self.assertIsNone(one.columns)
                self.assertEqual(one.description, [(name, None, None, None, None, None, None) for name in one.names])

    def test_a_file_that_is_replaced(self) -> None:
        """The types are those of the file that is read, whatever gets its name meanwhile."""
        with tempfile.TemporaryDirectory() as folder:
            path = os.path.join(folder, "it")
            self.write_to(path, wire("sets"))
            with export(path) as came:
                self.write_to(path + ".new", wire("kinds"))
                os.replace(path + ".new", path)
                sets = list(came)
                self.assertEqual([[it.type for it in one.columns or []] for one in sets], [["int", "nvarchar(40)"], ["decimal(9,2)"], ["int"]])

    def test_a_file_that_changes(self) -> None:
        """Its types and its end are read again: after a change they may be those of another response, which the rows aren't of; not if others
        are appended to it."""
        for flags, data in (0, wire("orders")), (os.O_TRUNC, wire("orders")), (os.O_TRUNC, wire("orders", 9)), (os.O_APPEND, wire("error")):
            with tempfile.NamedTemporaryFile() as file:
                self.write_to(file.name, wire("orders"))
                time.sleep(0.02)  # which the time of a change tells apart
                with export(file.name) as came:
                    rows = came.only()
                    changed = os.open(file.name, os.O_WRONLY | flags)
                    os.write(changed, data)
                    os.close(changed)
                    if flags & os.O_APPEND:
                        self.assertEqual(len(rows.fetchall()), 3)
                        continue
                    self.assertRaisesRegex(OSError, "it changed while it was read", rows.fetchall)
                    self.assertRaisesRegex(gavyreto.Interrupted, "OSError", rows.fetchall)

    def test_a_file_with_an_error_that_changes(self) -> None:
        """The error is that of the response which is there now, and the rows before it may be of another one."""
        with tempfile.NamedTemporaryFile() as file:
            self.write_to(file.name, wire("broken", 5))
            time.sleep(0.02)  # which the time of a change tells apart
            with export(file.name) as came:
                rows = came.only()
                self.write_to(file.name, wire("broken", 5))
                self.assertRaisesRegex(OSError, "it changed while it was read", rows.fetchall)
                self.assertFalse(came.is_whole)

    def test_a_file_that_changes_once_it_is_read(self) -> None:
        """The types that are asked for then aren't those of what has come there."""
        with tempfile.NamedTemporaryFile() as file:
            self.write_to(file.name, wire("orders"))
            time.sleep(0.02)  # which the time of a change tells apart
            with export(file.name) as came:
                rows = came.only()
                self.assertEqual(len(rows.fetchall()), 3)
                self.write_to(file.name, wire("float"))
                self.assertIsNone(rows.columns)

    def test_a_file_that_changes_while_it_is_handed_over(self) -> None:
        """What is behind its place may be of another response: where it is rewritten, and where a buffer reads it, which `open` makes."""
        data = wire("orders", 100_000)
        for of, flags, changed, kind in (
            (str, 0, wire("orders"), OSError), (str, os.O_TRUNC, wire("orders"), OSError), (int, 0, wire("orders"), OSError), (str, os.O_APPEND, wire("error"), None),
            (open, 0, wire("orders"), OSError), (open, os.O_APPEND, wire("error"), None),
        ):
            for adapt in (True, False)[:1 + (of is open)]:
                with self.subTest(of=of, flags=flags, adapt=adapt), tempfile.NamedTemporaryFile() as file:
                    self.write_to(file.name, data)
                    time.sleep(0.02)  # which the time of a change tells apart
                    source = {str: file.name, int: file.fileno(), open: file.file}[of]
                    with export(source, adapt=adapt) as came:
                        rows = came.only()
                        rows.fetchone()
                        held = os.open(file.name, os.O_WRONLY | flags)
                        os.write(held, changed)
                        os.close(held)
                        if kind is None:
                            self.assertEqual(len(rows.fetchall()), 99_999)
                        else:
                            self.assertRaisesRegex(kind, "it changed while it was read", rows.fetchall)

    def test_rows_by_name_and_as_a_cursor_has_them(self) -> None:
        """PEP 249's calls; a row is a tuple, which pickle keeps, and has its names too."""
        with export(wire("orders", 7)) as came:
            rows = came.only()
            first = rows.fetchone()
            self.assertEqual((first, first and first.customer, first and first.id), ((first or ())[:5], 'Ann "A" Lee, Zürich', 1))
            self.assertIsInstance(first, tuple)
            copy = pickle.loads(pickle.dumps(first))
            self.assertEqual((copy, copy.total), (first, Decimal("12.50")))
            self.assertEqual([row.id for row in rows.fetchmany()], [2])
            rows.arraysize = 2
            self.assertEqual([[row.id for row in some] for some in (rows.fetchmany(), rows.fetchmany(1), rows.fetchall(), rows.fetchmany(3))], [[3, 1], [2], [3, 1], []])
            self.assertIsNone(rows.fetchone())
        column = [responses.Column(name, "38", responses.fixed, responses.whole(4), int) for name in ("count", "a b", "twice", "twice", "", "__len__", "class")]
        with export(answered(responses.description(column), responses.row(column, [str(number) for number in range(7)]), served.done())) as came:
            row = next(came.only())
            self.assertEqual((row.count, getattr(row, "a b"), getattr(row, "class"), len(row), tuple(row)), (0, 1, 6, 7, tuple(range(7))))
            self.assertFalse(hasattr(row, "twice"))

    def test_seven_digits_of_a_second(self) -> None:
        """Kept as text, or cut where that is asked for."""
        for name, wanted in (("orders", [datetime(2024, 2, 29, 12, 34, 56, 123456), datetime(2024, 3, 1), datetime(2024, 3, 2, 23, 59, 59, 999999)]),):
            with export(wire(name), dates="truncate") as came:
                self.assertEqual([row.ordered for row in came.only()], wanted)
            with export(wire(name), dates=True) as came:
                self.assertEqual(next(came.only()).ordered, "2024-02-29 12:34:56.1234567")
        with self.assertRaisesRegex(ValueError, "dates is one of False, True, 'truncate'"):
            export(b"", dates="round")

    def test_a_response_that_cannot_be_followed(self) -> None:
        payload = b"".join(responses.orders(0))
        for end in (b"", b"\xD1", b"\x99"):
            with export(io.BytesIO(answered(payload[:-13] + end))) as came, self.assertRaises(gavyreto.Fault):
                orders = next(came)
                self.assertEqual(len(orders.columns or []), 5)
                list(orders)


class Sources(unittest.TestCase):
    def test_files_and_bytes(self) -> None:
        with tempfile.TemporaryDirectory() as folder:
            path = os.path.join(folder, "-sets.tds")
            with open(path, "wb") as file:
                file.write(wire("sets") + wire("orders"))
            for buffering in (0, -1):
                with open(path, "rb", buffering=buffering) as source:
                    self.assertEqual(all_of(export(source)), SETS)
                    self.assertEqual(len(all_of(export(source))[0][1]), 3)
            with open(path, "rb") as source:
                self.assertEqual(all_of(export(source.fileno())), SETS)
            self.assertEqual(all_of(export(path)), SETS)
        for kind in (bytes, bytearray, memoryview):
            self.assertEqual(all_of(export(kind(wire("sets")))), SETS)

    def test_what_is_read_as_a_file(self) -> None:
        """Of each exactly one response is read, decompressed where the object does that."""
        data = wire("sets") + wire("orders") + b"rest"
        with tempfile.NamedTemporaryFile() as file:
            file.write(data)
            file.seek(0)
            sources: list[Any] = [io.BytesIO(data), gzip.GzipFile(fileobj=io.BytesIO(gzip.compress(data))), bz2.BZ2File(io.BytesIO(bz2.compress(data))), file]
            with tempfile.NamedTemporaryFile(suffix=".gz") as packed, tempfile.SpooledTemporaryFile() as spooled:
                packed.write(gzip.compress(data))
                packed.flush()
                spooled.write(data)
                spooled.seek(0)
                with gzip.open(packed.name) as unpacked:
                    for source in [*sources, unpacked, spooled]:
                        with self.subTest(source=type(source).__name__):
                            self.assertEqual(all_of(export(source)), SETS)
                            self.assertEqual(len(all_of(export(source))[0][1]), 3)
                            self.assertEqual(source.read(), b"rest")

    def test_a_read_that_fails(self) -> None:
        """What a method `read` raises is raised once the rows before it are handed out."""
        whole = gzip.compress(wire("orders", 3000, 512))
        rows = []
        with export(gzip.GzipFile(fileobj=io.BytesIO(whole[:len(whole) // 2]))) as came, self.assertRaises(EOFError):
            for row in came.only():
                rows.append(row)
        self.assertEqual([row[0] for row in rows[:3]], [1, 2, 3])

    def test_a_read_that_fails_once(self) -> None:
        """What it raises is raised, also what the package itself raises of a response that it can't follow, and StopIteration as another
        exception. Nothing is read after it."""
        packets, chance = wire("orders", 300, 512), random.Random(7)
        for place in [0, *chance.sample(range(1, len(packets)), 15)]:
            for failure, kind in ((ValueError("once"), ValueError), (StopIteration(), RuntimeError), (None, BlockingIOError)):
                for adapt in (False, True):
                    data, failures = io.BytesIO(packets), [failure]

                    def read(most: int) -> Optional[bytes]:
                        if data.tell() == place and failures:
                            if failed := failures.pop():
                                raise failed
                            return None
                        return data.read(min(most, place - data.tell()) if failures else most)

                    source: Any = SimpleNamespace(read=read)
                    with self.subTest(place=place, adapt=adapt), self.assertRaises(kind):
                        all_of(export(source, adapt=adapt))
                    self.assertEqual(data.tell(), place)

    def test_a_read_that_gives_more_than_it_is_asked_for(self) -> None:
        """What is behind the response would be lost, and an answer that was cancelled be taken for a whole one."""
        for data in (answered(served.done(tds.CANCELLED)), wire("sets") + wire("orders")):
            for adapt in (False, True):
                source: Any = SimpleNamespace(read=lambda _, pieces=[data]: pieces.pop() if pieces else b"")
                with self.assertRaisesRegex(OSError, f"^the source gave {len(data)} bytes, and 8 were asked for$"):
                    all_of(export(source, adapt=adapt))

    def test_a_file_with_a_read_of_its_own(self) -> None:
        class Turned(io.FileIO):
            def read(self, size: int = -1) -> bytes:
                return bytes(255 - byte for byte in super().read(size))

        with tempfile.NamedTemporaryFile() as file:
            file.write(bytes(255 - byte for byte in wire("sets")))
            file.flush()
            for adapt in (False, True):
                with Turned(file.name) as source:
                    self.assertEqual(all_of(export(source, adapt=adapt)), SETS)

    def test_a_socket_is_read_up_to_the_response_and_no_further(self) -> None:
        ours, theirs = socket.socketpair()
        with ours, theirs:
            theirs.sendall(wire("sets") + wire("sets") + b"rest")
            self.assertEqual([all_of(export(ours)), all_of(export(ours))], [SETS, SETS])
            self.assertEqual(ours.recv(99), b"rest")

    def test_sources_that_are_closed_or_do_not_block(self) -> None:
        ours, theirs = socket.socketpair()
        with theirs:
            ours.settimeout(1)
            with self.assertRaisesRegex(ValueError, "block"):
                export(ours)
            ours.close()
            sources: list[Any] = [ours, io.BytesIO(), open(os.devnull, "rb"), open(os.devnull, "rb", buffering=0)]
            for closed in sources:
                closed.close()
                with self.subTest(closed=closed), self.assertRaisesRegex(ValueError, "closed"):
                    export(closed)
            with self.assertRaisesRegex(ValueError, "closed"):
                export(-1)

    def test_great_packets(self) -> None:
        self.assertEqual(all_of(export(wire("sets", size=32767))), SETS)
        with self.assertRaises(gavyreto.Fault) as stop:
            all_of(export(wire("kinds", 100, 8000), packet_size=4096))
        self.assertEqual((stop.exception.name, stop.exception.fields), ("BadPacketLength", ("8000",)))

    def test_what_is_no_source(self) -> None:
        for source in (["sets.tds"], io.StringIO("text"), None, True, 1.5):
            with self.subTest(source=source), self.assertRaises(TypeError):
                export(source)
        with self.assertRaises(FileNotFoundError):
            export("no such file")
        for name, line in (("no such program", "isn't there"), ("tds_replay", "Debian's package gavyreto brings it")):
            with mock.patch.dict(os.environ, PATH="/not/here"), self.assertRaisesRegex(FileNotFoundError, f"the program {name} .*{line}"):
                gavyreto.export(b"", program=name)


    def test_what_was_opened_where_none_begins(self) -> None:
        """It is closed before the error is raised: where no program can be started, and no thread."""
        def opened() -> list[str]:
            gc.collect()  # programs, whose numbers nothing else may get as long as they are there
            return sorted(os.listdir("/proc/self/fd"))

        with tempfile.TemporaryDirectory() as folder, socket.socket() as stream:
            path = os.path.join(folder, "orders.tds")
            with open(path, "wb") as file:
                file.write(wire("orders"))
            with open(path, "rb", buffering=0) as raw, open(path, "rb") as buffered:
                sources: list[gavyreto.Source] = [path, raw, buffered, raw.fileno(), stream]
                for source, adapts in product(sources, (False, True)):
                    before = opened()
                    try:
                        gavyreto.export(source, program="/not/here", adapt=adapts)
                    except FileNotFoundError as failure:
                        kept = failure  # with its frames
                    with mock.patch.object(threading.Thread, "start", side_effect=RuntimeError):
                        with contextlib.suppress(RuntimeError), export(source, adapt=adapts):
                            pass
                    self.assertEqual((kept.filename, opened()), ("/not/here", before), (source, adapts))
            held = os.open(folder, os.O_RDONLY)
            self.addCleanup(os.close, held)
            for adapts in (False, True):
                before = opened()
                with self.assertRaises(IsADirectoryError):
                    export(held, adapt=adapts)
                self.assertEqual(opened(), before)


class Stops(unittest.TestCase):
    def stop(self, kind: type[Any], source: Any, **options: Any) -> tuple[Any, list[gavyreto.Row]]:
        """What ends the reading, at this call and each further one, and the rows before it."""
        rows = []
        with export(source, **options) as came, self.assertRaises(kind) as stop:
            for result_set in came:
                for row in result_set:
                    rows.append(row)
        with self.assertRaises(kind) as again:
            next(came)
        self.assertIs(again.exception, stop.exception)
        self.assertIsNone(came.report)
        self.assertEqual(stop.exception.rows, len(rows))
        return stop.exception, rows

    def test_a_server_error_in_the_middle_of_rows(self) -> None:
        error, rows = self.stop(gavyreto.ServerError, wire("broken", 4))
        self.assertEqual([row[0] for row in rows], [1, 2, 3, 1])
        self.assertEqual(
            (error.number, error.state, error.severity, error.line, error.message, error.sets, error.report.errors),
            (8134, 1, 16, 1, "Divide by zero error encountered.", 1, 1))

    def test_a_refused_column(self) -> None:
        fault, rows = self.stop(gavyreto.Fault, wire("float"))
        self.assertEqual(
            (rows, fault.number, fault.name, fault.fields, fault.where, fault.place, fault.written, fault.unwritten, fault.rest),
            ([], 10, "RefusedColumn", ("1", "FLTN"), "payload", 15, 0, 0, ""))

    def test_a_response_that_is_cut_anywhere(self) -> None:
        data = wire("orders", size=512)
        _, whole = all_of(export(data))[0]
        for length in range(0, len(data), 7):
            fault, rows = self.stop(gavyreto.Fault, data[:length] if length % 2 else io.BytesIO(data[:length]))
            self.assertEqual((fault.name, rows), ("InputEnded", whole[:len(rows)]))

    def test_a_row_that_is_cut(self) -> None:
        payload = b"".join(responses.orders(0))
        fault, rows = self.stop(gavyreto.Fault, answered(payload[:-30]))
        self.assertEqual((len(rows), fault.name, fault.rest), (2, "MessageEnded", '3,"東京",NULL'))

    def test_arguments_that_are_refused(self) -> None:
        error, _ = self.stop(gavyreto.ProgramFailed, wire("sets"), packet_size=511)
        self.assertEqual(error.status, 2)
        self.assertIn("511", str(error))

    def test_a_program_that_is_another_one(self) -> None:
        for program in ("/bin/true", "/bin/cat", "/bin/false"):
            with self.subTest(program=program), self.assertRaises((gavyreto.ProgramFailed, gavyreto.MalformedText)):
                all_of(gavyreto.export(wire("sets"), program=program))

    def test_errors_go_through_pickle(self) -> None:
        stops: list[tuple[type[Any], bytes, dict[str, Any]]] = [
            (gavyreto.ServerError, wire("broken", 4), {}), (gavyreto.Fault, wire("float"), {}),
            (gavyreto.ProgramFailed, wire("sets"), {"packet_size": 511}),
        ]
        for kind, source, options in stops:
            error, _ = self.stop(kind, source, **options)
            copy = pickle.loads(pickle.dumps(error))
            self.assertEqual((type(copy), str(copy), copy.args, vars(copy)), (kind, str(error), error.args, vars(error)))
        for other in (gavyreto.MalformedText("x"), gavyreto.UnfinishedText("rest"), gavyreto.NotOneSet("x"), gavyreto.ConnectionFailed("x")):
            self.assertEqual(vars(pickle.loads(pickle.dumps(other))), vars(other))

    def test_a_program_that_is_killed(self) -> None:
        reader, writer = os.pipe()
        with open(writer, "wb", buffering=0), open(reader, "rb", buffering=0) as source, export(source) as came:
            threading.Thread(target=self.kill_later, args=(came,), daemon=True).start()
            with self.assertRaises(gavyreto.ProgramFailed) as stop:
                next(came)
        self.assertEqual(stop.exception.status, -9)

    def kill_later(self, came: gavyreto.Response) -> None:
        wait_for(lambda: bool(came._program._process and is_waiting(came._program._process.pid)))
        came._program.kill()


class Notes(unittest.TestCase):
    """What the program says is read line by line, so a server's message can't pass for a line of the program."""

    def messages(self) -> Iterator[str]:
        yield "return status 5"
        yield "sets 9 rows 9 errors 0 infos 0 written 9"
        yield "x\nreturn values 7\nreturn status 5\nserver error 1, state 1, class 1, line 1: y"
        yield "fault 2 InputEnded at wire 0, written 0, unwritten 0"
        yield "x\x85return status 5\u2028return values 9"

    def test_a_message_that_looks_like_a_line(self) -> None:
        for message in self.messages():
            with self.subTest(message=message):
                data = answered(b"\x79" + bytes([7, 0, 0, 0]), served.server_error(1, message, 1), served.done())
                with self.assertRaises(gavyreto.ServerError) as stop:
                    all_of(export(data))
                self.assertEqual(stop.exception.message, message.replace("\n", " "))
                self.assertEqual(stop.exception.report, gavyreto.Report(0, 0, 1, 0, 0, 0, 7))

    def test_lines_that_are_none(self) -> None:
        report = "sets 1 rows 3 errors 0 infos 0 written 72\n"
        self.assertEqual(report_of(report), gavyreto.Report(1, 3, 0, 0, 72))
        self.assertEqual(report_of(report + "return values 2\nreturn status -1\n"), gavyreto.Report(1, 3, 0, 0, 72, 2, -1))
        for notes in ("", "\n", report[:-1], "x" + report, report + "x\n", report + report, report + "return status 1\nreturn values 1\n", "want of memory\n"):
            with self.subTest(notes=notes):
                self.assertIsNone(report_of(notes))
