"""Tests of readings and connections from Python: one buffer, one state, one thread, and what closes a connection for good."""
from __future__ import annotations

import _socket
import contextlib
import copy
import gc
import io
import os
import pickle
import random
import signal
import socket
import sys
import tempfile
import threading
import time
import traceback
import unittest
from collections.abc import Callable
from itertools import islice, product
from typing import Any, cast
from unittest import mock

import gavyreto
from gavyreto import tds
from gavyreto.connection import Channel, Server
from gavyreto.logins import Hidden, Secret
from gavyreto.text import Sets
from tests.beside import (
    PROGRAM, SECONDS, Live, answered, context_of, interrupted, listening, log_in, log_in_encrypted, meanwhile, responses, saying_goodbye, served, serving, wait_for,
    until_closed, wire,
)

ORDERED = answered(*responses.order_rows(0), served.done())
UNASKED = "the server sent bytes that weren't asked for"


def connected(port: int, **options: Any) -> gavyreto.Connection:
    own: dict[str, Any] = {"user": "u", "password": "p", "encrypt": "none"}
    return gavyreto.connect("127.0.0.1", port=port, **{**own, **options})


def text_of(data: bytes, step: int = 1 << 16) -> Sets:
    source = io.BytesIO(data)
    return Sets(lambda most: source.read(min(most, step)), False)


class Rows(unittest.TestCase):
    """All calls take from one buffer, from one place on."""

    def test_rows_before_an_error_are_handed_out(self) -> None:
        """The error comes with the next call, each time, and in place of fewer rows than are asked for, which are left."""
        data = wire("broken", 5)
        whole = [(1, 2, 3, 1, 2)[place] for place in range(5)]
        cases: list[list[Callable[[Any], Any]]] = [
            [lambda rows: rows.fetchmany(3), lambda rows: rows.fetchmany(2)], [lambda rows: [rows.fetchone() for _ in range(5)]],
            [lambda rows: list(zip(*next(rows.batches(3)))), lambda rows: fewer(rows, 3), lambda rows: rows.fetchmany(2)],
            [lambda rows: fewer(rows, 100), lambda rows: list(islice(rows, 4)), lambda rows: fewer(rows, 2), lambda rows: rows.fetchmany(1)],
        ]

        def fewer(rows: Any, count: int) -> list[Any]:
            for call in rows.fetchmany, lambda count: next(rows.batches(count)):
                self.assertRaises(gavyreto.ServerError, call, count)
            return []

        for calls in cases:
            with gavyreto.export(data, program=PROGRAM) as came:
                rows: Any = next(came)
                found = [row[0] for call in calls for row in call(rows)]
                self.assertEqual(found, whole)
                agains: list[Callable[[], Any]] = [
                    rows.fetchall, rows.fetchone, lambda: next(rows), lambda: list(rows), lambda: next(rows.batches(1)), lambda: next(came)]
                kept = iter(rows)
                agains += [lambda: next(kept), lambda: list(kept)]
                for again in agains:
                    with self.assertRaises(gavyreto.ServerError) as raised:
                        again()
                    self.assertEqual(raised.exception.rows, 5)
        self.assertRaises(gavyreto.ServerError, gavyreto.export(data, program=PROGRAM).only().fetchmany, 9)  # nobody asks again
        self.assertRaises(ValueError, gavyreto.export(data, program=PROGRAM).only().fetchmany, -1)

    def test_all_rows_are_all_or_an_error(self) -> None:
        """Whoever asks for all doesn't ask again: the error comes in their place, each time, and they are left for other calls."""
        cases: list[tuple[bytes, int, type[gavyreto.Error]]] = [(wire("broken", 5), 5, gavyreto.ServerError), (wire("orders", 0, 20)[:-30], 2, gavyreto.Fault)]
        for data, count, kind in cases:
            for taken in range(2):
                came = gavyreto.export(data, program=PROGRAM)
                rows: Any = next(came)
                first = rows.fetchmany(taken)
                for _ in range(2):
                    with self.assertRaises(kind) as raised:
                        rows.fetchall()
                    self.assertEqual((raised.exception.rows, came.rows), (taken, taken))
                self.assertEqual(len(first + rows.fetchmany(count - taken)), count)
                came.close()  # it was raised already
                with self.assertRaises(kind) as raised:
                    rows.fetchmany(9)
                self.assertEqual(raised.exception.rows, count)

    def test_calls_in_any_order_give_each_row_once(self) -> None:
        """Batches and iterators that are kept, rows one by one, some and all: against the rows in their order."""
        numbers = random.Random(5)
        for step in (7, 300, 1 << 16):
            for _ in range(60):
                with text_of(b'"a","b"\r\n' + b"".join(b'%d,"x%d"\r\n' % (n, n) for n in range(500)), step) as came:
                    rows: Any = came.only()
                    found: list[int] = []
                    walks = [rows.batches(numbers.choice((1, 7, 100, 1000))), rows.batches(3)]
                    kept = [iter(rows), iter(rows)]
                    while len(found) < 500:
                        call = numbers.randrange(7)
                        if call == 0:
                            found += [row[0] for row in rows.fetchmany(numbers.choice((0, 1, 30, 200)))]
                        elif call > 4:
                            found += [row[0] for row in islice(kept[call - 5], numbers.choice((1, 50)))]
                        elif call == 1:
                            found += [row.a for row in islice(rows, numbers.choice((1, 50)))]
                        elif call == 2:
                            row = rows.fetchone()
                            found += [row[0]] if row else []
                        else:
                            found += next(walks[call - 3], [[]])[0]
                    self.assertEqual((found, came.rows), (list(range(500)), 500))

    def test_an_iterator_of_a_set_that_is_left(self) -> None:
        """It has no rows of its own."""
        with text_of(b'"a"\r\n1\r\n2\r\n\r\n"b"\r\n') as came:
            rows = iter(next(came))
            self.assertEqual((next(rows), next(came).names), ((1,), ["b"]))
            self.assertRaises(gavyreto.PassedOver, next, rows)

    def test_what_ends_a_reading_from_elsewhere(self) -> None:
        """After an interrupt no row is missing without a word: the reading has failed, at this call and each further one."""
        def interrupted(number: int) -> Callable[[int], bytes]:
            source, calls = io.BytesIO(b'"a"\r\n' + b"1\r\n" * 5000), iter(range(10**9))

            def read(most: int) -> bytes:
                if next(calls) == number:
                    raise KeyboardInterrupt
                return source.read(min(most, 1000))

            return read

        calls: list[Callable[[Any], Any]] = [
            lambda rows: rows.fetchmany(10_000), lambda rows: rows.fetchall(), lambda rows: list(rows), lambda rows: list(rows.batches(10_000))]
        for number in (2, 9):
            for call in calls:
                came = Sets(interrupted(number), False)
                rows: Any = next(came)
                with self.assertRaises(KeyboardInterrupt):
                    call(rows)
                errors = []
                agains: list[Callable[[], Any]] = [rows.fetchone, rows.fetchall, lambda: next(came)]
                for again in agains:
                    with self.assertRaisesRegex(gavyreto.Interrupted, "KeyboardInterrupt: rows may be missing") as raised:
                        again()
                    errors.append(raised.exception)
                self.assertEqual(len({id(error) for error in errors}), 1)

    def test_an_interrupt_at_any_line(self) -> None:
        """Of a call that has taken rows, up to its return: they were handed out, or the reading has failed."""
        calls: list[Callable[[Any], list[Any]]] = [
            lambda rows: [row for row in [rows.fetchone()] if row], lambda rows: [*rows.fetchmany(3)], lambda rows: list(islice(rows, 1)),
            lambda rows: list(zip(*next(rows.batches(3), [])))]
        late = KeyboardInterrupt(), ValueError("late"), EOFError("late"), gavyreto.Error("late")  # what handlers of signals raise
        for call, raised in product(calls, late):
            at = 1
            while self.interrupted_rows(at, call, raised):
                at += 2 if isinstance(raised, KeyboardInterrupt) else 3
            self.assertGreater(at, 200)

    def interrupted_rows(self, at: int, call: Callable[[Any], list[Any]], raised: BaseException) -> bool:
        """Reads rows by a call, the first of which is interrupted. Returns whether it was."""
        came = text_of(b'"a"\r\n' + b"".join(b"%d\r\n" % n for n in range(9)) + b'\r\n"b"\r\n', 30)
        rows, found = cast(Any, None), list[int]()

        def read() -> None:
            nonlocal rows
            rows = rows or next(came)
            while len(found) < 9 and (more := call(rows)):
                found.extend(row[0] for row in more)

        is_interrupted = interrupted(at, read, raised)
        with contextlib.suppress(gavyreto.Interrupted):
            read()
            self.assertEqual(found, list(range(9)), (at, raised))
        return is_interrupted

    def test_an_interrupt_within_a_value(self) -> None:
        """What is read of it after that is all of it, or the reading has failed."""
        for value, data in ("x" * 300, b'"%s"' % (b"x" * 300)), (b"\xAB" * 300, b"0x" + b"ab" * 300):
            at, is_interrupted = 1, True
            while is_interrupted:
                with cast(Any, text_of(b'"a"\r\n' + data + b"\r\n", 50).only().open()) as file:
                    found = list[Any]()
                    is_interrupted = interrupted(at, lambda: found.append(file.read()))
                    with contextlib.suppress(gavyreto.Interrupted):
                        found = found or [file.read()]
                        self.assertEqual(found, [value])
                at += 2
            self.assertGreater(at, 50)

    def test_an_interrupt_while_a_value_is_closed(self) -> None:
        """Nothing is read from within its row on: what is left of it would be taken for rows, or for the names of a set."""
        at, is_interrupted = 1, True
        while is_interrupted:
            came = text_of(b'"a","b"\r\n"x","' + b"y" * 300 + b'"\r\n' + b'"z","z"\r\n' * 9, 50)
            rows = next(came)
            file: Any = rows.open("b")
            file.read()
            is_interrupted = interrupted(at, file.close)
            try:
                self.assertEqual((rows.fetchall(), list(came)), ([("z", "z")] * 9, []))
            except ValueError as wrong:
                self.assertEqual(str(wrong), "the value that was opened before isn't closed")
            except gavyreto.Interrupted:
                pass
            at += 1
        self.assertGreater(at, 20)

    def test_a_second_thread_is_refused(self) -> None:
        begun, go_on = threading.Event(), threading.Event()
        source = io.BytesIO(b'"a"\r\n' + b"1\r\n" * 10)

        def read(most: int) -> bytes:
            if source.tell():
                begun.set()
                go_on.wait(SECONDS)
            return source.read(min(most, 10))

        came = Sets(read, False)
        rows: Any = next(came)
        found: list[Any] = []
        thread = threading.Thread(target=lambda: found.append(rows.fetchall()))
        thread.start()
        begun.wait(SECONDS)
        calls: list[Callable[[], Any]] = [rows.fetchone, rows.fetchall, lambda: next(came), lambda: next(rows.batches(2))]
        for call in calls:
            with self.assertRaisesRegex(ValueError, "^another call reads from here$"):
                call()
        go_on.set()
        thread.join()
        self.assertEqual(len(found[0]), 10)

    def test_a_call_within_another(self) -> None:
        """As of the handler of a signal, at a line of each kind of call: it is refused, or both give each row once; and if it doesn't catch that
        it is refused, the reading has failed."""
        calls: list[Callable[[Any], Any]] = [
            lambda rows: rows.fetchall(), lambda rows: rows.fetchmany(3), lambda rows: zip(*next(rows.batches(2), [[]])), lambda rows: [rows.fetchone()],
            lambda rows: islice(rows, 4), lambda rows: opened(rows)]

        def opened(rows: Any) -> list[list[str]]:
            with contextlib.suppress(StopIteration):
                return [[rows.open(1).read()]]
            return []

        def taken(call: Callable[[Any], Any], rows: Any) -> list[str]:
            return [str(row[-1]) for row in call(rows) if row]

        numbers = random.Random(6)
        for outer, inner, catches in product(calls, calls, (True, False)):
            for at in numbers.sample(range(1, 60), 16):
                came = text_of(b'"a","b"\r\n' + b"".join(b'1,"%d"\r\n' % number for number in range(20)), 30)
                rows, found, failed = came.only(), list[str](), list[Exception]()

                def come() -> None:
                    try:
                        found.extend(taken(inner, rows))
                    except ValueError as refused:
                        failed.append(refused)
                        if not catches:
                            raise

                with contextlib.suppress(ValueError):
                    meanwhile(at, lambda: found.extend(taken(outer, rows)), come)
                with self.subTest(outer=calls.index(outer), inner=calls.index(inner), at=at, catches=catches):
                    try:
                        found += taken(calls[0], rows)
                    except gavyreto.Interrupted:
                        self.assertTrue(failed and not catches)
                    else:
                        self.assertEqual((sorted(map(int, found)), came.rows), (list(range(20)), 20))

    def test_a_reading_that_is_closed_within_a_call(self) -> None:
        """As by the handler of a signal, at a line of it, which then opens files: none of their bytes become rows, or are taken from them."""
        calls: list[Callable[[Any], Any]] = [
            lambda rows: rows.fetchall(), lambda rows: rows.fetchmany(20_000), lambda rows: islice(rows, 20_000), lambda rows: rows.columns and []]
        numbers, data, closed = random.Random(7), wire("broken", 20_000), 0
        with tempfile.NamedTemporaryFile() as foreign, tempfile.NamedTemporaryFile() as file:
            for it, content in (foreign, b'"id"\r\n' + b"666\r\n" * 100_000), (file, data):
                it.write(content)
                it.flush()
            for source, call in product((data, file.name), calls):
                for at in numbers.sample(range(1, 90), 9):
                    with self.subTest(at=at, call=calls.index(call), source=type(source)):
                        closed += self.closed_within(gavyreto.export(source, program=PROGRAM), call, at, foreign.name)
        self.assertGreater(closed, 40)

    def closed_within(self, came: gavyreto.Response, call: Callable[[Any], Any], at: int, foreign: str) -> bool:
        """Whether a reading was closed at a line of a call."""
        held, found, rows = list[int](), list[Any](), next(came)
        rows.fetchone()

        def come() -> None:
            came.close()
            held.extend(os.open(foreign, os.O_RDONLY) for _ in range(8))

        with contextlib.suppress(ValueError):
            meanwhile(at, lambda: found.extend(row[0] for row in call(rows)), come)
        self.assertEqual([os.lseek(it, 0, os.SEEK_CUR) for it in held], [0] * len(held))
        self.assertLess(set(found), {1, 2, 3, 4})
        for it in held:
            os.close(it)
        if held:
            self.assertIsNone(came._program._process)
            with self.assertRaisesRegex(ValueError, "^the reading was closed$"):
                list(came)
        came.close()
        return bool(held)

    def test_arguments_that_are_none(self) -> None:
        """They are refused before anything is read, and end no reading."""
        calls: list[Callable[[Any], Any]] = [
            lambda rows: rows.fetchmany("3"), lambda rows: rows.fetchmany(2.5), lambda rows: rows.fetchmany(-1), lambda rows: rows.batches("2"),
            lambda rows: rows.batches(1.5), lambda rows: rows.batches(0), lambda rows: rows.open(2), lambda rows: rows.open(-3), lambda rows: rows.open("c"),
            lambda rows: rows.open(None), lambda rows: rows.open(0.0)]
        for number, call in enumerate(calls):
            rows: Any = text_of(b'"a","b"\r\n' + b'1,"x"\r\n' * 9, 10).only()
            rows.fetchone()
            with self.subTest(number):
                self.assertRaises((TypeError, ValueError, IndexError), call, rows)
                rows.arraysize = "x"
                self.assertRaises(TypeError, rows.fetchmany)
                with rows.open("b") as value:
                    for wrong in ("1", 0.5):
                        self.assertRaises(TypeError, value.read, wrong)
                    self.assertEqual((value.read(0), value.read()), ("", "x"))
                self.assertEqual(len(rows.fetchall()), 7)

    def test_copies_are_refused(self) -> None:
        """Each would take a part of the text, and one of a set the next set for rows."""
        came = text_of(b'"a"\r\n' + b'"x"\r\n' * 9 + b'\r\n"b"\r\n', 10)
        rows = next(came)
        with serving() as port, connected(port) as connection:
            calls: list[Callable[[Any], Any]] = [copy.copy, copy.deepcopy, pickle.dumps]
            for it, call in product((came, rows, rows.open(), connection, connection.cursor()), calls):
                with self.subTest(type(it).__name__, call=call), self.assertRaisesRegex(TypeError, "has no copies"):
                    call(it)

    def test_a_process_that_is_forked_off_is_refused(self) -> None:
        """What it took from the place that both have would be lost to the other."""
        with tempfile.NamedTemporaryFile() as file, serving() as port, connected(port) as connection:
            file.write(b'"a"\r\n' + b"1\r\n" * 100_000)
            file.flush()
            rows = gavyreto.read(file.name).only()
            rows.fetchone()
            calls: list[Callable[[], Any]] = [rows.fetchall, rows.fetchone, lambda: next(rows.batches(9)), rows.open, lambda: connection.query("SELECT 1", program=PROGRAM)]
            for number, call in enumerate(calls):
                if not (process := os.fork()):
                    try:
                        call()
                        os._exit(1)
                    except (ValueError, gavyreto.ConnectionFailed) as refused:
                        os._exit(0 if "another process" in str(refused) else 2)
                    finally:
                        os._exit(3)
                with self.subTest(number):
                    self.assertEqual(os.waitpid(process, 0)[1], 0)
            self.assertEqual(len(rows.fetchall()), 99_999)

    def test_a_process_that_is_forked_off_has_no_part(self) -> None:
        """It leaves the contexts, by which nothing of the other one ends, and goes on, which nothing waits for."""
        (source, sink), (left, leaves) = os.pipe(), os.pipe()
        with serving(ORDERED, ORDERED) as port, connected(port) as connection, connection.query("x", program=PROGRAM) as answer:
            os.write(sink, wire("kinds", 20, 512)[:4000])
            cut, rows = gavyreto.export(source, program=PROGRAM).only(), next(answer)
            if not (process := os.fork()):
                os.close(sink)
                with contextlib.suppress(BaseException), connection, answer:
                    raise KeyError
                os.close(leaves)
                time.sleep(20)
                os._exit(0)
            os.close(sink)
            os.close(leaves)
            self.assertEqual(os.read(left, 1), b"")
            self.assertRaises(gavyreto.Fault, cut.fetchall)
            self.assertEqual((len(rows.fetchall()), next(answer, None)), (3, None))
            self.assertEqual(len(connection.query("x", program=PROGRAM).only().fetchall()), 3)
            self.assertEqual(os.waitpid(process, os.WNOHANG), (0, 0))
            os.kill(process, signal.SIGKILL)
            os.waitpid(process, 0)
        os.close(source)
        os.close(left)

    def test_what_has_its_numbers_in_a_process_that_closes_all(self) -> None:
        """It stays open where readings and a connection are ended or collected there."""
        with tempfile.NamedTemporaryFile() as file, serving() as port, serving() as other:
            file.write(wire("orders"))
            file.flush()
            ports = iter((port, other))
            ways: list[Callable[[], Any]] = [
                lambda: gavyreto.export(file.name, program=PROGRAM), lambda: gavyreto.export(file.name, program=PROGRAM, adapt=True),
                lambda: gavyreto.read(file.name), lambda: connected(next(ports))]
            for way, close in product(ways, (lambda it: it.close(), lambda _: None)):
                it = way()
                if not (process := os.fork()):
                    os.closerange(3, 256)
                    others = {os.dup(0) for _ in range(64)}
                    with mock.patch.object(sys, "unraisablehook") as dropped:
                        close(it)
                        del it
                        gc.collect()
                    os._exit(dropped.called or not all(os.path.exists(f"/proc/self/fd/{it}") for it in others))
                it.close()
                self.assertEqual(os.waitpid(process, 0)[1], 0, ways.index(way))

    def test_the_time_is_linear(self) -> None:
        """Text with many quotes, in a column before one that is NULL in the first block only: twice the text takes about twice the time."""
        def seconds(count: int) -> float:
            value = '{""a"":1}' * count
            first = "".join(f'"{value}",NULL\r\n' for _ in range(2))
            data = ('"a","b"\r\n' + first + f'"{value}",1\r\n' * 8).encode()
            began = time.process_time()
            source = io.BytesIO(data)
            for row in Sets(lambda most: source.read(2 * len(value)), False).only():
                assert row[0] == value.replace('""', '"')
            return time.process_time() - began

        self.assertLess(seconds(20_000), max(6 * min(seconds(10_000) for _ in range(3)), 3.0))


class Connections(Live):
    def test_a_failure_closes_the_connection_for_good(self) -> None:
        """Each later call says after what."""
        for answer, kind, line in (
            (wire("float"), gavyreto.Fault, "fault 10 RefusedColumn 1 FLTN at payload 15, written 0, unwritten 0"),
            (ORDERED[:100], gavyreto.ConnectionFailed, "the server closed the connection"),
        ):
            def serve(channel: Channel, answer: bytes = answer) -> None:
                log_in(channel)
                channel.read_message()
                channel.write(answer)

            with self.subTest(line=line), listening(serve) as port, connected(port) as connection:
                with self.assertRaises(kind):
                    list(connection.query("x", program=PROGRAM))
                for _ in range(2):
                    with self.assertRaisesRegex(gavyreto.ConnectionFailed, f"^the connection was closed after: {line}"):
                        connection.query("x", program=PROGRAM)

    def test_a_statement_that_is_none(self) -> None:
        """It is refused before anything is sent."""
        with serving(ORDERED) as port, connected(port) as connection:
            for statement, kind in ((None, TypeError), (b"x", TypeError), (1, TypeError), ("\ud800", ValueError)):
                with self.subTest(statement), self.assertRaises(kind):
                    connection.query(cast(str, statement), program=PROGRAM)
            self.assertEqual(len(connection.query("x", program=PROGRAM).only().fetchall()), 3)

    def test_an_answer_that_is_dropped(self) -> None:
        """Its connection ends, whatever is under way of it, and so does the thread that reads from that."""
        for adapt in (False, True):
            ended, threads = threading.Event(), threading.active_count()

            def serve(channel: Channel) -> None:
                log_in(channel)
                channel.read_message()
                rows = tds.packet(tds.PacketType.ANSWER, b"".join(responses.order_rows(30))[:4000], False)
                try:
                    channel.write(rows)
                    while True:
                        channel.write(tds.packet(tds.PacketType.ANSWER, served.counted_body(tds.Token.INFO, bytes(9)) * 300, False))
                except ConnectionError:
                    ended.set()

            with self.subTest(adapt=adapt), listening(serve) as port:
                rows = gavyreto.query("x", "127.0.0.1", port=port, user="u", encrypt="none", adapt=adapt, program=PROGRAM).only()
                rows.fetchone()
                del rows
                gc.collect()
                self.assertTrue(ended.wait(10))
                wait_for(lambda: threading.active_count() <= threads + 1)  # that of the server

    def test_a_retry_does_not_read_old_bytes(self) -> None:
        """Bytes that nobody asked for, in the socket or within TLS, end the connection; a second try doesn't take them for its answer."""
        context = context_of(self.server(()).variables["CERTIFICATE"])

        def serve(channel: Channel, is_encrypted: bool) -> None:
            log_in_encrypted(channel, context) if is_encrypted else log_in(channel)
            channel.read_message()
            channel.write(ORDERED + wire("sets"))
            until_closed(channel)

        for is_encrypted in (False, True):
            own = {"encrypt": "all", "trust_server": True} if is_encrypted else {}
            with listening(lambda channel, it=is_encrypted: serve(channel, it)) as port, connected(port, **own) as connection:  # type: ignore[misc]
                self.assertEqual(len(connection.query("x", program=PROGRAM).only().fetchall()), 3)
                with self.assertRaisesRegex(gavyreto.BadAnswer, UNASKED):
                    connection.query("x", program=PROGRAM)
                with self.assertRaisesRegex(gavyreto.ConnectionFailed, f"closed after: {UNASKED}"):
                    connection.query("x", program=PROGRAM)

    def test_a_part_of_a_record_behind_an_answer(self) -> None:
        """It is none of the next answer, nor of the last one, whether the server ends the connection or waits."""
        context = context_of(self.server(()).variables["CERTIFICATE"])

        def serve(channel: Channel, length: int, ends: bool) -> None:
            log_in_encrypted(channel, context)
            channel.read_message()
            records = []
            for _ in range(2):
                cast(Any, channel.tls).write(ORDERED)
                records.append(channel._to_send.read())
            channel.socket.sendall(records[0] + records[1][:length])
            if ends:
                channel.socket.shutdown(socket.SHUT_WR)
            until_closed(channel)

        for length, ends, asks in ((1, False, False), (5, True, False), (-1, False, False), (-1, False, True), (3, False, True)):
            with self.subTest(length=length, ends=ends, asks=asks):
                with listening(lambda channel, it=(length, ends): serve(channel, *it)) as port, self.assertRaisesRegex(gavyreto.BadAnswer, UNASKED):  # type: ignore[misc]
                    with connected(port, encrypt="all", trust_server=True) as connection:
                        self.assertEqual(len(connection.query("x", program=PROGRAM).only().fetchall()), 3)
                        if asks:
                            connection.query("x", program=PROGRAM)

    def test_a_surplus_behind_the_last_answer(self) -> None:
        """It is told whether it comes at once or a little later, at the end of the connection or of the one answer."""
        for pause in (0.0, 0.02):
            with self.subTest(pause=pause):
                with serving(ORDERED, behind=b"\x04", pause=pause) as port, self.assertRaisesRegex(gavyreto.BadAnswer, UNASKED), connected(port) as connection:
                    list(connection.query("x", program=PROGRAM).only())
                with serving(ORDERED, behind=b"\x04", pause=pause) as port, self.assertRaisesRegex(gavyreto.BadAnswer, UNASKED):
                    own: dict[str, Any] = {"user": "u", "password": "p", "encrypt": "none", "port": port, "program": PROGRAM}
                    list(gavyreto.query("x", "127.0.0.1", **own).only())

    def test_a_server_that_says_goodbye(self) -> None:
        """The end of TLS right behind a whole answer is no fault."""
        with saying_goodbye(self, ORDERED) as port, connected(port, encrypt="all", trust_server=True) as connection:
            self.assertEqual(len(connection.query("x", program=PROGRAM).only().fetchall()), 3)

    def test_a_connection_that_is_closed_by_another_thread(self) -> None:
        """Who waits for rows, or for the first of them, doesn't wait any longer, and all of it is closed."""
        held, numbers = tds.packet(tds.PacketType.ANSWER, b"".join(responses.order_rows(0)), False), random.Random(8)
        for answer, adapt, closes_all, _ in product((b"", held), (False, True), (False, True), range(3)):
            asked = threading.Event()

            def serve(channel: Channel) -> None:
                log_in(channel)
                channel.read_message()
                channel.write(answer)
                asked.set()
                while channel.receive():
                    pass

            with self.subTest(answer=len(answer), adapt=adapt, closes_all=closes_all), listening(serve) as port, connected(port) as connection:
                came = connection.query("x", program=PROGRAM, adapt=adapt)
                failed: list[Exception] = []

                def read() -> None:
                    try:
                        came.only().fetchall()
                    except Exception as failure:
                        failed.append(failure)

                thread = threading.Thread(target=read)
                thread.start()
                asked.wait(SECONDS)
                time.sleep(numbers.choice((0, 0, 0.001, 0.01, 0.05)))
                cast(Any, connection if closes_all else came).close()
                thread.join(SECONDS)
                self.assertRegex(str(failed[0]), "^(the reading was closed|the server closed the connection|the connection was closed after: a call of close)$")
                self.assertIsNone(came._program._process)
                with self.assertRaisesRegex(gavyreto.ConnectionFailed, "closed after"):
                    connection.query("x", program=PROGRAM)

    def test_two_threads_on_one_connection(self) -> None:
        """Each answer has the rows of its own statement: who asks while another one does, or before its answer is read, is refused."""
        def serve(channel: Channel) -> None:
            log_in(channel)
            while True:
                number = int(served.statement_of(channel.read_message()[1]))
                column = [responses.Column("n", "38", responses.fixed, responses.whole(4), int)]
                channel.write(answered(responses.description(column), responses.row(column, [str(number)]) * 3, served.done()))

        wrong: list[Any] = []
        done: list[int] = []

        def ask(number: int, connection: gavyreto.Connection) -> None:
            for _ in range(60):
                with contextlib.suppress(ValueError):
                    with connection.query(str(number), program=PROGRAM) as answer:
                        rows = answer.only().fetchall()
                        (done if rows == [(number,)] * 3 else wrong).append(number)

        with listening(serve) as port, connected(port) as connection:
            threads = [threading.Thread(target=ask, args=(number, connection)) for number in (1, 2)]
            for thread in threads:
                thread.start()
            for thread in threads:
                thread.join()
        self.assertEqual(wrong, [])
        self.assertGreater(len(done), 30)

    def test_descriptions_of_sets_that_are_left_are_not_kept(self) -> None:
        one = b"\x81\x01\0" + bytes(4) + b"\x08\0\x38\x01a\0" + served.done(tds.MORE)
        sets = b"".join(tds.packets([one] * 2000 + [served.done()], 4096))
        with serving(sets) as port, connected(port) as connection, connection.query("x", program=PROGRAM) as answer:
            first = next(answer)
            kept = sum(1 for _ in answer)
            self.assertEqual((kept, [it.type for it in first.columns or []]), (1999, ["int"]))
            self.assertLess(len(cast(Any, answer)._descriptions._found), 10)
        with gavyreto.export(sets, program=PROGRAM) as came:
            found = [(rows, rows.columns) for rows in came]
            self.assertEqual((len(found), [rows.columns for rows, _ in found]), (2000, [columns for _, columns in found]))
            self.assertLess(len(cast(Any, came)._descriptions._found), 10)
        late = [*gavyreto.export(sets, program=PROGRAM)]
        self.assertEqual({str(rows.columns) for rows in late}, {str(found[0][1])})

    def test_arguments_that_are_none(self) -> None:
        for name, value in (
            ("port", 70000), ("port", 0), ("port", True), ("port", "1433"), ("user", None), ("user", b"u"), ("password", None), ("password", b"p"),
            ("database", 1),
            ("trust_server", "no"), ("trust_server", 1), ("seconds", 0), ("seconds", -1), ("seconds", None), ("seconds", float("nan")), ("login_seconds", 0),
            ("login_seconds", "5"), ("packet_size", 511), ("packet_size", 8000.0), ("encrypt", "some"), ("certificate_name", None),
        ):
            with self.subTest(name=name, value=value), self.assertRaisesRegex((TypeError, ValueError), name):
                connected(1, **{name: value})

    def test_a_second_that_is_less_than_one(self) -> None:
        with serving() as port, connected(port, seconds=0.5) as connection, self.assertRaisesRegex(gavyreto.TimedOut, "silent for longer than 0.5 seconds"):
            list(connection.query("x", program=PROGRAM))

    def test_a_name_that_is_looked_up_without_end(self) -> None:
        """The deadline of a login is that of the look-up too, which is left where it is."""
        ended, look_up = threading.Event(), socket.getaddrinfo

        def slow(*asked: Any) -> Any:
            return look_up(*asked) if any(asked[5:]) else ended.wait(SECONDS)

        began = time.monotonic()
        with mock.patch("socket.getaddrinfo", slow), self.assertRaisesRegex(gavyreto.TimedOut, "the login wasn't done within 0.5 seconds"):
            gavyreto.connect("slow.example", user="u", password="p", login_seconds=0.5)
        self.assertLess(time.monotonic() - began, SECONDS / 10)
        ended.set()

    def test_an_address_of_a_family_that_the_system_lacks(self) -> None:
        """As those of IPv6, which many names have too: the next address is asked."""
        with serving(ORDERED) as port:
            addresses = [(family, socket.SOCK_STREAM, 0, "", ("127.0.0.1", port)) for family in (99, socket.AF_INET)]
            with mock.patch.object(Server, "_addresses", lambda _: addresses), connected(port) as connection:
                self.assertEqual(len(connection.query("x", program=PROGRAM).only().fetchall()), 3)

    def test_kinds_of_errors(self) -> None:
        for kind in (gavyreto.TimedOut, gavyreto.CertificateRefused, gavyreto.EncryptionRefused):
            self.assertIs(kind.__mro__[1], gavyreto.ConnectionFailed)
        self.assertTrue(issubclass(gavyreto.LoginRefused, gavyreto.ConnectionFailed) and issubclass(gavyreto.LoginRefused, gavyreto.ServerError))
        self.assertEqual(str(gavyreto.ConnectionFailed("a\u061cb\ufff9\U000e0041\x1b")), "a\\u061cb\\ufff9\\U000e0041\\x1b")

    def test_a_password_is_not_in_what_is_logged(self) -> None:
        """A traceback with the variables of all frames shows none: where nobody listens, where the login is none, and where something comes
        while it is laid out or sent."""
        def send(channel: socket.socket, data: bytes, *rest: int) -> int:
            if len(data) > 100:  # a login
                raise KeyboardInterrupt
            return _socket.socket.send(channel, data, *rest)

        with socket.create_server(("127.0.0.1", 0)) as server:
            port = server.getsockname()[1]
        refused: list[dict[str, Any]] = [
            {}, {"password": "geheim" * 30}, {"password": "geheim\udcff"}, {"password": b"geheim"}, {"database": "d" * 200},
            {"access_token": "geheim geheim", "password": "", "user": ""}, {"access_token": b"geheim", "password": "", "user": ""}]
        for options in refused:
            self.assert_hidden(lambda: connected(port, **{"password": "geheim", **options}))
        self.assert_hidden(lambda: gavyreto.query("x", "127.0.0.1", user="u", password="geheim", program="nothere"))
        with mock.patch.object(tds, "VERSION", None):
            self.assert_hidden(lambda: connected(port, password="geheim"))
        with serving() as port, mock.patch.object(socket.socket, "send", send):
            self.assert_hidden(lambda: connected(port, password="geheim"))

    def test_a_password_is_not_in_what_is_logged_of_an_interrupt(self) -> None:
        """It comes at any line while a login is made, and laid out in packets."""
        asked, at, is_come = tds.Login("h", "u", Secret("geheim" * 20), "p", "s", "", "", "", 512), 0, True

        def come() -> None:
            nonlocal is_come
            is_come = True
            raise KeyboardInterrupt

        def lay_out() -> None:
            nonlocal at, is_come
            at, is_come = at + 1, False
            meanwhile(at, lambda: [len(it) for it in map(Hidden, tds.packets([tds.login(asked, 0)], 100, tds.PacketType.LOGIN))], come)
            if not is_come:
                connected(0)  # which is refused too

        while is_come:
            self.assert_hidden(lay_out)
        self.assertGreater(at, 50)

    def assert_hidden(self, call: Callable[[], object]) -> None:
        """A call raises an error, and no frame of the package has a variable with the password, disguised or not."""
        own, units = [], "geheim".encode("utf-16-le")
        try:
            call()
        except (gavyreto.ConnectionFailed, ValueError, TypeError, FileNotFoundError, KeyboardInterrupt) as failure:
            frames = [frame for frame, _ in traceback.walk_tb(failure.__traceback__)]
            own = [frame for frame in frames if f"{os.sep}gavyreto{os.sep}" in frame.f_code.co_filename]
        self.assertGreater(len(own), 0)
        for frame in own:
            for form in ("geheim", repr(units)[2:-1], repr(tds._disguised(units))[2:-1]):
                self.assertNotIn(form, repr(frame.f_locals), frame.f_code.co_name)


class DatabaseApi(Live):
    """PEP 249."""

    def test_a_cursor(self) -> None:
        answers = [wire("sets"), *[answered(served.done())] * 2, wire("broken", 2)]
        with serving(*answers) as port, connected(port) as connection:
            connection.query.__func__.__kwdefaults__["program"] = PROGRAM  # type: ignore[attr-defined]
            self.addCleanup(connection.query.__func__.__kwdefaults__.update, program="tds_replay")  # type: ignore[attr-defined]
            with connection.cursor() as cursor:
                cursor.execute("x")
                self.assertEqual([it[:2] for it in cursor.description or []], [("id", "int"), ("note", "nvarchar(40)")])
                self.assertEqual(cursor.fetchone(), (1, "first\r\n\r\nthird line"))
                self.assertEqual((cursor.fetchmany(5), cursor.fetchone(), cursor.rowcount), ([(2, None)], None, -1))
                self.assertTrue(cursor.nextset())
                self.assertEqual([str(row[0]) for row in cursor], ["12.50"])
                self.assertEqual((cursor.nextset(), cursor.fetchall(), cursor.nextset(), cursor.description), (True, [], None, None))
                with self.assertRaises(gavyreto.ProgrammingError):
                    cursor.fetchone()
            connection.commit()
            connection.rollback()
            cursor = connection.cursor()
            with self.assertRaises(gavyreto.NotSupportedError):
                cursor.execute("x", (1,))
            cursor.executemany("x", [])
            self.assertRaises(gavyreto.NotSupportedError, cursor.executemany, "x", [(1,)])
            self.assertEqual(len(cursor.execute("x").fetchmany(2)), 2)
            self.assertRaises(gavyreto.ServerError, cursor.fetchmany, 3)
            cursor.close()
            connection.close()
        self.assertEqual((gavyreto.apilevel, gavyreto.threadsafety), ("2.0", 1))

    def test_an_error_behind_rows(self) -> None:
        """It is raised once they don't suffice, and what follows on the connection is as without it."""
        failed = answered(*responses.order_rows(0), served.done(tds.MORE), served.server_error(1, "no", 1), served.done(tds.FAILED))
        with serving(failed, ORDERED) as port, connected(port) as connection:
            cursor = connection.cursor().execute("x", program=PROGRAM)
            self.assertRaises(gavyreto.ServerError, cursor.fetchmany, 9)
            self.assertEqual(len(cursor.fetchmany(3)), 3)
            self.assertEqual(len(cursor.execute("x", program=PROGRAM).fetchmany(9)), 3)

    def test_a_cursor_that_is_closed(self) -> None:
        with serving(ORDERED) as port, connected(port) as connection:
            cursor = connection.cursor().execute("x", program=PROGRAM)
            self.assertEqual(len(cursor.fetchmany(1)), 1)
            cursor.close()
            calls: list[Callable[[], object]] = [cursor.fetchone, cursor.fetchmany, cursor.fetchall, lambda: cursor.execute("x", program=PROGRAM)]
            for call in calls:
                with self.assertRaises(gavyreto.ProgrammingError):
                    call()
            self.assertEqual((cursor.description, cursor.nextset()), (None, None))

    def test_a_cursor_whose_statement_fails(self) -> None:
        """It has no set, and not that of the statement before, or the set before."""
        failed = answered(*responses.order_rows(0), served.done(tds.MORE), served.server_error(1, "no", 1), served.done(tds.FAILED))
        for answers in ([ORDERED, wire("float")], [failed]):
            with serving(*answers) as port, connected(port) as connection:
                cursor = connection.cursor().execute("x", program=PROGRAM)
                self.assertEqual(len(cursor.fetchmany(3)), 3)
                with self.assertRaises(gavyreto.Error):
                    cursor.nextset()
                    cursor.execute("x", program=PROGRAM)
                self.assertIsNone(cursor.description)
                with self.assertRaises(gavyreto.ProgrammingError):
                    cursor.fetchone()


if __name__ == "__main__":
    unittest.main()
