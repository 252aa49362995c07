"""Tests of the program over one response after another: faults, responses that are cut, long texts, and programs that don't do as they say."""
from __future__ import annotations

import contextlib
import gc
import os
import random
import resource
import signal
import subprocess
import sys
import tempfile
import threading
import unittest
from collections.abc import Iterator
from typing import Any, cast
from unittest import mock

from gavyreto import program, tds
from gavyreto.errors import Fault, Report, ServerError
from gavyreto.program import BAD_INPUT, DONE, SERVER_ERROR, Ending, Output, OutputFailed, Program, command_of
from tests.beside import ORDERS, PROGRAM, SECONDS, answered, interrupted, responses, served, started, wait_for, wire

ORDERED = answered(*responses.order_rows(0), served.done())
WITHOUT = answered(served.done())
LONG = 20_000_000  # bytes of a value


def command(name: str = PROGRAM, max_wire: int = program.MAX_WIRE) -> list[str]:
    return command_of(name, program.PACKET_SIZE, program.COLUMN_ROOM, max_wire, program.CHARSETS[0])


def ended(run: Program, data: bytes, is_cut: bool = False, step: int = 1 << 20) -> tuple[Ending, bytes]:
    """How a response ends that is handed over in pieces, and its text."""
    with tempfile.TemporaryFile() as file:
        output = Output(file.fileno())
        run.begin()
        for at in range(0, len(data), step):
            run.hand(data[at:at + step], output)
        if is_cut:
            run.cut()
        ending = run.finish(output)
        file.seek(0)
        return ending, file.read()


def process_of(run: Program) -> int:
    return run._process.pid if run._process else 0


class Runs(unittest.TestCase):
    def test_responses_one_after_another(self) -> None:
        """One program for all of them, in pieces of any size, as long as they are whole."""
        with Program(command()) as run:
            started = set()
            for step in (1, 7, 1000, 1 << 20):
                for data, text, status in ((ORDERED, ORDERS, DONE), (WITHOUT, b"", DONE), (wire("error"), None, SERVER_ERROR), (wire("kinds", 30), None, DONE)):
                    ending, came = ended(run, data, step=step)
                    started.add(process_of(run))
                    self.assertEqual((ending.status, ending.written), (status, len(came)), ending)
                    self.assertIsInstance(ending.said, ServerError if status else Report)
                    self.assertEqual(came if text is not None else None, text)
            self.assertEqual(len(started), 1)

    def test_a_fault_costs_its_own_response(self) -> None:
        """Also where the program needs no more of a long response, and where it is cut before its first byte."""
        with Program(command(max_wire=1 << 20)) as run:
            for data, is_cut, line in (
                (wire("float"), False, "fault 10 RefusedColumn 1 FLTN at payload 15, written 0, unwritten 0"),
                (wire("long", 5_000_000), False, "fault 5 ResponseTooLong at wire 1048576, "),
                (b"", True, "fault 2 InputEnded at wire 0, written 0, unwritten 0"),
                (ORDERED[:20], True, "fault 2 InputEnded at wire 0, written 0, unwritten 0"),
            ):
                ending, came = ended(run, data, is_cut)
                self.assertTrue(ending.line.startswith(line), ending)
                self.assertIsInstance(ending.said, Fault)
                self.assertEqual((ending.status, ending.written), (BAD_INPUT, len(came)))
                ending, came = ended(run, ORDERED)
                self.assertEqual((ending.status, came), (DONE, ORDERS))

    def test_descriptors_that_run_out(self) -> None:
        """A response that is cut, or a fault that comes early, has its end where no more can be opened."""
        before = resource.getrlimit(resource.RLIMIT_NOFILE)
        self.addCleanup(resource.setrlimit, resource.RLIMIT_NOFILE, before)
        resource.setrlimit(resource.RLIMIT_NOFILE, (256, before[1]))
        for data, line in (ORDERED[:20], "fault 2 InputEnded"), (wire("float"), "fault 10 RefusedColumn"):
            with Program(command()) as run, open(os.devnull, "wb") as file, contextlib.ExitStack() as held:
                run.begin()
                with contextlib.suppress(OSError):
                    while True:
                        held.callback(os.close, os.dup(file.fileno()))
                run.hand(data, Output(file.fileno()))
                run.cut()
                self.assertTrue(run.finish(Output(file.fileno())).line.startswith(line))

    def test_a_process_that_closes_all_that_it_got(self) -> None:
        """As one does that goes on in the background: programs that it starts don't need what was there before."""
        with Program(command()) as run:
            self.assertEqual(ended(run, ORDERED)[0].status, DONE)
            child = os.fork()
            if not child:
                os.closerange(3, 256)
                with Program(command()) as other:
                    is_well = [ended(other, data, True)[0].status for data in (ORDERED[:20], ORDERED)] == [BAD_INPUT, DONE]
                os._exit(not is_well)
            self.assertEqual(os.waitpid(child, 0)[1], 0)

    def test_what_has_its_numbers_in_a_process_that_closes_all(self) -> None:
        """It stays open where the program is collected there, closed before or not, and Python has no lines to say."""
        for close in (lambda _: None, Program.close):
            run = Program(command())
            self.assertEqual(ended(run, ORDERED)[0].status, DONE)
            close(run)
            child = os.fork()
            if not child:
                os.closerange(3, 256)
                others = [os.dup(0) for _ in range(64)]
                with mock.patch.object(sys, "unraisablehook") as dropped:
                    del run
                    gc.collect()
                with contextlib.suppress(OSError):  # one that isn't open
                    os._exit(dropped.called or not all(map(os.fstat, others)))
                os._exit(2)
            self.assertEqual(os.waitpid(child, 0)[1], 0)

    def test_nothing_that_python_warns_of(self) -> None:
        """Not where a program is begun again, nor where it is collected with others before what is its own, nor where Python ends."""
        script = (
            "import gc, sys\nfrom gavyreto.program import *\n"
            "def run(data):\n    held = Program(command_of(sys.argv[1], PACKET_SIZE, COLUMN_ROOM, MAX_WIRE, CHARSETS[0]))\n    gc.collect()\n"
            "    for _ in range(3):\n        held.begin(), held.put(data), held.read(1)\n    held._process.others, held.itself = [held], held\n    return held\n"
            "gc.disable()\nfor data in bytes.fromhex(sys.argv[2]), bytes.fromhex(sys.argv[3]):\n    run(data), run(data), gc.collect()\nleft = run(data)\n")
        command = [sys.executable, "-X", "dev", "-W", "error", "-c", script, PROGRAM, wire("float").hex(), wire("kinds", 30).hex()]
        came = subprocess.run(command, capture_output=True, check=False, timeout=SECONDS, **started())
        self.assertEqual((came.returncode, came.stderr.decode()), (0, ""))

    def test_a_program_that_is_killed(self) -> None:
        with Program(command()) as run:
            ended(run, ORDERED)
            run.begin()
            run.kill()
            self.assertEqual(run.finish(Output(1)).status, 128 + 9)
            self.assertEqual(ended(run, ORDERED)[1], ORDERS)
            run.kill()  # between two responses
            while run._process and run._process.poll() is None:
                pass
            self.assertEqual(ended(run, ORDERED)[1], ORDERS)

    def test_a_lock_that_an_interrupt_left_taken(self) -> None:
        """Popen takes it to ask for a status, and gives it back a line later. The program is ended all the same."""
        run = Program(command())
        run.begin()
        run.hand(ORDERED[:20], Output(2))
        process = run._process
        assert process
        process._waitpid_lock.acquire()  # type: ignore[attr-defined]
        closing = threading.Thread(target=run.close, daemon=True)
        closing.start()
        closing.join(SECONDS)
        self.assertFalse(closing.is_alive())
        self.assertEqual(process.returncode, -signal.SIGKILL)

    def test_an_interrupt_while_it_is_made(self) -> None:
        """At whatever line: its end finds what there is of it, and Python has no lines to say."""
        at, is_interrupted = 1, True
        while is_interrupted:
            with mock.patch.object(sys, "unraisablehook") as dropped:
                is_interrupted = interrupted(at, lambda: Program(command()))
            dropped.assert_not_called()
            at += 1
        self.assertGreater(at, 10)

    def test_an_interrupt_while_it_starts(self) -> None:
        """At whatever line: the next response is read by one that is started anew, or by this one."""
        at, is_interrupted = 1, True
        while is_interrupted:
            with Program(command()) as run:
                is_interrupted = interrupted(at, run.begin)
                self.assertEqual(ended(run, ORDERED)[1], ORDERS)
            at += 1
        self.assertGreater(at, 20)

    def test_the_end_of_a_program_that_did_not_start(self) -> None:
        """After an interrupt at whatever line of a second start nothing is closed or changed that others have opened since."""
        at, is_interrupted = 1, True
        while is_interrupted:
            run = Program(command())
            ended(run, ORDERED)
            run.close()
            is_interrupted = interrupted(at, run.begin)
            with contextlib.ExitStack() as stack:
                others = [stack.enter_context(tempfile.TemporaryFile()) for _ in range(8)]
                before = [os.fstat(it.fileno()) for it in others]
                run.close()
                self.assertTrue(all(map(os.path.samestat, before, [os.fstat(it.fileno()) for it in others])), at)
            at += 1
        self.assertGreater(at, 20)

    def test_the_end_of_a_program_whose_pipes_are_closed(self) -> None:
        """As where all of it is collected: nothing is read of what has got their numbers."""
        run = Program(command())
        ended(run, ORDERED)
        process, numbers = cast(Any, run._process), (run._text, run._notes)
        reading, writing = os.pipe()
        for pipe, number in zip((process.stdout, process.stderr), numbers):
            pipe.close()
            os.dup2(reading, number)
        os.set_blocking(reading, False)
        os.write(writing, b"another's")
        run.close()
        self.assertEqual(os.read(reading, 100), b"another's")
        for number in (reading, writing, *numbers):
            os.close(number)

    def test_a_response_that_is_left(self) -> None:
        """What was handed over of one doesn't count for the next."""
        with Program(command()) as run:
            run.begin()
            run.hand(ORDERED[:30], Output(1))
            self.assertEqual(ended(run, ORDERED)[1], ORDERS)
        with self.assertRaises(FileNotFoundError), Program(command("no such program")) as lacking:
            lacking.begin()

    def test_programs_that_do_not_do_as_they_say(self) -> None:
        """Of a text that is longer or shorter than the line says, of lines that are none, and of a status that isn't that of the line."""
        report = "sets 1 rows 1 errors 0 infos 0 written"
        for script, line in (
            (f'printf 12345; sleep 0.1; echo "{report} 4" >&2; cat > eaten', f"tds_replay ended with status 0, and a text of 5 bytes: {report} 4"),
            (f'echo "{report} 4" >&2; printf 12345; cat > eaten', f"tds_replay ended with status 0, and a text of 5 bytes: {report} 4"),
            (f'printf 123; echo "{report} 4" >&2; head -c 1 > eaten', f"tds_replay ended with status 0, and a text of 3 bytes: {report} 4"),
            (f'printf 123; echo "{report} 4" >&2; cat > eaten', f"tds_replay ended with status 0, and a text of 3 bytes: {report} 4"),
            ("echo hello >&2; head -c 1 > eaten", "tds_replay ended with status 0, and a text of 0 bytes: hello"),
            ('echo "fault 2 InputEnded at wire 0, written 0, unwritten 0" >&2', "tds_replay ended with status 0, and a text of 0 bytes: fault 2"),
            ("exit 6", "tds_replay ended with status 6 and no line"), ("exit 0", "tds_replay ended with status 0, and a text of 0 bytes: "),
            ("kill -KILL $$", "tds_replay was ended by the signal 9"),
        ):
            with tempfile.TemporaryDirectory() as folder, self.subTest(script=script):
                path = os.path.join(folder, "program")
                with open(path, "w", encoding="ascii") as file:
                    file.write(f"#!/bin/sh\ncd {folder}\n{script}\n")
                os.chmod(path, 0o755)
                with Program(command(path)) as run:
                    ending, _ = ended(run, ORDERED)
                    self.assertTrue(ending.line.startswith(line), ending)
                    self.assertEqual((ending.said, ending.status in (DONE, SERVER_ERROR, BAD_INPUT)), (None, False))


class Texts(unittest.TestCase):
    @contextlib.contextmanager
    def drained(self) -> Iterator[tuple[int, bytearray]]:
        """A pipe, and what came through it."""
        reader, writer = os.pipe()
        came = bytearray()

        def drain() -> None:
            while data := os.read(reader, 1 << 16):
                came.extend(data)

        thread = threading.Thread(target=drain, daemon=True)
        thread.start()
        yield writer, came
        os.close(writer)
        thread.join()
        os.close(reader)

    def test_a_text_that_is_longer_than_any_pipe(self) -> None:
        """By `splice` into a pipe and a file, and without it into a file that is appended to; with what comes before the first byte."""
        data, wanted = wire("long", LONG), b'"data"\r\n0x' + responses.CHUNK.hex().encode() * (LONG // len(responses.CHUNK)) + b"\r\n"
        with Program(command()) as run, tempfile.TemporaryDirectory() as folder:
            for mode in ("ab", "wb"):
                with open(os.path.join(folder, mode), mode) as file:
                    output = Output(file.fileno(), b"\r\n")
                    for one in (WITHOUT, data, ORDERED):
                        run.begin()
                        run.hand(one, output)
                        self.assertEqual(run.finish(output).status, DONE)
                with open(file.name, "rb") as file_:
                    self.assertTrue(file_.read() == b"\r\n" + wanted + ORDERS)
            for has_splice in (True, False):
                with self.drained() as (writer, came), mock.patch.object(os, "splice", getattr(os, "splice", None) if has_splice else None, create=True):
                    output = Output(writer)
                    run.begin()
                    run.hand(data, output)
                    run.finish(output)
                self.assertTrue(came == wanted)

    def test_one_thread_hands_over_and_another_takes(self) -> None:
        numbers = random.Random(1)
        with Program(command()) as run:
            for name, count in (("orders", 3000), ("kinds", 100), ("long", LONG), ("float", 0), ("broken", 3000)):
                data, refused = wire(name, count, 4096), []

                def put() -> None:
                    at = 0
                    try:
                        while at < len(data):
                            step = numbers.choice((1, 100, 70_000, LONG))
                            run.put(data[at:at + step])
                            at += step
                    except BrokenPipeError:
                        refused.append(at)

                run.begin()
                thread = threading.Thread(target=put)
                thread.start()
                least = 5000 if name == "long" else 1
                length = sum(len(it) for it in iter(lambda: run.read(numbers.choice((least, 70_000, LONG))), b""))
                thread.join()
                assert run.ending
                self.assertEqual((run.ending.written, run.ending.said is not None), (length, True))

    def test_an_output_that_fails(self) -> None:
        """The disk is full, or nobody reads any more; the next response has its own program."""
        reader, writer = os.pipe()
        os.close(reader)
        with Program(command()) as run, open("/dev/full", "wb", buffering=0) as full:
            for descriptor in (full.fileno(), writer):
                for data in (ORDERED, wire("long", 5_000_000)):
                    run.begin()
                    with self.assertRaises(OutputFailed):
                        run.hand(data, Output(descriptor))
                        run.finish(Output(descriptor))
            self.assertEqual(ended(run, ORDERED)[1], ORDERS)
        os.close(writer)

    def test_text_is_moved_while_something_else_is_waited_for(self) -> None:
        """What the program has written is there before the response goes on, and only time in which nothing comes is counted."""
        packets = list(tds.packets(responses.RESPONSES["kinds"](2000), 4096))
        with Program(command()) as run, self.drained() as (writer, came):
            ours, theirs = os.pipe()
            output = Output(writer)
            run.begin()
            run.hand(b"".join(packets[:-1]), output)
            self.assertGreaterEqual(run.attend(ours, 0.3, output), 0.3)
            wait_for(lambda: run.attend(ours, 0.05, output) > 0 and len(came) > 4096 * len(packets) // 2)
            os.write(theirs, b"x")
            self.assertLess(run.attend(ours, 100, output), 50)
            run.hand(packets[-1], output)
            self.assertEqual(run.finish(output).status, DONE)
            for descriptor in (ours, theirs):
                os.close(descriptor)


if __name__ == "__main__":
    unittest.main()
