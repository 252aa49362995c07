"""Tests of what the commands share: each exception is one line and a status, and no line moves a terminal."""
from __future__ import annotations

import argparse
import io
import os
import signal
import ssl
import subprocess
import sys
import tempfile
import time
import unittest
from contextlib import redirect_stderr
from typing import Any
from unittest import mock

from gavyreto import __main__ as entry
from gavyreto.commands import common
from gavyreto.commands.common import Stopped
from gavyreto.connection import context_of
from gavyreto.errors import BadAnswer, ConnectionFailed, Report, ServerError
from gavyreto.payload import Ended
from gavyreto.program import Ending, judged
from tests.beside import PROGRAM, ROOT, SECONDS, Live, assert_signalled, lines_of, started, stepped

SERVER_LINE = "server error 1, state 1, class 16, line 1: no"


class Exceptions(unittest.TestCase):
    def ended(self, failure: BaseException) -> tuple[int, str]:
        said = io.StringIO()
        with mock.patch.object(entry, "run", side_effect=failure), mock.patch.dict(os.environ), redirect_stderr(said):
            os.environ.pop(common.OF_TESTS, None)
            status = entry.ended([])
        return status, said.getvalue()

    def test_each_is_a_line_and_a_status(self) -> None:
        cases: list[tuple[BaseException, int, str]] = [
            (Stopped("it", 2), 2, "it"), (ServerError(SERVER_LINE), 3, SERVER_LINE), (BadAnswer("it"), 4, "it"), (ConnectionFailed("it"), 5, "it"),
            (Ended(), 4, "the response ends before its last packet"), (FileNotFoundError(2, "No such file", "x"), 5, "x: No such file"),
            (OSError(28, "No space left"), 5, "a read or a write: No space left"), (OSError("odd"), 5, "a read or a write: odd"),
            (KeyboardInterrupt(), 130, "interrupted"), (MemoryError(), 6, "want of memory"),
            (ImportError("x.so: failed to map segment"), 6, "want of memory, or of a library: x.so: failed to map segment"),
            (ModuleNotFoundError("No module named '_ssl'"), 5, "Python lacks a module: No module named '_ssl'"),
            (KeyError("x"), 5, "gavyreto failed, which it shouldn't: KeyError: 'x'"), (RecursionError("deep"), 5, "gavyreto failed, which it shouldn't: RecursionError: deep"),
            (Stopped("a\x1b[2J\r\nb\u202e\udcff\x85", 2), 2, "a\\x1b[2J\\x0d\\x0ab\\u202e\\xff\\x85"),
        ]
        for failure, status, line in cases:
            with self.subTest(failure=failure):
                self.assertEqual(self.ended(failure), (status, line + "\n"))
        self.assertEqual(self.ended(SystemExit(2)), (2, ""))

    def test_what_the_system_lacks(self) -> None:
        """It is no argument that is refused."""
        lacking = OSError(24, "Too many open files")
        with mock.patch.object(subprocess, "Popen", side_effect=lacking), self.assertRaises(Stopped) as stop:
            common.checked_program("true")
        self.assertEqual((str(stop.exception), stop.exception.status), ("true can't be started: Too many open files", 5))
        with mock.patch.object(ssl, "SSLContext", side_effect=ssl.SSLError(1, "malloc failure")):
            self.assertRaisesRegex(ConnectionFailed, "^TLS can't be begun: malloc failure$", context_of, None, True)
            self.assertRaisesRegex(ValueError, "^the certificates of x can't be read: malloc failure$", context_of, "x", False)

    def test_an_unforeseen_one_is_let_out_in_tests_alone(self) -> None:
        with mock.patch.object(entry, "run", side_effect=KeyError("x")), mock.patch.dict(os.environ, {common.OF_TESTS: "1"}), self.assertRaises(KeyError):
            entry.ended([])


class Inputs(unittest.TestCase):
    def test_a_file_that_changes(self) -> None:
        """It is told at its end, which may come early then; a pipe ends as it does."""
        for flags, data in (os.O_APPEND, b"more"), (0, b"other"), (os.O_TRUNC, b""):
            with tempfile.NamedTemporaryFile() as file:
                file.write(bytes(100))
                file.flush()
                time.sleep(0.02)  # which the time of a change tells apart
                with io.BufferedReader(common.Input(file.name), 10) as source:
                    source.read(5)
                    changed = os.open(file.name, os.O_WRONLY | flags)
                    os.write(changed, data)
                    os.close(changed)
                    with self.assertRaisesRegex(Stopped, f"^{file.name}: it changed while it was read$"):
                        list(source)
        reading, writing = os.pipe()
        os.write(writing, b"some")
        os.close(writing)
        with common.Input(f"/dev/fd/{reading}") as pipe:
            self.assertEqual(list(pipe), [b"some"])
        os.close(reading)


class Threads(Live):
    SCRIPT = """
import runpy, sys, threading
start, left = threading.Thread.start, [int(sys.argv.pop(1))]
def starts(thread):
    left[0] -= 1
    if left[0] < 0:
        raise RuntimeError("can't start new thread")
    start(thread)
threading.Thread.start = starts
runpy.run_module("gavyreto", run_name="__main__", alter_sys=True)
"""

    def test_a_thread_that_cannot_be_started(self) -> None:
        """The first, or a later one: a line and a status, and no more than that."""
        with open(self.path("statements"), "w", encoding="utf-8") as file:
            file.write("orders\nkinds\nsets\n")
        asking = "query -S localhost,$PORT -U reader --certificates $CERTIFICATE --program $PROGRAM"
        line = b"want of memory or processes: no thread can be started\n"
        for words in (f"{asking} 'SELECT * FROM orders'", f"{asking} --tables statements -j 3 -o texts", "many -j 3 --program $PROGRAM orders.tds kinds.tds sets.tds texts"):
            for count in (*range(7), 100):
                came = self.beside((), f"rm -rf texts; exec {sys.executable} - {count} {words} <<'PYTHON'\n{self.SCRIPT}\nPYTHON", GAVYRETO_TRACEBACK="")
                with self.subTest(words=words, count=count):
                    self.assertIn((came.returncode, came.stderr if came.returncode else b""), ((0, b""), (6, line)), came.stderr)
                    self.assertTrue(count or came.returncode)
            self.assertEqual(came.returncode, 0)
        self.beside((), "rm -rf texts")


class Numbers(unittest.TestCase):
    def test_numbers_of_a_range(self) -> None:
        number = common.number_in(8, 32767)
        self.assertEqual([number(text) for text in ("8", "32767", "0" * 9000 + "9")], [8, 32767, 9])
        for text in ("7", "32768", "9" * 5000, "", "-8", "+8", "8.0", " 8", "٨", "1_0"):
            with self.subTest(text=text[:10]), self.assertRaises(argparse.ArgumentTypeError):
                number(text)


class Endings(unittest.TestCase):
    REPORT, FAULT = "sets 1 rows 2 errors 0 infos 0 written 9\n", "fault 7 MessageEnded at payload 40, written 6, unwritten 0\n"

    def test_lines_status_and_text_have_to_agree(self) -> None:
        error = self.REPORT.replace("errors 0", "errors 1") + SERVER_LINE + "\n"
        cases: list[tuple[int, str, Any, int]] = [
            (0, self.REPORT, 9, 0), (0, self.REPORT, None, 0), (3, error, 9, 3), (4, self.FAULT, 6, 4), (0, self.REPORT, 8, 5), (0, self.FAULT, 6, 5),
            (3, self.REPORT, 9, 5), (4, self.REPORT, 9, 5), (0, error, 9, 5), (0, "", 0, 5), (0, "hello\n", 0, 5), (5, "cannot read x\n", 0, 5),
            (6, "want of memory\n", 0, 6), (2, "error: no\n\nmore\n", 0, 2), (7, "", 0, 7), (-9, "", 0, 137), (-9, self.REPORT, 9, 137),
        ]
        for status, notes, length, wanted in cases:
            with self.subTest(status=status, notes=notes, length=length):
                came = judged(status, notes, length)
                self.assertEqual((came.status, came.line.count("\n"), bool(came.line)), (wanted, 0, True))
        self.assertEqual(judged(0, self.REPORT, 9), Ending(0, self.REPORT.strip(), self.REPORT, 9, Report(1, 2, 0, 0, 9)))
        self.assertEqual(judged(-9, self.REPORT).line, "tds_replay was ended by the signal 9")


class Interrupts(Live):
    def test_ctrl_c_at_any_time(self) -> None:
        """It is a line and a status, and never a traceback, but for one that Python drops."""
        whole = stepped(signal.SIGINT, 0, ["columns"])
        for at in lines_of(whole, 40):
            with self.subTest(at=at):
                assert_signalled(self, signal.SIGINT, stepped(signal.SIGINT, at, ["columns"]), whole)

    def test_ctrl_c_while_a_response_is_waited_for(self) -> None:
        """Whoever feeds the command may end with it."""
        os.mkfifo(self.path("response"))
        for _ in range(10):
            run = subprocess.Popen([sys.executable, "-m", "gavyreto", "columns", self.path("response")], stderr=subprocess.PIPE, **started())
            with self.subTest(), run:
                with open(self.path("response"), "wb"):  # once the command opens it
                    run.send_signal(signal.SIGINT)
                self.assertEqual((run.communicate()[1], run.returncode), (b"interrupted\n", 130))

    def test_a_command_in_another_thread(self) -> None:
        """It ends as in the main thread, which alone may set how a signal is handled."""
        asked = "print(thread.submit(entry.ending, ['columns', '--help']).result(), file=sys.stderr)"
        script = f"import sys\nfrom concurrent.futures import *\nfrom gavyreto import __main__ as entry\nwith ThreadPoolExecutor(1) as thread: {asked}"
        came = subprocess.run([sys.executable, "-c", script], capture_output=True, check=False, timeout=SECONDS, **started())
        self.assertEqual((came.stdout[:6], came.stderr), (b"usage:", b"('', 0)\n"))

    def test_a_signal_that_is_ignored(self) -> None:
        """Whoever starts the command, or the interpreter, may ignore that programs end: how they did is known all the same."""
        ignoring = "import os, signal, sys; signal.signal(signal.SIGCHLD, signal.SIG_IGN); os.execv(sys.executable, [sys.executable, *sys.argv[1:]])"
        self.store("kinds", "300")  # too long for a pipe at once
        folder = tempfile.TemporaryDirectory()
        self.addCleanup(folder.cleanup)
        with open(self.path("capture.pcap"), "wb") as file:
            subprocess.run([sys.executable, os.path.join(ROOT, "tools", "capture"), self.path("kinds.tds"), self.path("float.tds")], stdout=file, check=True)
        refused = f"import gavyreto\ntry: next(gavyreto.export('float.tds', program={PROGRAM!r}))\nexcept gavyreto.Fault as failure: print(failure.name)"
        for words, status, told in (
            (["-m", "gavyreto", "many", "--program", PROGRAM, "kinds.tds", "float.tds", f"{folder.name}/many"], 4, b""), (["-c", refused], 0, b"RefusedColumn"),
            (["-m", "gavyreto", "capture", "--program", PROGRAM, "capture.pcap", f"{folder.name}/captured"], 4, b"sets 1 rows 300 errors 0"),
        ):
            came = subprocess.run([sys.executable, "-c", ignoring, *words], cwd=self.folder, capture_output=True, check=False, timeout=SECONDS, **started())
            with self.subTest(words=words):
                self.assertEqual((came.returncode, told in came.stdout), (status, True), came.stderr + came.stdout)

    def test_a_signal_that_python_drops(self) -> None:
        """An exception in the call of a weak reference ends nothing: the command goes on, and says in the end what came."""
        program = (
            "import signal, sys, weakref; from gavyreto.commands import columns\n"
            "class Thing: pass\n"
            "def run(words):\n"
            "    thing = Thing()\n"
            "    held = weakref.ref(thing, lambda _: signal.raise_signal(number))\n"
            "    del thing\n"
            "    return 0\n"
            "columns.run = run\n"
            "sys.argv, number = ['gavyreto', 'columns'], int(sys.argv[1])\n"
        )
        installed = "from gavyreto.__main__ import main; main()"
        for begun in ("import runpy; runpy.run_module('gavyreto', run_name='__main__', alter_sys=True)", installed):
            for number, line in (signal.SIGINT, b"interrupted"), (signal.SIGTERM, b"ended by SIGTERM"), (signal.SIGHUP, b"ended by SIGHUP"):
                with self.subTest(begun=begun, line=line):
                    words = [sys.executable, "-c", program + begun, str(int(number))]
                    run = subprocess.run(words, stderr=subprocess.PIPE, check=False, **started())
                    self.assertEqual((run.returncode, run.stderr.splitlines()[-1]), (128 + number, line))


if __name__ == "__main__":
    unittest.main()
