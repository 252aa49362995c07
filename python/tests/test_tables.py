"""Tests of `query --tables`: fifty names, of which some are refused and some break, stopped and begun again."""
from __future__ import annotations

import contextlib
import csv
import io
import os
import pty
import re
import select
import signal
import socket
import subprocess
import tempfile
import threading
import time
import unittest
from collections import Counter
from collections.abc import Iterator
from unittest import mock

from gavyreto import tables, tds
from gavyreto.commands import query
from gavyreto.connection import UNASKED, Channel
from tests.beside import SECONDS, answered, ask_port, certificate_in, command_for, context_of, exported, log_in, log_in_encrypted, need, responses
from tests.beside import served, serving_each, started, wait_for, wire

COLUMNS = 10  # of the table of outcomes
RETRIED = "SELECT * FROM retried"


def answer_of(statement: str) -> bytes:
    """What the server answers: to SELECT * FROM tN as many rows as N says."""
    word = re.split("[ .]", statement)[-1]
    known = {"refused": wire("float"), "error": wire("error"), "kinds": wire("kinds"), "cancelled": answered(*responses.order_rows(0), served.done(tds.CANCELLED))}
    return known.get(word) or wire("orders", int(re.sub(r"\D", "", word) or 3) + 1)


def text_of(statement: str) -> bytes:
    """The text of an answer, by an export by hand."""
    return exported(answer_of(statement))[1]


class Server:
    """A server for any number of connections. It breaks off the answers to some statements as often as is said, and holds those to others
    until it is let go. After SET ROWCOUNT 1 each answer of that connection has one row."""

    def __init__(self, breaks: dict[str, int], holds: tuple[str, ...] = ()) -> None:
        self.asked: Counter[str] = Counter()
        self.logins, self.breaks, self.holds, self.is_let = 0, breaks, holds, threading.Event()
        self._lock = threading.Lock()

    @contextlib.contextmanager
    def listening(self) -> Iterator[int]:
        with serving_each(self._serve) as port:
            try:
                yield port
            finally:
                self.is_let.set()

    def _serve(self, connected: socket.socket) -> None:
        with connected, contextlib.suppress(OSError, EOFError):
            channel = Channel(connected, SECONDS)
            log_in(channel)
            is_cut = False
            with self._lock:
                self.logins += 1
            while True:
                kind, payload = channel.read_message()
                statement, data = served.statement_of(payload), b""
                with self._lock:
                    self.asked[statement] += 1
                    data = wire("orders", 1) if is_cut else answer_of(statement)
                    is_cut = is_cut or "SET ROWCOUNT 1" in statement.replace("/**/", " ")
                    if self.breaks.get(statement, 0) > 0:
                        self.breaks[statement] -= 1
                        data = data[:len(data) // 2]
                if statement in self.holds:
                    channel.write(data[:100])
                    self.is_let.wait(SECONDS)
                    data = data[100:]
                channel.write(data)
                if not is_cut and not data.endswith(answer_of(statement)[-20:]):
                    return


class Tables(unittest.TestCase):
    def setUp(self) -> None:
        folder = tempfile.TemporaryDirectory()
        self.addCleanup(folder.cleanup)
        self.folder, self.out = folder.name, os.path.join(folder.name, "out")

    def write(self, lines: list[str]) -> str:
        path = os.path.join(self.folder, "tables")
        with open(path, "w", encoding="utf-8") as file:
            file.write("".join(line + "\n" for line in lines))
        return path

    def table(self) -> dict[str, list[str]]:
        """The lines of the table, by names."""
        with open(os.path.join(self.out, "outcomes.csv"), encoding="utf-8", newline="") as file:
            return {line[0]: line for line in list(csv.reader(io.StringIO(file.read())))[1:] if len(line) == COLUMNS}

    def assert_true(self, statements: dict[str, str]) -> None:
        """Each line tells of a text that is there, and whole but for one that was refused; nothing else is there."""
        lines, names = self.table(), {"outcomes.csv"}
        for name, line in lines.items():
            text = text_of(statements[name])
            if line[3] == "NULL":
                self.assertEqual(line[1], "5")
                continue
            names.add(line[3])
            with open(os.path.join(self.out, line[3]), "rb") as file:
                self.assertEqual((file.read(), int(line[4]), line[7]), (text, len(text), statements[name]), line)
            self.assertEqual(line[3], name + (".csv.partial" if line[1] == "4" else ".csv"))
        self.assertLessEqual(set(os.listdir(self.out)), names)

    LINES = [
        *(f"t{number:02}" for number in range(40)), "-- a comment", "", "refused", "error\tdbo.error", "cancelled  SELECT  cancelled", "retried", "kinds [db].dbo.kinds",
        *(f'named{number} "a b"."t {number}"' for number in range(3)), "last SELECT TOP 5 * FROM x WHERE y = 't'", "ü exec t7",
    ]
    STATEMENTS = {
        **{f"t{number:02}": f"SELECT * FROM t{number:02}" for number in range(40)}, "refused": "SELECT * FROM refused", "error": "SELECT * FROM dbo.error",
        "cancelled": "SELECT  cancelled", "retried": RETRIED, "kinds": "SELECT * FROM [db].dbo.kinds", **{f"named{number}": f'SELECT * FROM "a b"."t {number}"' for number in range(3)},
        "last": "SELECT TOP 5 * FROM x WHERE y = 't'", "ü": "exec t7",
    }

    def test_fifty_tables(self) -> None:
        """A table that is refused ends nothing; a statement whose connection breaks is sent again, and no other."""
        file, server = self.write(self.LINES), Server({RETRIED: 2})
        self.assertEqual(len(self.STATEMENTS), 50)
        with server.listening() as port:
            came = ask_port(port, "--tables", file, "-o", self.out, "--jobs", "4", "--retries", "2")
            self.assertEqual((came.returncode, came.stdout), (4, b""), came.stderr)
            self.assertRegex(came.stderr.decode(), r"^refused: fault 10 [^\n]*; [^\n]*/outcomes.csv has a line for each\n50 tables: 47 done, 2 with an error of the server, 1 refused, 0 failed\n$")
            self.assertEqual({name: int(line[1]) for name, line in self.table().items()}, {name: {"refused": 4, "error": 3, "cancelled": 3}.get(name, 0) for name in self.STATEMENTS})
            self.assertEqual(self.table()["error"][2], "server error 208, state 1, class 16, line 1: Invalid object name 'orders'.")
            self.assert_true(self.STATEMENTS)
            self.assertEqual(server.asked, Counter({**dict.fromkeys(self.STATEMENTS.values(), 1), RETRIED: 3}))
            self.assertLessEqual(server.logins, 4 + 2 + 1 + 3)  # by a worker each, after a break, the refused table, and a statement
            server.breaks[RETRIED] = 9
            came = ask_port(port, "--tables", self.write(["retried", "t01"]), "-o", self.out, "--retries", "1")
            self.assertEqual(came.returncode, 5)
            self.assertRegex(self.table()["retried"][2], "^the server closed the connection: fault 2 InputEnded ")
        self.assertFalse(os.path.exists(os.path.join(self.out, "retried.csv")))
        self.assert_true(self.STATEMENTS)

    def test_what_a_statement_sets(self) -> None:
        """It holds for no other line, whichever connection that is asked on; a comment behind a table is none of its statement."""
        lines = ["first SET ROWCOUNT 1 SELECT t5", "t50 -- all", "more\tdbo.t60 -- and more", "second SET ROWCOUNT 1 SELECT t6", "t70",
                 "third t7;SET/**/ROWCOUNT/**/1", "t80"]
        statements = {"first": "SET ROWCOUNT 1 SELECT t5", "t50": "SELECT * FROM t50", "more": "SELECT * FROM dbo.t60",
                      "second": "SET ROWCOUNT 1 SELECT t6", "t70": "SELECT * FROM t70", "third": "t7;SET/**/ROWCOUNT/**/1", "t80": "SELECT * FROM t80"}
        for jobs in ("1", "2"):
            server = Server({})
            with self.subTest(jobs=jobs), server.listening() as port:
                came = ask_port(port, "--tables", self.write(lines), "-o", self.out, "-j", jobs)
                self.assertEqual((came.returncode, server.asked), (0, Counter(statements.values())), came.stderr)
                self.assert_true(statements)

    def test_what_comes_behind_an_answer(self) -> None:
        """It is told of that answer, or once it is all that is left; and the other tables are asked."""
        def serve(server: socket.socket, pause: float) -> None:
            with server.accept()[0] as connected:
                channel = Channel(connected, SECONDS)
                log_in(channel)
                channel.read_message()
                channel.write(wire("orders") + (b"" if pause else wire("orders")))
                time.sleep(pause)
                channel.write(wire("orders") if pause else b"")
                channel.wait()
                with contextlib.suppress(OSError):
                    channel.receive()

        whole = "sets 1 rows 3 errors 0 infos 0 written 214"
        for line, pause, wanted in (
            ("a SELECT 1", 0.0, ["4", UNASKED, "a.csv.partial"]), ("a", 0.0, ["4", UNASKED, "a.csv.partial"]), ("a", 0.05, ["0", whole, "a.csv"]),
        ):
            with self.subTest(line=line, pause=pause), socket.create_server(("127.0.0.1", 0)) as server:
                thread = threading.Thread(target=serve, args=(server, pause), daemon=True)
                thread.start()
                came = ask_port(server.getsockname()[1], "--tables", self.write([line]), "-o", self.out)
                thread.join(SECONDS)
                self.assertEqual((came.returncode, self.table()["a"][1:4], UNASKED in came.stderr.decode()), (4, wanted, True), came.stderr)

    def test_what_is_no_tls_behind_an_answer(self) -> None:
        need(self, "openssl")
        context = context_of(certificate_in(self.folder))

        def serve(server: socket.socket) -> None:
            with server.accept()[0] as connected:
                channel = Channel(connected, SECONDS)
                log_in_encrypted(channel, context)
                channel.read_message()
                assert channel.tls
                channel.tls.write(wire("orders"))
                connected.sendall(channel._to_send.read() + b"no TLS, but bytes")
                connected.recv(1)

        with socket.create_server(("127.0.0.1", 0)) as server:
            threading.Thread(target=serve, args=(server,), daemon=True).start()
            came = ask_port(server.getsockname()[1], "--encrypt", "all", "-C", "--tables", self.write(["a"]), "-o", self.out)
        self.assertEqual((came.returncode, self.table()["a"][1:4]), (4, ["4", UNASKED, "a.csv.partial"]), came.stderr)

    def test_what_is_refused_before_anything_is_sent(self) -> None:
        server = Server({})
        with server.listening() as port:
            for lines, line in (
                (["a x", "b", "a y"], "tables, line 3: the name a stands twice"), (["a/b x"], "tables, line 1: the name a/b has a slash"), (["outcomes"], "is that of the table"),
                (["x" * 250], "has more than"), (["", "--"], "no table"), (["a\rb\rc"], "tables, line 1: a line end that is"), (["b", "-- c\ra SELECT 1"], "tables, line 2: a line end that is"),
                (["a SELECT '" + "x" * 100_001 + "'"], "has a statement of more than"),
            ):
                came = ask_port(port, "--tables", self.write(lines), "-o", self.out)
                with self.subTest(line=line):
                    self.assertEqual((came.returncode, came.stderr.count(b"\n")), (2, 1))
                    self.assertIn(line, came.stderr.decode())
            with mock.patch.dict(os.environ, LC_ALL="C", PYTHONUTF8="0"):
                came = ask_port(port, "--tables", self.write(["nö"]), "-o", self.out)
            self.assertEqual((came.returncode, b"tables, line 1: the name n\\xf6 can't be that of a file" in came.stderr), (2, True), came.stderr)
            for words in (["--tables", self.write(["a"])], ["--tables", self.write(["a"]), "-o", self.out, "SELECT 1"], ["--tables", self.write(["a"]), "-o", self.out, "--packets", "x{}"]):
                self.assertEqual(ask_port(port, *words).returncode, 2)
        self.assertEqual((server.logins, os.path.exists(self.out)), (0, False))

    def test_a_run_that_is_killed_and_begun_again(self) -> None:
        """By SIGKILL between two texts, and by Ctrl-C: what is there then is whole, and so is all after the next run."""
        statements = {name: it for name, it in self.STATEMENTS.items() if name != "cancelled"}
        file = self.write([f"{name} {statement}" for name, statement in statements.items()])
        held = ("SELECT * FROM t20", "SELECT * FROM t33")
        for number, status in ((signal.SIGKILL, -9), (signal.SIGINT, 130)):
            server = Server({}, held)
            with self.subTest(number=number), server.listening() as port:
                run = subprocess.Popen(command_for(port, "--tables", file, "-o", self.out, "--jobs", "2"), stderr=subprocess.PIPE, **started())
                wait_for(lambda: all(server.asked[it] for it in held))
                wait_for(lambda: len(self.table()) == 32)
                run.send_signal(number)
                _, said = run.communicate(timeout=SECONDS)
                self.assertEqual(run.returncode, status, said)
                for name, line in self.table().items():
                    with open(os.path.join(self.out, line[3]), "rb") as text:
                        self.assertEqual(text.read(), text_of(statements[name]))
        with Server({}).listening() as port:
            self.assertEqual(ask_port(port, "--tables", file, "-o", self.out, "-j", "3").returncode, 4)
        self.assertEqual(self.table().keys(), statements.keys())
        self.assert_true(statements)

    def test_who_may_read_what_is_replaced(self) -> None:
        for mode in (0o644, 0o600):
            with Server({}).listening() as port:
                self.assertEqual(ask_port(port, "--tables", self.write(["a SELECT t3"]), "-o", self.out).returncode, 0)
            self.assertEqual([os.stat(os.path.join(self.out, name)).st_mode & 0o777 for name in sorted(os.listdir(self.out))], [mode, mode])
            for name in os.listdir(self.out):
                os.chmod(os.path.join(self.out, name), 0o600)

    def test_a_server_that_is_gone(self) -> None:
        """The first login decides; a connection that can't be made later is one that broke."""
        with socket.create_server(("127.0.0.1", 0)) as none:
            port = none.getsockname()[1]
        came = ask_port(port, "--tables", self.write(["a", "b"]), "-o", self.out, "--retries", "3")
        self.assertEqual((came.returncode, came.stderr.count(b"\n"), os.path.exists(self.out)), (5, 1, False))

    def test_a_connection_that_cannot_be_closed(self) -> None:
        """What its thread raises ends the command, which waits for it no longer."""
        words = command_for(1, "--tables", self.write(["a SELECT t3"]), "-o", self.out)[4:]
        with mock.patch.dict(os.environ, SQLCMDPASSWORD="secret"), mock.patch.object(query, "session_of"), mock.patch.multiple(
                tables.Worker, close=mock.Mock(side_effect=MemoryError), export=lambda *_: tables.Record("a", 5, "")):
            with self.assertRaises(MemoryError):
                query.run(words)

    def test_texts_that_cannot_be_written(self) -> None:
        """Each is a line of its own, and no text is left."""
        file = self.write(["a SELECT t900", "b SELECT t3", "c SELECT t900"])
        with Server({}).listening() as port:
            command = ["sh", "-c", "ulimit -f 20; trap '' XFSZ; exec \"$@\"", "sh", *command_for(port, "--tables", file, "-o", self.out)]
            came = subprocess.run(command, capture_output=True, check=False, timeout=SECONDS, **started())
        self.assertEqual(came.returncode, 5, came.stderr)
        self.assertEqual({name: line[1:4] for name, line in self.table().items()}, {
            "a": ["5", f"{self.out}: File too large", "NULL"], "b": ["0", f"sets 1 rows 4 errors 0 infos 0 written {len(text_of('SELECT t3'))}", "b.csv"],
            "c": ["5", f"{self.out}: File too large", "NULL"]})
        self.assertEqual(sorted(os.listdir(self.out)), ["b.csv", "outcomes.csv"])

    def test_a_progress_line(self) -> None:
        """On a terminal, of an answer that takes a while; it is gone before the lines come."""
        let = threading.Event()

        def serve(connected: socket.socket) -> None:
            channel = Channel(connected, SECONDS)
            log_in(channel)
            channel.read_message()
            whole = wire("orders")
            channel.write(whole[:100])
            let.wait(SECONDS)
            channel.write(whole[100:])
            channel.wait()
            channel.receive()

        terminal, other = pty.openpty()
        with socket.create_server(("127.0.0.1", 0)) as server:
            run = subprocess.Popen(command_for(server.getsockname()[1], "-o", os.path.join(self.folder, "rows"), "SELECT 1"), stderr=other, **started())
            threading.Thread(target=lambda: serve(server.accept()[0]), daemon=True).start()
            said, until = b"", time.monotonic() + SECONDS
            while not re.search(rb"answer 1: 0\.0 MB, [1-9]\d* seconds", said) and time.monotonic() < until:
                said += os.read(terminal, 1000) if select.select([terminal], [], [], 1)[0] else b""
            let.set()
            self.assertEqual(run.wait(SECONDS), 0)
        said += os.read(terminal, 1000)
        self.assertRegex(said.decode(), r"^(\r\x1b\[Kanswer 1: 0\.0 MB, \d+ seconds)+\r\x1b\[Ksets 1 rows 3 errors 0 infos 0 written 214\r\n$")
        os.close(terminal)
        os.close(other)


if __name__ == "__main__":
    unittest.main()
