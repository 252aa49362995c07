"""Every kind of column in tables of SQLite and PostgreSQL that `columns` makes: what is read back is what was sent."""
from __future__ import annotations

import csv
import os
import pwd
import sqlite3
import subprocess
import sys
import tempfile
import unittest
from decimal import Decimal
from typing import Any

import gavyreto
from gavyreto.columns import FLOATS, Column, create_table, postgresql_type, quoted, sqlite_type
from gavyreto.values import Value
from tests.beside import PROGRAM, ROOT, SECONDS, responses, skip, wire

sys.path[:0] = [os.path.join(ROOT, "tools")]
from lib import requirements  # noqa: E402

NULL = "(null)"  # what stands for NULL in what PostgreSQL writes, since a value may be the text NULL

def kinds() -> tuple[list[Column], list[list[Value]]]:
    """The columns and the rows of a response with every kind: usual values, extreme ones, and NULL."""
    rows = gavyreto.export(wire("kinds"), program=PROGRAM).only()
    return rows.columns or [], [list(row) for row in rows]


def copied(value: Value) -> str:
    """A value as COPY of PostgreSQL reads it."""
    if isinstance(value, bytes):
        return "\\x" + value.hex()
    return "NULL" if value is None else quoted(value) if isinstance(value, str) else f"{value:f}" if isinstance(value, Decimal) else str(value)


def read_back(type_: str, text: str, sent: Value) -> Value:
    """A value of PostgreSQL, as the package has it; of a time the zeros at its end, which PostgreSQL leaves out, are those sent."""
    kind = type_.partition("(")[0]
    if text == NULL:
        return None
    if kind == "bytea":
        return bytes.fromhex(text[2:])
    if kind == "boolean":
        return int(text == "t")
    if kind in ("smallint", "integer", "bigint"):
        return int(text)
    if kind == "numeric":
        return Decimal(text) if isinstance(sent, Decimal) else int(text)
    if kind in ("time", "timestamp") and isinstance(sent, str) and "." in sent and sent.rstrip("0").rstrip(".") == text:
        return sent
    return text


class Loads(unittest.TestCase):
    def test_sqlite(self) -> None:
        columns, sent = kinds()
        self.assertEqual(sent, [list(row) for row in responses.VALUES])
        with sqlite3.connect(":memory:") as database:
            database.execute(create_table("kinds", columns, sqlite_type))
            stored = [[f"{value:f}" if isinstance(value, Decimal) else value for value in row] for row in sent]
            database.executemany(f"INSERT INTO kinds VALUES ({', '.join('?' * len(columns))})", stored)
            read = database.execute("SELECT * FROM kinds").fetchall()
        back = [[Decimal(value) if isinstance(old, Decimal) else value for value, old in zip(row, rows)] for row, rows in zip(read, sent)]
        self.assertEqual(repr(back), repr(sent))

    def test_sqlite_and_floats(self) -> None:
        """Floats, as `adapt=True` has them, are stored with all their bits."""
        sent = [(0.1 + 0.2, 0.1), (-0.0, -0.0), (5e-324, 1.4e-45), (1.7976931348623157e308, 3.4028235e38), (2.0**53 + 2, 16777216.0), (None, None)]
        with sqlite3.connect(":memory:") as database:
            database.execute(create_table("floats", [Column(name, name, None, None, None, True) for name in FLOATS], sqlite_type))
            database.executemany("INSERT INTO floats VALUES (?, ?)", sent)
            self.assertEqual(repr(database.execute("SELECT * FROM floats").fetchall()), repr(sent))

    def test_sets_that_are_split(self) -> None:
        """What isn't written, or isn't whole, is told, also of the last set."""
        script = os.path.join(ROOT, "examples", "recipes", "split_sets.py")
        for place, text, wrong in ("set2.csv", b'"a"\r\n1\r\n\r\n"b"\r\n2\r\n', b"No space left"), ("x", b'"a"\r\n"x', b"end"), ("x", b'"a"\r\n12', b"ends within a row"):
            with self.subTest(text), tempfile.TemporaryDirectory() as folder:
                os.symlink("/dev/full", os.path.join(folder, place))
                came = subprocess.run([sys.executable, script], cwd=folder, input=text, stderr=subprocess.PIPE, check=False)
                self.assertEqual((came.returncode, came.stderr.count(b"\n"), wrong in came.stderr), (1, 1, True), came.stderr)

    def test_a_binary_value_that_is_not_whole(self) -> None:
        """Or that is none is told, where its bytes would be taken for the value."""
        script = os.path.join(ROOT, "examples", "recipes", "binary_value.py")
        for text, value, line in (
            (b"0x0a1b\r\n", b"\x0a\x1b", b""), (b"0x\r\n", b"", b""), (b"0x0a1b", b"\x0a\x1b", b"the text ends within a row\n"),
            (b"NULL\r\n", b"", b"no binary value\n"), (b"0x0a,0x1b\r\n", b"", b"more or less than a binary value\n"),
            (b"0x0a1", b"", b"more or less than a binary value\n"),
        ):
            came = subprocess.run([sys.executable, "-O", script], input=b'"a"\r\n' + text, capture_output=True, check=False)
            self.assertEqual((came.returncode, came.stdout, came.stderr), (int(bool(line)), value, line))

    def test_postgresql(self) -> None:
        columns, sent = kinds()
        types = [postgresql_type(column) for column in columns]
        with Server(self) as server:
            script = create_table("kinds", columns, postgresql_type) + (
                "\\copy kinds FROM 'sent' WITH (FORMAT csv, NULL 'NULL')\n" f"\\copy kinds TO 'back' WITH (FORMAT csv, NULL '{NULL}')\n")
            server.store("sent", "".join(",".join(map(copied, row)) + "\n" for row in sent))
            server.run("psql", "-X", "-q", "-h", server.folder, "-d", "postgres", "-v", "ON_ERROR_STOP=1", text=script)
            with open(os.path.join(server.folder, "back"), encoding="utf-8", newline="") as file:
                read = list(csv.reader(file))
        back = [[read_back(type_, text, old) for type_, text, old in zip(types, row, rows)] for row, rows in zip(read, sent)]
        self.assertEqual(repr(back), repr(sent))


class Server:
    """A server of PostgreSQL in a folder of its own, for as long as it is entered."""

    def __init__(self, test: unittest.TestCase) -> None:
        if not all(requirements.has_program(name) for name in ("initdb", "pg_ctl", "psql")):
            skip(test, "initdb, pg_ctl or psql isn't there: `make needs` installs them")
        self._user = pwd.getpwnam("postgres") if os.geteuid() == 0 else None
        self._made = tempfile.TemporaryDirectory()
        self.folder = self._made.name

    def __enter__(self) -> Server:
        if self._user:
            os.chown(self.folder, self._user.pw_uid, self._user.pw_gid)
        self.run("initdb", "-D", "server", "-A", "trust", "-E", "UTF8", "--locale=C")
        self.run("pg_ctl", "-D", "server", "-w", "-l", "log", "-o", f"-c listen_addresses= -k {self.folder}", "start")
        return self

    def __exit__(self, *_: object) -> None:
        self.run("pg_ctl", "-D", "server", "-m", "fast", "stop")
        self._made.cleanup()

    def store(self, name: str, text: str) -> None:
        with open(os.path.join(self.folder, name), "w", encoding="utf-8", newline="") as file:
            file.write(text)

    def run(self, *command: str, text: str = "") -> None:
        rights: dict[str, Any] = {"user": self._user.pw_uid, "group": self._user.pw_gid, "extra_groups": []} if self._user else {}
        variables = {"PATH": requirements.path(), "HOME": self.folder, "LC_ALL": "C.UTF-8", "PGCTLTIMEOUT": str(SECONDS)}
        with open(os.path.join(self.folder, "said"), "wb") as said:
            done = subprocess.run(command, cwd=self.folder, env=variables, input=text.encode(), stdout=said, stderr=subprocess.STDOUT, check=False, **rights)
        if done.returncode != 0:
            with open(os.path.join(self.folder, "said"), encoding="utf-8", errors="replace") as lines:
                raise AssertionError(f"{command[0]}: status {done.returncode}\n{lines.read()}")


if __name__ == "__main__":
    unittest.main()
