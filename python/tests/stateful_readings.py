"""Random walks of a server and of a caller of the API: any answer, any call at any time, two threads, interrupts, in the clear or within
TLS, of which records are torn and changed, against a model of which rows may be handed out.

usage: python3 -m tests.stateful_readings STEPS, in the folder python"""
from __future__ import annotations

import contextlib
import random
import socket
import ssl
import sys
import tempfile
import threading
from collections.abc import Callable
from itertools import islice
from typing import Any, Optional, cast

import gavyreto
from gavyreto import connection, tds
from gavyreto.client import Answer, Connection
from gavyreto.connection import Channel, Server, Session
from gavyreto.text import ResultSet
from tests.beside import PROGRAM, certificate_in, context_of, served

COLUMN = b"\x81\x01\0" + bytes(4) + b"\x08\0\x38\x01a\0"
REFUSED = b"\x81\x01\0" + bytes(4) + b"\x08\0\x3e\x01a\0"
HERE = Server("localhost", 1433, "localhost", "none", ssl.create_default_context, 30)
# How an answer ends, and what is raised then.
KINDS: dict[str, Optional[type[BaseException]]] = {
    "whole": None, "error": gavyreto.ServerError, "cut": gavyreto.ConnectionFailed, "refused": gavyreto.Fault, "cancelled": gavyreto.UnfinishedAnswer,
    "surplus": None,
}
# The same within TLS: how its records come.
RECORDS: dict[str, Optional[type[BaseException]]] = {"torn": gavyreto.ConnectionFailed, "changed": gavyreto.ConnectionFailed}
counts: dict[str, int] = {}


def count(what: str) -> None:
    counts[what] = counts.get(what, 0) + 1


class Walk:
    """One connection, and the answers on it until it is closed."""

    def __init__(self, numbers: random.Random, own: ssl.SSLContext, trusted: ssl.SSLContext) -> None:
        self.numbers = numbers
        ours, self.theirs = socket.socketpair()
        client, self.server = Channel(ours, 30), Channel(self.theirs, 30)
        self.kinds = KINDS
        if numbers.random() < 0.3:
            self.kinds = KINDS | RECORDS
            count("within TLS")
            encrypt(client, self.server, own, trusted)
        self.connection = Connection(Session(client, HERE, 4096))
        self.next_row, self.is_stale = 0, False

    def run(self) -> None:
        """Asks until the connection is closed."""
        try:
            for _ in range(self.numbers.randrange(1, 8)):
                if not self.ask(self.numbers.choice(["whole"] * 8 + list(self.kinds))):
                    for _ in range(2):
                        self.assert_closed()
                    return
        finally:
            self.theirs.close()
            with contextlib.suppress(gavyreto.Error):
                self.connection.close()

    def assert_closed(self) -> None:
        try:
            self.connection.query("x", program=PROGRAM)
        except gavyreto.ConnectionFailed as failure:
            assert "the connection was closed after: " in str(failure), failure
        else:
            raise AssertionError("a statement on a connection that is closed")

    def answer_of(self, kind: str) -> tuple[list[list[int]], bytes]:
        """The rows of each set, and the packets."""
        sets, body = [], b""
        for place in range(self.numbers.choice((1, 1, 2, 3))):
            length = self.numbers.choice((0, 1, 5, 300, 3000))
            sets.append(list(range(self.next_row, self.next_row + length)))
            self.next_row += length
            body += COLUMN + b"".join(b"\xD1" + row.to_bytes(4, "little") for row in sets[-1]) + (served.done(tds.MORE) if place or kind != "error" else b"")
        body += REFUSED if kind == "refused" else b""
        body += served.server_error(8134, "no", 1) + served.done(tds.FAILED) if kind == "error" else served.done(tds.CANCELLED if kind == "cancelled" else 0)
        wire = b"".join(tds.packets([body], self.numbers.choice((30, 512, 4096))))
        return sets, wire[:self.numbers.randrange(len(wire))] if kind == "cut" else wire + b"\x04" * (kind == "surplus")

    def serve(self, wire: bytes, kind: str) -> None:
        with contextlib.suppress(OSError, EOFError, gavyreto.BadAnswer):  # the client may be gone
            self.server.read_message()
            at, step = 0, self.numbers.choice((100, 5000, len(wire) or 1))
            while at < len(wire) - step * (kind in RECORDS):
                self.server.write(wire[at:at + step])
                at += step
            if kind in RECORDS:
                self.theirs.sendall(self.record_of(wire[at:], kind))
            if kind in ("cut", *RECORDS):
                self.theirs.shutdown(socket.SHUT_RDWR)

    def record_of(self, data: bytes, kind: str) -> bytes:
        """The last record of an answer: a part of it, or all with another byte in its place."""
        assert self.server.tls
        self.server.tls.write(data)
        record = bytearray(self.server._to_send.read())
        place = self.numbers.randrange(len(record))
        record[place] ^= 1 << self.numbers.randrange(8)
        return bytes(record[:place] if kind == "torn" else record)

    def ask(self, kind: str) -> bool:
        """One statement. Returns whether the connection can be used on."""
        count(kind)
        sets, wire = self.answer_of(kind)
        thread = threading.Thread(target=self.serve, args=(wire, kind), daemon=True)
        if not self.is_stale:
            thread.start()
        try:
            answer = self.connection.query("x", program=PROGRAM)
        except (gavyreto.BadAnswer, gavyreto.ConnectionFailed):
            assert self.is_stale
            return False
        assert not self.is_stale
        reading = Reading(answer, sets, self.numbers)
        ended = reading.run()
        thread.join(30)
        assert not thread.is_alive()
        self.is_stale = kind == "surplus"
        if ended == "ended":
            assert self.kinds[kind] is None and reading.handed == [row for rows in sets for row in rows], (kind, len(reading.handed))
        elif ended == "failed":
            assert answer.is_whole == (kind in ("error", "cancelled") and not reading.is_interrupted)
            wanted = self.kinds[kind]
            assert reading.is_interrupted or wanted and isinstance(reading.failure, wanted), (kind, repr(reading.failure))
        return ended == "ended" or answer.is_whole


class Reading:
    """The calls of a caller on one answer, and the rows that it got."""

    def __init__(self, answer: Answer, sets: list[list[int]], numbers: random.Random) -> None:
        self.answer, self.numbers = answer, numbers
        self.wanted = [row for rows in sets for row in rows]
        self.handed: list[int] = []
        self.failure: Optional[BaseException] = None
        self.is_interrupted = False
        self._calls_left = numbers.choice((10**9, 10**9, 10**9, 1, 3, 20))  # of reads until one is interrupted
        self._read = cast(Any, answer._parser.records)._read
        cast(Any, answer._parser.records)._read = self.read

    def read(self, most: int) -> bytes:
        """Reads text, or is interrupted as by Ctrl-C."""
        self._calls_left -= 1
        if self._calls_left == 0:
            self.is_interrupted = True
            raise KeyboardInterrupt
        return cast(bytes, self._read(min(most, 2000)))

    def run(self) -> str:
        """Reads set after set. Returns how it ended: "ended", "failed" or "left"."""
        try:
            for rows in self.answer:
                if not self.read_set(rows):
                    self.answer.close()
                    return "left"
        except (gavyreto.Error, KeyboardInterrupt) as failure:
            self.failure = failure
        if self.failure is None:
            return "ended"
        self.assert_failed()
        return "failed"

    def read_set(self, rows: ResultSet) -> bool:
        """Calls of any kind until the set is over. Returns whether it was read to its end."""
        before = -1
        while len(self.handed) > before:
            before = len(self.handed)
            call = self.numbers.randrange(7)
            count("calls")
            if self.numbers.random() < 0.01:
                return False
            if call == 6 and self.numbers.random() < 0.3:
                self.read_by_two(rows)
            else:
                self.take(self.called(rows, call))
        return True

    def called(self, rows: ResultSet, call: int) -> list[Any]:
        size = self.numbers.choice((1, 7, 500, 5000))
        if call == 0:
            row = rows.fetchone()
            return [row[0]] if row else []
        if call <= 3:
            calls: list[Callable[[], Any]] = [rows.fetchall, lambda: rows.fetchmany(size), lambda: zip(*next(rows.batches(size), []))]
            with contextlib.suppress(gavyreto.Error):  # then they are left
                return [row[0] for row in calls[call - 1]()]
            size = 1
        return [row[0] for row in islice(rows, size)]

    def read_by_two(self, rows: ResultSet) -> None:
        """Two threads: each row goes to one of them, or a thread is refused."""
        found: list[list[Any]] = [[], []]
        raised: list[BaseException] = []

        def fetch(place: int) -> None:
            try:
                found[place] = [row[0] for row in rows.fetchmany(100)]
            except ValueError as refused:
                assert "another call" in str(refused), refused
            except (gavyreto.Error, KeyboardInterrupt) as failure:
                raised.append(failure)

        threads = [threading.Thread(target=fetch, args=(place,)) for place in range(2)]
        for thread in threads:
            thread.start()
        for thread in threads:
            thread.join(30)
        count("two threads")
        self.take(sorted(found[0] + found[1]))
        if raised:
            raise raised[0]

    def take(self, values: list[Any]) -> None:
        """Rows that were handed out: the next ones, in their order."""
        at = len(self.handed)
        assert values == self.wanted[at:at + len(values)], (at, values[:5], self.wanted[at:at + 5])
        self.handed += values

    def assert_failed(self) -> None:
        """Each further call raises the same error, and no more rows come."""
        errors = set()
        calls: list[Callable[[], Any]] = [lambda: next(self.answer), lambda: self.answer._current and self.answer._current.fetchall()]
        for call in calls:
            try:
                call()
            except gavyreto.Error as failure:
                errors.add(id(failure))
            else:
                assert self.answer._current is None, "a failed reading goes on"
        assert len(errors) == 1, errors


def encrypt(client: Channel, server: Channel, own: ssl.SSLContext, trusted: ssl.SSLContext) -> None:
    """The handshake of both sides."""
    thread = threading.Thread(target=server.encrypt, args=(own,), kwargs={"server_side": True}, daemon=True)
    thread.start()
    client.encrypt(trusted, server_hostname="localhost")
    thread.join(30)


def main() -> None:
    steps, numbers = int(sys.argv[1]), random.Random(7)
    with tempfile.TemporaryDirectory() as folder:
        certificate = certificate_in(folder)
        own, trusted = context_of(certificate), connection.context_of(certificate, False)
    while sum(counts.values()) < steps:
        Walk(numbers, own, trusted).run()
    print(sum(counts.values()), counts)


if __name__ == "__main__":
    main()
