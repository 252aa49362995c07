"""A server that does, step by step, anything that the protocol or an attacker allows, against a model of what may be handed on.

usage: python3 -m tests.stateful_query EXAMPLES, in the folder python, by a Python that has hypothesis"""
from __future__ import annotations

import socket
import ssl
import sys
import tempfile
import threading
import unittest
from collections.abc import Callable
from typing import Optional

from hypothesis import HealthCheck, settings
from hypothesis import strategies as st
from hypothesis.stateful import RuleBasedStateMachine, initialize, precondition, rule, run_state_machine_as_test

from gavyreto import connection, tds
from gavyreto.connection import Channel, Server, Session
from gavyreto.errors import BadAnswer, ConnectionFailed, Error, ServerError
from gavyreto.tds import Encryption, PacketType
from tests.beside import certificate_in, context_of, served

LOGIN = tds.login(tds.Login("h", "u", "p", "x", "localhost", "", "", "", 4096), 1)
ACCEPTED = tds.packet(PacketType.ANSWER, served.login_ack("T") + served.done())
ROWS = tds.packet(PacketType.ANSWER, b"\x81\x01\0" + bytes(4) + b"\x08\0\x38\x01a\0" + b"\xD1\x2A\0\0\0" + served.done())
ROUTED = tds.packet(PacketType.ANSWER, served.login_ack("T") + served.routing("attacker.example", 1433) + served.done())
# What is sent where nothing is to be sent: answers that would be believed, beginnings of them, and bytes of any kind.
NOTHING = [b""] * 12
ATTACKS = [ACCEPTED, ROWS, ACCEPTED + ROWS, ROUTED, ROWS[:20], b"\x04", b"\x17\x03\x03\0\x05abcde", b"\0"]
UNASKED, EXTRA, SELDOM = st.sampled_from(ATTACKS), st.sampled_from([*NOTHING, *ATTACKS[:4]]), st.sampled_from([False] * 9 + [True])
STATUSES = {0: "", 0x10: "", 0x02: "failure", 0x100: "failure", 0x20: "cancelled", 0x22: "failure", 0x30: "cancelled"}
steps: dict[str, int] = {}


class Attacked(Channel):
    """A server's side, which can append bytes in the clear to the last flight of its handshake."""

    forged, flights = b"", 0

    def write_message(self, kind: int, payload: bytes, size: int = tds.FIRST_PACKET_SIZE) -> None:
        self.flights += kind == PacketType.PRELOGIN
        forged = self.forged if kind == PacketType.PRELOGIN and self.flights == 2 else b""
        if forged:
            self.socket.sendall(b"".join(tds.packets([payload], size, kind)) + forged)
        else:
            super().write_message(kind, payload, size)


class Conversation(RuleBasedStateMachine):
    """One connection: a login, and statements with their answers."""

    context: ssl.SSLContext
    trusted: ssl.SSLContext

    def __init__(self) -> None:
        super().__init__()
        self.session: Optional[Session] = None
        self.is_stale = False  # whether bytes are there that nobody asked for

    def teardown(self) -> None:
        for side in (self.client, self.server):
            side.close()

    def beside(self, serve: Callable[[], None], ask: Callable[[], object]) -> Optional[Error]:
        """Runs a step of the server beside one of the client, and gives what the client raised."""
        def run() -> None:
            try:
                serve()
            except (OSError, EOFError, BadAnswer):
                pass  # the client went

        thread = threading.Thread(target=run, daemon=True)
        thread.start()
        try:
            ask()
            return None
        except Error as error:
            self.client.close()
            return error
        finally:
            thread.join(100)
            assert not thread.is_alive()

    @initialize(encrypt=st.sampled_from(["none", "login", "all"]), greeting=EXTRA, handshake=EXTRA, login=EXTRA, is_refused=SELDOM)
    def log_in(self, encrypt: str, greeting: bytes, handshake: bytes, login: bytes, is_refused: bool) -> None:
        """The login: what comes behind an answer isn't believed, and no later answer counts then."""
        ours, theirs = socket.socketpair()
        self.client, self.server, self.encrypt = Channel(ours, 30), Attacked(theirs, 30), encrypt
        self.server.forged = handshake
        there = Server("localhost", 1433, "localhost", encrypt, lambda: self.trusted, 30)
        answer = served.server_error(18456, "no", 1) + served.done(tds.FAILED) if is_refused else served.login_ack("T") + served.done()

        def serve() -> None:
            self.server.read_message()
            agreed = {"none": Encryption.NOT_SUPPORTED, "login": Encryption.OFF, "all": Encryption.ON}[encrypt]
            self.server.socket.sendall(tds.packet(PacketType.ANSWER, tds.prelogin(agreed)) + greeting)
            if encrypt != "none":
                self.server.encrypt(self.context, server_side=True)
            self.server.read_message()
            if encrypt == "login":
                self.server.uncover()
            self.server.write(tds.packet(PacketType.ANSWER, answer) + login)

        def ask() -> None:
            with connection.told(there):
                accepted = connection.log_in(self.client, there, lambda _: LOGIN)
            self.session = Session(self.client, there, accepted.packet_size)

        steps["log_in"] = steps.get("log_in", 0) + 1
        error = self.beside(serve, ask)
        if greeting or (handshake and encrypt != "none"):
            assert isinstance(error, (BadAnswer, ConnectionFailed)), error
        elif is_refused:
            assert isinstance(error, ServerError), error
        else:
            assert error is None and self.session, error
            self.is_stale = bool(login)

    @precondition(lambda self: not self.session)
    @rule()
    def is_over(self) -> None:
        """Nothing follows a connection that has ended."""

    @precondition(lambda self: bool(self.session))
    @rule(data=st.sampled_from([*NOTHING, *ATTACKS]), is_encrypted=st.booleans())
    def sends_unasked(self, data: bytes, is_encrypted: bool) -> None:
        """Bytes between two statements."""
        if not data:
            return
        steps["unasked"] = steps.get("unasked", 0) + 1
        if is_encrypted:
            self.server.write(data)
        else:
            self.server.socket.sendall(data)
        self.is_stale = True

    @precondition(lambda self: bool(self.session))
    @rule(rows=st.integers(0, 30), size=st.integers(9, 600), status=st.sampled_from(sorted(STATUSES)), cut=st.integers(0, 33), behind=EXTRA, pieces=st.integers(1, 4))
    def asks(self, rows: int, size: int, status: int, cut: int, behind: bytes, pieces: int) -> None:
        """A statement: only what the server sends after it is its answer, up to the end of the message."""
        assert self.session
        steps["asks"] = steps.get("asks", 0) + 1
        body = b"\x81\x01\0" + bytes(4) + b"\x08\0\x38\x01a\0" + b"\xD1\x2A\0\0\0" * rows + served.done(status)
        whole = b"".join(tds.packets([body], size))
        is_cut = cut > 30
        sent = whole[:len(whole) * (cut - 30) // 4] if is_cut else whole
        handed: list[bytes] = []

        def serve() -> None:
            self.server.read_message()
            data = sent + (b"" if is_cut else behind)
            step = -(-len(data) // pieces) or 1
            for at in range(0, len(data), step):
                self.server.write(data[at:at + step])
            if is_cut:
                self.server.close()

        session = self.session

        def ask() -> None:
            session.send("SELECT 1")
            handed.extend(iter(session.next, b""))

        error = self.beside((lambda: None) if self.is_stale else serve, ask)
        if self.is_stale:
            assert isinstance(error, (BadAnswer, ConnectionFailed)) and not handed, (error, handed)
            self.session = None
        elif is_cut:
            assert sent.startswith(b"".join(handed)) and (error or not session.is_ready()), (error, handed)
            self.session = None
        else:
            assert error is None and b"".join(handed) == whole and session.is_ready(), (error, handed)
            assert (STATUSES[status] in (session.unfinished or "")) and bool(session.unfinished) == bool(STATUSES[status]), session.unfinished
            self.is_stale = bool(behind)

    @precondition(lambda self: bool(self.session and self.encrypt == "all" and not self.is_stale))
    @rule(forged=UNASKED, is_now=SELDOM)
    def answers_in_the_clear(self, forged: bytes, is_now: bool) -> None:
        """Somebody between answers where all is encrypted."""
        assert self.session
        if not is_now:
            return
        steps["in the clear"] = steps.get("in the clear", 0) + 1
        session, handed = self.session, list[bytes]()

        def serve() -> None:
            self.server.read_message()
            self.server.socket.sendall(forged)
            self.server.socket.shutdown(socket.SHUT_WR)

        def ask() -> None:
            session.send("SELECT 1")
            handed.extend(iter(session.next, b""))

        self.beside(serve, ask)
        assert not handed and not session.is_ready(), handed
        self.session = None


def main() -> None:
    examples = int(sys.argv[1])
    with tempfile.TemporaryDirectory() as folder:
        certificate = certificate_in(folder)
        Conversation.context = context_of(certificate)
        Conversation.trusted = connection.context_of(certificate, False)
        run_state_machine_as_test(Conversation, settings=settings(  # type: ignore[no-untyped-call]
            max_examples=examples, stateful_step_count=12, deadline=None, database=None, suppress_health_check=list(HealthCheck), derandomize=True))
    print(sum(steps.values()), steps)


if __name__ == "__main__":
    unittest.TestCase.maxDiff = None
    main()
