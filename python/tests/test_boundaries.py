"""What comes before encryption, a login, a statement or its end doesn't count after it; and answers that the server ends otherwise
than whole. Each server here does what none does, or what somebody between could do."""
from __future__ import annotations

import contextlib
import os
import socket
import subprocess
import sys
import threading
import unittest
from typing import Any

import gavyreto
from gavyreto import tds
from gavyreto.connection import Channel
from gavyreto.tds import Encryption, PacketType
from tests.beside import LOGGED_IN, ORDERS, PROGRAM, SECONDS, Live, answered, ask_port, command_for, context_of, exported, listening, log_in, responses, served, serving
from tests.beside import started, until_closed, wire

UNASKED = "the server sent bytes that weren't asked for"
REPORT = f"sets 1 rows 3 errors 0 infos 0 written {len(ORDERS)}"
ORDERED = wire("orders")


def rows_that_end(status: int, token: int = tds.Token.DONE) -> bytes:
    """An answer with the rows of orders, whose last DONE has this token and this status."""
    return answered(*list(responses.order_rows(0)), bytes([token]) + served.done(status)[1:])


class Forger(Channel):
    """A server's side of a connection, which appends bytes in the clear to its last packet of the handshake of TLS."""

    def __init__(self, channel: Channel, forged: bytes) -> None:
        super().__init__(channel.socket, SECONDS)
        self._forged, self._flights = forged, 0

    def write_message(self, kind: int, payload: bytes, size: int = tds.FIRST_PACKET_SIZE) -> None:
        self._flights += kind == PacketType.PRELOGIN
        packets = b"".join(tds.packets([payload], size, kind))
        self.socket.sendall(packets + (self._forged if self._flights == 2 else b""))


class BeforeEncryption(Live):
    """Bytes in the clear behind the handshake of a server whose certificate is right."""

    def asked(self, forged: bytes) -> subprocess.CompletedProcess[bytes]:
        certificate = self.server(()).variables["CERTIFICATE"]
        context = context_of(certificate)

        def serve(channel: Channel) -> None:
            forger = Forger(channel, forged)
            forger.read_message()
            forger.write_message(PacketType.ANSWER, tds.prelogin(Encryption.ON))
            forger.encrypt(context, server_side=True)
            while forger.receive():
                pass

        with listening(serve) as port:
            return ask_port(port, "--encrypt", "all", "--certificates", certificate, "--seconds", "60", "SELECT 1")

    def test_a_forged_login_and_forged_rows(self) -> None:
        came = self.asked(LOGGED_IN + ORDERED)
        self.assert_ends(came, 4, b"", UNASKED)

    def test_a_forged_redirection(self) -> None:
        """The server to which it leads is never asked."""
        asked = threading.Event()

        def serve(_: Channel) -> None:
            asked.set()

        with contextlib.suppress(ConnectionError), listening(serve) as second:
            routed = tds.packet(PacketType.ANSWER, served.login_ack("Test") + served.routing("127.0.0.1", second) + served.done())
            self.assert_ends(self.asked(routed), 4, b"", UNASKED)
            self.assertFalse(asked.is_set())
            socket.create_connection(("127.0.0.1", second)).close()  # so that the server ends

    def test_a_greeting_with_more_behind_it(self) -> None:
        def serve(channel: Channel) -> None:
            channel.read_message()
            channel.write(tds.packet(PacketType.ANSWER, tds.prelogin(Encryption.NOT_SUPPORTED)) + LOGGED_IN + ORDERED)
            until_closed(channel)

        with listening(serve) as port:
            self.assert_ends(ask_port(port), 4, b"", UNASKED)


class BeforeStatements(Live):
    def asked(self, behind_login: bytes, answers: list[bytes], *statements: str) -> subprocess.CompletedProcess[bytes]:
        """What comes of a server that writes some bytes behind its answer to a login, and then one answer after the other."""
        def serve(channel: Channel) -> None:
            log_in(channel, LOGGED_IN + behind_login)
            for answer in answers:
                channel.read_message()
                channel.write(answer)
            until_closed(channel)

        with listening(serve) as port:
            return ask_port(port, "--seconds", "60", *statements)

    def test_an_answer_before_its_statement(self) -> None:
        self.assert_ends(self.asked(ORDERED, [], "SELECT 1"), 4, b"", UNASKED)
        self.assert_ends(self.asked(b"\x04", [], "SELECT 1"), 4, b"", UNASKED)

    def test_an_answer_behind_another(self) -> None:
        for behind in (ORDERED, b"\0"):
            came = self.asked(b"", [ORDERED + behind], "SELECT 1", "SELECT 2")
            self.assert_ends(came, 4, ORDERS, REPORT, UNASKED)
            self.assert_ends(self.asked(b"", [ORDERED + behind], "SELECT 1"), 4, ORDERS, REPORT, UNASKED)

    def test_a_login_that_is_not_over(self) -> None:
        """More is behind its end, or its end says that more follows, that it failed, or that it was cancelled."""
        ends = [served.done() + b"".join(responses.order_rows(0)), *(served.done(1 << bit) for bit in (0, 1, 5, 8))]
        for end in ends:
            def serve(channel: Channel) -> None:
                log_in(channel, tds.packet(PacketType.ANSWER, served.login_ack("Test") + end))
                channel.receive()

            with self.subTest(end[:3]), listening(serve) as port:
                self.assert_ends(ask_port(port), 4, b"", "what came isn't the answer of a server of TDS 7.4 to a login")


class Redirected(Live):
    def test_the_certificate_has_the_name_that_the_user_gave(self) -> None:
        """Both servers are asked by a name of their own; what counts is the name that the user gives."""
        second = self.server(("--names", "DNS:localhost")).variables
        first = ("--names", "DNS:localhost,IP:127.0.0.1", "--route", f"localhost,{second['PORT']}")
        with open(self.path("both"), "w", encoding="ascii") as file:
            for path in (self.server(first).variables["CERTIFICATE"], second["CERTIFICATE"]):
                with open(path, encoding="ascii") as certificate:
                    file.write(certificate.read())
        came = self.query("--certificates both 'SELECT * FROM orders'", first)
        self.assertEqual((came.returncode, came.stdout), (5, b""))
        self.assertRegex(came.stderr.decode(), r"^the server's certificate isn't trusted: [^\n]*127\.0\.0\.1[^\n]*\n$")
        came = self.query("--certificates both --certificate-name localhost 'SELECT * FROM orders'", first)
        self.assert_ends(came, 0, ORDERS, REPORT)
        came = self.query("--certificates both --certificate-name other.example 'SELECT * FROM orders'", first)
        self.assertEqual((came.returncode, came.stdout), (5, b""))

    def test_a_host_that_is_none(self) -> None:
        """What a server says doesn't move the cursor of a terminal, and ends with a line."""
        for host in ("a\x1b[2J\r\nb", "x..y", "\u202ename", "n" * 70):
            for encrypt in ("all", "none"):
                came = self.query(f"TRUSTED --encrypt {encrypt} 'SELECT 1'", ("--route", f"{host},1433"))
                with self.subTest(host=host, encrypt=encrypt):
                    self.assertEqual((came.returncode, came.stdout, came.stderr.count(b"\n")), (5, b"", 1), came.stderr)
                    self.assertTrue(came.stderr.decode().rstrip("\n").isprintable(), came.stderr)


class Ends(Live):
    """Rows whose last DONE says that they aren't all."""

    CASES = ((0x0020, tds.Token.DONE, "cancelled"), (0x0002, tds.Token.DONE, "failure"), (0x0100, tds.Token.DONE, "failure"), (0x0112, tds.Token.DONE_PROC, "failure"))

    def test_query(self) -> None:
        for status, token, word in self.CASES:
            for answer in (rows_that_end(status, token), b"".join(tds.packets([rows_that_end(status, token)[tds.HEADER:]], 20))):
                with self.subTest(status=status), serving(answer) as port:
                    came = ask_port(port, "SELECT 1", "SELECT 2")
                    self.assertEqual((came.returncode, came.stdout), (3, ORDERS))
                    self.assertRegex(came.stderr.decode(), f"^{REPORT}\nthe answer isn't whole: [^\n]*{word}[^\n]* 0x{status:04x}[^\n]*\n$")

    def test_an_error_is_told_once(self) -> None:
        with serving(answered(*list(responses.order_rows(0)), served.server_error(1, "no", 1), served.done(tds.FAILED))) as port:
            came = ask_port(port, "SELECT 1")
            self.assertEqual((came.returncode, came.stdout), (3, ORDERS))
            self.assertEqual(came.stderr.decode().splitlines()[1:], ["server error 1, state 1, class 16, line 1: no"])

    def test_from_python(self) -> None:
        for status, token, _ in self.CASES:
            data = rows_that_end(status, token)
            with open(self.path("unfinished"), "wb") as file:
                file.write(data + ORDERED)  # what follows the response is ignored
            with open(file.name, "rb") as whole, open(file.name, "rb", buffering=0) as raw:
                sources: list[Any] = [data, file.name, whole, raw]
                for source in sources:
                    with self.subTest(status=status, source=source), self.assertRaises(gavyreto.UnfinishedAnswer) as raised:
                        list(gavyreto.export(source, program=PROGRAM).only())
                    self.assertEqual((raised.exception.rows, raised.exception.report and raised.exception.report.rows), (3, 3))
            with serving(data) as port, self.assertRaises(gavyreto.UnfinishedAnswer):
                list(gavyreto.query("x", "127.0.0.1", user="u", password="p", port=port, encrypt="none", program=PROGRAM).only())


class Descriptors(Live):
    """Standard streams that are closed: nothing else takes their place."""

    def asked(self, redirections: str, words: str = "'SELECT * FROM orders'") -> tuple[subprocess.CompletedProcess[bytes], bytes]:
        """What comes of the command, and what it sent to the server."""
        came = self.query(f"TRUSTED -No {words} {redirections}", ("--record", "sent"))
        sent = self.text("sent") if os.path.exists(self.path("sent")) else b""
        return came, sent

    def test_rows_do_not_go_to_the_server(self) -> None:
        came, sent = self.asked(">&-")
        self.assertEqual((came.returncode, came.stderr, sent), (5, b"standard output is closed\n", b""))

    def test_without_standard_input_and_error(self) -> None:
        came, sent = self.asked("<&-", "")
        self.assertEqual((came.returncode, came.stderr, sent), (5, b"standard input is closed\n", b""))
        came, _ = self.asked("<&- 2>&-")
        self.assertEqual((came.returncode, came.stdout, came.stderr), (0, ORDERS, b""))
        came, _ = self.asked("<&- >&- 2>&-", "-o rows 'SELECT * FROM orders'")
        self.assertEqual((came.returncode, came.stderr, self.text("rows")), (0, b"", ORDERS))

    def test_other_commands(self) -> None:
        for words, line in (("columns orders.tds >&-", "standard output is closed"), ("columns <&-", "standard input is closed"),
                            ("adapt <&-", "standard input is closed"), ("adapt orders.tds >&-", "standard output is closed"),
                            ('capture --program "$PROGRAM" - out <&-', "standard input is closed")):
            command = f"exec {sys.executable} -m gavyreto {words}"
            came = subprocess.run(["sh", "-c", command], cwd=self.folder, capture_output=True, check=False, **started(PROGRAM=PROGRAM))
            with self.subTest(words=words):
                self.assert_ends(came, 5, b"", line)
        for words in ("columns orders.tds > /dev/full", "--help > /dev/full", "--version > /dev/full"):
            came = subprocess.run(["sh", "-c", f"exec {sys.executable} -m gavyreto {words}"], cwd=self.folder, capture_output=True, check=False, **started())
            self.assert_ends(came, 5, b"", "standard output: No space left on device")


    def test_a_standard_input_that_does_not_block(self) -> None:
        """Where it has nothing yet is no end of it: not of responses, nor of statements, nor of a recording."""
        statements = ["query", "-S", "127.0.0.1,1", "-U", "reader", "--program", PROGRAM]
        for words, data in (
            (["columns"], ORDERED), (["adapt"], ORDERED), (statements, b""), ([*statements, "-o", "rows"], b"DELETE FROM orders WHERE"),
            ([*statements, "--tables", "-", "-o", "out"], b"orders\ncust"), (["capture", "--program", PROGRAM, "-", "out"], ORDERED),
        ):
            source, target = os.pipe()
            os.set_blocking(source, False)
            os.write(target, data)
            given: dict[str, Any] = started() | {"stdin": source}
            came = subprocess.run([sys.executable, "-m", "gavyreto", *words], cwd=self.folder, capture_output=True, check=False, timeout=SECONDS, **given)
            os.close(source)
            os.close(target)
            with self.subTest(words=words):
                self.assertEqual((came.returncode, came.stderr), (5, b"standard input: nothing is there yet, and it doesn't block\n"))


class SlowReaders(Live):
    def test_only_the_wait_for_the_server_counts(self) -> None:
        """A reader who takes longer over the rows than the server may be silent gets all of them."""
        rows = b"".join(tds.packets(responses.RESPONSES["kinds"](20_000), 4096))
        wanted = exported(rows)[1]

        def serve(channel: Channel) -> None:
            log_in(channel)
            channel.read_message()
            channel.write(rows)
            until_closed(channel)

        with listening(serve) as port:
            run = subprocess.Popen(command_for(port, "--seconds", "3", "SELECT 1"), bufsize=0, stdout=subprocess.PIPE, stderr=subprocess.PIPE, **started())
            assert run.stdout
            text = run.stdout.read(1)
            threading.Event().wait(6.5)
            out, err = run.communicate(timeout=SECONDS)
            self.assertEqual((run.returncode, text + out == wanted), (0, True), err)


class Sent(Live):
    def test_lines_that_are_go(self) -> None:
        for line in ("GO;", "GO -- the end", "go 1 ; -- once", "GO--x", "GO 00001"):
            came = self.query(f"TRUSTED <<'END'\nSELECT * FROM orders\n{line}\nSELECT * FROM sets\nEND\n", ("--record", "sent"))
            with self.subTest(line=line):
                self.assertEqual((came.returncode, came.stdout.startswith(ORDERS + b"\r\n")), (0, True), came.stderr)
                self.assertNotIn(line.encode("utf-16-le"), self.text("sent"))

    def test_numbers_of_go_that_are_none(self) -> None:
        for digits in ("0", "000", "2147483648", "9" * 5000):
            came = self.query("TRUSTED -i lines", ("--record", "sent"), f"printf 'SELECT 1\\nGO {digits}\\n' > lines; ")
            with self.subTest(digits=digits[:20]):
                self.assertEqual((came.returncode, came.stdout, came.stderr.count(b"\n")), (2, b"", 1), came.stderr[-300:])
                self.assertFalse(os.path.exists(self.path("sent")))

    def test_go_between_line_ends_of_cr_alone(self) -> None:
        """To a server they are blanks: GO would be another name of a column there, or all behind it a comment here."""
        for lines, number in ((r"SELECT 1\rGO\rSELECT 2\r", 1), (r"SELECT 1\nGO -- next\rSELECT 2\n", 2), (r"SELECT 1 AS a\rgo\n", 1)):
            came = self.query("TRUSTED -i lines", ("--record", "sent"), f"printf '{lines}' > lines; ")
            with self.subTest(lines=lines):
                self.assert_ends(came, 2, b"", f"lines, line {number}: GO, and a line end that is neither LF nor CR LF")
                self.assertFalse(os.path.exists(self.path("sent")))

    def test_a_file_of_statements_is_no_output(self) -> None:
        with open(self.path("lines"), "w", encoding="ascii") as file:
            file.write("SELECT * FROM orders\n")
        os.link(self.path("lines"), self.path("other"))
        for words in ("-i lines -o lines", "-i lines -o other", "-o lines < lines", "-o 'lin{}' < lin1", "-i rows.partial -o rows"):
            came = self.query(f"TRUSTED {words}", ("--record", "sent"), "cp lines lin1; cp lines rows.partial; ")
            with self.subTest(words=words):
                self.assertEqual((came.returncode, came.stdout), (2, b""), came.stderr)
                self.assertRegex(came.stderr.decode(), "^[^\n]*: the statements are read from it\n$")
                self.assertEqual(self.text("lines"), b"SELECT * FROM orders\n")

    def test_a_great_number_of_go_takes_no_memory(self) -> None:
        script = "import re; from gavyreto.commands import query; asked = query.arguments(['-S', 'h', '-U', 'u', '-i', 'lines']); "\
            "found = query.statements_of(asked); print(sum(1 for _ in zip(range(5), found)), re.search(r'VmHWM:\\s*(\\d+)', open('/proc/self/status').read())[1])"
        with open(self.path("lines"), "w", encoding="ascii") as file:
            file.write("SELECT 1\nGO 8000000\n")
        came = subprocess.run([sys.executable, "-c", script], cwd=self.folder, capture_output=True, check=True, text=True, **started())
        count, peak = map(int, came.stdout.split())
        self.assertEqual(count, 5)
        self.assertLess(peak, 40_000)


if __name__ == "__main__":
    unittest.main()
