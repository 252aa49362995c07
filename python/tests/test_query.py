"""Tests of the command `query` beside the stand-in, and beside servers that do what a server doesn't."""
from __future__ import annotations

import contextlib
import hashlib
import itertools
import os
import pty
import re
import select
import signal
import socket
import struct
import subprocess
import sys
import threading
import time
import unittest
from collections.abc import Callable, Iterable
from concurrent.futures import ThreadPoolExecutor
from unittest import mock

import gavyreto
from gavyreto import tds
from gavyreto.commands import query
from gavyreto.connection import Channel, Session
from gavyreto.tds import PacketType
from tests import test_adapt
from tests.beside import (
    ORDERS, PROGRAM, SECONDS, Live, StandIn, ask_port, assert_signalled, command_for, context_of, exported, has_ended, is_waiting, lines_of,
    listening, log_in, log_in_encrypted, need, responses, served, serving, started, stepped, until_closed, wait_for, wire,
)

LONG = 200_000_000
HELD = tds.packet(PacketType.ANSWER, b"".join(responses.order_rows(0)), False)  # rows whose end doesn't come
MODES = [("none", "none"), ("login", "none"), ("all", "none"), ("login", "login"), ("all", "login"), ("login", "all"), ("all", "all")]
REPORT = f"sets 1 rows 3 errors 0 infos 0 written {len(ORDERS)}"
SETS = b'"id","note"\r\n1,"first\r\n\r\nthird line"\r\n2,NULL\r\n\r\n"total"\r\n12.50\r\n\r\n"id"\r\n'
NO_PASSWORD = "the server, or somebody between, doesn't encrypt: the password would be readable on the way. --encrypt none allows it"
LOGIN_ALONE = "the server, or somebody between, encrypts the login alone: statements and rows would be readable on the way. --encrypt login allows it"


NOT_TRUSTED = "the server's certificate isn't trusted: self-signed certificate. --certificates names its authority; -C trusts anyone"
CLOSED = "the server closed the connection"


class Answers(Live):
    def test_rows_are_the_same_whatever_is_encrypted(self) -> None:
        for server, client in MODES:
            with self.subTest(server=server, client=client):
                came = self.query(f"TRUSTED --encrypt {client} 'SELECT * FROM orders'", ("--encrypt", server))
                self.assert_ends(came, 0, ORDERS, REPORT)

    def test_all_is_encrypted_unless_less_is_said(self) -> None:
        for words in ("", "-N", "-Nm", "--encrypt all"):
            came = self.query(f"TRUSTED {words} 'SELECT * FROM orders'", ("--encrypt", "none"))
            self.assert_ends(came, 5, b"", NO_PASSWORD)

    def test_packets_of_the_size_asked_for(self) -> None:
        for size in (512, 8000, 32767):
            with self.subTest(size=size):
                came = self.query(f"TRUSTED --packet-size {size} 'SELECT * FROM kinds'")
                self.assertEqual((came.returncode, came.stdout), (0, responses.expected()))

    def test_a_long_statement_goes_in_several_packets(self) -> None:
        came = self.query('TRUSTED "$(head -c 20000 /dev/zero | tr "\\0" " ") SELECT * FROM orders"')
        self.assertEqual((came.returncode, came.stdout), (0, ORDERS))

    def test_texts_on_standard_output_are_sets_of_one_text(self) -> None:
        """An empty line separates two texts; a statement without a set has none."""
        for encrypt in ("login", "all"):
            came = self.query(f"TRUSTED --encrypt {encrypt} 'SELECT 1' 'SELECT * FROM sets' 'SELECT 1' 'SELECT * FROM orders' 'SELECT * FROM orders' 'x'")
            with self.subTest(encrypt=encrypt):
                self.assertEqual((came.returncode, came.stdout), (0, b"\r\n".join([SETS, ORDERS, ORDERS])))
            with open(self.path("text"), "wb") as file:
                file.write(came.stdout)
            with gavyreto.read(file.name) as sets:
                self.assertEqual([len(list(one)) for one in sets], [2, 1, 0, 3, 3])

    def test_a_long_text_after_another(self) -> None:
        came = self.query("TRUSTED 'SELECT * FROM orders' 'SELECT * FROM broken'")
        self.assertEqual((came.returncode, came.stdout[:len(ORDERS) + 2]), (3, ORDERS + b"\r\n"))
        self.assertEqual(came.stdout[len(ORDERS) + 2:].count(b"\r\n"), 5001 + 1667)

    def test_statements_from_standard_input_and_files(self) -> None:
        """A line GO ends a statement, GO N sends it N times, and {} is the number of each that is sent."""
        lines = "SELECT * FROM orders\n go \n\nGO\nSELECT *\nFROM sets\nGo 2\n\ngo\nSELECT * FROM orders -- GO\n"
        for words in ("<<'END'\n" + lines + "END\n", "-i first -i second"):
            with self.subTest(words=words), open(self.path("first"), "wb") as first, open(self.path("second"), "w", encoding="utf-8") as second:
                first.write(b"\xEF\xBB\xBF" + lines.replace("\n", "\r\n").partition("Go 2")[0].encode())
                second.write("SELECT *\nFROM sets\nGo 1\nSELECT * FROM orders")
                first.flush()
                second.flush()
                came = self.query(f"TRUSTED -o 'rows{{}}.csv' {words}")
                self.assertEqual((came.returncode, came.stdout), (0, b""), came.stderr)
                self.assertEqual([self.text(f"rows{number}.csv") for number in (1, 2, 3, 4)], [ORDERS, SETS, SETS, ORDERS])
                self.assertFalse(os.path.exists(self.path("rows5.csv")))

    def test_a_thousand_statements_on_one_connection(self) -> None:
        for encrypt in ("login", "all"):
            with self.subTest(encrypt=encrypt):
                words = f"TRUSTED --encrypt {encrypt} <<'END'\nSELECT * FROM orders\nGO 1000\nEND\n"
                came = self.query(words, ("--connections", "1", "--names", f"DNS:{encrypt},IP:127.0.0.1"))
                self.assertEqual((came.returncode, came.stdout == b"\r\n".join([ORDERS] * 1000)), (0, True), came.stderr[-300:])

    def test_a_redirection_is_followed_once_if_it_is_encrypted(self) -> None:
        """The first server redirects to the second, whose certificate is of another authority."""
        second = self.server(("--password", "secret")).variables
        first = ("--route", f"localhost,{second['PORT']}")
        both = self.server(first).variables
        with open(self.path("both"), "w", encoding="ascii") as file:
            for path in (both["CERTIFICATE"], second["CERTIFICATE"]):
                with open(path, encoding="ascii") as certificate:
                    file.write(certificate.read())
        for encrypt, status in (("all", 0), ("login", 5), ("none", 5)):
            came = self.query(f"--encrypt {encrypt} --certificates both 'SELECT * FROM orders'", first)
            with self.subTest(encrypt=encrypt):
                self.assertEqual((came.returncode, came.stdout), (status, b"" if status else ORDERS), came.stderr)
                line = f"the server redirects to localhost, port {second['PORT']}, in an answer that isn't encrypted: ask there, if you trust it\n"
                self.assertEqual(came.stderr.decode(), line if status else REPORT + "\n")
        came = self.query("-C 'SELECT 1'", ("--route", f"localhost,{both['PORT']}"))
        line = f"the server localhost, port {both['PORT']}, to which another one redirects, redirects too"
        self.assert_ends(came, 5, b"", line)

    def test_refused_columns_that_are_rewritten(self) -> None:
        """The text of each refused kind is that of `adapt` of the packets kept, which are those that came."""
        names = ["refused", "kinds", "variants", "sets"]
        for encrypt in ("login", "all"):
            statements = " ".join(f"'SELECT * FROM {name}'" for name in names)
            came = self.query(f"TRUSTED --encrypt {encrypt} --packet-size 512 --adapt --packets 'kept{{}}.tds' -o 'rows{{}}.csv' {statements}")
            self.assertEqual((came.returncode, came.stdout), (0, b""), came.stderr)
            self.assertEqual(self.text("rows1.csv"), test_adapt.refused_text())
            for number, name in enumerate(names, 1):
                with self.subTest(encrypt=encrypt, name=name):
                    kept = self.text(f"kept{number}.tds")
                    self.assertEqual(kept, wire(name, 0, 512))
                    self.assertEqual(self.text(f"rows{number}.csv"), exported(test_adapt.adapted(kept))[1])
        came = self.query("TRUSTED --adapt 'SELECT * FROM refused' 'SELECT * FROM orders'")
        self.assertEqual((came.returncode, came.stdout), (0, test_adapt.refused_text() + b"\r\n" + ORDERS))

    def test_packets_that_are_kept(self) -> None:
        """All of them, also where the program needs no more; of an answer that breaks off what came, under another name."""
        came = self.query("TRUSTED --packet-size 4096 --packets kept.tds 'SELECT * FROM float'")
        self.assert_ends(came, 4, b"", "fault 10 RefusedColumn 1 FLTN at payload 15, written 0, unwritten 0", query.REFUSED_COLUMN)
        self.assertEqual(self.text("kept.tds"), wire("float"))
        came = self.query("TRUSTED --packet-size 4096 --packets kept.tds 'SELECT * FROM broken'", ("--cut-after", "9000"))
        self.assertEqual((came.returncode, self.text("kept.tds"), self.text("kept.tds.partial")), (5, wire("float"), wire("broken", 5000)[:9000]))
        for words in ("--packets -", "-o x --packets x", "-o 'x{}' --packets 'x1{}'", "-o x --packets x.partial", "-o x.partial --packets ./x"):
            came = self.query(f"TRUSTED {words} 'SELECT 1'", ("--record", "sent"))
            with self.subTest(words=words):
                self.assertEqual((came.returncode, came.stdout, os.path.exists(self.path("sent"))), (2, b"", False), came.stderr)
        self.assert_ends(self.query("TRUSTED --packets kept.tds 'SELECT 1' 'SELECT 2'"), 2, b"", "2 statements, and one output: a name with {} gets the number of each")
        for words in ("--packets /dev/full", "--adapt --packets /dev/full"):
            self.assert_ends(self.query(f"TRUSTED {words} 'SELECT * FROM orders'"), 5, b"", "/dev/full: No space left on device")

    def test_an_answer_that_cannot_be_rewritten(self) -> None:
        """What came before is written."""
        float_ = responses.Column("x", "6D08", responses.fixed, responses.as_it_is, bytes)
        rows = [b"\xD1\x08" + struct.pack("<d", 0.5), b"\xD1\x08" + b"\xFF" * 8]
        with serving(tds.packet(PacketType.ANSWER, responses.description([float_]) + b"".join(rows) + served.done())) as port:
            came = ask_port(port, "--adapt", "SELECT 1")
        self.assertEqual((came.returncode, came.stdout), (4, b'"x"\r\n"0.5"\r\n'))
        self.assertRegex(came.stderr.decode(), "^the response can't be followed: [^\n]*: fault 2 InputEnded [^\n]*\n$")

    def test_a_long_value_in_fixed_memory(self) -> None:
        """The digest of 200 MB, and the peaks of the command and of the program, in kilobytes."""
        need(self, "time")
        self.store("long", str(LONG))
        wanted = hashlib.sha256(b'"data"\r\n0x')
        piece = responses.CHUNK.hex().encode()
        for _ in range(LONG // len(responses.CHUNK)):
            wanted.update(piece)
        wanted.update(b"\r\n")
        self.script("timed", 'exec /usr/bin/time -o peak.program -f %M "$TIMED" "$@"\n')
        with contextlib.closing(StandIn(self.folder, (), ["long.tds"])) as server:
            self.servers["long",] = server
            for encrypt in ("login", "all"):
                with self.subTest(encrypt=encrypt):
                    came = self.beside(("long",), (
                        "/usr/bin/time -o peak.query -f '%M %e' $QUERY -S localhost,$PORT -U reader --program ./timed "
                        f'--encrypt {encrypt} --certificates "$CERTIFICATE" "SELECT * FROM long" | sha256sum; cat peak.query peak.program'), TIMED=PROGRAM)
                    digest, query, program = came.stdout.decode().split("\n", 2)
                    peak, seconds = query.split()
                    print(f"a value of {LONG} bytes, {encrypt} encrypted: {seconds} seconds, peak of query {peak} kilobytes, of the program {program.strip()}")
                    self.assertEqual((came.returncode, digest.split()[0]), (0, wanted.hexdigest()), came.stderr)
                    self.assertLess(int(peak), 26_000)
                    self.assertLess(int(program), 10_000)
        del self.servers["long",]


class Refusals(Live):
    def test_a_refused_login(self) -> None:
        for server, client in MODES:
            with self.subTest(server=server, client=client):
                came = self.query(f"TRUSTED --encrypt {client} 'SELECT 1'", ("--encrypt", server, "--password", "another"))
                self.assert_ends(came, 3, b"", "server error 18456, state 1, class 16, line 1: Login failed for this user.")

    def test_the_right_password_is_sent(self) -> None:
        came = self.query("TRUSTED 'SELECT * FROM orders'", ("--password", "Pä$$ 東"), SQLCMDPASSWORD="Pä$$ 東")
        self.assertEqual((came.returncode, came.stdout), (0, ORDERS))

    def test_a_server_error_in_the_middle_of_rows(self) -> None:
        for encrypt in ("login", "all"):
            with self.subTest(encrypt=encrypt):
                came = self.query(f"TRUSTED --encrypt {encrypt} 'SELECT * FROM broken' 'SELECT * FROM orders'")
                self.assertEqual((came.returncode, came.stdout.count(b"\r\n")), (3, 5001 + 1667))
                self.assertEqual(came.stderr.decode().splitlines(), [
                    f"sets 1 rows 5000 errors 1 infos 0 written {len(came.stdout)}",
                    "server error 8134, state 1, class 16, line 1: Divide by zero error encountered."])

    def test_a_connection_that_is_cut_in_a_row(self) -> None:
        for encrypt in ("login", "all"):
            with self.subTest(encrypt=encrypt):
                came = self.query(f"TRUSTED --encrypt {encrypt} 'SELECT * FROM kinds'", ("--cut-after", "1500"))
                self.assert_ends(came, 5, b"", f"{CLOSED}: fault 2 InputEnded at wire 0, written 0, unwritten 0")
                came = self.query(f"TRUSTED --packet-size 4096 --encrypt {encrypt} 'SELECT * FROM broken'", ("--cut-after", "9000"))
                self.assertEqual((came.returncode, came.stderr.decode().split(",")[0]), (5, f"{CLOSED}: fault 2 InputEnded at wire 8192"))
                self.assertTrue(came.stdout.startswith(ORDERS))

    def test_a_column_that_is_refused_ends_the_statements(self) -> None:
        for encrypt in ("login", "all"):
            with self.subTest(encrypt=encrypt):
                came = self.query(f"TRUSTED --encrypt {encrypt} 'SELECT * FROM float' 'SELECT * FROM orders'")
                self.assert_ends(came, 4, b"", "fault 10 RefusedColumn 1 FLTN at payload 15, written 0, unwritten 0", query.REFUSED_COLUMN)

    def test_a_server_without_encryption(self) -> None:
        for words in ("", "--encrypt login", "-No"):
            self.assert_ends(self.query(f"TRUSTED {words} 'SELECT 1'", ("--encrypt", "none")), 5, b"", NO_PASSWORD)

    def test_a_certificate_that_is_not_trusted(self) -> None:
        self.assert_ends(self.query("'SELECT 1'"), 5, b"", NOT_TRUSTED)

    def test_a_certificate_for_another_name(self) -> None:
        came = self.query("TRUSTED 'SELECT 1'", ("--names", "DNS:other.example"))
        self.assertEqual((came.returncode, came.stderr.decode().split(": ")[0]), (5, "the server's certificate isn't trusted"))
        self.assertIn(b"127.0.0.1", came.stderr)

    def test_any_certificate_on_request(self) -> None:
        for word in ("-C", "--trust-server"):
            came = self.query(f"{word} 'SELECT * FROM orders'", ("--names", "DNS:other.example"))
            self.assertEqual((came.returncode, came.stdout), (0, ORDERS))

    def test_arguments_that_are_refused(self) -> None:
        for words in (
            "--packet-size 511", "--packet-size 32768", "--seconds 0", "--encrypt some", "-Ns", "--charset latin1", "-S x,0", "-S 'x\\'", "-E", "-S mssql://u:p@h", "-S mssql://h/d?pwd=p",
            "-i file", "-d " + "x" * 129, "-U " + "x" * 70000, "-U $(printf '\\377')", "-d $(printf '\\377')",
        ):
            with self.subTest(words=words[:30]):
                came = self.query(f"TRUSTED {words} 'SELECT 1'", ("--record", "sent"))
                self.assertEqual((came.returncode, came.stdout), (2, b""), came.stderr)
                self.assertNotIn(b"Traceback", came.stderr)
                self.assertFalse(os.path.exists(self.path("sent")))

    def test_passwords_that_are_none(self) -> None:
        """Without a terminal nothing is asked, and what stands on standard input isn't taken for a password."""
        without = "unset SQLCMDPASSWORD; printf 'DELETE FROM orders' | "
        cases: list[tuple[str, dict[str, str], str]] = [
            (without, {}, "no password: SQLCMDPASSWORD isn't set, and there is no terminal to ask at"),
            ("", {"SQLCMDPASSWORD": "x" * 129}, "the password has more than 128 characters"),
            ("export SQLCMDPASSWORD=$(printf 'pass\\377'); ", {}, "the password isn't UTF-8"),
        ]
        for before, variables, line in cases:
            command = before + '$QUERY -S "127.0.0.1,$PORT" -U reader --program "$PROGRAM" --certificates "$CERTIFICATE"' + (" 'SELECT 1'" if not before.startswith("unset") else "")
            with self.subTest(line=line):
                self.assert_ends(self.beside(("--record", "sent"), command, **variables), 2, b"", line)
                self.assertFalse(os.path.exists(self.path("sent")))

    def test_a_password_is_asked_for_at_the_terminal(self) -> None:
        server = self.server(("--password", "from the terminal")).variables
        command = [sys.executable, "-m", "gavyreto", "query", "-S", f"localhost,{server['PORT']}", "-U", "reader", "--program", PROGRAM,
                   "--certificates", server["CERTIFICATE"], "-o", self.path("rows"), "SELECT * FROM orders"]
        environment = {name: value for name, value in started()["env"].items() if name != "SQLCMDPASSWORD"}
        process, terminal = pty.fork()
        if process == 0:
            os.execve(command[0], command, environment)
        said = b""
        while b"Password of reader: " not in said:
            said += os.read(terminal, 100)
        os.write(terminal, b"from the terminal\n")
        _, status = os.waitpid(process, 0)
        os.close(terminal)
        self.assertEqual((os.waitstatus_to_exitcode(status), self.text("rows")), (0, ORDERS))

    def test_nothing_is_sent_before_what_it_needs_is_there(self) -> None:
        """No login where the program, the certificates, an output or a statement lacks; and no statement that would have no place."""
        with open(self.path("latin"), "wb") as file:
            file.write(b"SELECT 1\nGO\nSELECT '\xe9'")
        with open(self.path("utf16"), "wb") as file:
            file.write("SELECT 1".encode("utf-16-le"))
        for words, status, line in (
            ("--program nothere 'DELETE FROM orders'", 2, "the program nothere isn't there, or can't be run"),
            ("--program /bin/true 'DELETE FROM orders'", 2, "/bin/true isn't tds_replay"),
            ("--certificates nothere 'DELETE FROM orders'", 2, "the certificates of nothere can't be read: No such file or directory"),
            ("--certificates orders.tds 'DELETE FROM orders'", 2, "the certificates of orders.tds can't be read: "),
            ("TRUSTED -o none/rows 'DELETE FROM orders'", 5, "none/rows: its folder isn't there"),
            ("TRUSTED -o . 'DELETE FROM orders'", 5, ".: it is a folder"),
            ("TRUSTED -o rows 'DELETE FROM orders' 'SELECT 1'", 2, "2 statements, and one output: a name with {} gets the number of each"),
            ("TRUSTED -o rows -i lines", 2, "3 statements, and one output: a name with {} gets the number of each"),
            ("TRUSTED -o rows < lines", 2, "3 statements, and one output: a name with {} gets the number of each"),
            ("TRUSTED -i nothere", 5, "nothere: No such file or directory"),
            ("TRUSTED -i latin", 2, "latin, line 3: not UTF-8"),
            ("TRUSTED -i utf16", 2, "utf16, line 1: a NUL character; is it UTF-16?"),
            ("TRUSTED 'DELETE FROM orders' \"$(printf '\\377')\"", 2, "the statement isn't UTF-8"),
        ):
            with self.subTest(words=words):
                came = self.query(words, ("--record", "sent"), "printf 'DELETE FROM orders\\nGO 3\\n' > lines; ")
                self.assertEqual((came.returncode, came.stdout, came.stderr.decode().count("\n")), (status, b"", 1), came.stderr)
                self.assertTrue(came.stderr.decode().startswith(line), came.stderr)
                self.assertFalse(os.path.exists(self.path("sent")))
        came = self.query("TRUSTED 'DELETE FROM orders'", ("--record", "sent"), SSLKEYLOGFILE="none/keys")
        self.assert_ends(came, 2, b"", "SSLKEYLOGFILE: none/keys: No such file or directory")

    def test_a_statement_of_standard_input_that_has_no_place(self) -> None:
        came = self.query("TRUSTED < latin", ("--record", "sent"), "printf 'SELECT * FROM orders\\nGO\\n\\351' > latin; ")
        self.assert_ends(came, 2, ORDERS, REPORT, "standard input, line 3: not UTF-8")
        came = self.query("TRUSTED < zero", ("--record", "sent"), "printf 'SELECT * FROM orders\\nGO 0\\n' > zero; ")
        self.assert_ends(came, 2, b"", "GO 0: a statement is sent once at least")

    def test_the_program_does_not_get_the_password(self) -> None:
        self.script("spying", 'env >> seen\nexec "$SPIED" "$@"\n')
        came = self.query("--program ./spying TRUSTED 'SELECT * FROM orders'", SPIED=PROGRAM, SQLCMDPASSWORD="secret word")
        self.assertEqual((came.returncode, came.stdout), (0, ORDERS))
        self.assertIn(b"SPIED", self.text("seen"))
        self.assertNotIn(b"secret word", self.text("seen"))

    def test_outputs_that_fail(self) -> None:
        need(self, "head")
        for words, name in (("> /dev/full", "standard output"), ("-o /dev/full", "/dev/full"), ("-o - > /dev/full", "standard output")):
            came = self.query(f"TRUSTED 'SELECT * FROM orders' {words}")
            self.assert_ends(came, 5, b"", f"{name}: No space left on device")
        came = self.beside((), '{ $QUERY -S 127.0.0.1,$PORT -U reader --certificates "$CERTIFICATE" --program "$PROGRAM" "SELECT * FROM broken" || echo $? > status; } | head -n 1')
        self.assertEqual((came.stdout, self.text("status")), (b'"id","customer","total","ordered","note"\r\n', b"5\n"))
        self.assertEqual(came.stderr.count(b"\n"), 1)
        self.assertEqual(came.stderr, b"standard output: Broken pipe\n")

    def test_a_full_output_after_the_first_text(self) -> None:
        """What comes through here and can't be written ends with one line too."""
        limited = "ulimit -f 1; trap '' XFSZ; "  # files of 512 or 1,024 bytes at most
        command = '$QUERY -S 127.0.0.1,$PORT -U reader --certificates "$CERTIFICATE" --program "$PROGRAM" "SELECT * FROM orders" "SELECT * FROM kinds" "SELECT * FROM sets" > small || echo "status $?"'
        came = self.beside((), limited + command)
        self.assertEqual((came.stdout, came.stderr.decode().splitlines()), (b"status 5\n", [REPORT, "standard output: File too large"]))
        self.assertTrue((ORDERS + b"\r\n" + responses.expected()).startswith(self.text("small")))


class Silence(Live):
    def test_a_server_that_falls_silent_between_statements(self) -> None:
        """It answers the first statement, and reads the second."""
        context = context_of(self.server(()).variables["CERTIFICATE"])
        line = "the server was silent for longer than 5 seconds: fault 2 InputEnded at wire 0, written 0, unwritten 0"

        def serve(channel: Channel, encrypt: str) -> None:
            if encrypt == "none":
                log_in(channel)
            else:
                log_in_encrypted(channel, context)
            channel.read_message()
            channel.write_message(PacketType.ANSWER, b"".join(responses.order_rows(0)) + served.done())
            channel.read_message()
            until_closed(channel)

        def asked(encrypt: str) -> subprocess.CompletedProcess[bytes]:
            with listening(lambda channel: serve(channel, encrypt)) as port:
                return ask_port(port, "--seconds", "5", "--encrypt", encrypt, "-C", "SELECT 1", "SELECT 2")

        with ThreadPoolExecutor() as pool:
            for encrypt, came in zip(("none", "all"), pool.map(asked, ("none", "all"))):
                with self.subTest(encrypt=encrypt):
                    self.assert_ends(came, 5, ORDERS, REPORT, line)

    def test_no_server_and_servers_that_are_none(self) -> None:
        with socket.create_server(("127.0.0.1", 0)) as server:
            port = server.getsockname()[1]
            silent = ask_port(port, "--seconds", "1", "SELECT 1")
        self.assert_ends(silent, 5, b"", "the server was silent for longer than 1 seconds")
        self.assert_ends(ask_port(port), 5, b"", f"127.0.0.1, port {port}: Connection refused")

    def test_packets_without_end(self) -> None:
        """Empty packets, and a byte now and then, aren't an answer. Who isn't tired of them within 20 seconds of the server finds
        that it closes the connection."""
        def empty(channel: Channel) -> None:
            log_in(channel)
            channel.read_message()
            self.send_slowly(channel, itertools.repeat(tds.packet(PacketType.ANSWER, b"", False), 2000), 0.01)

        def dripping(channel: Channel) -> None:
            channel.read_message()
            self.send_slowly(channel, (bytes([byte]) for byte in tds.packet(PacketType.ANSWER, bytes(60))[:40]), 0.5)

        def asked(serve: Callable[[Channel], None]) -> subprocess.CompletedProcess[bytes]:
            with listening(serve) as port:
                return ask_port(port, "--seconds", "1", "SELECT 1")

        with ThreadPoolExecutor() as pool:
            for serve, came in zip((empty, dripping), pool.map(asked, (empty, dripping))):
                with self.subTest(serve=serve.__name__):
                    self.assertEqual((came.returncode, came.stdout, came.stderr.count(b"\n")), (5, b"", 1))
                    self.assertTrue(came.stderr.startswith(b"the server was silent for longer than 1 seconds"), came.stderr)

    def send_slowly(self, channel: Channel, pieces: Iterable[bytes], pause: float) -> None:
        """Sends pieces with a pause after each, until the client goes."""
        for piece in pieces:
            channel.write(piece)
            if select.select([channel.socket], [], [], pause)[0]:
                return

    def test_answers_that_are_none(self) -> None:
        """A greeting and a login answered with bytes of any kind end with one line."""
        greeting, login = ("what came isn't the answer of a server of TDS 7.4 to a " + it for it in ("greeting", "login"))
        plain = tds.packet(4, bytes.fromhex("01 0006 0001 FF 02"))
        acknowledged = served.login_ack("Test")
        for answers, line in (
            ([tds.packet(1, b"")], greeting), ([tds.packet(4, bytes.fromhex("01 0006 0001 FF 07"))], greeting), ([tds.packet(4, b"\xFF")], greeting),
            ([b"HTTP/1.1 400 Bad Request\r\n\r\n" * 60000], "a message that is too long came"),
            ([tds.packet(4, bytes(60000))[:-1]], "the server closed the connection"),
            ([plain, tds.packet(1, b"")], login), ([plain, tds.packet(4, b"")], login), ([plain, tds.packet(4, served.done())], login),
            ([plain, tds.packet(4, b"\xAA\x01\x00x")], login), ([plain, tds.packet(4, b"\xE3\x00\x00")], login),
            ([plain, tds.packet(4, b"\xE3\x03\x00\x04\x01x")], login), ([plain, tds.packet(4, b"\xAD\x00\x00")], login),
            ([plain, tds.packet(4, b"\xE3\x04\x00\x04\x019\x00" + acknowledged + served.done())], login),
            ([plain, tds.packet(4, acknowledged.replace(tds.VERSION, bytes.fromhex("730B0003")) + served.done())], "the server speaks TDS 7.3, and TDS 7.4 is spoken here"),
            ([plain, tds.packet(4, acknowledged.replace(tds.VERSION, bytes.fromhex("75000001")) + served.done())], login),
            ([plain, tds.packet(4, b"\xFF" * 20)], login), ([plain, tds.packet(1, acknowledged + served.done())], login),
        ):
            def serve(channel: Channel, answers: list[bytes] = answers) -> None:
                for answer in answers:
                    channel.read_message()
                    channel.write(answer)
                with contextlib.suppress(OSError):  # the client may be gone
                    channel.socket.shutdown(socket.SHUT_WR)
                until_closed(channel)

            with self.subTest(answers=answers[-1][:40]), listening(serve) as port:
                came = ask_port(port, "--seconds", "60", "SELECT 1")
                self.assertEqual((came.returncode, came.stderr.decode()), (5 if "closed" in line else 4, line + "\n"))


class Between(Live):
    """Somebody between client and server changes what isn't authenticated."""

    def relayed(self, change: Callable[[str, bytes], bytes], words: str) -> subprocess.CompletedProcess[bytes]:
        """What the command gives through a relay that changes the first message of each side."""
        script = "import sys; from tests import test_query; test_query.relay(int(sys.argv[1]), sys.argv[2])"
        command = (
            f'rm -f relayed; {sys.executable} -c "$RELAY" $PORT {change.__name__} & relay=$!; until test -s relayed; do sleep 0.05; done; status=0; '
            f'$QUERY -S "localhost,$(cat relayed)" -U reader --program "$PROGRAM" --certificates "$CERTIFICATE" {words} || status=$?; '
            "kill $relay 2> kill.log || :; wait; exit $status")
        return self.beside((), command, RELAY=script)

    def test_an_answer_that_was_changed(self) -> None:
        """ON to OFF in the server's answer, or in the client's greeting: the statement isn't sent."""
        for change in (answer_off, greeting_off):
            with self.subTest(change=change.__name__):
                self.assert_ends(self.relayed(change, "'SELECT * FROM orders'"), 5, b"", LOGIN_ALONE)
        self.assert_ends(self.relayed(answer_without, "'SELECT * FROM orders'"), 5, b"", NO_PASSWORD)
        self.assert_ends(self.relayed(answer_without, "-No 'SELECT * FROM orders'"), 5, b"", NO_PASSWORD)
        self.assert_ends(self.relayed(nothing, "'SELECT * FROM orders'"), 0, ORDERS, REPORT)


def answer_off(side: str, data: bytes) -> bytes:
    return data[:-1] + b"\0" if side == "server" else data


def answer_without(side: str, data: bytes) -> bytes:
    return data[:-1] + b"\2" if side == "server" else data


def greeting_off(side: str, data: bytes) -> bytes:
    return data[:-1] + b"\0" if side == "client" else data


def nothing(side: str, data: bytes) -> bytes:
    return data


def relay(port: int, change: str) -> None:
    """Relays one connection to a port, with the first message of each side changed, and writes its own port to a file."""
    changed: Callable[[str, bytes], bytes] = globals()[change]

    def copy(side: str, source: socket.socket, target: socket.socket) -> None:
        data = changed(side, source.recv(65536))
        while data:
            target.sendall(data)
            data = source.recv(65536)
        target.shutdown(socket.SHUT_WR)

    with socket.create_server(("127.0.0.1", 0)) as server:
        with open("relayed", "w", encoding="ascii") as file:
            file.write(str(server.getsockname()[1]))
        client, _ = server.accept()
        behind = socket.create_connection(("127.0.0.1", port))
        threading.Thread(target=copy, args=("client", client, behind), daemon=True).start()
        copy("server", behind, client)


def hold(channel: Channel) -> None:
    """Serves rows whose end doesn't come, until the client goes."""
    log_in(channel)
    channel.read_message()
    channel.write(HELD)
    channel.wait()
    channel.receive()


class Signals(Live):
    def setUp(self) -> None:
        """A program that keeps in a file what it gets."""
        super().setUp()
        self.script("keeping", 'test "$1" = --version && exec "$KEPT" "$@"\necho $$ > kept.pid\ntee kept | "$KEPT" "$@"\n')

    def begin(self, port: int) -> subprocess.Popen[bytes]:
        """The command with that program, once the program has got the rows of a server that holds their end."""
        command = [*command_for(port)[:-1], "--program", "./keeping", "SELECT 1"]
        run = subprocess.Popen(command, cwd=self.folder, stdout=subprocess.PIPE, stderr=subprocess.PIPE, **started(KEPT=PROGRAM))
        wait_for(lambda: run.poll() is not None or os.path.exists(self.path("kept")) and self.text("kept") == HELD)
        return run

    def test_an_interrupt_asks_the_server_to_stop(self) -> None:
        """What came is written, the attention is sent, its DONE is waited for, and the status is 130."""
        for encrypt in ("none", "login", "all"):
            with self.subTest(encrypt=encrypt):
                came, sent = self.interrupted(encrypt)
                self.assertEqual((came.returncode, came.stdout), (130, ORDERS))
                self.assertRegex(came.stderr.decode(), "^interrupted.*\n$")
                self.assertEqual(sent[-1], PacketType.ATTENTION)

    def interrupted(self, encrypt: str) -> tuple[subprocess.CompletedProcess[bytes], list[int]]:
        """What the command gives that is interrupted once its program has the rows, and the types of the packets that it sent."""
        script = (
            "import os, signal, subprocess, sys, time\n"
            "run = subprocess.Popen(sys.argv[1:])\n"
            "rows = open('held.tds', 'rb').read()\n"
            "while run.poll() is None and not (os.path.exists('kept') and open('kept', 'rb').read() == rows):\n    time.sleep(0.01)\n"
            "run.send_signal(signal.SIGINT)\n"
            "sys.exit(run.wait())\n")
        command = (
            f'rm -f sent kept; exec {sys.executable} -c "$SCRIPT" $QUERY -S localhost,$PORT -U reader --program ./keeping '
            f'--certificates "$CERTIFICATE" --encrypt {encrypt} --seconds 60 "SELECT * FROM held"')
        came = self.beside(("--record", "sent"), command, SCRIPT=script, KEPT=PROGRAM)
        wire, types, at = self.text("sent"), list[int](), 0
        while at < len(wire):
            types.append(wire[at])
            at += tds.length_of(wire[at:at + 8])
        return came, types

    def test_the_answer_to_an_attention_is_waited_for(self) -> None:
        ended: list[float] = []

        def serve(channel: Channel) -> None:
            log_in(channel)
            channel.read_message()
            channel.write(HELD)
            self.assertEqual(channel.read_message(), (PacketType.ATTENTION, b""))
            channel.write(tds.packet(PacketType.ANSWER, served.done(tds.FAILED)))
            time.sleep(0.5)  # in which who doesn't wait would end
            ended.append(time.monotonic())
            channel.write(tds.packet(PacketType.ANSWER, served.done(tds.CANCELLED)))

        with listening(serve) as port:
            run = self.begin(port)
            run.send_signal(signal.SIGINT)
            out, err = run.communicate(timeout=SECONDS)
            self.assertGreater(time.monotonic(), ended[0])
        self.assertEqual((run.returncode, out, err.count(b"\n")), (130, ORDERS, 1), err)
        self.assertTrue(err.startswith(b"interrupted"))

    def interrupt_once(self, event: threading.Event, run: subprocess.Popen[bytes]) -> None:
        """Interrupts a command once it waits for the server after an event."""
        self.assertTrue(event.wait(SECONDS))
        wait_for(lambda: is_waiting(run.pid))
        run.send_signal(signal.SIGINT)

    def test_a_second_interrupt_ends_at_once(self) -> None:
        asked, cancelled = threading.Event(), threading.Event()

        def serve(channel: Channel) -> None:
            log_in(channel)
            channel.read_message()
            asked.set()
            channel.read_message()
            cancelled.set()
            channel.wait()
            channel.receive()

        with listening(serve) as port:
            run = subprocess.Popen(command_for(port), stdout=subprocess.PIPE, stderr=subprocess.PIPE, **started())
            for event in (asked, cancelled):
                self.interrupt_once(event, run)
            out, err = run.communicate(timeout=SECONDS)
        self.assertEqual((run.returncode, out, err), (130, b"", b"interrupted\n"))

    def test_an_interrupt_decides_the_status(self) -> None:
        """Also where the connection breaks before the server has stopped."""
        asked = threading.Event()

        def serve(channel: Channel) -> None:
            log_in(channel)
            channel.read_message()
            asked.set()
            self.assertEqual(channel.read_message(), (PacketType.ATTENTION, b""))
            channel.socket.setsockopt(socket.SOL_SOCKET, socket.SO_LINGER, struct.pack("ii", 1, 0))  # so that it is reset

        with listening(serve) as port:
            run = subprocess.Popen(command_for(port), stdout=subprocess.PIPE, stderr=subprocess.PIPE, **started())
            self.interrupt_once(asked, run)
            out, err = run.communicate(timeout=SECONDS)
        line = f"interrupted, and {CLOSED}: fault 2 InputEnded at wire 0, written 0, unwritten 0\n"
        self.assertEqual((run.returncode, out, err.decode()), (130, b"", line))

    def signalled(self, at: int, *others: str) -> tuple[subprocess.CompletedProcess[bytes], list[int]]:
        """What the command gives of two statements to which Ctrl-C comes at a line, and the types of the messages after its login."""
        kinds: list[int] = []

        def serve(channel: Channel) -> None:
            log_in(channel)
            while True:
                kinds.append(channel.read_message()[0])
                channel.write(wire("kinds") if kinds[-1] == PacketType.STATEMENT else tds.packet(PacketType.ANSWER, served.done(tds.CANCELLED)))

        with listening(serve) as port:
            came = stepped(signal.SIGINT, at, command_for(port, "SELECT 1", "SELECT 2")[3:], *others)
            socket.create_connection(("127.0.0.1", port)).close()  # for a server to which the command has made none
        return came, kinds

    def test_ctrl_c_at_any_time(self) -> None:
        """The text ends anywhere, and where the line says. The server is asked at most once to stop, and nothing after that."""
        for others, count in ((["_interrupted"], 12), (["_interrupted", "_raising"], 28)):
            whole, kinds = self.signalled(0, *others)
            self.assertEqual((whole.returncode, whole.stdout, kinds), (0, b"\r\n".join([responses.expected()] * 2), [PacketType.STATEMENT] * 2))
            for at in lines_of(whole, count):
                with self.subTest(others=others, at=at):
                    came, kinds = self.signalled(at, *others)
                    assert_signalled(self, signal.SIGINT, came, whole)
                    self.assertTrue(whole.stdout.startswith(came.stdout))
                    self.assertIn(bytes(kinds), (b"", b"\1", b"\1\6", b"\1\1", b"\1\1\6"))  # statements, and an attention after one of them
                    if b": " in came.stderr.splitlines()[-1]:
                        written = sum(map(int, re.findall(rb"\bwritten (\d+)", came.stderr)))
                        self.assertIn(len(came.stdout) - written, (0, len(b"\r\n")))

    def test_an_interrupt_once_a_statement_is_sent(self) -> None:
        """The server is asked once to stop."""
        channel = mock.Mock()
        session = Session(channel, mock.Mock(login_seconds=5), 4096)
        channel.wait.side_effect = session.interrupt
        session.send("SELECT 1")
        self.assertEqual([call.args[0] for call in channel.write_message.call_args_list], [PacketType.STATEMENT, PacketType.ATTENTION])

    def test_a_program_does_not_outlive_the_command(self) -> None:
        """After SIGTERM and SIGHUP what came is written, and a line says so; after SIGKILL the program ends by itself: its input is over."""
        for number in (signal.SIGTERM, signal.SIGHUP, signal.SIGKILL):
            with self.subTest(number=number), listening(hold) as port:
                run = self.begin(port)
                run.send_signal(number)
                out, err = run.communicate(timeout=SECONDS)
                if number == signal.SIGKILL:
                    self.assertEqual((run.returncode, out), (-number, b""))
                else:
                    line = f"ended by {number.name}: fault 2 InputEnded at wire {len(HELD)}, written {len(ORDERS)}, unwritten 0\n"
                    self.assertEqual((run.returncode, out, err.decode()), (128 + number, ORDERS, line))
                process = int(self.text("kept.pid"))
                wait_for(lambda: has_ended(process))
            os.remove(self.path("kept"))


class FromPython(Live):
    """The same from Python: the answer's sets, and what goes wrong as an error."""

    def asked(self, program: str, *options: str) -> subprocess.CompletedProcess[bytes]:
        head = (
            "import gavyreto, os\n"
            "own = dict(user='reader', password='secret', port=int(os.environ['PORT']), certificates=os.environ['CERTIFICATE'])\n"
            "run = dict(program=os.environ['PROGRAM'])\n")
        return self.beside(options, f'{sys.executable} -c "$SCRIPT"', SCRIPT=head + program)

    def test_sets_of_an_answer(self) -> None:
        for encrypt in ("login", "all"):
            came = self.asked(
                f"with gavyreto.query('SELECT * FROM sets', 'localhost', encrypt='{encrypt}', **own, **run) as answer:\n"
                "    print([(one.names, list(one)) for one in answer], answer.report.rows)\n")
            wanted = "[(['id', 'note'], [(1, 'first\\r\\n\\r\\nthird line'), (2, None)]), (['total'], [(Decimal('12.50'),)]), (['id'], [])] 3\n"
            self.assert_ends(came, 0, wanted.encode())

    def test_statements_on_one_connection(self) -> None:
        came = self.asked(
            "with gavyreto.connect('localhost', **own) as connection:\n"
            "    for name in 'orders', 'sets', 'orders':\n"
            "        print([len(list(one)) for one in connection.query('SELECT * FROM ' + name, **run)])\n"
            "    try:\n        list(connection.query('SELECT * FROM broken', **run).only())\n"
            "    except gavyreto.ServerError as error:\n        print(error.rows)\n"
            "    left = connection.query('SELECT * FROM kinds', **run)\n"
            "    next(left)\n"
            "    try:\n        connection.query('SELECT 1', **run)\n"
            "    except ValueError as error:\n        print(error)\n"
            "    left.close()\n"
            "    try:\n        connection.query('SELECT 1', **run)\n"
            "    except (ValueError, gavyreto.Error) as error:\n        print('closed')\n", "--connections", "1")
        self.assert_ends(came, 0, b"[3]\n[2, 1, 0]\n[3]\n5000\nthe answer before isn't read to its end\nclosed\n")

    def test_what_goes_wrong(self) -> None:
        for statement, options, wanted in (
            ("SELECT * FROM float", (), "Fault 10 RefusedColumn"), ("SELECT * FROM broken", (), "ServerError 8134"), ("x", ("--password", "other"), "LoginRefused 18456"),
            ("SELECT * FROM broken", ("--cut-after", "9000"), "ConnectionFailed"), ("x", ("--encrypt", "none"), "EncryptionRefused"),
            ("x", ("--names", "DNS:other"), "CertificateRefused"),
        ):
            came = self.asked(
                "try:\n"
                f"    with gavyreto.query('{statement}', 'localhost', **own, **run) as answer:\n"
                "        for one in answer:\n            list(one)\n"
                "except gavyreto.Error as error:\n"
                "    print(type(error).__name__, getattr(error, 'number', ''), getattr(error, 'name', ''))\n", *options)
            with self.subTest(wanted=wanted):
                self.assertEqual((came.returncode, came.stdout.decode().strip()), (0, wanted), came.stderr)

    def test_a_connection_that_falls_silent(self) -> None:
        with listening(hold) as port, gavyreto.query(
                "x", "127.0.0.1", user="u", password="p", port=port, encrypt="none", seconds=3, program=PROGRAM) as answer:
            rows = answer.only()
            self.assertEqual([next(rows)[0] for _ in range(3)], [1, 2, 3])
            with self.assertRaisesRegex(gavyreto.ConnectionFailed, "silent"):
                next(rows)


if __name__ == "__main__":
    unittest.main()
