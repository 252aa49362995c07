"""Judges that share nothing with the package: `tshark` reads what the command `query` sends, and clients of others what the
stand-in answers."""
from __future__ import annotations

import os
import socket
import subprocess
import sys
import unittest

from tests.beside import ORDERS, ROOT, Live, need, need_pymssql

sys.path[:0] = [os.path.join(ROOT, "tools")]
from lib import capture_builder as captures  # noqa: E402

DEBIAN = "/usr/bin/python3"
LOGIN = {
    "version": "0x74000004", "packet_size": "8000", "clientname": socket.gethostname(), "username": "rea der", "password": "Pa$$ word{}",
    "appname": "gavyreto", "servername": "localhost", "databasename": "da ta", "libraryname": "", "locale": "",
}
STATEMENTS = ["SELECT * FROM orders -- Zürich 東京", "SELECT * FROM sets" + " " * 9000 + "-- the end"]


class Sent(Live):
    """What is sent is what MS-TDS has, as the dissector of `tshark` reads it."""

    def fields(self, wire: bytes, shown: str, *names: str) -> list[list[str]]:
        """The fields of the messages of a client that have a field, by the dissector for TDS."""
        written = captures.Capture()
        written.open()
        written.send(captures.CLIENT, wire, is_disordered=False)
        with open(self.path("sent.pcap"), "wb") as file:
            written.write(file)
        command = ["tshark", "-r", file.name, "-2", "-Y", shown, "-T", "fields", "-E", "separator=/t", "-E", "aggregator=;"]
        for name in names:
            command += ["-e", name]
        ran = subprocess.run(command, capture_output=True, text=True, check=True)
        return [line.split("\t") for line in ran.stdout.rstrip("\n").split("\n")]

    def test_each_login_and_statement(self) -> None:
        need(self, "tshark")
        for encrypt in ("none", "login", "all"):
            with self.subTest(encrypt=encrypt):
                statements = " ".join(f"'{it}'" for it in STATEMENTS)
                command = (
                    f"rm -f sent; $QUERY -S localhost,$PORT -U 'rea der' -d 'da ta' --program \"$PROGRAM\" --encrypt {encrypt} "
                    f'--certificates "$CERTIFICATE" {statements}')
                came = self.beside(("--record", "sent", "--password", LOGIN["password"]), command, SQLCMDPASSWORD=LOGIN["password"])
                self.assertEqual((came.returncode, came.stdout[:len(ORDERS)]), (0, ORDERS), came.stderr)
                wire = self.text("sent")
                encryption = "1" if encrypt == "all" else "0"
                self.assertEqual(self.fields(wire, "tds.prelogin", "tds.prelogin.option.encryption"), [[encryption]])
                (login,) = self.fields(wire, "tds.7login.total_len", *("tds.7login." + name for name in LOGIN))
                self.assertEqual(dict(zip(LOGIN, login)), LOGIN)
                headers = ["tds.all_headers.total_length", "tds.all_headers.header.type", "tds.all_headers.header.trans_descr", "tds.all_headers.header.request_cnt"]
                came_statements = self.fields(wire, "tds.query", "tds.query", *headers)
                self.assertEqual(came_statements, [[it, "22", "0x0002", "0", "1"] for it in STATEMENTS])

    def test_no_packet_is_malformed(self) -> None:
        need(self, "tshark")
        self.beside(("--record", "sent"), '$QUERY -S localhost,$PORT -U reader --program "$PROGRAM" --encrypt none "SELECT 1" GO "SELECT 2"')
        self.assertEqual(self.fields(self.text("sent"), "_ws.malformed || tds.invalid_length", "frame.number"), [[""]])


class Clients(Live):
    """Clients that know nothing of the stand-in read its rows."""

    def client(self, server: str, encryption: str, command: str) -> tuple[int, str]:
        settings = "[global]\ntds version = 7.4\nclient charset = UTF-8\nencryption = %s\n[here]\nhost = 127.0.0.1\nport = %s\n"
        written = f"printf '{settings}' {encryption} $PORT > freetds.conf; "
        came = self.beside(("--encrypt", server), written + command, FREETDSCONF=self.path("freetds.conf"))
        return came.returncode, came.stdout.decode()

    def each(self, command: str, wanted: str) -> None:
        for server, encryption in (("none", "off"), ("login", "request"), ("login", "require"), ("all", "require")):
            with self.subTest(server=server, client=encryption):
                self.assertEqual(self.client(server, encryption, command), (0, wanted))

    def test_tsql(self) -> None:
        need(self, "tsql")
        rows = 'id|customer|total|ordered|note\n1|Ann "A" Lee, Zürich|12.50|Feb 29 2024 12:34PM|two\r\nlines\n' \
            "2|NULL|-0.05|Mar  1 2024 12:00AM|\n3|東京|NULL|Mar  2 2024 11:59PM|NULL\n"
        self.each("printf 'SELECT * FROM orders\\ngo\\nexit\\n' | tsql -S here -U reader -P secret -o q -t '|' 2> notes", rows)

    def test_freebcp(self) -> None:
        need(self, "freebcp")
        rows = '1|Ann "A" Lee, Zürich|12.50|2024-02-29 12:34:56.123|two\r\nlines\n' \
            "2|NULL|-0.05|2024-03-01 00:00:00.000|\0\n3|東京||2024-03-02 23:59:59.999|\n"
        self.each("freebcp orders out rows.bcp -S here -U reader -P secret -c -t '|' > notes; cat rows.bcp", rows)

    def test_pymssql(self) -> None:
        need_pymssql(self)
        program = (
            "import os, pymssql; connection = pymssql.connect(server='127.0.0.1', port=os.environ['PORT'], user='reader', "
            "password='secret', autocommit=True); cursor = connection.cursor(); cursor.execute('SELECT * FROM sets'); "
            "print(cursor.fetchall()); cursor.nextset(); print(cursor.fetchall())")
        rows = "[(1, 'first\\r\\n\\r\\nthird line'), (2, None)]\n[(Decimal('12.50'),)]\n"
        self.each(f'{DEBIAN} -c "{program}"', rows)


if __name__ == "__main__":
    unittest.main()
