"""Tests of `capture`: connections with lost, doubled and disordered segments, begun in the middle, of two clients."""
from __future__ import annotations

import argparse
import csv
import gzip
import io
import os
import random
import re
import shutil
import signal
import subprocess
import sys
import tempfile
import unittest
from pathlib import Path
from typing import BinaryIO, Optional, cast
from unittest import mock

from gavyreto import tds
from gavyreto.commands import capture
from gavyreto.commands.common import Stopped
from tests.beside import (
    PROGRAM, ROOT, Live, answered, assert_signalled, exported, is_waiting, lines_of, need, need_pymssql, running_in, served, skip, started, stepped, wait_for, wire,
)

sys.path[:0] = [os.path.join(ROOT, "tools")]
from lib import capture_builder as captures  # noqa: E402

OTHER = (bytes([192, 0, 2, 11]), 50999)
STATEMENTS = ["SELECT * FROM kinds", "SELECT * FROM sets WHERE note = 'x' AND  total > 5 ORDER BY\n id, note, total", "SELECT * FROM error"]
SHOWN = ["SELECT * FROM kinds", "SELECT * FROM sets WHERE note = 'x' AND total > 5 ORDER BY ..", "SELECT * FROM error"]
RESPONSES = [wire("kinds", 40), wire("sets"), wire("error")]


def text_of(data: bytes) -> bytes:
    return exported(data)[1]


def conversation(client: captures.Side = captures.CLIENT, encrypted: bool = False) -> captures.Capture:
    """Greeting, login and three statements with their answers; with the login encrypted, or all that comes after it."""
    made = captures.Capture(client)
    made.open()
    made.send(client, captures.greeting(0x12))
    made.send(captures.SERVER, captures.greeting(4))
    made.send(client, tds.packet(0x12, captures.tls_record(0x16, 200)))
    made.send(captures.SERVER, tds.packet(0x12, captures.tls_record(0x16, 900)))
    made.send(client, captures.tls_record(0x17, 300))
    made.send(captures.SERVER, captures.tls_record(0x17, 400) if encrypted else captures.login_answer())
    for statement, data in zip(STATEMENTS, RESPONSES):
        made.send(client, b"".join(tds.packets([tds.statement(statement)], 512, tds.PacketType.STATEMENT)))
        made.send(captures.SERVER, captures.tls_record(0x17, 5000) if encrypted else data)
    return made


class Captures(unittest.TestCase):
    folder: str

    def setUp(self) -> None:
        need(self, "editcap")
        folder = tempfile.TemporaryDirectory()
        self.addCleanup(folder.cleanup)
        self.folder = folder.name

    def run_capture(self, *words: str) -> subprocess.CompletedProcess[bytes]:
        command = [sys.executable, "-m", "gavyreto", "capture", "--program", PROGRAM, *words]
        return subprocess.run(command, cwd=self.folder, capture_output=True, check=False, **started())

    def captured(self, frames: list[bytes], form: str = "pcap", *words: str) -> tuple[subprocess.CompletedProcess[bytes], list[dict[str, Optional[str]]]]:
        """What the command gives of a capture with these frames, and the lines of its table."""
        written = captures.Capture()
        written.frames = frames
        path = os.path.join(self.folder, "capture")
        with open(path, "wb") as file:
            written.write(file)
        if form != "pcap":
            subprocess.run(["editcap", "-F", form, path, path + ".as"], check=True)
            os.replace(path + ".as", path)
        came = self.run_capture(*words, "capture", "out")
        lines = csv.DictReader(io.StringIO(came.stdout.decode(), newline=""))
        return came, [{name: None if value == "NULL" else value for name, value in line.items()} for line in lines]

    def sums(self, came: subprocess.CompletedProcess[bytes]) -> dict[str, int]:
        """The counts of the last line on standard error, by what is counted."""
        last = came.stderr.decode().splitlines()[-1]
        counts = {name: int(count) for count, name in re.findall(r"(\d+) ((?:not read|of others|in \w+|answered|not|told))", last)}
        return counts | {name: int(count) for name, count in re.findall(r"(frames|packets|connections|requests|bytes) (\d+)", last)}

    def texts(self) -> dict[str, bytes]:
        found = {}
        for name in sorted(os.listdir(os.path.join(self.folder, "out"))):
            with open(os.path.join(self.folder, "out", name), "rb") as file:
                found[name] = file.read()
            os.remove(os.path.join(self.folder, "out", name))
        return found

    def names(self, client: str = "192.0.2.10.50123") -> list[str]:
        return [f"{client}-192.0.2.20.1433.{number}.csv" for number in (1, 2, 3)]

    def test_each_response_of_a_connection(self) -> None:
        """In each format, with segments that came twice and in the wrong order."""
        for form in ("pcap", "nsecpcap", "pcapng"):
            with self.subTest(form=form):
                came, table = self.captured(conversation().frames, form)
                self.assertEqual((came.returncode, self.sums(came)["not read"], self.sums(came)["told"]), (3, 0, 0))
                self.assertEqual(self.texts(), dict(zip(self.names(), map(text_of, RESPONSES))))
                self.assertEqual([(line["text"], line["statement"], line["status"]) for line in table], list(zip(self.names(), SHOWN, "003")))
                self.assertEqual({(line["client"], line["server"]) for line in table}, {("192.0.2.10.50123", "192.0.2.20.1433")})
                self.assertTrue(all((line["time"] or "").startswith("2023-11-14 22:13:20.0") for line in table))
                self.assertEqual(table[2]["line"], "sets 1 rows 1 errors 1 infos 0 written 9")

    def test_two_clients(self) -> None:
        one, other = conversation(), conversation(OTHER)
        frames = [frame for pair in zip(one.frames, other.frames) for frame in pair]
        came, table = self.captured(frames, "pcapng")
        self.assertEqual(came.returncode, 3)
        wanted = dict(zip(self.names() + self.names("192.0.2.11.50999"), list(map(text_of, RESPONSES)) * 2))
        self.assertEqual(self.texts(), wanted)
        self.assertEqual(len(table), 6)

    def test_one_side_alone(self) -> None:
        server = [frame for frame in conversation().frames if frame[34:36] == (1433).to_bytes(2, "big")]
        came, table = self.captured(server)
        self.assertEqual((came.returncode, [line["statement"] for line in table]), (3, [None] * 3))
        self.assertEqual(list(self.texts().values()), list(map(text_of, RESPONSES)))

    def test_segments_that_are_lost(self) -> None:
        """Whichever is lost: each text is that of a whole response or a part of it, and what is lost is told."""
        frames = conversation().frames
        wholes = [text_of(data) for data in RESPONSES]
        for place in range(3, len(frames), 5):
            is_server = frames[place][34:36] == (1433).to_bytes(2, "big") and len(frames[place]) > 54
            came, table = self.captured(frames[:place] + frames[place + 1:])
            with self.subTest(place=place):
                for name, text in self.texts().items():
                    self.assertTrue(text in wholes if name.endswith(".csv") else any(whole.startswith(text) for whole in wholes), name)
                whole = [line for line in table if (line["text"] or "").endswith(".csv")]
                if len(whole) < 3:
                    self.assertEqual((is_server, came.returncode), (True, 4))
                    self.assertTrue(any(part in (line["line"] or "") for part in ("lacking", "InputEnded", "no answer") for line in table))
                else:
                    self.assertIn(came.returncode, (3, 4))

    def test_a_capture_that_begins_behind_the_first_packet_of_a_request(self) -> None:
        """Its other packets aren't taken for a request, by their numbers; a client that numbers packets on and on has names behind the first answer."""
        text = "SELECT * FROM kinds WHERE note = '" + 300 * "b" + "'"
        packets = [list(tds.packets([tds.statement(it)], 512, tds.PacketType.STATEMENT)) for it in (text, STATEMENTS[0], STATEMENTS[2])]
        for step in 0, 2:  # how much more the numbers of each request are than those of the one before
            made = captures.Capture()
            for place, (request, data) in enumerate(zip(packets, (RESPONSES[0], RESPONSES[0], RESPONSES[2]))):
                for packet in request[place == 0:]:
                    made.send(captures.CLIENT, packet[:6] + bytes([packet[6] + place * step]) + packet[7:])
                made.send(captures.SERVER, data)
            came, lines = self.captured(made.frames)
            self.assertEqual((came.returncode, [it["statement"] for it in lines if it["text"]]), (4, [None, *STATEMENTS[::2]]))
            self.assertIn(f"{sum(map(len, packets[0][1:]))} bytes of the client are in no request", [it["line"] for it in lines])
            self.assertEqual([*self.texts().values()], [text_of(RESPONSES[0])] * 2 + [text_of(RESPONSES[2])])
            shutil.rmtree(os.path.join(self.folder, "out"))

    def test_captures_that_begin_anywhere(self) -> None:
        frames = conversation().frames
        wholes = [text_of(data) for data in RESPONSES]
        for place in range(0, len(frames), 10):
            came, table = self.captured(frames[place:])
            with self.subTest(place=place):
                texts = self.texts()
                self.assertTrue(all(text in wholes for name, text in texts.items() if name.endswith(".csv")))
                self.assertEqual(sum(name.endswith(".csv") for name in texts), sum(line["status"] in ("0", "3") for line in table))

    def test_an_encrypted_connection(self) -> None:
        came, table = self.captured(conversation(encrypted=True).frames)
        self.assertEqual((came.returncode, [line["line"] for line in table]), (4, ["the connection is encrypted: 15420 bytes"]))
        self.assertEqual(self.texts(), {})

    def test_what_is_no_answer(self) -> None:
        """A response that is refused leaves its part; bytes of anything else are told."""
        for data, lines in (
            (wire("float"), ["fault 10 RefusedColumn 1 FLTN at payload 15, written 0, unwritten 0"]),
            (b"HTTP/1.1 200 OK\r\n\r\n", ["no answer to it came", "no packet begins here: 19 bytes are passed over"]),
            (b"\x53\x01" + bytes(14), ["several answers at once (MARS), which aren't read: 16 bytes"]),
            (answered(b"\x99"), ["fault 6 RefusedToken 0x99 at payload 0, written 0, unwritten 0"]),
        ):
            made = captures.Capture()
            made.open()
            made.send(captures.CLIENT, tds.packet(1, tds.statement("SELECT 1")))
            made.send(captures.SERVER, data)
            came, table = self.captured(made.frames)
            with self.subTest(lines=lines):
                self.assertEqual((came.returncode, [it["line"] for it in table]), (4, lines))
                self.assertFalse(any(name.endswith(".csv") for name in self.texts()))

    def test_random_bytes(self) -> None:
        """Whatever a server sends: no traceback, and the status isn't 0."""
        numbers = random.Random(7)
        for _ in range(10):
            made = captures.Capture()
            made.open()
            made.send(captures.CLIENT, numbers.randbytes(numbers.randint(1, 3000)))
            made.send(captures.SERVER, bytes([4, 1, 0, numbers.randint(8, 255)]) * (numbers.random() < 0.5) + numbers.randbytes(numbers.randint(1, 9000)))
            came, _ = self.captured(made.frames)
            self.assertEqual((came.returncode, came.stderr.count(b"\n")), (4, 1))
            self.texts()

    def test_all_that_a_server_sent(self) -> None:
        """As a proxy keeps it: with answers to greeting and login, whole, cut off, and with something else in it."""
        login = captures.greeting(4) + tds.packet(0x12, captures.tls_record(0x16, 900)) + captures.login_answer()
        whole = login + b"".join(RESPONSES)
        texts = dict(zip((f"answer.{number}.csv" for number in (1, 2, 3)), map(text_of, RESPONSES)))
        for data, status, told, left in (
            (whole, 3, None, texts), (b"".join(RESPONSES), 3, None, texts),
            (whole + b"HTTP", 4, "no packet begins here: 4 bytes are passed over", texts),
            (whole[:-1], 4, "the connection ends within it: fault 2 InputEnded at wire 0, written 0, unwritten 0", {name: text for name, text in texts.items() if "3" not in name} | {"answer.3.csv.partial": b""}),
        ):
            with open(os.path.join(self.folder, "sent"), "wb") as file:
                file.write(data)
            came = self.run_capture("sent", "out")
            with self.subTest(status=status, told=told):
                lines = list(csv.DictReader(io.StringIO(came.stdout.decode(), newline="")))
                self.assertEqual((came.returncode, self.sums(came)["bytes"], self.texts()), (status, len(data), left))
                self.assertEqual((lines[0]["client"], lines[0]["time"], lines[-1]["line"] if told else None), ("NULL", "NULL", told))

    def test_arguments(self) -> None:
        self.captured(conversation().frames)
        again = self.run_capture("capture", "out")
        self.assertEqual(again.returncode, 2)
        self.assertIn(b"has texts", again.stderr)
        os.makedirs(os.path.join(self.folder, "left", "unfinished4x_1"))  # as by a run that was killed
        cases = [(["nothere", "other"], 5), (["capture", "left"], 2), (["--port", "1434", "capture", "third"], 4), ([sys.executable, "a/b/c/"], 2), (["--port", "0", "capture", "other"], 2)]
        for words, status in cases:
            with self.subTest(words=words):
                came = self.run_capture(*words)
                self.assertEqual((came.returncode, came.stdout.count(b"\n")), (status, int(status == 4)))
                self.assertNotIn(b"Traceback", came.stderr)
        self.assertFalse({"other", "a"} & {*os.listdir(self.folder)})

    def test_two_runs_into_one_folder(self) -> None:
        """The second is refused as long as the first one has the folder; what something else put there meanwhile stays, and the run ends."""
        self.captured(conversation().frames)
        self.texts()
        command = [sys.executable, "-m", "gavyreto", "capture", "--program", PROGRAM, "-", "out"]
        with subprocess.Popen(command, cwd=self.folder, stdin=subprocess.PIPE, stdout=subprocess.PIPE, stderr=subprocess.PIPE, env=started()["env"]) as run:
            with open(os.path.join(self.folder, "capture"), "rb") as file:
                data = file.read()
            cast(BinaryIO, run.stdin).write(data[:5000])
            cast(BinaryIO, run.stdin).flush()
            cast(BinaryIO, run.stdout).readline()
            second = self.run_capture("capture", "out")
            self.assertEqual((second.returncode, second.stderr), (2, b"out: another command writes there\n"))
            Path(self.folder, "out", self.names()[0]).write_bytes(b"another")
            _, notes = run.communicate(data[5000:])
        self.assertEqual((run.returncode, Path(self.folder, "out", self.names()[0]).read_bytes()), (5, b"another"))
        self.assertIn(b"something else writes into this folder", notes)

    def test_a_file_that_gets_the_name_of_a_text_first(self) -> None:
        """It stays, also on a file system without links: it is made right before the call by which the text would get its name."""
        program = (
            "import errno, os, runpy, sys\n"
            "has_links, is_taken = map(int, sys.argv.pop(1).split(','))\n"
            "def before(call):\n"
            "    def first(source, target, *rest, **options):\n"
            "        if is_taken and os.path.basename(source).isdecimal() and not os.path.lexists(target):\n"
            "            with open(target, 'wb') as file:\n"
            "                file.write(b'another')\n"
            "        return call(source, target, *rest, **options)\n"
            "    return first\n"
            "def link(source, target):\n"
            "    if not has_links:\n"
            "        raise PermissionError(errno.EPERM, 'Operation not permitted', source)\n"
            "    own(source, target)\n"
            "own, os.link, os.replace = os.link, before(link), before(os.replace)\n"
            "runpy.run_module('gavyreto', run_name='__main__', alter_sys=True)\n")
        self.captured(conversation().frames)
        whole = self.texts()
        for switches, status, texts in (("1,0", 3, whole), ("0,0", 3, whole), ("1,1", 5, {self.names()[0]: b"another"}), ("0,1", 5, {self.names()[0]: b"another"})):
            words = [sys.executable, "-c", program, switches, "capture", "--program", PROGRAM, "capture", "out"]
            came = subprocess.run(words, cwd=self.folder, capture_output=True, check=False, **started())
            self.assertEqual((came.returncode, self.texts()), (status, texts), came.stderr)

    def test_a_capture_that_is_still_written(self) -> None:
        """What is there is read, and that it changed is told: by the line of the table that comes first it is under way."""
        program = (
            "import runpy\n"
            "from gavyreto.commands import capture\n"
            "put = capture.put\n"
            "def growing(text):\n"
            "    capture.put = put\n"
            "    put(text)\n"
            "    with open('capture', 'ab') as file:\n"
            "        file.write(bytes(8))\n"
            "capture.put = growing\n"
            "runpy.run_module('gavyreto', run_name='__main__', alter_sys=True)\n")
        self.captured(conversation().frames)
        whole = self.texts()
        words = [sys.executable, "-c", program, "capture", "--program", PROGRAM, "capture", "out"]
        came = subprocess.run(words, cwd=self.folder, capture_output=True, check=False, **started())
        lines = came.stderr.decode().splitlines()
        self.assertEqual((came.returncode, self.texts(), lines[0], lines[-1].split(":")[0]), (4, whole, "capture: it changed while it was read", "frames 22"))

    def test_files_that_are_compressed_or_come_by_a_pipe(self) -> None:
        made = captures.Capture()
        made.frames = conversation().frames
        with open(os.path.join(self.folder, "plain"), "wb") as file:
            made.write(file)
        with open(file.name, "rb") as plain, gzip.open(os.path.join(self.folder, "packed"), "wb") as packed:
            packed.write(plain.read())
        for words in ("plain out", "packed out", "- out < plain", "- out < packed", "<(cat plain) out", "<(head -c 1 packed; sleep 0.5; tail -c +2 packed) out"):
            command = f'exec {sys.executable} -m gavyreto capture --program "{PROGRAM}" {words}'
            given = started()
            given.pop("stdin")
            came = subprocess.run(["bash", "-c", command], cwd=self.folder, capture_output=True, check=False, **given)
            with self.subTest(words):
                self.assertEqual((came.returncode, self.texts()), (3, dict(zip(self.names(), map(text_of, RESPONSES)))))

    def test_packets_beside_texts(self) -> None:
        """As they came; if columns are refused, as they were rewritten."""
        made = captures.Capture()
        made.open()
        for data in (wire("orders"), wire("float")):
            made.send(captures.CLIENT, tds.packet(1, tds.statement("SELECT 1")))
            made.send(captures.SERVER, data)
        came, table = self.captured(made.frames, "pcap", "--packets")
        stem = "192.0.2.10.50123-192.0.2.20.1433"
        texts = self.texts()
        self.assertEqual((came.returncode, texts[f"{stem}.1.tds"], texts[f"{stem}.2.tds"]), (4, wire("orders"), wire("float")))
        came, table = self.captured(made.frames, "pcap", "--packets", "--adapt")
        texts = self.texts()
        self.assertEqual((came.returncode, texts[f"{stem}.1.tds"], texts[f"{stem}.2.csv"]), (0, wire("orders"), b'"id","ratio"\r\n1,NULL\r\n'))
        self.assertEqual(text_of(texts[f"{stem}.2.tds"]), texts[f"{stem}.2.csv"])

    def test_answers_that_say_how_they_ended(self) -> None:
        """By the bits of the last DONE: an error, an attention, an error of the server."""
        failed = "the server ended it with a failure, DONE 0x{:04x}, and told no error"
        for bit, said in ((0x0002, failed), (0x0020, "it was cancelled, DONE 0x{:04x}"), (0x0100, failed)):
            made = captures.Capture()
            made.open()
            made.send(captures.CLIENT, tds.packet(1, tds.statement("SELECT 1")))
            made.send(captures.SERVER, answered(served.done(bit)))
            came, table = self.captured(made.frames)
            wanted = f"sets 0 rows 0 errors 0 infos 0 written 0, the answer isn't whole: {said.format(bit)}"
            with self.subTest(bit):
                self.assertEqual((came.returncode, table[0]["line"]), (3, wanted))
            self.texts()

    def test_a_capture_that_is_cut(self) -> None:
        """By one byte: all before it is there, and it is told."""
        self.captured(conversation().frames)
        self.texts()
        path = os.path.join(self.folder, "capture")
        os.truncate(path, os.path.getsize(path) - 1)
        came = self.run_capture("capture", "out")
        self.assertEqual((came.returncode, [it for it in self.texts() if it.endswith(".csv")]), (4, self.names()[:2]))
        self.assertIn(b"the capture ends within a frame\n", came.stderr)

    def test_servers_on_other_ports_are_named(self) -> None:
        self.captured(conversation().frames)
        self.texts()
        came = self.run_capture("--port", "1434", "capture", "out")
        self.assertEqual(came.returncode, 4)
        self.assertIn(b"no server on port 1434; what looks like TDS is on port 1433: --port names another\n", came.stderr)

    def test_what_the_machine_refuses(self) -> None:
        """A folder whose name isn't UTF-8, and outputs that are full: a line and a status."""
        self.captured(conversation().frames)
        name = os.fsdecode(b"o\xff")
        self.assertEqual((self.run_capture("capture", name).returncode, self.run_capture("capture", name).returncode), (3, 2))
        command = f'exec {sys.executable} -m gavyreto capture --program "{PROGRAM}" capture other > /dev/full'
        came = subprocess.run(["sh", "-c", command], cwd=self.folder, capture_output=True, check=False, **started())
        self.assertEqual((came.returncode, came.stderr), (5, b"standard output: No space left on device\n"))
        export = capture.Export(argparse.Namespace(out="out", charset="utf-8"), mock.Mock())
        with mock.patch.object(capture, "Adapter", side_effect=OSError(27, "File too large")), self.assertRaisesRegex(Stopped, "^out: File too large$"):
            export._adapt(os.path.join(self.folder, "capture"))

    def test_a_signal_leaves_nothing_under_way(self) -> None:
        """SIGTERM, while the command waits for the rest of a capture."""
        made = captures.Capture()
        made.frames = conversation().frames[:20]
        command = [sys.executable, "-m", "gavyreto", "capture", "--program", PROGRAM, "-", "out"]
        with subprocess.Popen(command, cwd=self.folder, stdin=subprocess.PIPE, stdout=subprocess.PIPE, stderr=subprocess.PIPE, env=started()["env"]) as run:
            made.write(cast(BinaryIO, run.stdin))
            cast(BinaryIO, run.stdin).flush()
            cast(BinaryIO, run.stdout).readline()
            wait_for(lambda: any(Path(self.folder, "out").glob("*.csv")) and is_waiting(run.pid))
            run.terminate()
            self.assertEqual(cast(BinaryIO, run.stderr).read(), b"ended by SIGTERM\n")
        self.assertEqual((run.returncode, [it for it in os.listdir(os.path.join(self.folder, "out")) if not it.endswith(".csv")]), (143, []))

    def signalled(self, number: signal.Signals, at: int) -> tuple[subprocess.CompletedProcess[bytes], dict[str, bytes]]:
        """What the command gives to which a signal comes at a line, and what is in its folder once its programs have ended too."""
        out = tempfile.mkdtemp(dir=self.folder)
        came = stepped(number, at, ["capture", "--program", PROGRAM, "capture", out], "_interrupted", cwd=self.folder)
        wait_for(lambda: not running_in(self.folder))
        return came, {it.name: it.read_bytes() if it.is_file() else b"" for it in sorted(Path(out).rglob("*"))}

    def test_a_signal_at_any_time(self) -> None:
        """It is a line and a status, and leaves nothing but texts that are whole. Each line of the table has its text."""
        long = wire("kinds", 400, 32767)  # its text is written while it comes
        with mock.patch.object(captures, "SEGMENT", 50000), open(os.path.join(self.folder, "capture"), "wb") as file:
            made = conversation()
            made.send(captures.CLIENT, tds.packet(1, tds.statement("SELECT 1")))
            made.send(captures.SERVER, long)
            made.write(file)
        for number in (signal.SIGTERM, signal.SIGINT):
            whole, texts = self.signalled(number, 0)
            self.assertEqual((whole.returncode, list(texts.values())), (3, [text_of(data) for data in (*RESPONSES, long)]))
            for at in lines_of(whole, 22):
                with self.subTest(number=number, at=at):
                    came, left = self.signalled(number, at)
                    assert_signalled(self, number, came, whole)
                    lines = came.stdout.splitlines(keepends=True)
                    self.assertEqual(lines, whole.stdout.splitlines(keepends=True)[:len(lines)])
                    self.assertLessEqual(left.items(), texts.items())
                    self.assertLessEqual({line.split(b'"')[1].decode() for line in lines[1:]}, left.keys())

    def test_a_signal_while_the_folder_is_made(self) -> None:
        """Each of them waits, and the folder is removed."""
        program = (
            "import os, runpy, signal, sys, tempfile\n"
            "make, number = tempfile.mkdtemp, int(sys.argv.pop(1))\n"
            "def mkdtemp(*words, **options):\n"
            "    folder = make(*words, **options)\n"
            "    signal.raise_signal(number)\n"
            "    return folder\n"
            "tempfile.mkdtemp = mkdtemp\n"
            "runpy.run_module('gavyreto', run_name='__main__', alter_sys=True)\n")
        with open(os.path.join(self.folder, "capture"), "wb") as file:
            conversation().write(file)
        for number, line in (signal.SIGINT, b"interrupted\n"), (signal.SIGTERM, b"ended by SIGTERM\n"), (signal.SIGHUP, b"ended by SIGHUP\n"):
            out = tempfile.mkdtemp(dir=self.folder)
            words = [sys.executable, "-c", program, str(int(number)), "capture", "--program", PROGRAM, file.name, out]
            came = subprocess.run(words, capture_output=True, check=False, **started())
            self.assertEqual((came.returncode, came.stderr, os.listdir(out)), (128 + number, line, []))


class Written(Live):
    def test_captures_of_other_programs(self) -> None:
        """Written by `tcpdump`, `dumpcap` and `tshark`, of what `tsql`, `freebcp` and `pymssql` ask the stand-in. `tcpdump` has
        room for eight frames by default, and drops others while it can't write; with `-B 65536` for all."""
        need(self, "tcpdump", "dumpcap", "tshark", "tsql", "freebcp")
        if os.geteuid() != 0:
            skip(self, "only root may capture here")
        need_pymssql(self)
        self.script("client.sh", CLIENTS)
        came = self.beside(("--encrypt", "none"), "exec ./client.sh", FREETDSCONF=self.path("freetds.conf"), PYTHON=DEBIAN, CAPTURE=f"{sys.executable} -m gavyreto capture")
        self.assertEqual((came.returncode, came.stdout.decode().split()), (0, ["any", "0", "lo", "0", "ts", "0"]), came.stderr)
        for name in ("any", "lo", "ts"):
            texts = [self.text(os.path.join(name, it)) for it in sorted(os.listdir(self.path(name)))]
            self.assertEqual(texts.count(text_of(wire("orders"))), 2, name)
            self.assertEqual(texts.count(text_of(wire("sets"))), 1, name)
            subprocess.run(["rm", "-r", self.path(name)], check=True)


DEBIAN = "/usr/bin/python3"
CLIENTS = r"""set -eu
printf '[global]\ntds version = 7.4\nencryption = off\n[here]\nhost = 127.0.0.1\nport = %s\n' "$PORT" > freetds.conf
chmod 777 .
tcpdump -i any -s 0 -B 65536 -U --immediate-mode -w any.pcap "tcp port $PORT" 2> tcpdump.notes &
first=$!
dumpcap -q -i lo -w lo.pcapng -f "tcp port $PORT" 2> dumpcap.notes &
second=$!
tshark -q -i lo -w ts.pcapng -f "tcp port $PORT" 2> tshark.notes &
third=$!
until grep -q 'listening on' tcpdump.notes && grep -q '^File' dumpcap.notes && test -s ts.pcapng; do sleep 0.1; done
printf 'SELECT * FROM orders\ngo\nexit\n' | tsql -S here -U reader -P secret > rows 2>&1
freebcp orders out bcp.out -S here -U reader -P secret -c > bcp.notes
"$PYTHON" -c 'import os, pymssql
connection = pymssql.connect(server="127.0.0.1", port=os.environ["PORT"], user="reader", password="secret")
cursor = connection.cursor()
cursor.execute("SELECT * FROM sets")
cursor.fetchall()
connection.close()'
for file in any.pcap lo.pcapng ts.pcapng; do
    until [ "$(tshark -r $file -Y 'tcp.flags.fin == 1' -T fields -e tcp.srcport -e tcp.dstport 2> reading.notes | sort -u | wc -l)" -ge 6 ]; do sleep 0.2; done
done
kill $first $second $third
wait
for file in any.pcap lo.pcapng ts.pcapng; do
    name=${file%.*} status=0
    $CAPTURE --program "$PROGRAM" --port "$PORT" $file $name > $name.table 2> $name.notes || status=$?
    echo "$name $status"
done
"""


class Dumps(Live):
    def test_a_dump_of_a_client(self) -> None:
        """Of `tsql`, encrypted or not."""
        need(self, "tsql")
        settings = "[global]\ntds version = 7.4\nclient charset = UTF-8\nencryption = %s\n[here]\nhost = 127.0.0.1\nport = %s\n"
        for server, encryption in (("none", "off"), ("all", "require")):
            command = (
                f"printf '{settings}' {encryption} $PORT > freetds.conf; rm -rf out; printf 'SELECT * FROM orders\\nSELECT 2\\ngo\\nSELECT * FROM broken\\ngo\\nexit\\n' | "
                'TDSDUMP=$PWD/dump tsql -S here -U reader -P secret > rows 2> notes; exec $CAPTURE --program "$PROGRAM" dump out')
            came = self.beside(("--encrypt", server), command, FREETDSCONF=self.path("freetds.conf"), CAPTURE=f"{sys.executable} -m gavyreto capture")
            with self.subTest(server=server):
                self.assertEqual((came.returncode, came.stderr.count(b"\n")), (3, 1))
                lines = list(csv.DictReader(io.StringIO(came.stdout.decode(), newline="")))
                self.assertEqual([(it["text"], it["statement"], it["status"]) for it in lines], [
                    ("answer.1.csv", "SELECT * FROM orders SELECT 2", "0"), ("answer.2.csv", "SELECT * FROM broken", "3")])
                self.assertEqual(self.text(os.path.join("out", "answer.1.csv")), text_of(wire("orders")))
                self.assertEqual(self.text(os.path.join("out", "answer.2.csv")), text_of(wire("broken", 5000)))
            subprocess.run(["rm", "-r", self.path("out")], check=True)


if __name__ == "__main__":
    unittest.main()
