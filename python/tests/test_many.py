"""Tests of `many`: on this machine and on a Dask cluster, stopped and begun again, with workers and programs that are killed."""
from __future__ import annotations

import contextlib
import csv
import filecmp
import io
import itertools
import os
import shutil
import signal
import stat
import subprocess
import sys
import tempfile
import time
import unittest
from collections.abc import Callable, Generator, Iterator
from unittest import mock

from gavyreto import exporting, outcomes, program, tds
from gavyreto.commands.common import Stopped, checked_program, folder_of_texts, rename
from tests import test_adapt
from tests.beside import PROGRAM, ROOT, SECONDS, answered, exported, is_waiting, need, responses, running_in, served, skip, started, wait_for, wire

sys.path[:0] = [os.path.join(ROOT, "tools")]
from lib import requirements  # noqa: E402

KINDS, ERROR, FLOAT = wire("kinds", 40), wire("error"), wire("float")
COLUMNS = 12  # of the table
ALL = 1000  # more responses than there are
REFUSAL = "fault 10 RefusedColumn 1 FLTN at payload 15, written 0, unwritten 0"


# A program in place of tds_replay, which hands it one response after the other, and runs a command of the shell before each: it kills
# itself if that fails.
RELAY = """#!{python}
import os, subprocess, sys
if sys.argv[1] == "--version":
    os.execv({program!r}, sys.argv)
child = subprocess.Popen([{program!r}, *sys.argv[1:]], stdin=subprocess.PIPE)
def read(length):
    data = sys.stdin.buffer.read(length)
    child.stdin.write(data)
    return data
is_begun = False
while head := sys.stdin.buffer.peek(1):
    if not is_begun and subprocess.call(["sh", "-c", {hook!r}]):
        child.kill()
        os.kill(os.getpid(), 9)
    header = read(8)
    read(int.from_bytes(header[2:4], "big") - 8)
    is_begun = not header[1] & 1
    child.stdin.flush()
child.stdin.close()
sys.exit(child.wait())
"""


class Many(unittest.TestCase):
    folder: str

    def setUp(self) -> None:
        folder = tempfile.TemporaryDirectory()
        self.addCleanup(folder.cleanup)
        self.folder = folder.name
        os.mkdir(self.path("in"))

    def path(self, *names: str) -> str:
        return os.path.join(self.folder, *names)

    def store(self, count: int, **others: bytes) -> list[str]:
        """Stores good responses and others, and gives their names."""
        made = {f"{number:03}": KINDS for number in range(count)} | others
        for name, data in made.items():
            with open(self.path("in", name), "wb") as file:
                file.write(data)
        return sorted(made)

    def script(self, text: str) -> str:
        """A program in place of tds_replay, which can run it as $PROGRAM."""
        name = self.path("program")
        with open(name, "w", encoding="utf-8") as file:
            file.write(f"#!/bin/sh\nPROGRAM={PROGRAM}\n{text}\n")
        os.chmod(name, 0o755)
        return name

    def relaying(self, hook: str) -> str:
        """The program, before each of whose responses a command of the shell is run, which ends it if it fails."""
        name = self.path("program")
        with open(name, "w", encoding="utf-8") as file:
            file.write(RELAY.format(python=sys.executable, program=PROGRAM, hook=f"cd {self.folder}; {hook}"))
        os.chmod(name, 0o755)
        return name

    def holding(self, most: int) -> str:
        """A program that waits once the table has so many responses, and says so in the file `held`."""
        self.let(most)
        table, limit = self.path("out", "outcomes.csv"), self.path("most")
        has_most = f'test "$(wc -l < {table})" -gt "$(cat {limit})"'  # a line more: the names
        return self.relaying(f"echo run >> runs; while {has_most}; do : >> held; sleep 0.02; done 2> /dev/null; :")

    def let(self, most: int) -> None:
        """Lets programs that wait go on as long as the table has fewer responses."""
        with open(self.path("new"), "w", encoding="ascii") as file:
            file.write(str(most))
        os.replace(file.name, self.path("most"))

    @contextlib.contextmanager
    def beginning(self, *words: str, python: str = sys.executable) -> Iterator[subprocess.Popen[bytes]]:
        """A command under way. It is killed if something fails beside it."""
        with self.begin(*words, python=python) as process:
            try:
                yield process
            except BaseException:
                process.kill()
                raise

    def begin(self, *words: str, python: str = sys.executable) -> subprocess.Popen[bytes]:
        own = started()
        own["env"] |= {"PATH": os.path.dirname(PROGRAM) + os.pathsep + requirements.path()}
        command = [python, "-m", "gavyreto", "many", *words]
        return subprocess.Popen(command, cwd=self.folder, stdout=subprocess.PIPE, stderr=subprocess.PIPE, **own)

    def many(self, *words: str, python: str = sys.executable) -> tuple[int, str]:
        """The status of the command, and the last line that it says."""
        with self.beginning(*words, python=python) as process:
            out, said = process.communicate(timeout=SECONDS)
            self.assertEqual(out, b"")
            return process.returncode, (said.decode().splitlines() or [""])[-1]

    def interrupted(self, *words: str) -> tuple[int, str]:
        """The same of a command that is interrupted while its program waits, and its table has all that ended before."""
        with self.beginning(*words) as process:
            wait_for(lambda: os.path.exists(self.path("held")) and len(self.table()) == self.runs() - 1)
            process.send_signal(signal.SIGINT)
            wait_for(lambda: is_waiting(process.pid))
            self.let(ALL)
            return process.wait(SECONDS), process.communicate()[1].decode().splitlines()[-1]

    def table(self) -> list[tuple[str, int, str]]:
        """The lines of the table, by the names of their files."""
        try:
            with open(self.path("out", "outcomes.csv"), encoding="utf-8", newline="") as file:
                lines = [line for line in csv.reader(io.StringIO(file.read())) if len(line) == COLUMNS][1:]
        except FileNotFoundError:
            return []
        return sorted((os.path.basename(line[0]), int(line[1]), line[2]) for line in lines)

    def assert_texts(self, good: list[str], *others: str) -> None:
        """Each of these has its text, and beside the table and the others nothing is there."""
        self.assertEqual(sorted(os.listdir(self.path("out"))), sorted([*(f"{name}.csv" for name in good), *others, "outcomes.csv"]))
        self.assert_whole(good)

    def assert_whole(self, good: list[str]) -> None:
        """Each of these has the text of an export by hand."""
        wanted = subprocess.run([PROGRAM, "export"], input=KINDS, capture_output=True, check=True).stdout
        for name in good:
            with open(self.path("out", f"{name}.csv"), "rb") as file:
                self.assertEqual(file.read(), wanted, name)

    def runs(self) -> int:
        """How many responses the program in place of tds_replay had."""
        with open(self.path("runs"), encoding="utf-8") as file:
            return len(file.read().split())

    def made(self) -> dict[str, int]:
        """When each text was made."""
        return {entry.name: entry.stat().st_mtime_ns for entry in os.scandir(self.path("out")) if entry.name != "outcomes.csv"}


class Here(Many):
    def test_refused_columns_that_are_rewritten(self) -> None:
        """Each text is that of `adapt` of its file; with another option a file is done again."""
        names = ("refused", "variants", "float", "kinds")
        self.store(0, **{name: wire(name, 0, 512) for name in names}, cut=wire("refused")[:-20])
        self.assertEqual(self.many("in", "out")[0], 4)
        self.assertEqual(self.many("--adapt", "in", "out")[0], 4)
        for name in names:
            with open(self.path("out", name + ".csv"), "rb") as file:
                self.assertEqual(file.read(), exported(test_adapt.adapted(wire(name, 0, 512)))[1])
        with open(self.path("out", "cut.csv.partial"), "rb") as file:
            self.assertTrue(test_adapt.refused_text().startswith(file.read()))

    def test_each_response_has_its_text_and_its_line(self) -> None:
        names = self.store(6, failed=ERROR, refused=FLOAT)
        self.assertEqual(self.many("--program", PROGRAM, "in", "out"), (4, "8 responses: 6 done, 1 with an error of the server, 1 refused, 0 failed"))
        self.assert_texts(names[:6], "failed.csv", "refused.csv.partial")
        statuses = [(name, status) for name, status, _ in self.table()]
        self.assertEqual(statuses, [*((name, 0) for name in names[:6]), ("failed", 3), ("refused", 4)])
        self.assertEqual(self.table()[-1][2], REFUSAL)

    def test_a_command_that_was_stopped_goes_on(self) -> None:
        names = self.store(8)
        slow = self.holding(3)
        status, line = self.interrupted("-j", "1", "--program", slow, "in", "out")
        self.assertEqual((status, line), (130, "interrupted: begun again it goes on from here"))
        with open(self.path("out", "outcomes.csv"), "ab") as file:
            file.write(b'"/torn')  # a line whose writing was stopped
        whole = len(self.table())
        self.assertEqual(self.many("-j", "1", "--program", slow, "in", "out")[0], 0)
        self.assert_texts(names)
        self.assertEqual([name for name, _, _ in self.table()], names)
        self.assertLessEqual(self.runs() - len(names), 1, "at most the one that was under way runs again")
        self.assertGreaterEqual(whole, 3)
        before = self.runs()
        self.assertEqual(self.many("--program", slow, "in", "out")[0], 0)
        self.assertEqual(self.runs(), before)

    def test_a_program_that_hangs_keeps_no_command(self) -> None:
        """One that is stopped doesn't wait for the end of a response, nor begins another."""
        self.store(4)
        hanging = self.script('test "$1" = --version && exec $PROGRAM --version\necho run >> runs\nexec sleep 1000')
        for number, status in (signal.SIGTERM, 143), (signal.SIGINT, 130):
            with self.subTest(number=number), self.beginning("-j", "2", "--program", hanging, "in", "out") as process:
                wait_for(lambda: os.path.exists(self.path("runs")) and self.runs() == 2)
                process.send_signal(number)
                self.assertEqual((process.wait(SECONDS), process.communicate()[1].count(b"\n")), (status, 1))
                self.assertEqual((self.runs(), os.listdir(self.path("out"))), (2, ["outcomes.csv"]))
                os.remove(self.path("runs"))

    def test_a_program_that_does_not_say_its_version(self) -> None:
        hanging = self.script("exec sleep 1000")
        with mock.patch.object(program, "SECONDS_OF_VERSION", 0.2), self.assertRaisesRegex(Stopped, "--version doesn't end within 0.2 seconds"):
            checked_program(hanging)

    def test_what_changed_or_lost_its_text_is_done_again(self) -> None:
        names = self.store(3)
        self.many("--program", PROGRAM, "in", "out")
        before = self.made()
        later = time.time() + 10
        os.utime(self.path("in", names[0]), (later, later))
        os.remove(self.path("out", f"{names[1]}.csv"))
        self.assertEqual(self.many("--program", PROGRAM, "in", "out")[0], 0)
        after = self.made()
        self.assertEqual([name for name in after if after[name] != before.get(name)], [f"{name}.csv" for name in names[:2]])
        self.assert_texts(names)

    def test_what_differs_from_its_line_is_done_again(self) -> None:
        """A file in the place of another one, older and as long; other options; another program; a text that was cut."""
        name, = self.store(1)
        logged = self.relaying("echo run >> runs")
        file, text = self.path("in", name), self.path("out", f"{name}.csv")
        self.many("--program", logged, "in", "out")
        count = 1

        def replaced() -> None:
            os.rename(file, self.path("before"))
            self.store(1)
            os.utime(file, ns=(1, os.stat(self.path("before")).st_mtime_ns - 10**9))

        def same_time() -> None:
            os.rename(file, self.path("before"))
            self.store(1)
            os.utime(file, ns=(1, os.stat(self.path("before")).st_mtime_ns))

        def same_inode() -> None:
            """Others rows in the same file, with the same length and time: only the time of the change differs."""
            written = os.stat(file).st_mtime_ns
            with open(file, "r+b") as it:
                it.write(KINDS)
            os.utime(file, ns=(1, written))

        def same_length() -> None:
            """Other rows in the text, with its length and its time."""
            written = os.stat(text).st_mtime_ns
            with open(text, "r+b") as it:
                it.write(b"x")
            os.utime(text, ns=(1, written))

        changes: list[tuple[Callable[[], None], tuple[str, ...]]] = [
            (lambda: None, ("--column-room", "90000")), (lambda: None, ()), (lambda: None, ("--column-room", "100000")), (lambda: None, ()),
            (replaced, ()), (same_time, ()), (same_inode, ()), (lambda: os.truncate(text, 20), ()), (same_length, ()),
        ]
        for change, words in changes:
            change()
            for _ in range(2):
                self.assertEqual(self.many(*words, "--program", logged, "in", "out")[0], 0)
                self.assert_texts([name])
            count += 1
            self.assertEqual(self.runs(), count)
        newer = self.relaying("echo run >> runs; :")  # another build, which says the same of its version
        self.assertEqual(self.many("--program", newer, "in", "out")[0], 0)
        self.assertEqual(self.runs(), count + 1)

    def test_a_text_of_before_does_not_stay_beside_another(self) -> None:
        for data, status, text in ((KINDS, 0, "x.csv"), (FLOAT, 4, "x.csv.partial"), (KINDS, 0, "x.csv")):
            self.store(0, x=data)
            self.assertEqual(self.many("--program", PROGRAM, "in", "out")[0], status)
            self.assertEqual(sorted(os.listdir(self.path("out"))), ["outcomes.csv", text])
        killed = self.script('test "$1" = --version || kill -KILL $$; exec "$PROGRAM" "$@"')
        self.store(0, x=FLOAT)
        self.assertEqual(self.many("--program", killed, "in", "out")[0], 5)
        self.assertEqual(os.listdir(self.path("out")), ["outcomes.csv"])

    def test_a_file_that_changes_while_it_is_read(self) -> None:
        self.store(1)
        changing = self.relaying("printf x >> in/000")
        self.assertEqual(self.many("--program", changing, "in", "out")[0], 5)
        self.assertEqual(self.table(), [("000", 5, f"{self.path('in', '000')}: it changed while it was read")])

    def test_a_program_that_changes_while_it_runs(self) -> None:
        """Its text isn't that of the other one, with whose digest its line would be believed."""
        self.store(1)
        shutil.copy(self.relaying(":; :"), self.path("next"))
        changing = self.relaying(f"if [ -e next ]; then mv next {self.path('program')}; fi")
        self.assertEqual(self.many("--program", changing, "in", "out")[0], 5)
        self.assertEqual(self.table(), [("000", 5, f"{changing}: it changed while it ran")])
        self.assertEqual(self.many("--program", changing, "in", "out")[0], 0)

    def test_a_program_that_is_killed_costs_its_own_response(self) -> None:
        names = self.store(4)
        killed = self.relaying('echo run >> runs; test -e again || test "$(wc -l < runs)" != 2')
        self.assertEqual(self.many("-j", "1", "--program", killed, "in", "out"), (5, "4 responses: 3 done, 0 with an error of the server, 0 refused, 1 failed"))
        self.assert_texts([names[0], *names[2:]])
        self.assertEqual(self.table()[1], ("001", 137, "tds_replay was ended by the signal 9"))
        open(self.path("again"), "w").close()
        self.assertEqual(self.many("--program", killed, "in", "out")[0], 0)
        self.assert_texts(names)
        self.assertEqual([(name, status) for name, status, _ in self.table()], [(name, 0) for name in names])

    def test_a_program_that_says_less_than_it_wrote_is_not_believed(self) -> None:
        self.store(1)
        for text in ('"$PROGRAM" "$@" | head -c 50; echo "sets 1 rows 40 errors 0 infos 0 written 17000" >&2', 'test "$1" = --version || exit 0; exec "$PROGRAM" "$@"'):
            self.assertEqual(self.many("--program", self.script(text), "in", "out")[0], 5)
            self.assert_texts([])

    def test_what_cannot_be_used_is_refused_before_anything_runs(self) -> None:
        self.store(1)
        os.mkdir(self.path("other"))
        with open(self.path("other", "000"), "wb") as file:
            file.write(KINDS)
        os.mkdir(self.path("foreign"))
        with open(self.path("foreign", "outcomes.csv"), "w", encoding="utf-8") as table:
            table.write("a,b\r\n1,2\r\n")
        cases = [
            (["in", "other", "out"], f"{self.path('in', '000')} and {self.path('other', '000')} would have one text: export them to two folders"),
            (["in", "in"], "in is the folder of the texts too: name another one for them"),
            (["in", "foreign"], f"{self.path('foreign', 'outcomes.csv')} isn't a table of this command"),
            (["--program", "nothere", "in", "out"], "the program nothere isn't there, or can't be run"),
        ]
        for words, line in cases:
            with self.subTest(line):
                self.assertEqual(self.many(*words), (2, line))
                self.assertFalse(os.path.exists(self.path("out", "000.csv")))
        os.mkdir(self.path("empty"))
        self.assertEqual(self.many("--program", PROGRAM, "empty", "out"), (2, "empty: an empty folder"))
        self.assertEqual(self.many("--program", PROGRAM, "nothere", "out"), (5, "1 responses: 0 done, 0 with an error of the server, 0 refused, 1 failed"))
        self.assertEqual(self.table(), [("nothere", 5, f"cannot read {self.path('nothere')}: No such file or directory")])

    def test_foreign_files_stay(self) -> None:
        """Another table, also one that ends its lines otherwise, and texts of which no table tells."""
        self.store(1)
        for name, data in (("outcomes.csv", b"a,b\n1,2\n"), ("outcomes.csv", b'"file","status","line"\n'), ("outcomes.csv", b"\0" * 100), ("mine.csv", b"x"), ("mine.csv.partial", b"")):
            with self.subTest(name=name, data=data), tempfile.TemporaryDirectory(dir=self.folder) as folder:
                with open(os.path.join(folder, name), "wb") as file:
                    file.write(data)
                status, line = self.many("--program", PROGRAM, "in", folder)
                self.assertEqual((status, os.listdir(folder)), (2, [name]), line)
                with open(file.name, "rb") as left:
                    self.assertEqual(left.read(), data)

    def test_who_may_read_what_is_replaced(self) -> None:
        """Nobody reads a text, or the table, from whom the one before was kept; nor while it waits for its name."""
        self.store(1)
        modes = self.relaying(f"stat -c %a {self.path('out')}/* > modes")
        self.assertEqual(self.many("--program", PROGRAM, "in", "out")[0], 0)
        for name, mode in (("000.csv", 0o640), ("outcomes.csv", 0o600)):
            os.chmod(self.path("out", name), mode)
        os.rename(self.path("out", "000.csv"), self.path("out", "000.csv.partial"))
        self.assertEqual(self.many("--program", modes, "in", "out")[0], 0)
        self.assertEqual([os.stat(self.path("out", name)).st_mode & 0o777 for name in ("000.csv", "outcomes.csv")], [0o640, 0o600])
        with open(self.path("modes"), encoding="ascii") as file:
            self.assertEqual({*file.read().split()}, {"640", "600"})

    def test_what_a_run_left_that_was_killed(self) -> None:
        """A table that isn't whole makes room, whoever may read it; so does a link, and what that leads to stays."""
        self.store(1)
        os.mkdir(self.path("out"))
        with open(self.path("out", "outcomes.csv"), "wb") as table, open(self.path("another"), "wb") as another:
            another.write(b"another")
        os.chmod(table.name, 0o600)
        ways: tuple[Callable[[str, str], object], ...] = shutil.copyfile, os.symlink
        for lay in ways:
            lay(another.name, table.name + ".unfinished")
            self.assertEqual(self.many("--program", PROGRAM, "in", "out")[0], 0)
            self.assertEqual((os.lstat(table.name).st_mode, os.stat(another.name).st_size), (stat.S_IFREG | 0o600, 7))

    def test_a_table_that_is_saved_meanwhile(self) -> None:
        """By an editor that makes another file of its name, or writes into it what was there before, also one as long: the run ends, as lines
        are lost."""
        self.store(3)
        swapped = "{ tr 0-9 1-90 < out/outcomes.csv > other; cat other > out/outcomes.csv; }"
        for save in ("mv saved out/outcomes.csv", "cat saved > out/outcomes.csv", swapped):
            saving = self.relaying(f"test -f saved || cp out/outcomes.csv saved; test ! -f out/000.csv || {save}; :")
            line = f"{self.path('out', 'outcomes.csv')}: something else writes it too, and lines are lost"
            self.assertEqual(self.many("-j", "1", "--program", saving, "in", "out"), (5, line))
            shutil.rmtree(self.path("out"))
            with contextlib.suppress(FileNotFoundError):
                os.remove(self.path("saved"))

    def test_what_is_under_way_has_ended_before_its_text_is_removed(self) -> None:
        def records() -> Generator[exporting.Record, None, None]:
            try:
                yield exporting.Record("a", 5, "")
            finally:
                open(self.path("in", f"host.1.2.3{outcomes.UNFINISHED}"), "w").close()

        table = outcomes.Table(self.path("in"), exporting.Record, "file")
        table.begin([])
        with mock.patch.object(table, "add", side_effect=Stopped("lines are lost", 5)), self.assertRaises(Stopped):
            table.fill(records(), outcomes.Progress("responses", 1, 0))
        self.assertEqual(os.listdir(self.path("in")), [outcomes.TABLE])

    def test_a_foreign_file_that_comes_meanwhile(self) -> None:
        """It stays, by whatever name of a text, and the response has failed if it would have that; also where a text was before."""
        self.store(1)
        for name, line in (("000.csv", (5, "000.csv: File exists")), ("000.csv.partial", (0, "sets 1 rows 40"))):
            for was_there in (False, True):
                putting = self.relaying(f"printf another > out/{name}")
                if was_there:
                    self.assertEqual(self.many("--program", PROGRAM, "in", "out")[0], 0)
                    os.replace(self.path("out", "000.csv"), self.path("out", name))
                self.assertEqual(self.many("--program", putting, "in", "out")[0], line[0])
                self.assertEqual([(status, it[:len(line[1])]) for _, status, it in self.table()], [line])
                with open(self.path("out", name), "rb") as file:
                    self.assertEqual(file.read(), b"another")
                shutil.rmtree(self.path("out"))

    def test_an_earlier_text_that_is_written_anew_meanwhile(self) -> None:
        """It stays, also with the size and the time that it had."""
        self.store(1)
        self.assertEqual(self.many("--program", PROGRAM, "in", "out")[0], 0)
        writing = self.relaying("cp -p out/000.csv old; tr 0-9 1-90 < old > new; cat new > out/000.csv; touch -r old out/000.csv")
        self.assertEqual(self.many("--program", writing, "in", "out")[0], 5)
        self.assertEqual(self.table()[0][1:], (5, "000.csv: File exists"))
        with open(self.path("out", "000.csv"), "rb") as text, open(self.path("new"), "rb") as new:
            self.assertEqual(text.read(), new.read())

    def test_a_table_that_is_cut_or_damaged(self) -> None:
        """Of one that is cut anywhere the whole lines count; one that lacks a byte elsewhere, or has another, keeps its lines or is none."""
        records = [exporting.Record(f"/in/{name}", 0, "sets 1", f"{name}.csv", 5, 6, 1, 2, 3, 4, "--x", "p") for name in ("a", 'b"\r\nc', "d")]
        table = outcomes.Table(self.path("in"), exporting.Record, "file")
        lines = [table._header, *map(outcomes._line_of, records)]
        whole, ends, is_refused = b"".join(lines), [*itertools.accumulate(map(len, lines))], 0
        for at in range(ends[0], ends[-1] + 1):
            self.assertEqual(table._records_in(whole[:at]), records[:sum(end <= at for end in ends) - 1])
            for wrong in (b"", b'"', b"\r\n", b",", b"0"):
                found = table._records_in(whole[:at] + wrong + whole[at + 1:])
                is_refused += found is None
                if at < ends[-2] - 2:
                    with self.subTest(at=at, wrong=wrong):
                        self.assertTrue(found is None or len(found) == 3, found)
        self.assertGreater(is_refused, 100)

    def test_names_that_meet(self) -> None:
        """The text of another file of a later run, and that of a file with the name of the table."""
        self.store(1)
        self.many("--program", PROGRAM, "in", "out")
        os.mkdir(self.path("other"))
        with open(self.path("other", "000"), "wb") as file:
            file.write(ERROR)
        status, line = self.many("--program", PROGRAM, "other", "out")
        self.assertEqual((status, line), (2, f"000.csv is the text of {self.path('in', '000')}: export {self.path('other', '000')} to another folder"))
        self.assertEqual(self.many("--program", PROGRAM, "in", "out")[0], 0)
        self.assert_texts(["000"])
        with open(self.path("out", "000.csv.partial"), "wb") as file:
            file.write(ERROR)
        status, line = self.many("--program", PROGRAM, "in", "out/000.csv.partial", "out")
        self.assertEqual((status, line), (2, f"000.csv.partial would be the text of {self.path('in', '000')}, and is a file to export: name another folder"))
        os.remove(file.name)
        self.store(0, outcomes=KINDS)
        status, line = self.many("--program", PROGRAM, "in", "out")
        self.assertEqual((status, line), (2, f"{self.path('in', 'outcomes')}: its text would have the name of the table, outcomes.csv: give the file another name"))

    def test_names_that_differ_by_case(self) -> None:
        """They are refused in a folder that has no case: here a link stands for the second name of its table."""
        self.store(0, Straße=KINDS, STRASSE=KINDS)
        self.assertEqual(self.many("--program", PROGRAM, "in", "out")[0], 0)
        os.remove(self.path("out", "outcomes.csv"))
        for name in "STRASSE.csv", "Straße.csv":
            os.remove(self.path("out", name))
        os.symlink("outcomes.csv.unfinished", self.path("out", "OUTCOMES.CSV.UNFINISHED"))
        line = "STRASSE and Straße would have one text, as this folder has no case: name another one"
        self.assertEqual((self.many("--program", PROGRAM, "in", "out"), os.listdir(self.path("out"))), ((2, line), ["OUTCOMES.CSV.UNFINISHED"]))

    def test_a_table_that_cannot_begin(self) -> None:
        """Nothing is left of it, nor of the folders that were made for it."""
        self.store(1)
        command = f"ulimit -f 0; trap '' XFSZ; exec {sys.executable} -m gavyreto many --program {PROGRAM} in new/out"
        ran = subprocess.run(["sh", "-c", command], cwd=self.folder, capture_output=True, check=False, **started())
        table = self.path("new", "out", "outcomes.csv.unfinished")
        self.assertEqual((ran.returncode, ran.stderr.decode()), (5, f"{table}: File too large\n"))
        self.assertFalse(os.path.exists(self.path("new")))

    def test_a_name_that_fails_where_there_are_no_links(self) -> None:
        """Nothing has the name of a text that couldn't get it, and a text keeps its name whatever comes right after it got that."""
        path, target = self.path("waiting"), self.path("text")
        own = os.replace

        def interrupted(source: str, target: str) -> None:
            own(source, target)
            raise KeyboardInterrupt

        for replace, kind, left in ((OSError(5, "no"), OSError, path), (interrupted, KeyboardInterrupt, target)):
            with open(path, "wb") as file:
                file.write(KINDS)
            with mock.patch("os.link", side_effect=PermissionError(1, "no")), mock.patch("os.replace", side_effect=replace):
                self.assertRaises(kind, rename, path, target)
            self.assertEqual([os.path.getsize(it) for it in (path, target) if os.path.lexists(it)], [len(KINDS)])
            self.assertTrue(os.path.exists(left))

    def test_a_name_that_something_else_takes_where_there_are_no_links(self) -> None:
        """What has taken the name of a text meanwhile stays where the text can't get it."""
        path, target, other = self.path("waiting"), self.path("text"), self.path("other")
        own = os.replace

        def overtaken(source: str, target: str) -> None:
            own(other, target)
            raise OSError(5, "no")

        for name, data in ((path, KINDS), (other, b"other")):
            with open(name, "wb") as file:
                file.write(data)
        with mock.patch("os.link", side_effect=PermissionError(1, "no")), mock.patch("os.replace", side_effect=overtaken):
            self.assertRaises(OSError, rename, path, target)
        with open(target, "rb") as taken:
            self.assertEqual((taken.read(), os.path.getsize(path)), (b"other", len(KINDS)))

    def test_a_folder_that_cannot_be_kept(self) -> None:
        """Where a file system has no locks a line says so, and no folder is left that was made; one that another command has stays."""
        for failure, line, is_left in ((OSError(38, "no"), f"a lock of {self.path('new', 'out')}: no", False), (BlockingIOError(), "another command", True)):
            with mock.patch("fcntl.flock", side_effect=failure), self.assertRaisesRegex(Stopped, line), folder_of_texts(self.path("new", "out")):
                self.fail("it is kept")
            self.assertEqual(os.path.exists(self.path("new")), is_left)

    def test_what_is_no_file_in_a_folder(self) -> None:
        """A link to nothing, a pipe and a folder have a line and the status 5."""
        self.store(1)
        os.symlink("nothing", self.path("in", "link"))
        os.mkfifo(self.path("in", "pipe"))
        os.mkdir(self.path("in", "within"))
        self.assertEqual(self.many("--program", PROGRAM, "in", "out"), (5, "4 responses: 1 done, 0 with an error of the server, 0 refused, 3 failed"))
        self.assertEqual([(name, status) for name, status, _ in self.table()], [("000", 0), ("link", 5), ("pipe", 5), ("within", 5)])
        self.assertEqual([line.rpartition(": ")[2] for _, _, line in self.table()[1:]], ["No such file or directory", "no regular file", "no regular file"])

    def test_texts_in_a_folder_of_files(self) -> None:
        """The folder of the texts within that of the files is no file, whether or not it is there."""
        self.store(1)
        os.symlink("in", self.path("also"))
        for out in ("in/texts", "in/texts", "also/texts"):
            self.assertEqual(self.many("--program", PROGRAM, "in", out), (0, "1 responses: 1 done, 0 with an error of the server, 0 refused, 0 failed"))

    def test_a_table_that_is_a_pipe(self) -> None:
        self.store(1)
        os.mkdir(self.path("out"))
        os.mkfifo(self.path("out", "outcomes.csv"))
        self.assertEqual(self.many("--program", PROGRAM, "in", "out"), (2, f"{self.path('out', 'outcomes.csv')} isn't a table of this command"))

    def test_an_output_that_is_an_input_by_another_name(self) -> None:
        self.store(1)
        self.many("--program", PROGRAM, "in", "out")
        with open(self.path("out", "000.csv.partial"), "wb") as file:
            file.write(KINDS)
        os.symlink("out", self.path("alias"))
        status, line = self.many("--program", PROGRAM, "in", "alias/000.csv.partial", "out")
        self.assertEqual((status, line), (2, f"000.csv.partial would be the text of {self.path('in', '000')}, and is a file to export: name another folder"))

    def test_a_link_that_turns(self) -> None:
        """The text of a name is that of the file whose stamp its line has."""
        os.mkdir(self.path("files"))
        for name, data in (("a", KINDS), ("b", wire("orders", 5))):
            with open(self.path("files", name), "wb") as file:
                file.write(data)
        os.symlink(self.path("files", "a"), self.path("in", "link"))
        turning = self.relaying(f"ln -sfn {self.path('files', 'b')} in/new; mv -T in/new in/link")
        self.many("--program", turning, "in/link", "out")
        self.assert_whole(["link"])
        self.assertEqual(self.many("--program", PROGRAM, "in/link", "out")[0], 0)
        with open(self.path("out", "link.csv"), "rb") as text:
            self.assertTrue(text.read().startswith(b'"id","customer"'))

    def test_what_is_above_a_link(self) -> None:
        """A file and a folder of texts are those that other programs find by these names."""
        self.store(1)
        os.makedirs(self.path("real", "within"))
        os.symlink("real/within", self.path("link"))
        for place, data in (("real", KINDS), (".", wire("orders"))):
            with open(self.path(place, "a"), "wb") as file:
                file.write(data)
        self.assertEqual(self.many("--program", PROGRAM, "link/../a", "in", "link/../out")[0], 0)
        os.rename(self.path("real", "out"), self.path("out"))
        self.assert_texts(["000", "a"])

    def test_a_folder_to_run_in_that_is_removed(self) -> None:
        self.store(1)
        words = f"many --program {PROGRAM} {self.path('in')} {self.path('out')}"
        command = f"mkdir gone; cd gone; rmdir ../gone; exec {sys.executable} -m gavyreto {words}"
        came = subprocess.run(["sh", "-euc", command], cwd=self.folder, capture_output=True, check=False, **started())
        self.assertEqual((came.returncode, came.stderr), (0, b"1 responses: 1 done, 0 with an error of the server, 0 refused, 0 failed\n"))

    def test_names_of_any_kind(self) -> None:
        """Names that aren't UTF-8, have line ends, quotes or controls, or are too long for a text."""
        self.store(1)
        names = [b"\xff\xfe", b'a"b\r\nc,\x1b', b"n" * 250, b"n" * 251, b"n" * 252]
        for name in names:
            with open(os.path.join(os.fsencode(self.path("in")), name), "wb") as file:
                file.write(KINDS)
        for _ in range(2):
            self.assertEqual(self.many("--program", PROGRAM, "in", "out"), (5, "6 responses: 5 done, 0 with an error of the server, 0 refused, 1 failed"))
            texts = {name for name in os.listdir(os.fsencode(self.path("out")))}
            self.assertEqual(texts, {b"000.csv", b"outcomes.csv", *(name + b".csv" for name in names[:4])})

    def test_names_beyond_ascii_where_python_knows_no_others(self) -> None:
        """What is done is known by the line that it has, whatever Python takes names for."""
        with open(self.path("in", "nö"), "wb") as file:
            file.write(KINDS)
        made = []
        for variables in ({"LC_ALL": "C.UTF-8"}, {"LC_ALL": "C", "PYTHONUTF8": "0"}, {"LC_ALL": "C", "PYTHONUTF8": "0"}):
            with mock.patch.dict(os.environ, variables):
                self.assertEqual(self.many("--program", PROGRAM, "in", "out")[0], 0)
            made.append(self.made())
        self.assertEqual((made[1:], [name for name, _, _ in self.table()]), (made[:1] * 2, ["nö"]))

    def test_a_response_that_the_server_ended_unfinished(self) -> None:
        self.store(0, cancelled=answered(*list(responses.order_rows(0)), served.done(tds.CANCELLED)))
        self.assertEqual(self.many("--program", PROGRAM, "in", "out"), (3, "1 responses: 0 done, 1 with an error of the server, 0 refused, 0 failed"))
        self.assertEqual(self.table(), [("cancelled", 3, "the answer isn't whole: it was cancelled, DONE 0x0020")])

    def test_what_is_behind_a_response(self) -> None:
        """Whatever it is, and wherever the blocks end in which the file is read: the text has one response, and isn't all of the file."""
        more = "more is behind the response, which isn't read: gavyreto capture reads all that a server sent"
        long = wire("kinds", 4000)  # of several blocks
        self.store(0, one=KINDS + KINDS, two=KINDS + b"\0", three=long + b"\4", failed=wire("broken", 3) + KINDS, whole=KINDS)
        for word in ("--jobs=1", "--adapt"):
            self.assertEqual(self.many("--program", PROGRAM, word, "in", "out"), (4, "5 responses: 1 done, 0 with an error of the server, 4 refused, 0 failed"))
            self.assertEqual([(name, status, line.endswith(f"; {more}")) for name, status, line in self.table()], [
                ("failed", 4, True), ("one", 4, True), ("three", 4, True), ("two", 4, True), ("whole", 0, False)])
            self.assertTrue(filecmp.cmp(self.path("out", "one.csv.partial"), self.path("out", "whole.csv"), shallow=False))

    def test_two_commands_do_not_share_a_folder(self) -> None:
        self.store(2)
        with self.beginning("-j", "1", "--program", self.holding(0), "in", "out") as first:
            wait_for(lambda: os.path.exists(self.path("held")))
            self.assertEqual(self.many("--program", PROGRAM, "in", "out"), (2, f"{self.path('out')}: another command writes there"))
            self.let(ALL)
            self.assertEqual(first.wait(SECONDS), 0)
            first.communicate()

    def test_a_folder_that_is_replaced(self) -> None:
        """Texts and table would be in two."""
        folder = self.path("out")
        for replaced in True, False:
            with self.assertRaisesRegex((Stopped, FileNotFoundError), f"{folder}: another folder has its name now|No such file"), folder_of_texts(folder):
                os.rename(folder, folder + ".before")
                if replaced:
                    os.mkdir(folder)
            shutil.rmtree(folder, ignore_errors=True)
            os.rmdir(folder + ".before")

    def test_a_full_disk_leaves_no_text(self) -> None:
        self.store(1)
        command = f"ulimit -f 8; trap '' XFSZ; exec {sys.executable} -m gavyreto many --program {PROGRAM} in out"
        came = subprocess.run(["sh", "-c", command], cwd=self.folder, capture_output=True, check=False, **started())
        self.assertEqual((came.returncode, came.stderr.decode().splitlines()[-1]), (5, "1 responses: 0 done, 0 with an error of the server, 0 refused, 1 failed"))
        self.assertEqual(self.table()[0][2], f"{self.path('out')}: File too large")
        self.assert_texts([])

    def test_a_full_disk_for_the_table(self) -> None:
        self.store(0, **{f"{number:03}": tds.packet(4, served.done()) for number in range(40)})
        command = f"ulimit -f 8; trap '' XFSZ; exec {sys.executable} -m gavyreto many -j 1 --program {PROGRAM} in out"
        came = subprocess.run(["sh", "-c", command], cwd=self.folder, capture_output=True, check=False, **started())
        self.assertEqual((came.returncode, came.stdout, came.stderr.decode()), (5, b"", f"{self.path('out', 'outcomes.csv')}: File too large\n"))
        self.assertEqual(self.many("--program", PROGRAM, "in", "out")[0], 0)
        self.assertEqual(len(self.table()), 40)


class NoCluster(Many):
    def test_a_scheduler_that_is_not_there(self) -> None:
        """A file that doesn't come, one that is none, and an address where nobody is."""
        if not requirements.has_module(requirements.DEBIAN_PYTHON, "distributed"):
            skip(self, "Python's module distributed isn't there: `make needs` installs it")
        self.store(1)
        with open(self.path("text"), "w", encoding="ascii") as file:
            file.write("no scheduler")
        script = "import sys; from gavyreto.commands import common, many; from gavyreto import __main__; many.SECONDS_OF_SCHEDULER = 1; sys.exit(__main__.ended(sys.argv[1:]))"
        for where, status, line in (
            ("nothere", 2, "nothere is neither an address with a port nor the file of a scheduler\n"), ("127.0.0.1", 2, "127.0.0.1 is neither an address"),
            ("text", 5, "the scheduler text can't be reached: "), ("tcp://127.0.0.1:9", 5, "the scheduler tcp://127.0.0.1:9 can't be reached: "),
        ):
            command = [requirements.DEBIAN_PYTHON, "-c", script, "many", "--scheduler", where, "--program", PROGRAM, "in", "out"]
            came = subprocess.run(command, cwd=self.folder, capture_output=True, check=False, timeout=SECONDS, **started())
            with self.subTest(where=where):
                self.assertEqual((came.returncode, came.stdout, came.stderr.count(b"\n")), (status, b"", 1), came.stderr.decode())
                self.assertTrue(came.stderr.decode().startswith(line), came.stderr)


class OnCluster(Many):
    """On a cluster of a scheduler and two workers on this machine."""

    def setUp(self) -> None:
        super().setUp()
        need(self, "dask-scheduler", "dask-worker")
        if not requirements.has_module(requirements.DEBIAN_PYTHON, "distributed"):
            skip(self, "Python's module distributed isn't there: `make needs` installs it")

    def start_all(self) -> None:
        """Starts the scheduler and the workers."""
        self.scheduler = self.start("dask-scheduler", "--port", "0", "--no-dashboard")
        self.workers = [self.start("dask-worker", "--nthreads", "1", "--no-nanny", "--no-dashboard", "--local-directory", name) for name in ("one", "two")]

    def end_all(self) -> None:
        """Ends the workers, and waits for their programs."""
        for worker in self.workers:
            worker.kill()
            worker.wait(SECONDS)
        wait_for(lambda: not running_in(self.folder))

    def start(self, *words: str) -> subprocess.Popen[bytes]:
        own = started()
        own["env"] |= {"PATH": os.path.dirname(PROGRAM) + os.pathsep + requirements.path()}
        command = [*words, "--host", "127.0.0.1", "--scheduler-file", "scheduler.json"]
        process = subprocess.Popen(command, cwd=self.folder, stdout=subprocess.DEVNULL, stderr=subprocess.DEVNULL, **own)
        self.addCleanup(process.wait)
        self.addCleanup(process.kill)
        return process

    def test_a_scheduler_that_dies(self) -> None:
        """What it had is told as failed, in the table and by the status, and nothing is said besides. Each line of success has its
        text, once all have ended too, and a run on this machine makes the others."""
        names = self.store(60)
        for count in (1, 5, 40):
            with self.subTest(count=count):
                self.start_all()
                words = ["--scheduler", "scheduler.json", "--program", self.holding(count), "in", "out"]
                with self.beginning(*words, python=requirements.DEBIAN_PYTHON) as process:
                    wait_for(lambda: len(self.table()) >= count)
                    self.scheduler.kill()
                    self.scheduler.wait(SECONDS)
                    self.let(ALL)
                    said = process.communicate(timeout=SECONDS)[1].decode().splitlines()
                self.assertEqual((process.returncode, len(said)), (5, 2), said)
                lines = self.table()
                done = [name for name, status, _ in lines if status == 0]
                self.assertEqual(([name for name, _, _ in lines], {status for _, status, _ in lines}), (names, {0, 5}))
                self.assertEqual(said[1:], [f"60 responses: {len(done)} done, 0 with an error of the server, 0 refused, {60 - len(done)} failed"])
                self.end_all()
                self.assert_whole(done)
                self.assertEqual(self.many("--program", PROGRAM, "in", "out"), (0, "60 responses: 60 done, 0 with an error of the server, 0 refused, 0 failed"))
                self.assert_texts(names)
            shutil.rmtree(self.path("out"))
            os.remove(self.path("scheduler.json"))

    def test_a_worker_that_is_killed_costs_nothing(self) -> None:
        self.start_all()
        names = self.store(100, failed=ERROR, refused=FLOAT)
        words = ["--scheduler", "scheduler.json", "--program", self.holding(20), "in", "out"]
        with self.beginning(*words, python=requirements.DEBIAN_PYTHON) as process:
            wait_for(lambda: len(self.table()) >= 20)
            self.workers[0].kill()
            self.let(40)
            wait_for(lambda: len(self.table()) >= 40)
            process.send_signal(signal.SIGINT)
            said = process.communicate(timeout=SECONDS)[1].decode().splitlines()
            self.assertEqual((process.returncode, said[-1:]), (130, ["interrupted: begun again it goes on from here"]))
        self.let(ALL)
        self.assertEqual(self.many(*words, python=requirements.DEBIAN_PYTHON), (4, "102 responses: 100 done, 1 with an error of the server, 1 refused, 0 failed"))
        self.assert_texts(names[:100], "failed.csv", "refused.csv.partial")
        self.assertEqual([name for name, _, _ in self.table()], names)


if __name__ == "__main__":
    unittest.main()
