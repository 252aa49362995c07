"""Tests of where commands write, by generated cases: names, links and descriptors of what is read and written, beside a model.

Each case has a folder and open descriptors, as a shell makes them, and is looked at before and after. With status 0 each text stands
whole where it was asked for, packets alone, and nothing else has changed; with another status nothing has, and there is one line. What
is there and apart has to succeed."""
from __future__ import annotations

import contextlib
import fcntl
import gc
import os
import random
import re
import subprocess
import sys
import tempfile
import traceback
import unittest
from collections import Counter
from typing import Any, NamedTuple, Union
from unittest import mock

from gavyreto.__main__ import main
from gavyreto.commands.common import TWO_PLACES
from tests.beside import ORDERS, PROGRAM, SECONDS, Live, started
from tests.test_query import SETS

QUERIES, OTHERS = 200, 80  # cases
NAMES = ["a1", "a2", "b1", "b2", "a1.partial", "b1.partial"]
TEMPLATES = ["a{}", "b{}", "a{}.partial", "./a{}", "/dev/fd/{}"]
OF_DESCRIPTORS = ["/dev/stdout", "/dev/stderr", "/dev/fd/1", "/dev/fd/3", "/proc/self/fd/3", "/proc/thread-self/fd/1", "/proc/thread-self/fd/3"]
WAYS = {">": os.O_WRONLY | os.O_CREAT | os.O_TRUNC, ">>": os.O_WRONLY | os.O_CREAT | os.O_APPEND, "<": os.O_RDONLY}
STATEMENTS = ["SELECT * FROM orders", "SELECT * FROM sets"]
LINES_OF = [f"sets {sets} rows 3 errors 0 infos 0 written {len(text)}\n".encode() for sets, text in ((1, ORDERS), (3, SETS))]
PCAP = b"\xD4\xC3\xB2\xA1\2\0\4\0" + bytes(8) + b"\xFF\xFF\0\0\1\0\0\0"  # a capture without frames
ROWS, PACKETS, LINES = "rows", "packets", "lines"
Object = tuple[str, object]  # a file by its inode, or by its name
Seen = dict[str, Union[str, bytes]]
Texts = list[tuple[bytes, bytes, bytes]]  # the rows, the packets and the line of each statement


class Case(NamedTuple):
    """What is in the folder, what is open, and what is asked."""

    command: str
    files: list[str]
    links: dict[str, str]
    hard: dict[str, str]
    open: dict[int, tuple[str, str]]  # by descriptors: how, and a name; "&" and the number of another one; "|" for a pipe; "" for none
    rows: str
    packets: str
    inputs: list[str]
    number: int  # of statements

    def words(self, port: str) -> list[str]:
        outputs = [f"{option}={it}" for option, it in (("--output", self.rows), ("--packets", self.packets)) if it]
        if self.command != "query":
            return [self.command, *outputs, *self.inputs]
        login = ["-S", f"127.0.0.1,{port}", "-U", "reader", "--encrypt", "none", "--program", PROGRAM]
        return ["query", *login, *outputs, *([f"--input={it}" for it in self.inputs] or STATEMENTS[:self.number])]


def made(command: str, numbers: random.Random) -> Case:
    """A case by random numbers."""
    kinds = {name: numbers.choice(["", "", "file", "file", "link", "hard"]) for name in NAMES}
    files = [name for name in NAMES if kinds[name] == "file"]
    links = {name: numbers.choice([*NAMES, "new"]) for name in NAMES if kinds[name] == "link"}
    hard = {name: numbers.choice(files) for name in NAMES if kinds[name] == "hard" and files}

    def redirected(others: list[str], before: str = "") -> tuple[str, str]:
        way = numbers.choice(["|", "|", "|", ">", ">>", *others])
        return way, numbers.choice(NAMES) if way in WAYS else numbers.choice(before) if way == "&" else ""

    found = {0: ("<", numbers.choice(NAMES)), 1: redirected(["|"]), 2: redirected(["|", "&"], "1"), 3: redirected(["", "<", "&"], "12")}
    count = numbers.choice([1, 1, 1, 2]) if command == "query" else 1
    outputs = TEMPLATES * (command == "query") + (NAMES * 2 + OF_DESCRIPTORS) * (count == 1)
    rows = numbers.choice(["", "", "", *outputs]) if command != "columns" else ""
    packets = numbers.choice([*[""] * 15, *outputs]) if command == "query" else ""
    inputs = [numbers.choice(NAMES) for _ in range(count)] if command != "query" or numbers.random() < 0.3 else []
    return Case(command, files, links, hard, found, rows, packets, ["-"] if count == 1 and numbers.random() < 0.2 else inputs, count)


class Folder:
    """The folder of a case, and its descriptors."""

    def __init__(self, path: str, case: Case, response: bytes) -> None:
        self.path, self.case = path, case
        for name in case.files:
            with open(self.of(name), "wb") as file:
                file.write(f"{STATEMENTS['2' in name]} -- of {name}\n".encode() if case.command == "query" else response)
        for name, other in case.links.items():
            os.symlink(other, self.of(name))
        for name, other in case.hard.items():
            os.link(self.of(other), self.of(name))
        self.descriptors: dict[int, int] = {}
        self.pipes: dict[int, int] = {}

    def of(self, name: str) -> str:
        return os.path.join(self.path, name)

    def open(self) -> None:
        """Opens what is redirected, one after the other. Raises OSError where a shell does."""
        for number, (way, name) in self.case.open.items():
            if way == "|":
                self.pipes[number], found = os.pipe()
                os.set_blocking(self.pipes[number], False)
            elif way == "&":
                found = os.dup(self.descriptors[int(name)])
            elif way:
                is_there = number > 0 or os.path.exists(self.of(name))
                found = os.open(self.of(name) if is_there else os.devnull, WAYS[way], 0o666)
            else:
                continue
            self.descriptors[number] = fcntl.fcntl(found, fcntl.F_DUPFD_CLOEXEC, 100)  # so that none has the number of another
            os.close(found)

    def close(self) -> None:
        for descriptor in (*self.descriptors.values(), *self.pipes.values()):
            os.close(descriptor)

    def run(self, words: list[str]) -> tuple[int, dict[int, bytes]]:
        """The status of a command, and what came by each pipe. It runs in a copy of this process, which takes less time than a new one."""
        process = os.fork()
        if not process:
            os._exit(self.status_of(words))
        status = os.waitstatus_to_exitcode(os.waitpid(process, 0)[1])
        return status, {number: drained(pipe) for number, pipe in self.pipes.items()}

    def status_of(self, words: list[str]) -> int:
        """The status of a command in this process, which has no other descriptors then."""
        gc.freeze()  # what is left of other tests is none of the command's
        try:
            for number, own in self.descriptors.items():
                os.dup2(own, number)
            os.closerange(max(self.descriptors) + 1, 1000)
            os.chdir(self.path)
            sys.stdin, sys.stdout, sys.stderr = open(0, encoding="utf-8"), open(1, "w", encoding="utf-8"), open(2, "w", encoding="utf-8")
            main(words)
        except SystemExit as ended:
            return int(ended.code or 0)
        except BaseException:
            traceback.print_exc()
        finally:
            sys.stderr.flush()
        return 99

    def seen(self) -> Seen:
        """What each name is: the name that a link has, or the bytes of a file."""
        return {name: os.readlink(self.of(name)) if os.path.islink(self.of(name)) else self.read(name) for name in os.listdir(self.path)}

    def read(self, name: str) -> bytes:
        """What a name leads to."""
        try:
            with open(self.of(name), "rb") as file:
                return file.read()
        except OSError as failure:
            return f"({failure.strerror})".encode()


def drained(pipe: int) -> bytes:
    """What waits in a pipe."""
    with contextlib.suppress(BlockingIOError):
        return os.read(pipe, 1 << 16)
    return b""


def object_of(found: os.stat_result) -> Object:
    return "inode", (found.st_dev, found.st_ino)


def form_of(name: str) -> str:
    """A name without its numbers, and without what it has behind it until it is whole."""
    return re.sub(r"^\./|\{\}|[0-9]|\.partial", "", name)


class Sink(NamedTuple):
    """Where something goes: a descriptor, or a file by its name."""

    what: str
    descriptor: int
    name: str
    data: bytes


def sink_of(what: str, template: str, number: int, data: bytes) -> Sink:
    asked = template.replace("{}", str(number))
    if not asked or asked.startswith(("/dev/", "/proc/")):
        standard = {"": 1, "/dev/stdout": 1, "/dev/stderr": 2}
        return Sink(what, standard[asked] if asked in standard else int(os.path.basename(asked)), "", data)
    return Sink(what, -1, os.path.normpath(asked), data)


class Model:
    """What a case has to come to, by what is in its folder and what is open before the command begins."""

    def __init__(self, folder: Folder, texts: Texts) -> None:
        self.folder, self.case = folder, folder.case
        self.before = folder.seen()
        self.objects = {number: object_of(os.fstat(own)) for number, own in folder.descriptors.items()}
        self.starts = {number: self.text_of(number) for number in folder.descriptors}
        standard = self.name_of(0)
        self.sources = [standard if it == "-" else it for it in self.case.inputs]
        self.sinks: list[Sink] = []
        for number, place in enumerate(self.statements(), 1):
            rows, packets, line = texts[place]
            between = b"\r\n" if number > 1 and not self.case.rows else b""
            sinks = [sink_of(ROWS, self.case.rows, number, between + rows), Sink(LINES, 2, "", line)]
            self.sinks += [*sinks[:1], sink_of(PACKETS, self.case.packets, number, packets), *sinks[1:]] if self.case.packets else sinks

    def statements(self) -> list[int]:
        """Which statements are sent."""
        if not self.case.inputs:
            return list(range(self.case.number))
        read = [self.folder.read(it) for it in self.sources if os.path.isfile(self.folder.of(it))]
        return [int(STATEMENTS[1].encode() in text) for text in read if text]

    def name_of(self, number: int) -> str:
        """The name that a descriptor was opened by; "" for a pipe, and for none."""
        way, name = self.case.open.get(number, ("", ""))
        return self.name_of(int(name)) if way == "&" else name if way in WAYS else ""

    def text_of(self, number: int) -> bytes:
        name = self.name_of(number)
        return self.folder.read(name) if name and os.path.isfile(self.folder.of(name)) else b""

    def came_to(self, number: int, came: dict[int, bytes]) -> bytes:
        """What is where a descriptor was opened."""
        way, name = self.case.open[number]
        return self.came_to(int(name), came) if way == "&" else came[number] if number in came else self.text_of(number)

    def is_at(self, name: str, places: set[Object]) -> bool:
        """Whether a name is that of a file that is open."""
        return os.path.lexists(self.folder.of(name)) and object_of(os.lstat(self.folder.of(name))) in places

    # What has to be.

    def fault(self, status: int, came: dict[int, bytes]) -> str:
        """What isn't as it has to be; "" if all is."""
        after = self.folder.seen()
        if status:
            return self.fault_of_refusal(after, came) + ("refused" if self.is_plain() else "")
        return self.fault_of_descriptors(came) + self.fault_of_names() + self.fault_of_others(after)

    def fault_of_refusal(self, after: Seen, came: dict[int, bytes]) -> str:
        """Nothing has changed but that one line was said."""
        error = {self.objects[2]}
        said = self.came_to(2, came)[len(self.starts[2]):]
        wanted = {name: it + said if self.is_at(name, error) and isinstance(it, bytes) else it for name, it in self.before.items()}
        is_silent = not any(data for number, data in came.items() if self.objects[number] not in error)
        return "" if after == wanted and is_silent and (said.count(b"\n"), said[-1:]) == (1, b"\n") else f"it said {said!r}; "

    def fault_of_descriptors(self, came: dict[int, bytes]) -> str:
        """What goes to one file or pipe is there one after the other, and packets alone."""
        written: dict[Object, bytes] = {}
        kinds: dict[Object, set[str]] = {}
        used = [sink for sink in self.sinks if sink.descriptor >= 0 and sink.data]
        for what, number, _, data in used:
            if number not in self.objects:
                return f"descriptor {number} isn't open, and the {what} went there; "
            place = self.objects[number]
            written[place] = written.get(place, self.starts[number]) + data
            kinds.setdefault(place, set()).add(what)
        wrong = [number for _, number, _, _ in used if self.came_to(number, came) != written[self.objects[number]]]
        mixed = [it for it in kinds.values() if PACKETS in it and len(it) > 1]
        return f"wrong in descriptors {wrong}, mixed {mixed}; " if wrong or mixed else ""

    def fault_of_names(self) -> str:
        wrong = [name for _, _, name, data in self.sinks if name and self.folder.read(name) != data]
        return f"wrong in {wrong}; " if wrong else ""

    def fault_of_others(self, after: Seen) -> str:
        """What is no output is as it was, but the names that outputs have until they are whole."""
        paths = [os.path.basename(os.path.realpath(self.folder.of(sink.name))) for sink in self.sinks if sink.name]
        waiting = {it + ".partial" for it in paths} - {*paths, *self.sources, *self.case.links}
        places = {self.objects[sink.descriptor] for sink in self.sinks if sink.descriptor in self.objects}
        others = {*after, *self.before} - {*paths, *waiting}
        changed = {name for name in others if after.get(name) != self.before.get(name) and not self.is_at(name, places)}
        left = waiting & {*after}
        return f"{sorted(changed | left)} changed; " if changed | left else ""

    # What has to succeed.

    def is_plain(self) -> bool:
        """Whether all that is read and written is there, and apart."""
        files = {sink.name for sink in self.sinks if sink.name}
        used = {sink.descriptor for sink in self.sinks if sink.descriptor >= 0} | {1, 2}
        if not self.sinks or not self.are_there(files, used) or self.have_one_form():
            return False
        outputs = {number: self.names_of(self.name_of(number)) | {self.objects[number]} for number in used}
        if self.case.open[2] == ("&", "1"):
            del outputs[2]  # rows and lines may share a place
        found = [*outputs.values(), *map(self.names_of, {*self.sources}), *(self.names_of(it) | self.waiting_of(it) for it in files)]
        packets = {(sink.descriptor, sink.name) for sink in self.sinks if sink.what == PACKETS}
        others = {(sink.descriptor, sink.name) for sink in self.sinks if sink.what != PACKETS}
        shared = {(1, "")} if self.case.open[2] == ("&", "1") else set()
        return not packets & (others | shared) and sum(map(len, found)) == len(set().union(*found))

    def are_there(self, files: set[str], used: set[int]) -> bool:
        """Whether all of it can be opened: names have no link to nowhere, and no link waits in the place of a file."""
        paths = [it for name in files for it in (os.path.realpath(self.folder.of(name)), os.path.realpath(self.folder.of(name)) + ".partial")]
        are_open = all(number in self.objects and self.case.open[number][0] != "<" for number in used)
        are_files = all(os.path.isfile(it) and not os.path.islink(it) or not os.path.lexists(it) for it in paths)
        return are_open and are_files and all(os.path.isfile(self.folder.of(it)) for it in self.sources)

    def have_one_form(self) -> bool:
        """Whether names of outputs could be one by some number, or a link leads to what could be another."""
        templates = [it for it in (self.case.rows, self.case.packets) if "{}" in self.case.rows + self.case.packets]
        links = [sink.name for sink in self.sinks if sink.name in self.case.links and templates]
        forms = [*map(form_of, templates), *(form_of(os.path.basename(os.path.realpath(self.folder.of(it)))) for it in links)]
        return len(forms) > len(set(forms))

    def waiting_of(self, name: str) -> set[Object]:
        return self.names_of(os.path.basename(os.path.realpath(self.folder.of(name))) + ".partial")

    def names_of(self, name: str) -> set[Object]:
        """What a name leads to: a path, and the file there."""
        real = os.path.realpath(self.folder.of(name))
        return {("name", real), *([object_of(os.stat(real))] if os.path.exists(real) else [])} if name else set()


class Outputs(Live):
    def run_cases(self, command: str, count: int, texts: Texts, port: str = "", response: bytes = b"") -> None:
        """Runs some cases, of which no fault is found, and many are done and refused."""
        counts: Counter[str] = Counter()
        for seed in range(count):
            with tempfile.TemporaryDirectory() as path:
                folder = Folder(path, made(command, random.Random(seed)), response)
                with contextlib.closing(folder):
                    try:
                        folder.open()
                    except OSError:
                        continue  # a shell doesn't run a command whose redirections fail
                    model = Model(folder, texts)
                    if command != "query" and not model.sinks:
                        continue  # an empty response, to whose end there is nothing
                    status, came = folder.run(folder.case.words(port))
                    fault = model.fault(status, came)
                    self.assertEqual(fault, "", f"{seed}: {status}, {folder.case}, {came}, {model.before} became {folder.seen()}")
                    counts[f"{status}"] += 1
        print(f"{command}: {dict(counts)}")
        self.assertGreater(counts["0"], count // 5)
        self.assertGreater(sum(counts.values()) - counts["0"], count // 20)

    def test_outputs_of_query(self) -> None:
        texts = [(rows, self.text(name), line) for rows, name, line in zip((ORDERS, SETS), ("orders.tds", "sets.tds"), LINES_OF)]
        with mock.patch.dict(os.environ, SQLCMDPASSWORD="secret", GAVYRETO_TRACEBACK="1"):
            self.run_cases("query", QUERIES, texts, self.server(("--encrypt", "none")).variables["PORT"])

    def test_outputs_of_adapt_and_columns(self) -> None:
        for command in ("adapt", "columns"):
            whole = self.beside((), f"exec {sys.executable} -m gavyreto {command} < float.tds")
            self.assertEqual((whole.returncode, whole.stderr), (0, b""))
            self.run_cases(command, OTHERS, [(whole.stdout, b"", b"")], response=self.text("float.tds"))

    def test_an_input_of_other_commands_is_no_output(self) -> None:
        """Nothing changes but that standard error has one line, where a shell has put it."""
        for words, error, line in (
            ("capture in.pcap out >> in.pcap", "", "standard output: the capture is read from it"),
            ("capture - out < in.pcap", ">> in.pcap", "standard error: the capture is read from it"),
            ("many in.tds out", ">> in.tds", "standard error: a response is read from it"),
            ("many other done", "> done/other.csv.partial", "other.csv.partial: the lines are written to it"),
            ("many other done", ">> done/outcomes.csv", "outcomes.csv: the lines are written to it"),
            ("query -S h -E --tables in.txt -o done", ">> in.txt", "standard error: the statements are read from it"),
            ("query -S h -E --tables - -o done < done/one.csv", "", "- would be the text of one: name another folder"),
            ("adapt -o new in.tds", ">> new", "new: the lines are written to it"),
            ("columns in.tds >> new", "> new", f"standard output and standard error {TWO_PLACES}"),
        ):
            with self.subTest(words=words, error=error), tempfile.TemporaryDirectory() as path:
                for name, data in (("in.pcap", PCAP), ("in.tds", self.text("orders.tds")), ("in.txt", b"one SELECT 1\n"), ("other", b"\4")):
                    with open(os.path.join(path, name), "wb") as file:
                        file.write(data)
                begun = f"touch new; $GAVYRETO many --program \"$PROGRAM\" in.tds done 2> first; cp in.txt done/one.csv; : {error or '> errors'}"
                subprocess.run(["sh", "-ec", begun], cwd=path, check=True, **asking())
                before, name = texts_in(path), error.split()[-1] if error else "errors"
                command, *rest = words.split(" ", 1)
                program = "" if command in ("adapt", "columns") else '--program "$PROGRAM"'
                came = subprocess.run(["sh", "-c", f"$GAVYRETO {command} {program} {rest[0]} 2{error or '> errors'}"], cwd=path, check=False, **asking())
                self.assertEqual((came.returncode, texts_in(path)), (2, before | {name: before[name] + line.encode() + b"\n"}))

    def test_a_pipe_that_is_read_and_written(self) -> None:
        """Whoever reads it has an end of it too, and would wait for its end for ever."""
        same = "is the same pipe, whose end would never come"
        for words, line in (
            ("columns /dev/stdout | cat", f"/dev/stdout: standard output {same}"), ("columns /dev/stderr", f"/dev/stderr: standard error {same}"),
            ("adapt - 0<> pipe > pipe", f"standard input: standard output {same}"),
            ('capture --program "$PROGRAM" /dev/fd/1 OUT | cat', f"/dev/fd/1: standard output {same}"),
            ('query --program "$PROGRAM" -S h -E -i /dev/stdout | cat', f"/dev/stdout: standard output {same}"),
            ("adapt pipe -o pipe", "pipe: the response is read from it"), ("adapt in.tds -o pipe >&3", "pipe: standard output is written to it"),
        ):
            with self.subTest(words=words), tempfile.TemporaryDirectory() as path:
                os.mkfifo(os.path.join(path, "pipe"))
                with open(os.path.join(path, "in.tds"), "wb") as file:
                    file.write(self.text("orders.tds"))
                script = f"exec 3<> pipe; cat in.tds >&3; $GAVYRETO {words}"
                came = subprocess.run(["sh", "-c", script], cwd=path, check=False, capture_output=True, timeout=SECONDS, **asking())
                self.assertEqual((came.stdout, came.stderr.decode()), (b"", line + "\n"))


def asking() -> dict[str, Any]:
    return started(GAVYRETO=f"{sys.executable} -m gavyreto", PROGRAM=PROGRAM)


def texts_in(path: str) -> dict[str, bytes]:
    """The texts of a folder and those in it, by their paths from there."""
    files = [os.path.join(folder, name) for folder, _, names in os.walk(path) for name in names]
    found = {}
    for it in files:
        with open(it, "rb") as file:
            found[os.path.relpath(it, path)] = file.read()
    return found


if __name__ == "__main__":
    unittest.main()
