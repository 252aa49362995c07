"""A folder of texts and the table of their outcomes, of which a line is written as each ends: what `many` and the tables of `query` share."""
from __future__ import annotations

import contextlib
import os
import re
import socket
import sys
import threading
import time
from dataclasses import dataclass, fields
from functools import partial, reduce
from operator import and_
from typing import IO, Any, Callable, Generator, Generic, Optional, Sequence, TypeVar
from unicodedata import normalize

from gavyreto.commands import common
from gavyreto.commands.common import STANDARD_ERROR, Stopped, cause_of, is_one_file, line, relative, rename, tell, write
from gavyreto.places import mode_of
from gavyreto.program import BAD_INPUT, DECIDED, DONE, FAILED, REFUSED, SERVER_ERROR, OutputFailed
from gavyreto.records import record_at
from gavyreto.values import value_of

TABLE = "outcomes.csv"
TEXT, PARTIAL = ".csv", ".csv.partial"  # behind the name of what a text is of
ENCODING = "ascii" if sys.getfilesystemencoding() == "ascii" else "utf-8"  # in the first the bytes of other names are what they are in paths
UNFINISHED = ".unfinished"  # at the end of the name of a text that waits for its own
TORN = re.compile(r'(?:(?:"[^"]*(?:""[^"]*)*"|[^",\r\n]+),)*(?:"[^"]*(?:""[^"]*)*"?|[^",\r\n]*)\r?')  # the beginning of a line
# What the values of a field may be, by its annotation.
KINDS: dict[str, tuple[type, ...]] = {"str": (str,), "int": (int,), "Optional[str]": (str, type(None))}


@dataclass
class Record:
    """A line of a table: what it is of, how that ended, and its text, None if it isn't there. A table adds what it was made of."""

    name: str
    status: int
    line: str
    text: Optional[str] = None  #: its name in the folder; the path of a file until it gets that
    written: int = 0
    text_change: int = 0  #: the time at which the text last changed, in nanoseconds since 1970, which nobody can set


R = TypeVar("R", bound=Record)
Stamp = tuple[int, int, int, int]


def stamp_of(found: os.stat_result) -> Stamp:
    """What tells a file from another one of its name: its bytes, the times in nanoseconds of its last write and of its last change, which
    nobody can set, and its inode."""
    return found.st_size, found.st_mtime_ns, found.st_ctime_ns, found.st_ino


class Table(Generic[R]):
    """The table of outcomes, and the texts that it tells of. Its lines are written whole."""

    def __init__(self, folder: str, record: type[R], of: str = "name") -> None:
        """The table of a folder, whose first column has a name by what its lines are of."""
        self._path, self._folder, self._record = os.path.join(folder, TABLE), folder, record
        self._kinds = [KINDS[str(it.type)] for it in fields(record)]
        self._header = line([of, *(it.name for it in fields(record)[1:])]).encode()
        self.records = self._read()
        self._there = dict[str, Optional[Stamp]]()  # the texts of these names before any of this run
        self._descriptor, self._size = -1, 0  # of the table

    def _read(self) -> dict[str, R]:
        """The lines that are there, by what they are of, but for one at the end that isn't whole, since its writing was stopped."""
        if not os.path.lexists(self._path):
            left = next((name for name in os.listdir(self._folder) if name.endswith((TEXT, PARTIAL))), None)
            if left:
                raise Stopped(f"{self._folder} has {left}, and no table of this command: name a folder without texts", REFUSED)
            return {}
        records = None
        if os.path.isfile(self._path):
            with open(self._path, "rb") as file:
                records = self._records_in(file.read())
        if records is None:
            raise Stopped(f"{self._path} isn't a table of this command", REFUSED)
        return {record.name: record for record in records}

    def _records_in(self, data: bytes) -> Optional[list[R]]:
        """The lines of a table, or None if it is another table."""
        if not data.startswith(self._header):
            return [] if not data else None
        text, at = data.decode(ENCODING, "surrogateescape"), len(self._header)
        records: list[R] = []
        while at < len(text):
            try:
                found, after = record_at(text, at)
                values: list[Any] = [value_of(field) for field in found]
            except ValueError:
                return records if TORN.fullmatch(text, at) else None
            if len(values) != len(self._kinds) or not all(isinstance(value, kind) for value, kind in zip(values, self._kinds)):
                return None
            records.append(self._record(*values))
            at = after
        return records

    def begin(self, again: list[str]) -> None:
        """Leaves out the lines of what is to be done again, and of texts by these names, and goes on behind the others."""
        left_out, texts = set(again), {text for name in again for text in texts_of(name)}
        own = (TABLE, *texts) if is_one_file(STANDARD_ERROR, STANDARD_ERROR) else ()
        for name in own:
            if is_one_file(os.path.join(self._folder, name), STANDARD_ERROR):
                raise Stopped(f"{name}: the lines are written to it", REFUSED)
        self.records = {key: record for key, record in self.records.items() if key not in left_out and record.text not in texts}
        with contextlib.suppress(FileNotFoundError):  # of a run that was killed, or what something else has put there
            os.remove(self._path + UNFINISHED)
        with begun(self._path + UNFINISHED, TABLE) as out:
            try:
                write(out.name, out.fileno(), self._header + b"".join(map(_line_of, self.records.values())))
                if is_one_file(out.name, os.path.join(self._folder, os.path.basename(out.name).swapcase())):
                    check_apart(TABLE.removesuffix(TEXT), *(os.path.basename(it) for it in (*again, *self.records)))
                os.replace(out.name, self._path)
            except BaseException:
                with contextlib.suppress(FileNotFoundError):  # it has its name already
                    os.remove(out.name)
                raise
        self._there = {text: self._stamp_of(text) for text in texts}
        self._descriptor = os.open(self._path, os.O_WRONLY | os.O_APPEND | os.O_CLOEXEC)
        self._size = os.fstat(self._descriptor).st_size

    def _stamp_of(self, text: str) -> Optional[Stamp]:
        """The stamp of a text; None if none is there."""
        with contextlib.suppress(OSError):
            return stamp_of(os.lstat(os.path.join(self._folder, text)))
        return None

    def _is_old(self, text: str) -> bool:
        """Whether a text is there that was there before any of this run."""
        stamp = self._there.get(text)
        return stamp is not None and stamp == self._stamp_of(text)

    def _write(self, data: bytes) -> None:
        """Writes a line. Raises `Stopped` if lines are lost: an editor that saves the table puts an older one in its place, or into it."""
        write(self._path, self._descriptor, data)
        self._size += len(data)
        found = os.stat(self._path)
        self._check(found.st_size == self._size and os.path.samestat(found, os.fstat(self._descriptor)))

    def _check(self, is_own: bool) -> None:
        if not is_own:
            raise Stopped(f"{self._path}: something else writes it too, and lines are lost", FAILED)

    def shown(self) -> str:
        """The name of the table, from the folder that the command runs in, once all is written. Raises `Stopped` if it hasn't all lines."""
        with open(self._path, "rb") as file:
            self._check(file.read() == self._header + b"".join(map(_line_of, self.records.values())))
        return relative(self._path)

    def fill(self, records: Generator[R, None, None], progress: Progress) -> None:
        """Adds outcomes as they come. What is still under way where that ends early has ended before what it leaves is removed."""
        try:
            with contextlib.closing(records):
                for record in records:
                    self.add(record)
                    progress.step(record.status not in (DONE, SERVER_ERROR))
        finally:
            os.close(self._descriptor)
            progress.end()
            remove_unfinished(self._folder)

    def add(self, record: R) -> None:
        """Gives the text that waits its name, if one does, takes away the one that was there before, and writes the line: that of a
        failure if the text can't have its name. Raises `Stopped` if the table can't be written, or isn't what was written."""
        names = texts_of(record.name)
        if waiting := record.text:
            record.text = names[record.status == BAD_INPUT]
            try:
                target = os.path.join(self._folder, record.text)
                if self._is_old(record.text):
                    os.replace(waiting, target)
                else:
                    rename(waiting, target)  # what something else has put there meanwhile stays
                record.text_change = os.stat(target).st_ctime_ns
            except OSError as failure:
                record.status, record.line, record.text, record.written = FAILED, f"{record.text}: {cause_of(failure)}", None, 0
        for other in filter(self._is_old, {*names} - {record.text}):
            with contextlib.suppress(OSError):
                os.remove(os.path.join(self._folder, other))
        self._write(_line_of(record))
        self.records[record.name] = record


def texts_of(path: str) -> tuple[str, str]:
    """The names that the text of this may have, which has a path or a name."""
    name = os.path.basename(path)
    return name + TEXT, name + PARTIAL


def begun(path: str, *olds: str) -> IO[bytes]:
    """A file that will take the place of others of its folder, which may be opened by nobody from whom one of them is kept."""
    folder = os.path.dirname(path)
    modes = (mode_of(os.path.join(folder, name)) or 0o666 for name in olds)
    return open(path, "xb", buffering=0, opener=partial(os.open, mode=reduce(and_, modes, 0o666)))


def check_apart(*names: str) -> None:
    """Refuses names that are one in a folder that takes small letters and capitals for the same: one text would replace another."""
    known: dict[str, str] = {}
    for name in names:
        other = known.setdefault(normalize("NFD", name).casefold(), name)
        if other != name:
            raise Stopped(f"{other} and {name} would have one text, as this folder has no case: name another one", REFUSED)


def _line_of(record: Record) -> bytes:
    return line(vars(record).values()).encode("utf-8", "surrogateescape")


class Progress(common.Progress):
    """How many texts there are."""

    def __init__(self, what: str, count: int, done: int) -> None:
        super().__init__()
        self._what, self._count, self._done, self._failed = what, count, done, 0

    def step(self, has_failed: bool) -> None:
        self._done += 1
        self._failed += has_failed
        self.show(lambda seconds: f"{self._done} of {self._count} {self._what}, {self._failed} refused or failed, {seconds:.0f} seconds")


def make_text(record: Record, folder: str, make: Callable[[IO[bytes]], object]) -> None:
    """Has a call write the text of a record. It waits for its name, on the disk, if the record has it then, or is removed. What else can't be
    read or written is the line of the record."""
    waiting = f"{socket.gethostname()}.{os.getpid()}.{threading.get_ident()}.{time.monotonic_ns()}{UNFINISHED}"  # no other thread or machine has it
    path = os.path.join(folder, waiting)
    try:
        with begun(path, *texts_of(record.name)) as out:
            make(out)
            os.fsync(out.fileno())
            record.written = os.fstat(out.fileno()).st_size if record.text else 0
    except (OSError, OutputFailed) as failed:
        failure = failed.failure if isinstance(failed, OutputFailed) else failed
        record.status, record.line, record.text = FAILED, f"{failure.filename or folder}: {cause_of(failure)}", None
    finally:
        if not record.text:
            with contextlib.suppress(OSError):
                os.remove(path)


def remove_unfinished(folder: str) -> None:
    """Removes what is left of texts that didn't get their names."""
    for name in os.listdir(folder):
        if re.fullmatch(rf".+\.\d+\.\d+\.\d+{re.escape(UNFINISHED)}", name):
            with contextlib.suppress(FileNotFoundError):
                os.remove(os.path.join(folder, name))


def summed(what: str, records: Sequence[tuple[str, Record]], shown: str) -> int:
    """Says which failed first, by the names that are given, and how many ended in each way, and returns the greatest status."""
    statuses = [record.status for _, record in records]
    counts = [statuses.count(status) for status in DECIDED]
    done, errors, refused = counts
    if first := next(((name, it) for name, it in records if it.status not in (DONE, SERVER_ERROR)), None):
        tell(f"{first[0]}: {first[1].line}; {shown} has a line for each")
    tell(f"{len(records)} {what}: {done} done, {errors} with an error of the server, {refused} refused, {len(records) - sum(counts)} failed")
    return FAILED if len(records) > sum(counts) else max(statuses, default=0)
