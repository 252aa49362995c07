"""Many statements, each with a text under its name in a folder, on some connections at once: what `query --tables` does."""
from __future__ import annotations

import argparse
import contextlib
import os
import queue
import re
import sys
import threading
import time
from dataclasses import dataclass
from typing import IO, Callable, Generator, Iterable, NamedTuple, Optional, Union

from gavyreto import outcomes, program
from gavyreto.asking import Asking, Broken
from gavyreto.commands.common import Stopped, command_for, ending_of, folder_of_texts, tell
from gavyreto.connection import UNASKED, Session
from gavyreto.errors import BadAnswer, CertificateRefused, ConnectionFailed, EncryptionRefused, LoginRefused
from gavyreto.exporting import version_of
from gavyreto.outcomes import PARTIAL, TABLE, TEXT, Progress, summed
from gavyreto.program import BAD_INPUT, DECIDED, DONE, FAILED, INTERRUPTED, REFUSED, Program

LONGEST_STATEMENT = 100_000  # characters
LONGEST_NAME = 255 - len(PARTIAL)  # bytes
SECONDS_TO_STOP = 5  # for which connections under way are waited for, once they were cut
MOST_PAUSE = 30  # seconds between two attempts
PART = r'(?:\[(?:[^\]]|\]\])+\]|"(?:[^"]|"")+"|[^\s.\[\]";/(]+)'
NAME_OF_TABLE = re.compile(rf"({PART}?(?:\.{PART}?){{0,2}}\.{PART}|{PART})(?:\s+--.*)?")  # a comment may follow it
Connect = Callable[[], Session]


class Item(NamedTuple):
    """A line of the file: the name of a text, the statement whose answer it has, and whether that reads a table and does nothing else."""

    name: str
    statement: str
    is_table: bool


def items_of(lines: Iterable[str], file: str) -> list[Item]:
    """The items of a file: on each line a name, and behind it a statement, or a table of which all is read; without it that of the name.
    Empty lines, and what begins with two hyphens behind a table or alone, are none. Raises `Stopped` for names that are none, or stand
    twice."""
    found: dict[str, Item] = {}
    for number, text in enumerate(lines, 1):
        if "\r" in text.rstrip():
            raise Stopped(f"{file}, line {number}: a line end that is neither LF nor CR LF", REFUSED)
        name, rest = (text.split(None, 1) + ["", ""])[:2]
        if not name or name.startswith("--"):
            continue
        wrong = _wrong_in(name, rest) or ("stands twice" if name in found else "")
        if wrong:
            raise Stopped(f"{file}, line {number}: the name {name[:60]} {wrong}", REFUSED)
        asked = name if rest.startswith("--") else rest.strip() or name
        table = NAME_OF_TABLE.fullmatch(asked)
        found[name] = Item(name, f"SELECT * FROM {table[1]}" if table else asked, bool(table))
    if not found:
        raise Stopped(f"{file}: no table", REFUSED)
    return list(found.values())


def _wrong_in(name: str, rest: str) -> str:
    """What is wrong with the name of a text, and what stands behind it; "" if nothing is."""
    if "/" in name or "\0" in name or name + TEXT == TABLE:
        return f"has a slash, or is that of the table of outcomes, {TABLE}"
    try:
        length = len(os.fsencode(name))
    except UnicodeEncodeError:
        return f"can't be that of a file, as names are {sys.getfilesystemencoding()} here: LC_ALL=C.UTF-8 has all"
    if length > LONGEST_NAME:
        return f"has more than {LONGEST_NAME} bytes"
    return f"has a statement of more than {LONGEST_STATEMENT} characters" if len(rest) > LONGEST_STATEMENT else ""


@dataclass
class Record(outcomes.Record):
    """A line of the table: how the export of a statement ended, and what it was made of."""

    time: int = 0  #: at which it was begun, in nanoseconds since 1970
    statement: str = ""
    options: str = ""
    program: str = ""


class Worker:
    """A connection on which items are asked one after the other, made anew where it broke and after each statement that isn't of a table
    alone, and the program that reads the answers."""

    def __init__(self, asked: argparse.Namespace, connect: Connect, is_stopped: threading.Event, session: Optional[Session] = None) -> None:
        self._asked, self._connect, self._is_stopped = asked, connect, is_stopped
        self._session = session
        self._run = Program([])
        self.has_unasked = False  # whether something came behind an answer whose outcome was told already

    def export(self, item: Item) -> Record:
        """Exports an answer. Raises what ends all of them: a login that was refused."""
        record = Record(
            item.name, FAILED, "interrupted", time=time.time_ns(), statement=item.statement, options=self._asked.options, program=self._asked.version)
        for attempt in range(self._asked.retries + 1):
            if attempt > 1:
                self._is_stopped.wait(min(2 ** (attempt - 2), MOST_PAUSE))
            try:
                outcomes.make_text(record, self._asked.output, lambda out: self._ask(item, record, out))
                return record
            except Broken as broken:
                record.line = str(broken)
            finally:
                if self._session and not (record.text and self._session.is_ready()):
                    self._session.close()
            if self._is_stopped.is_set():
                break
        return record

    def _ask(self, item: Item, record: Record, out: IO[bytes]) -> None:
        """Asks once, and notes in the record how that ended, and the text if the answer itself decided it. Raises `Broken` if the connection
        breaks, or can't be made."""
        try:
            session = self._open_session()
            self._run.command = command_for(self._asked, session.packet_size)
            asking = Asking(session, self._run, self._asked.charset if self._asked.adapt else None)
            ending = asking.answer(item.statement, program.Output(out.fileno()))
            record.status, record.text = ending.status, out.name if ending.status in DECIDED else None
            record.line = ending.notes.rstrip("\n").split("\n")[0 if ending.status == DONE else -1]
            if not item.is_table:
                session.end()  # what it set would hold for what is asked next, as SET ROWCOUNT
            elif session.is_ready():
                session.expect_nothing()
        except Broken:
            raise
        except (BadAnswer, Stopped) as ended:
            record.line, record.status = ending_of(ended)

    def _open_session(self) -> Session:
        """The connection, or a new one if there is none on which an answer would count. Raises `Broken` if it can't be made."""
        if self._session and self._session.closed_after is None:
            try:
                self._session.expect_nothing()
            except BadAnswer:
                self.has_unasked = True
            if self._session.closed_after is None:
                return self._session
        try:
            self._session = self._connect()
            return self._session
        except (CertificateRefused, EncryptionRefused, LoginRefused):
            raise  # another attempt would be refused too
        except ConnectionFailed as failure:
            raise Broken(str(failure), FAILED) from None

    def end(self) -> None:
        """Ends the connection, once all items are asked."""
        try:
            if self._session:
                self._session.end()
        except BadAnswer:
            self.has_unasked = True

    def abandon(self) -> None:
        """Cuts the connection, from another thread."""
        if self._session:
            self._session.abandon()

    def close(self) -> None:
        if self._session:
            self._session.close()
        self._run.close()


# All of them.

class Workers:
    """Threads that export items, each with a connection of its own."""

    def __init__(self, asked: argparse.Namespace, connect: Connect, first: Session) -> None:
        self._is_stopped = threading.Event()
        self._done: queue.SimpleQueue[Union[Record, BaseException, None]] = queue.SimpleQueue()
        self._workers = [Worker(asked, connect, self._is_stopped, None if number else first) for number in range(asked.jobs)]
        self._threads: list[threading.Thread] = []

    def outcomes(self, items: list[Item]) -> Generator[Record, None, None]:
        """The outcomes, as they come. What ends a thread is raised once the others have stopped."""
        left = iter(items)
        lock = threading.Lock()

        def following() -> Optional[Item]:
            with lock:
                return None if self._is_stopped.is_set() else next(left, None)

        try:
            for worker in self._workers[:len(items)]:
                thread = threading.Thread(target=self._work, args=(worker, following), daemon=True)
                thread.start()
                self._threads.append(thread)
            for _ in self._threads:
                while outcome := self._done.get():
                    if isinstance(outcome, BaseException):
                        raise outcome
                    yield outcome
        except BaseException:
            self.stop()
            raise

    def _work(self, worker: Worker, following: Callable[[], Optional[Item]]) -> None:
        try:
            with contextlib.closing(worker):
                while item := following():
                    self._done.put(worker.export(item))
                worker.end()
        except BaseException as failure:
            self._done.put(failure)
        finally:
            self._done.put(None)

    def have_unasked(self) -> bool:
        """Whether something came behind an answer whose outcome was told already."""
        return any(worker.has_unasked for worker in self._workers)

    def stop(self) -> None:
        """Cuts what is under way, and waits for it a while."""
        self._is_stopped.set()
        for worker in self._workers:
            worker.abandon()
        until = time.monotonic() + SECONDS_TO_STOP
        for thread in self._threads:
            thread.join(max(0.0, until - time.monotonic()))


def export(asked: argparse.Namespace, items: list[Item], connect: Connect) -> int:
    """Exports the answer to each item, and returns the greatest status. The first login comes before anything is written."""
    with folder_of_texts(asked.output):
        table, asked.version = outcomes.Table(asked.output, Record), version_of(asked.program)
        workers = Workers(asked, connect, connect())
        table.begin([item.name for item in items])
        try:
            table.fill(workers.outcomes(items), Progress("tables", len(items), 0))
        except KeyboardInterrupt:
            raise Stopped("interrupted: begun again all are asked again", INTERRUPTED) from None
    status = summed("tables", [(item.name, table.records[item.name]) for item in items], table.shown())
    if workers.have_unasked():
        tell(UNASKED)
    return max(status, BAD_INPUT) if workers.have_unasked() else status
