"""One response from its file to a text that waits for its name: the work of `many`, here or on another machine."""
from __future__ import annotations

import functools
import hashlib
import os
import stat
import threading
from dataclasses import dataclass
from typing import IO, Optional

from gavyreto import outcomes, program, tds
from gavyreto.adapting import hand_over
from gavyreto.commands.common import cause_of
from gavyreto.outcomes import Stamp, stamp_of
from gavyreto.program import BAD_INPUT, BLOCK, CHANGED, DECIDED, DONE, FAILED, SERVER_ERROR, Output, Program

DIGITS = 16  # of the digest of a program that are kept
MORE = "more is behind the response, which isn't read: gavyreto capture reads all that a server sent"


@dataclass
class Record(outcomes.Record):
    """A line of the table: how the export of a file ended, which it has the path of, and what it was made of: the stamp of the file, options,
    and name, version and digest of the program."""

    size: int = 0
    time: int = 0
    change: int = 0
    inode: int = 0
    options: str = ""
    program: str = ""

    def stamp(self) -> Stamp:
        return self.size, self.time, self.change, self.inode


def export_file(file: str, folder: str, command: list[str], adapts: Optional[str]) -> Record:
    """Exports a file by the program to a text that waits in a folder for its name, with refused columns rewritten if a character set is given
    for them. One that failed leaves no text."""
    record = Record(file, FAILED, "interrupted")
    try:
        source = os.open(file, os.O_RDONLY | os.O_NONBLOCK)  # of a pipe that nobody writes to
    except OSError as failure:
        record.line = f"cannot read {file}: {cause_of(failure)}"
        return record
    try:
        if stat.S_ISREG(os.fstat(source).st_mode):
            outcomes.make_text(record, folder, lambda out: _export(source, out, record, command, adapts))
        else:
            record.line = f"cannot read {file}: no regular file"
    finally:
        os.close(source)
    return record


def _export(source: int, out: IO[bytes], record: Record, command: list[str], adapts: Optional[str]) -> None:
    """Exports a file that is open, and notes in its record how that ended, and the text if the response itself decided it."""
    stamp, (run, version) = stamp_of(os.fstat(source)), running(command)
    ending = _ending_of(source, Output(out.fileno()), run, adapts)
    if ending.status not in DECIDED:
        record.status, record.line = ending.status, ending.line
    elif stamp_of(os.fstat(source)) != stamp:
        record.line = f"{record.name}: {CHANGED}"
    elif version_of(command[0]) != version:
        record.line = f"{command[0]}: it changed while it ran"
    else:
        record.status, record.line, record.text, record.program = ending.status, ending.line, out.name, version
        record.size, record.time, record.change, record.inode = stamp


def _ending_of(source: int, output: Output, run: Program, adapts: Optional[str]) -> program.Ending:
    """How the program ends on the response at the beginning of a file, which may have nothing behind it."""
    framing = tds.Framing()

    def following() -> bytes:
        block = os.read(source, BLOCK) if run.is_reading and not framing.is_over else b""
        taken = framing.take(block)
        if taken < len(block):
            os.lseek(source, taken - len(block), os.SEEK_CUR)
        return block[:taken]

    run.begin()
    wrong = hand_over(following, lambda data: run.hand(data, output), adapts)
    if wrong or not framing.is_over:
        run.cut()
    ending = run.finish(output).refused(wrong)
    if ending.status in (DONE, SERVER_ERROR) and os.read(source, 1):
        return ending._replace(status=BAD_INPUT, line=f"{ending.line}; {MORE}")
    unfinished = tds.unfinished(framing.tail) if ending.status == DONE else None
    return ending._replace(status=SERVER_ERROR, line=unfinished) if unfinished else ending


# The programs, one a thread.

_all: list[Program] = []


class _Running(threading.local):
    """The program that a thread runs, and its version."""

    def __init__(self) -> None:
        self.program, self.version = Program([]), ""
        _all.append(self.program)


_running = _Running()


def running(command: list[str]) -> tuple[Program, str]:
    """The program of this thread, with these arguments, and of the file that it is at the moment, and its version."""
    version = version_of(command[0])
    if version != _running.version:
        _running.program.close()
    _running.program.command, _running.version = command, version
    return _running.program, version


def kill_all() -> None:
    """Ends the exports under way: they fail."""
    for it in list(_all):
        it.kill()


def end_all() -> None:
    """Ends the programs of all threads, once none of them exports."""
    while _all:
        _all.pop().close()


def version_of(name: str) -> str:
    """Name and version of the program, and a digest of its file. Raises OSError if it can't be started."""
    path = name if os.path.dirname(name) else program.path_of(name)
    return _version_of(path, stamp_of(os.stat(path)))


@functools.lru_cache(maxsize=None)
def _version_of(path: str, _: Stamp) -> str:
    """The same, which is asked once of each file."""
    with open(path, "rb") as file:
        digest = hashlib.sha256(file.read()).hexdigest()
    return f"{program.version_of(path)} {digest[:DIGITS]}"
