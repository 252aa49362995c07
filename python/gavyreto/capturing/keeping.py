"""The packets of answers under way: in memory as long as they are few; then of one answer handed to the program, of others in files.

Two programs go on from answer to answer: that of answers which are handed over while they come, and that of those which are there."""
from __future__ import annotations

import contextlib
import os
from typing import Optional

from gavyreto import tds
from gavyreto.program import BLOCK, Ending, Output, Program

MOST_IN_MEMORY = 1 << 16  # bytes of one answer
MOST_OF_ALL = 1 << 22  # bytes of all answers under way


class Run:
    """The program on one answer, and the file of its text. Raises OutputFailed."""

    def __init__(self, run: Program, text: str) -> None:
        self.text = text
        self._program, self._out = run, open(text, "wb")
        self._output = Output(self._out.fileno())
        run.begin()

    def write(self, data: bytes) -> None:
        """Hands it the next bytes. What it needs no more of is left."""
        self._program.hand(data, self._output)

    def end(self, is_whole: bool) -> tuple[Ending, str]:
        """How it ends once it isn't given any more, and the file of its text."""
        if not is_whole:
            self._program.cut()
        with self._out:
            return self._program.finish(self._output), self.text


class Room(contextlib.AbstractContextManager["Room"]):
    """A folder for packets and texts, the bytes of all answers that are in memory, and the programs. A context that ends these."""

    def __init__(self, folder: str, command: list[str], is_free: bool) -> None:
        self.folder, self.used = folder, 0
        self.is_free = is_free  #: whether an answer may be handed over while it comes, and none is
        self._coming, self._there, self._count = Program(command), Program(command), 0

    def __exit__(self, *_: object) -> None:
        self._coming.close()
        self._there.close()

    def next_path(self) -> str:
        """A name that no other file has."""
        self._count += 1
        return os.path.join(self.folder, str(self._count))

    def begin(self) -> Optional[Run]:
        """The program on an answer that comes, if no other one has it."""
        is_free, self.is_free = self.is_free, False
        return Run(self._coming, self.next_path()) if is_free else None

    def run(self) -> Run:
        """The program on an answer that is there."""
        return Run(self._there, self.next_path())


class Kept:
    """The packets of one answer."""

    def __init__(self, room: Room) -> None:
        self._room = room
        self._data = bytearray()
        self._first = b""  # of the bytes that are in the file or with the program
        self._path = ""
        self._run: Optional[Run] = None

    def write(self, data: bytes) -> None:
        """Appends bytes."""
        self._data += data
        self._room.used += len(data)
        if len(self._data) > MOST_IN_MEMORY or self._room.used > MOST_OF_ALL:
            self._store(tds.HEADER)

    def _store(self, kept: int) -> None:
        """Hands on all bytes but the last ones, which may be taken away."""
        if not self._path and not self._run:
            self._run = self._room.begin()
            self._path = "" if self._run else self._room.next_path()
        data = bytes(self._data[:max(len(self._data) - kept, 0)])
        self._first += data[:MOST_IN_MEMORY - len(self._first)]
        if self._run:
            self._run.write(data)
        else:
            self._append(data)
        self._room.used -= len(data)
        del self._data[:len(data)]

    def _append(self, data: bytes) -> None:
        try:
            with open(self._path, "ab") as file:
                file.write(data)
        except OSError as failure:
            raise OSError(failure.errno, failure.strerror, self._path) from None

    def cut(self, length: int) -> None:
        """Takes away the last bytes, as many as a header has at most."""
        del self._data[len(self._data) - length:]
        self._room.used -= length

    def first(self, length: int) -> bytes:
        """The first bytes, up to 64 KiB."""
        return (self._first + self._data[:length])[:length]

    def file(self) -> str:
        """A file with all bytes, of an answer that isn't handed over."""
        if not self._path:
            self._path = self._room.next_path()
        self._append(bytes(self._data))
        self._forget()
        return self._path

    def export(self, is_whole: bool) -> tuple[Ending, str]:
        """How the program ends on it, and the file of its text."""
        run = self._run or self._room.run()
        if self._path:
            with open(self._path, "rb") as file:
                while block := file.read(BLOCK):
                    run.write(block)
        run.write(bytes(self._data))
        return run.end(is_whole)

    def _forget(self) -> None:
        self._room.used -= len(self._data)
        self._data.clear()

    def drop(self) -> None:
        """The bytes aren't needed any more."""
        self._forget()
        self._room.is_free = self._room.is_free or bool(self._run)
        if self._path and os.path.exists(self._path):
            os.remove(self._path)
