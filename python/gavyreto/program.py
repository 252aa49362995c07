"""The program tds_replay: its command line, what it says, and its run over one response after another."""
from __future__ import annotations

import contextlib
import errno
import fcntl
import os
import re
import select
import shutil
import stat
import subprocess
import time
import weakref
from typing import IO, Any, Callable, NamedTuple, Optional, TypeVar, Union, cast

from gavyreto.errors import FAULT, SERVER_ERROR as LINE_OF_ERROR, Fault, Report, ServerError

PROGRAM = "tds_replay"
PACKET_SIZE = 32767  # where packets are only read: the greatest that there is
PACKET_SIZE_ASKED = 8000  # of a server, as .NET asks for
COLUMN_ROOM = 1048576
MAX_WIRE = 2**40
CHARSETS = ("windows-1252", "utf-8")
REPORT = re.compile(  # all lines of a response that was read to its end
    r"sets (\d+) rows (\d+) errors (\d+) infos (\d+) written (\d+)\n(?:return values (?P<values>\d+)\n)?(?:return status (?P<status>-?\d+)\n)?"
    rf"(?:(?P<error>{LINE_OF_ERROR.pattern})\n)?", re.ASCII)
RESPONSES = re.compile(r"^responses \d+\n\Z", re.ASCII | re.MULTILINE)
F_SETPIPE_SZ, ROOM_OF_PIPE = 1031, 1 << 20  # of Linux
ROOM_OF_FEW = 4096  # bytes that each pipe has room for at once
VERSION = re.compile(rf"({PROGRAM} \d+(?:\.\d+)*)(?: \(sources [0-9a-f]+\))?", re.ASCII)
BLOCK = 1 << 18  # bytes that are moved at once, at most
SOME = 4096  # bytes that are compared, of files that may change
CHANGED = "it changed while it was read"
PATIENCE = 5.0  # seconds in which a program ends whose input is over, or text comes that its lines count
SECONDS_OF_VERSION = 60  # in which a program says its version
BEGINNING = b"\x04"  # of a packet of an answer

# Exit statuses; all but the last are those of tds_replay.
DONE, REFUSED, SERVER_ERROR, BAD_INPUT, FAILED, NO_MEMORY, INTERRUPTED = 0, 2, 3, 4, 5, 6, 130
DECIDED = (DONE, SERVER_ERROR, BAD_INPUT)  # by a response itself
OF_SIGNAL = 128  # is added to the number of a signal
OF_DEVICES = ("ReadFailed", "WriteFailed")  # faults with the status FAILED

Write = Callable[[bytes], object]
T = TypeVar("T")
Said = Union[Report, Fault, ServerError, None]


# What the program says (docs/COMMAND.md, Lines on standard error).

def report_of(notes: str) -> Said:
    """What the lines of a run say: a report, with an error of the server or without one, or a fault. None if they say
    something else."""
    if notes.endswith("\n") and FAULT.fullmatch(notes[:-1]):
        return Fault(notes[:-1])
    found = REPORT.fullmatch(notes)
    if not found:
        return None
    sets, rows, errors, infos, written = map(int, found.groups()[:5])
    values, status, error = found.group("values", "status", "error")
    report = Report(sets, rows, errors, infos, written, int(values or 0), int(status) if status else None)
    return ServerError(error, report) if error else report


def written_by(said: Union[Report, Fault, ServerError]) -> int:
    """How many bytes of text a run wrote, by what it says."""
    report = said.report if isinstance(said, ServerError) else said
    return report.written if report else 0


def status_of(said: Union[Report, Fault, ServerError]) -> int:
    """The exit status that belongs to what a run says."""
    if isinstance(said, Fault):
        return FAILED if said.name in OF_DEVICES else BAD_INPUT
    return SERVER_ERROR if isinstance(said, ServerError) else DONE


class Ending(NamedTuple):
    """How the program ended on a response."""

    status: int  #: its own; 128 and the number of the signal that ended it; 5 if its lines, its status and its text don't agree
    line: str  #: its first line, or what is wrong
    notes: str  #: all its lines, or the same line
    written: int  #: bytes of text that it wrote, as it says
    said: Said = None  #: what its lines say, if all agrees

    def line_after(self, line: str) -> str:
        """One line, of what happened and what the program says to it."""
        return ": ".join(it for it in (line, self.line) if it)

    def refused(self, why: str) -> Ending:
        """The same, of a response that can't be followed for a reason, if there is one, unless something else failed."""
        if not why or self.status not in DECIDED:
            return self
        line = self.line_after(why)
        return self._replace(status=BAD_INPUT, line=line, notes=line + "\n")


def judged(status: Optional[int], notes: str, length: Optional[int] = None) -> Ending:
    """What the program's lines come to, its status, once it has ended, and the bytes of the text that it left, where they are known."""
    said, first = report_of(notes), notes.partition("\n")[0]
    if status is not None and status < 0:
        return _wrong(OF_SIGNAL - status, f"tds_replay was ended by the signal {-status}")
    written = written_by(said) if said else 0
    ended = status_of(said) if status is None and said else status
    if ended in (DONE, SERVER_ERROR, BAD_INPUT, FAILED) and (not said or ended != status_of(said) or length not in (None, written)):
        if ended == FAILED and not said and first:
            return _wrong(FAILED, first)
        left = "" if length is None else f", and a text of {length} bytes"
        return _wrong(FAILED, f"tds_replay ended with status {ended}{left}: {first}")
    if said is None:
        return _wrong(ended or FAILED, first or f"tds_replay ended with status {ended} and no line")
    return Ending(ended or DONE, first, notes, written, said)


def _wrong(status: int, line: str) -> Ending:
    return Ending(status, line, line + "\n", 0)


def version_of(program: str) -> str:
    """What this program says of its name and version, or "" if it isn't tds_replay. Raises OSError if it can't be started, or doesn't end."""
    try:
        said = subprocess.run([program, "--version"], stdin=subprocess.DEVNULL, capture_output=True, timeout=SECONDS_OF_VERSION).stdout
    except subprocess.TimeoutExpired:
        raise TimeoutError(f"{program} --version doesn't end within {SECONDS_OF_VERSION} seconds") from None
    found = VERSION.fullmatch(said.decode("utf-8", "replace").strip())
    return found[1] if found else ""


def path_of(program: str) -> str:
    """The path of a program by its name on the path, or as it is. Raises FileNotFoundError if there is none."""
    found = shutil.which(program)
    if found is None:
        from_where = ": Debian's package gavyreto brings it, and `make install` of the source" if program == PROGRAM else ""
        raise FileNotFoundError(errno.ENOENT, f"the program {program} isn't there, or can't be run{from_where}", program)
    return found


# Running it.

def status_after(process: subprocess.Popen[bytes]) -> Optional[int]:
    """The status of a process, once it has ended. An interrupt within a call of Popen can leave its lock taken, for which its
    own wait would wait without end. None if the status is lost: by an interrupt, or to a caller that ignores SIGCHLD."""
    while process.returncode is None:
        try:
            process.returncode = os.waitstatus_to_exitcode(os.waitpid(process.pid, 0)[1])
        except ChildProcessError:
            process.returncode = FAILED
            return None
    return process.returncode


def write_all(descriptor: int, data: bytes) -> None:
    """Writes all bytes, with as many calls as it takes."""
    left = memoryview(data)
    while left:
        left = left[os.write(descriptor, left):]


class Before:
    """A file as it was where its reading began."""

    def __init__(self, descriptor: int) -> None:
        self.found = os.fstat(descriptor)
        self._descriptor, self._is_file = descriptor, stat.S_ISREG(self.found.st_mode)
        self._some = self._read_some()

    def _read_some(self) -> list[bytes]:
        """What is at its beginning, in its middle and at its end, from which others would differ, also where no time tells of a change."""
        size = self.found.st_size if self._is_file else 0
        places = (0, size // 2, max(size - SOME, 0)) if size else ()
        return [os.pread(self._descriptor, min(SOME, size - place), place) for place in places]

    def has_changed(self, may_grow: bool = False) -> bool:
        """Whether it was written to since; not if more follows what was there, where that may be."""
        found, before = os.fstat(self._descriptor), self.found
        is_told = self._is_file and (found.st_size, found.st_mtime_ns) != (before.st_size, before.st_mtime_ns)
        return self._read_some() != self._some or is_told and not (may_grow and found.st_size > before.st_size)


def command_of(program: str, packet_size: int, column_room: int, max_wire: int, charset: str) -> list[str]:
    return [program, "export", "--packet-size", str(packet_size), "--column-room", str(column_room),
            "--max-wire", str(max_wire), "--charset", charset]


class OutputFailed(Exception):
    """A text can't be written where it goes."""

    def __init__(self, failure: OSError) -> None:
        super().__init__(str(failure))
        self.failure = failure


class Output:
    """Where texts go: a descriptor. What is `before` comes before the next byte."""

    def __init__(self, descriptor: int, before: bytes = b"") -> None:
        self.before = before
        self._descriptor = descriptor
        self._splice = getattr(os, "splice", None)  # from Python 3.10 on, and where both sides allow it

    def move(self, pipe: int, most: int) -> int:
        """Moves bytes that wait in a pipe, at most so many, and returns how many they were: 0 at its end. Raises OutputFailed."""
        if self._splice and not self.before:
            try:
                return int(self._splice(pipe, self._descriptor, most))
            except OSError as failure:
                if failure.errno != errno.EINVAL:
                    raise OutputFailed(failure) from None
                self._splice = None  # a terminal, or a file that is appended to
        data = os.read(pipe, most)
        try:
            write_all(self._descriptor, self.before + data if data else b"")
        except OSError as failure:
            raise OutputFailed(failure) from None
        self.before = b"" if data else self.before
        return len(data)


class Program(contextlib.AbstractContextManager["Program"]):
    """The program, which exports one response after another. Of each its packets are handed over, and its text and its lines taken:

        program.begin()
        program.hand(packets, output)  # as often as there are some
        ending = program.finish(output)

    It runs from the first response on; after a fault, a signal or a response that was cut, or with other arguments, the next one starts it
    anew. Whoever hands over takes the text meanwhile, so neither side waits for the other, however long they are. By `put`, which waits
    for room alone, one thread can hand over while another one takes the text by `read`. Of a `source`, a descriptor, it reads one
    response by itself, and nothing is handed over. A context that ends it."""

    def __init__(self, command: list[str], source: Optional[int] = None) -> None:
        self.command = command  #: without --all, from the next response on
        self._source = source
        self.ending: Optional[Ending] = None  #: of the response, once all of its text is taken
        self.is_reading = False  #: whether it reads the response on, as far as is known
        self._process: Optional[subprocess.Popen[bytes]] = None
        self._pipe: Optional[IO[bytes]] = None  # that of the input, whose number stays its own as long as somebody may hand over
        self._drop_pipe: Callable[[], object] = lambda: None  # is called then
        self._input = self._text = self._notes = -1
        self._nothing = list[int]()  # what takes the place of the input, where there may be no descriptor left to open
        self._open: set[int] = set()  # those of text and lines that haven't ended
        self._lines, self._taken, self._handed = "", 0, 0  # of this response
        self._said: Said = None  # once its lines have come
        _programs.add(self)

    def __exit__(self, *_: object) -> None:
        self.close()

    def __del__(self) -> None:
        if hasattr(self, "_said"):  # else an interrupt came before all of this was there
            self.kill()
            self.close()
            if self._pipe:  # where Python ends `_drop_pipe` does nothing
                self._pipe.close()

    def begin(self) -> None:
        """Begins a response. Raises OSError if the program can't be started."""
        if self._process and (self._is_under_way() or not self.is_reading or self._process.args != self._words() or self._process.poll() is not None):
            self.close()
        if self._process is None:
            self._start()
        self._lines, self._taken, self._handed, self._said, self.ending = "", 0, 0, None, None

    def _start(self) -> None:
        """Starts it in a session of its own, so that Ctrl-C doesn't end it before it has written what came. It is there once all of it is
        known: an interrupt leaves none that is known in part."""
        self._drop_pipe()
        if not self._nothing and self._source is None:
            self._nothing.append(os.open(os.devnull, os.O_WRONLY | os.O_CLOEXEC))
        process = subprocess.Popen(
            self._words(), bufsize=0, stdin=subprocess.PIPE if self._source is None else self._source, stdout=subprocess.PIPE,
            stderr=subprocess.PIPE, start_new_session=True, executable=path_of(self.command[0]))
        self._text, self._notes = (cast("IO[bytes]", it).fileno() for it in (process.stdout, process.stderr))
        self._open = {self._text, self._notes}
        for pipe in filter(None, (process.stdin, process.stdout)):
            with contextlib.suppress(OSError):  # the two sides wake each other less often; what is allowed may be used up
                fcntl.fcntl(pipe.fileno(), F_SETPIPE_SZ, ROOM_OF_PIPE)
        given = process.stdin.fileno() if process.stdin else -1
        if process.stdin:
            os.set_blocking(given, False)
        self._pipe, self._input, self._process, self.is_reading = process.stdin, given, process, process.stdin is not None
        if process.stdin:  # which Python would warn of if it were collected before this
            drop = weakref.finalize(self, process.stdin.close)
            drop.atexit, self._drop_pipe = False, drop

    def _words(self) -> list[str]:
        return self.command if self._source is not None else [*self.command[:2], "--all", *self.command[2:]]

    def _is_under_way(self) -> bool:
        return self.ending is None and (self._handed > 0 or self._source is not None)

    def close(self) -> None:
        """Ends it: between two responses by the end of its input, in the middle of one at once."""
        is_under_way = self._is_under_way()
        if is_under_way:
            self.kill()  # before its input ends, to which it would have an answer
        self._close_input()
        process = self._process
        if process and cast("IO[bytes]", process.stderr).closed:  # what is collected with this may be closed before, and others have its numbers
            self._open.clear()
        while process and not is_under_way and self._notes in self._open and self._notes in self._ready(seconds=PATIENCE):
            self._take_lines()
        self._process, self._open = None, set()
        if process:
            process.kill()
            for pipe in (process.stdout, process.stderr):
                cast("IO[bytes]", pipe).close()
            status_after(process)

    def kill(self) -> None:
        """Ends it, so that who hands over in another thread finds it."""
        if self._process:
            self._process.kill()

    def let_go(self) -> None:
        """Has no part in it any more, in a process that was forked off: with a copy of a pipe it would go on for ever."""
        process, self._process, self._pipe, self._open = self._process, None, None, set()
        self._close_input()
        self._drop_pipe()  # which later may close what has its number then
        if process:
            process.returncode = DONE
            for pipe in filter(None, (process.stdin, process.stdout, process.stderr)):
                pipe.close()

    # Handing over.

    def hand(self, data: bytes, output: Output) -> None:
        """Hands over bytes of the response, and moves the text that comes meanwhile. What it needs no more of is left."""
        left = self._write(memoryview(data))
        while left:
            ready = self._ready(self._input, select.POLLOUT)
            self._move(ready, output)
            left = self._write(left)

    def put(self, data: bytes) -> None:
        """Hands over bytes of the response, and waits for room alone. Raises BrokenPipeError if it needed no more before."""
        if not self.is_reading:
            raise BrokenPipeError
        left = self._write(memoryview(data))
        while left:
            room = select.poll()
            room.register(self._input, select.POLLOUT)
            room.poll()
            left = self._write(left)

    def offer(self, data: bytes) -> bool:
        """Hands over bytes if there is room for all of them, as for few there is where a response begins, or none. Returns whether it did."""
        return len(data) <= ROOM_OF_FEW and not self._write(memoryview(data))

    def _write(self, left: memoryview) -> memoryview:
        """Writes what there is room for, and returns what is left of it."""
        if not self.is_reading:
            return left[:0]
        try:
            count = os.write(self._input, left)
        except BlockingIOError:
            return left
        except BrokenPipeError:
            self.is_reading = False
            return left[:0]
        self._handed += count
        return left[count:]

    def attend(self, source: int, seconds: float, output: Output) -> float:
        """Moves text until another descriptor can be read, or so many seconds were waited. Returns how many were."""
        waited = 0.0
        while waited < seconds:
            began = time.monotonic()
            ready = self._ready(source, select.POLLIN, seconds - waited)
            waited += min(time.monotonic() - began, seconds)  # it's longer if this process was stopped meanwhile
            self._move(ready, output)
            if source in ready:
                break
        return waited

    def cut(self) -> None:
        """Tells it that no more comes of the response, for whose rest it would wait; it ends then."""
        if not self._handed:
            self._write(memoryview(BEGINNING))  # where a response would begin, the end of the input is none of a response
        self._close_input()

    def _close_input(self) -> None:
        """Puts something else in the place of the input, whose number another thread may have."""
        self.is_reading = False
        with contextlib.suppress(IndexError):  # it was done before
            nothing = self._nothing.pop()
            if self._pipe and not self._pipe.closed:
                os.dup2(nothing, self._input, inheritable=False)
            os.close(nothing)

    # Taking.

    def finish(self, output: Output) -> Ending:
        """Moves the rest of the text once all is handed over, and returns how the response ended."""
        while self.ending is None:
            self._move(self._ready_for_text(), output)
        return self.ending

    def read(self, most: int) -> bytes:
        """The next bytes of the text, at least one and at most so many, or none at its end, once `ending` is there."""
        while self.ending is None:
            ready = self._ready_for_text()
            data = os.read(self._text, min(most, self._most())) if self._text in ready else b""
            self._count(ready, len(data))
            if data:
                return data
        return b""

    def _ready(self, other: int = -1, event: int = 0, seconds: Optional[float] = None) -> set[int]:
        """Waits for text, for lines, or for another descriptor, and returns those that are there."""
        events = select.poll()
        for descriptor in self._open:
            events.register(descriptor, select.POLLIN)
        if other >= 0:
            events.register(other, event)
        return {descriptor for descriptor, _ in events.poll(None if seconds is None else max(0.0, seconds * 1000))}

    def _ready_for_text(self) -> set[int]:
        """Waits for text or lines. Text that the lines count is there before them: it isn't waited for without end."""
        return self._ready(seconds=PATIENCE if self._said else None)

    def _most(self) -> int:
        """How many bytes of text may come at once: once the lines have come they tell it, and one more would be wrong."""
        return BLOCK if self._said is None else max(min(written_by(self._said) - self._taken, BLOCK), 1)

    def _move(self, ready: set[int], output: Output) -> None:
        self._count(ready, output.move(self._text, self._most()) if self._text in ready else 0)

    def _count(self, ready: set[int], taken: int) -> None:
        """Counts bytes of text that were taken, takes the lines, and sees whether the response is over."""
        self._taken += taken
        if self._text in ready and not taken:
            self._open.discard(self._text)
        if self._notes in ready:
            self._take_lines()
        if self._said and (self._taken >= written_by(self._said) or not ready):
            self._end(None)
        elif self._process and not self._open:
            self._end(status_after(self._process))

    def _take_lines(self) -> None:
        """Takes lines, which come at once. After others than those of a whole response it ends."""
        data = os.read(self._notes, BLOCK)
        if not data:
            self._open.discard(self._notes)
            return
        self._lines += data.decode("utf-8", "replace")
        said = report_of(self._lines)
        if isinstance(said, (Report, ServerError)):
            self._said = said
        elif self.is_reading:
            self._close_input()

    def _end(self, status: Optional[int]) -> None:
        """The response is over: all of its text was taken, or the program has ended."""
        if status is None and self._text in self._ready(seconds=0):  # more text, or the end of it
            self._taken += len(os.read(self._text, BLOCK))
        self.ending = judged(status, RESPONSES.sub("", self._lines), self._taken)
        if status is not None or not self.ending.said:
            self.is_reading = False
            self.kill()


# What a process that is forked off has no part in.

_programs, _others = weakref.WeakSet[Program](), weakref.WeakSet[Any]()


def owned(it: T) -> T:
    """What is open, as a file or a socket, and is closed in a process that is forked off, where later something else may have its number."""
    _others.add(it)
    return it


def _let_go() -> None:
    for end in [*(it.let_go for it in _programs), *(it.close for it in _others)]:
        with contextlib.suppress(OSError):  # it was closed by its number, which keeps nothing else open
            end()


os.register_at_fork(after_in_child=_let_go)
