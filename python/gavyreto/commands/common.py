"""What the commands share: lines, standard input and output, and arguments."""
from __future__ import annotations

import argparse
import codecs
import contextlib
import errno
import fcntl
import io
import os
import re
import signal
import stat
import sys
import textwrap
import time
from typing import Any, Callable, Iterable, Iterator, NoReturn, Optional, Union

from gavyreto import program, tds
from gavyreto.errors import BadAnswer, ConnectionFailed, ServerError, escaped
from gavyreto.payload import Ended
from gavyreto.program import BAD_INPUT, FAILED, INTERRUPTED, NO_MEMORY, REFUSED, SERVER_ERROR

STANDARD_INPUT, STANDARD_OUTPUT, STANDARD_ERROR = 0, 1, 2
SIGNALS = (signal.SIGINT, signal.SIGTERM, signal.SIGHUP)  # which end a command, with a line and a status
STREAMS = ("standard input", "standard output", "standard error")
LONGEST_HEAD = 4096  # bytes by which a file is known
SECONDS_OF_PROGRESS = 0.5  # between two lines, at least
MOST_LINKS = 40  # of a name, one after the other, as Linux follows
OF_DESCRIPTORS = "(/proc/[0-9]+)(?:/task/[0-9]+)?/fd"  # folders in which a name is a descriptor of a process
TWO_PLACES = "are one file, opened twice: one would be written over the other; 2>&1 or >> doesn't"
CAPTURE = "a capture of the network: gavyreto capture reads it"
BEGINNINGS = {
    b"\xD4\xC3\xB2\xA1": CAPTURE, b"\xA1\xB2\xC3\xD4": CAPTURE, b"\x4D\x3C\xB2\xA1": CAPTURE, b"\xA1\xB2\x3C\x4D": CAPTURE,
    b"\x0A\x0D\x0D\x0A": CAPTURE, b"\x1F\x8B": "compressed: gunzip -c gives what is in it", b"\xFD7zXZ": "compressed: xz -dc gives what is in it",
    b"PK\x03\x04": "compressed: unzip -p gives what is in it", b"BZh": "compressed: bunzip2 -c gives what is in it",
    b"\x28\xB5\x2F\xFD": "compressed: zstd -dc gives what is in it",
    b'"': "a text that tds_replay wrote, and no packets: gavyreto.read reads it",
}
WITHOUT_LINKS = (errno.EPERM, errno.EOPNOTSUPP, errno.EMLINK, errno.ENOSYS)  # of a file system on which a file has one name
NO_THREAD = "can't start new thread"  # as Python has it
OF_TESTS = "GAVYRETO_TRACEBACK"  # a variable that lets the traceback of an unforeseen exception out


class Signalled(BaseException):
    """A signal came that ends a command, other than Ctrl-C."""

    def __init__(self, number: int) -> None:
        super().__init__(f"ended by {signal.Signals(number).name}")
        self.status = program.OF_SIGNAL + number


class Stopped(Exception):
    """A line for standard error, and the status to end with."""

    def __init__(self, line: str, status: int) -> None:
        super().__init__(line)
        self.status = status


class Changed(Stopped):
    """What is read changed meanwhile."""


class Taken(Stopped):
    """Another command writes there."""


# Lines.

def say(text: str) -> None:
    """Writes to standard error; a failure changes no status, as with tds_replay."""
    with contextlib.suppress(OSError, ValueError):  # it is closed, or full
        sys.stderr.write(text)
        sys.stderr.flush()


def tell(*lines: str) -> None:
    """Writes lines to standard error, at once, with control characters spelt."""
    say("".join(escaped(it) + "\n" for it in lines))


def line(values: Iterable[Union[None, int, str]]) -> str:
    """A line of a table, as tds_replay writes it."""
    return ",".join("NULL" if it is None else str(it) if isinstance(it, int) else '"' + it.replace('"', '""') + '"' for it in values) + "\r\n"


def cause_of(failure: OSError) -> str:
    """Why a call of the system failed."""
    return failure.strerror or str(failure) or type(failure).__name__


@contextlib.contextmanager
def naming(name: str) -> Iterator[None]:
    """Tells why a call of the system failed by the name of what it is of."""
    try:
        yield
    except OSError as failure:
        raise Stopped(f"{name}: {cause_of(failure)}", FAILED) from None


class Progress:
    """A line on a terminal, which is written anew from time to time, and taken away in the end."""

    def __init__(self, is_shown: bool = True) -> None:
        self.shows = is_shown and sys.stderr.isatty()
        self.begin()

    def begin(self) -> None:
        """The seconds count from here on."""
        self._began = self._last = time.monotonic()

    def show(self, text: Callable[[float], str]) -> None:
        """Shows a text, which is told the seconds so far, unless one is shown for a short time only."""
        now = time.monotonic()
        if self.shows and now - self._last > SECONDS_OF_PROGRESS:
            self._last = now
            say("\r\033[K" + text(now - self._began))

    def end(self) -> None:
        if self._last > self._began:
            say("\r\033[K")


# The end of a command.

def ending_of(failure: BaseException) -> tuple[str, int]:
    """The line that tells what ended a command, and its exit status."""
    if isinstance(failure, (Stopped, Signalled)):
        return str(failure), failure.status
    for kind, status in (ServerError, SERVER_ERROR), (BadAnswer, BAD_INPUT), (ConnectionFailed, FAILED):
        if isinstance(failure, kind):
            return str(failure), status
    if isinstance(failure, Ended):
        return "the response ends before its last packet", BAD_INPUT
    if isinstance(failure, OSError):
        name = os.fsdecode(failure.filename) if isinstance(failure.filename, (str, bytes)) else "a read or a write"
        return f"{name}: {cause_of(failure)}", FAILED
    if isinstance(failure, KeyboardInterrupt):
        return "interrupted", INTERRUPTED
    if isinstance(failure, MemoryError):
        return "want of memory", NO_MEMORY
    if isinstance(failure, RuntimeError) and str(failure) == NO_THREAD:
        return "want of memory or processes: no thread can be started", NO_MEMORY
    if isinstance(failure, ImportError):
        is_lacking = isinstance(failure, ModuleNotFoundError)
        return f"{'Python lacks a module' if is_lacking else 'want of memory, or of a library'}: {failure}", FAILED if is_lacking else NO_MEMORY
    if os.environ.get(OF_TESTS):
        raise failure
    return f"gavyreto failed, which it shouldn't: {type(failure).__name__}: {failure}", FAILED


@contextlib.contextmanager
def folder_of_texts(path: str) -> Iterator[None]:
    """Makes a folder if it isn't there, and those above it, and keeps it for this command. What fails leaves none that it made, unless
    something was written there. Raises `Stopped` if another command has it, or another folder has got its name."""
    made, above = list[str](), absolute(path)
    while not os.path.lexists(above):
        made.append(above)
        above = os.path.dirname(above)
    os.makedirs(path, exist_ok=True)
    descriptor = os.open(path, os.O_RDONLY)
    try:
        try:
            with naming(f"a lock of {path}"):
                lock(path, descriptor)
            yield
            check_name(path, descriptor, "folder")
        except Taken:
            raise
        except BaseException:
            with contextlib.suppress(OSError):  # it has something
                for it in made:
                    os.rmdir(it)
            raise
    finally:
        os.close(descriptor)


def check_name(path: str, descriptor: int, what: str = "file") -> None:
    """Raises `Stopped` if what is open hasn't its name any more."""
    if not os.path.samestat(os.fstat(descriptor), os.stat(path)):
        raise Stopped(f"{path}: another {what} has its name now", FAILED)


def settle(descriptor: int) -> None:
    """Has the system write what it put off, as it does for files of other machines. Raises OSError if it can't."""
    os.close(os.dup(descriptor))


def lock(path: str, descriptor: int) -> None:
    """Keeps a folder for this command. Raises `Taken` if another one has it."""
    try:
        fcntl.flock(descriptor, fcntl.LOCK_EX | fcntl.LOCK_NB)
    except BlockingIOError:
        raise Taken(f"{path}: another command writes there", REFUSED) from None


def lock_file(path: str, descriptor: int) -> None:
    """The same of a file, where its file system has locks."""
    with contextlib.suppress(OSError):
        lock(path, descriptor)


def absolute(path: str) -> str:
    """A path from the root, on which `..` behind a link is what the system takes for it: the folder that has what the link leads to."""
    folder, name = os.path.split(path)
    if os.pardir not in path.split(os.sep):
        return os.path.abspath(path)
    return os.path.realpath(path) if name == os.pardir else os.path.join(os.path.realpath(folder), name)


def relative(path: str) -> str:
    """A path from the folder that the command runs in, unless that was removed."""
    try:
        return os.path.relpath(path)
    except FileNotFoundError:
        return path


def rename(path: str, target: str) -> None:
    """Gives a file another name, which nothing has. Raises FileExistsError if something has it."""
    try:
        os.link(path, target)
        os.remove(path)
    except OSError as failure:
        if failure.errno not in WITHOUT_LINKS:
            raise
        with open(target, "xb") as empty:
            try:
                os.replace(path, target)
            except BaseException:
                with contextlib.suppress(OSError):
                    if os.path.samestat(os.fstat(empty.fileno()), os.lstat(target)):  # else the text has its name, or something else does
                        os.remove(target)
                raise


# Standard input, output and error.

_closed: set[int] = set()  # of descriptors 0 to 2, those that were closed when the command began


def open_descriptors() -> None:
    """Opens /dev/null on each of the descriptors 0 to 2 that is closed: a file or a socket that is opened later would take its
    place, and get what is written there."""
    for number in (STANDARD_INPUT, STANDARD_OUTPUT, STANDARD_ERROR):
        try:
            os.fstat(number)
        except OSError:
            _closed.add(number)
            os.set_inheritable(os.open(os.devnull, os.O_RDWR), True)  # the lowest number that is free
    sys.stdin = sys.stdin or open(STANDARD_INPUT, encoding="utf-8", closefd=False)
    sys.stdout = sys.stdout or open(STANDARD_OUTPUT, "w", encoding="utf-8", closefd=False)
    sys.stderr = sys.stderr or open(STANDARD_ERROR, "w", encoding="utf-8", closefd=False)


def needed(number: int) -> int:
    """A descriptor that was open when the command began. Raises `Stopped` if it wasn't: those that are opened later aren't inherited."""
    with contextlib.suppress(OSError):
        if number not in _closed and os.get_inheritable(number):
            return number
    raise Stopped(f"{STREAMS[number] if number < len(STREAMS) else f'descriptor {number}'} is closed", FAILED)


def opened_by(path: str) -> Optional[int]:
    """The open descriptor that a name stands for, as /dev/stdout and /dev/fd/3 do; None if it is that of a file. Raises `Stopped` for a
    file that another process has open."""
    own = os.path.realpath("/proc/self")
    for _ in range(MOST_LINKS):
        folder, name = os.path.split(path)
        process = re.fullmatch(OF_DESCRIPTORS, os.path.realpath(folder)) if name.isdecimal() else None
        if process and process[1] == own:
            return needed(int(name))
        if process and os.path.isfile(path):
            raise Stopped(f"{path}: another process has this file open", REFUSED)
        if not os.path.islink(path):
            break
        path = os.path.join(folder, os.readlink(path))
    return None


def check_streams() -> None:
    """Raises `Stopped` if lines would be written over what is on standard output."""
    if are_two_places(STANDARD_OUTPUT, STANDARD_ERROR):
        raise Stopped(f"{STREAMS[STANDARD_OUTPUT]} and {STREAMS[STANDARD_ERROR]} {TWO_PLACES}", REFUSED)


def are_two_places(one: int, other: int) -> bool:
    """Whether two descriptors write over each other: they are of one file, and neither share its place nor append both."""
    if not is_one_file(one, other) or all(fcntl.fcntl(it, fcntl.F_GETFL) & os.O_APPEND for it in (one, other)):
        return False
    before = [os.lseek(it, 0, os.SEEK_CUR) for it in (one, other)]
    after = [os.lseek(one, 1, os.SEEK_CUR), os.lseek(other, 0, os.SEEK_CUR)]
    os.lseek(one, before[0], os.SEEK_SET)
    return before[0] != before[1] or after[0] != after[1]


class Input(io.FileIO):
    """A file, or standard input if its name is "-". It ends where it is over, and fails where nothing is there yet and nobody waits, or if
    it changed while it was read."""

    def __init__(self, name: str) -> None:
        self.shown = STREAMS[STANDARD_INPUT] if name == "-" else name  #: its name, for a line
        with naming(self.shown):
            super().__init__(needed(STANDARD_INPUT) if name == "-" else name, closefd=name != "-")
            self._before = program.Before(self.fileno())
        found = self._before.found
        for number in (STANDARD_OUTPUT, STANDARD_ERROR):
            if stat.S_ISFIFO(found.st_mode) and os.path.samestat(found, os.fstat(number)):
                self.close()
                raise Stopped(f"{self.shown}: {STREAMS[number]} is the same pipe, whose end would never come", REFUSED)

    def readinto(self, room: Any) -> int:
        with naming(self.shown):
            count: Optional[int] = super().readinto(room)
            if count is None:
                raise BlockingIOError(errno.EAGAIN, "nothing is there yet, and it doesn't block")
            if not count and len(room) and self._before.has_changed():
                raise Changed(f"{self.shown}: {program.CHANGED}", FAILED)
        return count


def open_response(name: str) -> io.BufferedReader:
    """A recorded response. Raises `Stopped` if it can't be read, or is something else."""
    source = Input(name)
    with contextlib.ExitStack() as held:
        file = held.enter_context(io.BufferedReader(source))
        check_input(source.fileno(), "the response is")
        if other := other_than_response(file.peek(LONGEST_HEAD)):
            raise Stopped(f"{source.shown} is {other}", BAD_INPUT)
        held.pop_all()
    return file


def other_than_response(head: bytes) -> str:
    """What a file is that begins like this, and what reads it; "" for a response."""
    if not head:
        return "empty"
    if head[0] == tds.PacketType.ANSWER:
        return ""
    known = next((what for magic, what in BEGINNINGS.items() if head.startswith(magic)), None)
    if known:
        return known
    if _is_text(head):
        return "the dump of a client of FreeTDS: gavyreto capture reads it" if b"packet" in head else "a text, and no packets"
    if head[0] == tds.MARS:
        return "packets within those of MARS: ask without MARS"
    if head[0] in tds.TLS_RECORDS:
        return "encrypted: the bytes after decryption are needed"
    if head[0] in tuple(tds.PacketType):
        return "what a client sent: the packets of the server are needed"
    return f"no response: its first byte is 0x{head[0]:02x}, and that of a packet of a server is 0x04"


def _is_text(head: bytes) -> bool:
    """Whether bytes are the beginning of a text in UTF-8."""
    try:
        return not re.search("[^\t\r\n -\x7E\xA0-\U0010FFFF]", codecs.getincrementaldecoder("utf-8")().decode(head))
    except UnicodeDecodeError:
        return False


def is_one_file(path: Union[str, int], other: Union[str, int]) -> bool:
    """Whether two names or descriptors are one file. A device or a pipe is read and written without harm."""
    try:
        found, another = os.stat(path), os.stat(other)
    except OSError:
        return False
    return stat.S_ISREG(found.st_mode) and os.path.samestat(found, another)


def check_input(source: Union[str, int], what: str) -> None:
    """Raises `Stopped` if what is written to standard output or error would get into what is read."""
    for number in (STANDARD_OUTPUT, STANDARD_ERROR):
        if is_one_file(number, source):
            raise Stopped(f"{STREAMS[number]}: {what} read from it", REFUSED)


def write(name: str, descriptor: int, data: bytes) -> None:
    """Writes bytes. Raises `Stopped`, with the name of where they go, if they can't be written."""
    with naming(name):
        program.write_all(descriptor, data)


def put(text: str) -> None:
    """Writes to standard output. Raises `Stopped` if it can't be written."""
    write(STREAMS[STANDARD_OUTPUT], needed(STANDARD_OUTPUT), text.encode("utf-8", "surrogateescape"))


# Arguments.

class Help(argparse.HelpFormatter):
    """Help whose paragraphs, those of a module's docstring, are as wide as the terminal."""

    def _fill_text(self, text: str, width: int, indent: str) -> str:
        paragraphs = (" ".join(it.split()) for it in text.split("\n\n"))
        return "\n\n".join(textwrap.fill(it, width, initial_indent=indent, subsequent_indent=indent) for it in paragraphs)


class Parser(argparse.ArgumentParser):
    """A parser that doesn't repeat the value of an option that it doesn't know: it may be a password. Help that can't be written is told."""

    def print_help(self, file: Any = None) -> None:
        put(self.format_help())

    def error(self, message: str) -> NoReturn:
        super().error(escaped(message))

    def parse_args(self, words: Any = None, namespace: Any = None) -> Any:
        asked, unknown = self.parse_known_args(words, namespace)
        if unknown:
            shown = " ".join(it[:2] if re.match("-[^-]", it) else it.partition("=")[0] for it in unknown if it.startswith("-"))
            self.error(f"unknown options: {shown}" if shown else f"too many arguments, by {len(unknown)}")
        return asked


class Once(argparse.Action):
    """Stores a name, and refuses a second one, in whose place nothing would be read or written."""

    def __call__(self, parser: argparse.ArgumentParser, namespace: argparse.Namespace, values: object, option_string: Optional[str] = None) -> None:
        if getattr(namespace, self.dest) is not None:
            parser.error(f"{option_string} stands twice")
        setattr(namespace, self.dest, values)


def parser_of(command: str, about: Optional[str]) -> argparse.ArgumentParser:
    """The parser of a command's arguments; help begins with its module's docstring."""
    return Parser(prog=f"gavyreto {command}", description=about, formatter_class=Help, allow_abbrev=False)


def named(text: str) -> str:
    """A name of a file, which isn't empty: it is if a variable of a script isn't set."""
    if not text:
        raise argparse.ArgumentTypeError("an empty name")
    return text


def number_in(least: int, most: int) -> Callable[[str], int]:
    """A parser of numbers of a range, which have only decimal digits."""
    def number(text: str) -> int:
        digits = text.lstrip("0") or "0"
        if not re.fullmatch("[0-9]+", text) or len(digits) > len(str(most)) or not least <= int(digits) <= most:
            raise argparse.ArgumentTypeError(f"{text[:40]} is not in {least} to {most}")
        return int(digits)
    return number


def add_options_of_program(parser: argparse.ArgumentParser) -> None:
    """The options of commands that run tds_replay."""
    parser.add_argument("--adapt", action="store_true", help="rewrite columns that tds_replay refuses, as the command adapt does")
    parser.add_argument("--column-room", metavar="N", type=number_in(10, 67108864), default=program.COLUMN_ROOM, help="bytes for the description of columns, as in tds_replay")
    parser.add_argument("--charset", choices=program.CHARSETS, default=program.CHARSETS[0], help="character set of char and varchar")
    parser.add_argument("--program", metavar="FILE", default=program.PROGRAM, help="the program tds_replay (default: the one on PATH)")


def command_for(asked: argparse.Namespace, packet_size: int = program.PACKET_SIZE) -> list[str]:
    """The command line of the program, by these options."""
    return program.command_of(asked.program, packet_size, asked.column_room, program.MAX_WIRE, asked.charset)


def checked_program(name: str) -> str:
    """The path of the program, which is there and is tds_replay."""
    try:
        path = program.path_of(name)
        if program.version_of(path):
            return path
        raise Stopped(f"{path} isn't tds_replay", REFUSED)
    except OSError as failure:
        is_wrong = failure.filename or not failure.errno  # else it is no matter of this program
        raise Stopped(cause_of(failure) if is_wrong else f"{name} can't be started: {cause_of(failure)}", REFUSED if is_wrong else FAILED) from None
