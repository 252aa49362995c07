"""Result sets of a response, while the program reads it."""
from __future__ import annotations

import atexit
import contextlib
import errno
import io
import os
import select
import socket
import stat
import sys
import threading
import time
import weakref
from typing import Any, Callable, Optional, Protocol, Union, cast

from gavyreto import tds
from gavyreto.adapting import Adapter
from gavyreto.errors import BadAnswer, Error, Fault, ProgramFailed, Report, ServerError, UnfinishedAnswer
from gavyreto.program import (
    BLOCK, CHANGED, CHARSETS, COLUMN_ROOM, MAX_WIRE, OF_SIGNAL, PACKET_SIZE, PROGRAM, Before, Ending, Program, command_of, owned,
)
from gavyreto.payload import Descriptions, Ended, NotedDescriptions, Payload, Read, columns_again
from gavyreto.text import Sets
from gavyreto.values import Dates, check_dates


class Readable(Protocol):
    """An open file, or what is read as one."""

    def read(self, most: int, /) -> bytes: ...


Source = Union[str, "os.PathLike[str]", bytes, bytearray, memoryview, int, socket.socket, Readable]
SECONDS_TO_END = 0.2  # for which a thread is waited for that may be within a call of its source, to which nothing comes
OF_DESCRIPTORS = (int, io.FileIO, socket.socket)  # read by their descriptors; a subclass, as ssl.SSLSocket, by its own method
Copy = Callable[[], bool]  # hands the packets over: whether all of them were there
Unfinished = Callable[[], Optional[str]]  # what there is to say of an answer that the server ended as cancelled or failed


def check(before: Before, is_other: bool = False) -> None:
    """Raises OSError if a file was another one, or was written to since; not if others follow the responses that were there."""
    if is_other or before.has_changed(may_grow=True):
        raise OSError(errno.EBUSY, CHANGED)


class HeldFile:
    """A descriptor of its own of an open file, from whose place on it is read, whoever else reads the file."""

    def __init__(self, descriptor: int) -> None:
        self.descriptor = -1
        owned(self)
        self.descriptor = os.dup(descriptor)
        self._start = self._at = os.lseek(descriptor, 0, os.SEEK_CUR)
        self._before = Before(self.descriptor)

    def read(self, most: int) -> bytes:
        """The next bytes. Raises OSError if they may be those of another response."""
        data = os.pread(self.descriptor, most, self._at)
        self._at += len(data)
        check(self._before)
        return data

    def unfinished(self) -> Optional[str]:
        """What the end of the payload says, which is read again from its first packet on. Raises OSError if that may be another one."""
        framing, at = tds.Framing(), self._start
        while not framing.is_over and (block := os.pread(self.descriptor, BLOCK, at)):
            framing.take(block)
            at += len(block)
        check(self._before)
        return tds.unfinished(framing.tail)

    def close(self) -> None:
        if self.descriptor >= 0:
            os.close(self.descriptor)
            self.descriptor = -1

    def __del__(self) -> None:
        self.close()


class ReadFailed(Exception):
    """What the method of a source raised that reads from it, as its argument: nothing is read from that any more."""


class Feeding:
    """A thread that hands the packets of one response to the program. What ends it early is in `error`."""

    def __init__(self, copy: Copy, program: Program) -> None:
        self.error: Optional[BaseException] = None
        self._copy, self._program = copy, program
        self._thread = threading.Thread(target=self._run, daemon=True)
        self._thread.start()
        _feedings.add(self)

    def _run(self) -> None:
        is_whole = False
        try:
            is_whole = self._copy()
        except BrokenPipeError:
            is_whole = True  # the program needs no more
        except ReadFailed as failed:
            self.error = failed.args[0]
        except BaseException as error:
            self.error = error
        finally:
            if not is_whole:
                self._program.cut()

    def join(self, seconds: Optional[float] = None) -> None:
        """Waits for its end, unless it is the thread that calls, in which what isn't used may be looked for, or Python itself ends."""
        if self._thread is not threading.current_thread() and not sys.is_finalizing():
            self._thread.join(seconds)

    def kill(self) -> bool:
        """Ends the program. Returns whether it was under way."""
        is_alive = self._thread.is_alive()
        if is_alive:
            self._program.kill()
        return is_alive


_feedings = weakref.WeakSet[Feeding]()


@atexit.register
def _end_all() -> None:
    """Ends them where Python will end, for which a source whose lock a thread has then would be a fatal error."""
    alive, until = [it for it in list(_feedings) if it.kill()], time.monotonic() + SECONDS_TO_END
    for it in alive:
        it.join(max(until - time.monotonic(), 0))


class Response(Sets):
    """The result sets of a response, while the program reads it."""

    def __init__(
        self, program: Program, dates: Dates, descriptions: Optional[Descriptions], unfinished: Unfinished, *, copy: Optional[Copy] = None,
        held: Optional[HeldFile] = None, adapts: bool = False, close: Callable[[], object] = lambda: None,
    ) -> None:
        """What was opened for it is closed if it can't begin."""
        self.report: Optional[Report] = None  #: once all is read and the server reported no error
        self.is_whole = False  #: once all is read, whether or not the server reported an error
        self._program, self._unfinished, self._held = program, unfinished, held
        self._feeding: Optional[Feeding] = None
        super().__init__(self._read, dates, descriptions, adapts)
        try:
            program.begin()
            self._feeding = Feeding(copy, program) if copy else None
        except (OSError, RuntimeError):  # no program, or no thread, can be started
            self.close()
            close()
            raise

    def __del__(self) -> None:
        """Ends a reading that is dropped where it was begun. What is handed over in a thread doesn't keep it."""
        if getattr(self, "_process", 0) == os.getpid() and not (self._is_ended or self._is_closed or self._failure):
            self.close()

    def _read(self, most: int) -> bytes:
        return self._program.read(most)

    def _stop(self) -> None:
        self._program.kill()

    def _release(self) -> None:
        """Ends the program if it still runs, in the middle of the response then."""
        if self._held and (self._is_closed or self._failure):
            self._held.close()  # at the end of the response its descriptions may still be asked for
        self._program.close()
        if self._feeding:
            self._feeding.join(SECONDS_TO_END)

    def _judge_end(self, rest: str) -> None:
        ending = cast(Ending, self._program.ending)
        said = ending.said
        if isinstance(said, Fault):
            said.rest = rest
        is_whole = isinstance(said, (Report, ServerError))
        is_all_read = is_whole or isinstance(said, Fault) and said.name == "InputEnded"
        if self._feeding and is_all_read:
            self._feeding.join()
        if self._feeding and self._feeding.error and (is_all_read or said is None):
            self._raise(self._feeding.error)
        unfinished = self._unfinished() if is_whole else None
        self.is_whole = is_whole
        if isinstance(said, Error):
            self._raise(said)
        read = self._parser
        if said is None or (said.sets, said.rows, said.written) != (read.sets, read.rows, read.records.length):
            self._raise(ProgramFailed(ending.status if ending.status < OF_SIGNAL else OF_SIGNAL - ending.status, ending.notes))
        if unfinished:
            self._raise(UnfinishedAnswer(unfinished, said))
        self.report = said


def export(
    source: Source, *, dates: Dates = False, adapt: bool = False, packet_size: int = PACKET_SIZE, column_room: int = COLUMN_ROOM,
    max_wire: int = MAX_WIRE, charset: str = CHARSETS[0], program: str = PROGRAM,
) -> Response:
    """Runs the program on one response, and returns an iterator over its result sets.

    source       the packets: the path of a file, the bytes themselves, or an open binary file, socket or descriptor, of
                 which exactly one response is read, from where it is. A descriptor, an unbuffered file and a socket have to
                 block. A buffered file of a pipe to which nothing has come waits in its `close` for the first byte: to leave
                 a reading of one by Ctrl-C, give its descriptor
    dates        True if dates, times and GUIDs become date, time, datetime and UUID, but for columns of seven digits of a
                 second; "truncate" if these do too, and lose the seventh
    adapt        whether columns that the program refuses are rewritten, as the command adapt does; float and real are float then,
                 and `columns` has the types that came
    packet_size  the greatest packet that is read, in bytes, 512 to 32767
    column_room  the room for the encoded description of columns, in bytes, 10 to 67108864
    max_wire     the most bytes of packets that are read, 8 to 2**56
    charset      of char and varchar: "windows-1252" or "utf-8"
    program      its name on the path, or its path

    Raises OSError if the file or the program can't be opened, ValueError if the source is closed or doesn't block, TypeError
    for another source. While the sets and rows are read, once all that came before is handed out, it raises Fault,
    ServerError or ProgramFailed, OSError at the end of a file that changed meanwhile, and what a method `read` of the source raised;
    RuntimeError if that is StopIteration."""
    check_dates(dates)
    command = command_of(program, packet_size, column_room, max_wire, charset)
    if adapt:
        return _fed(source, command, dates, charset)
    if isinstance(source, (str, os.PathLike)):
        with open(source, "rb", buffering=0) as file:
            return _of_descriptor(file.fileno(), command, dates)
    if isinstance(source, (bytes, bytearray, memoryview)):
        return _of_bytes(bytes(source), command, dates)
    if type(source) in OF_DESCRIPTORS:
        return _of_descriptor(_descriptor_of(source), command, dates)
    return _fed(source, command, dates)


def _of_bytes(data: bytes, command: list[str], dates: Dates) -> Response:
    run, framing = Program(command), tds.Framing()
    end = framing.take(data)  # what follows the response is ignored

    def copy() -> bool:
        run.put(data[:end])
        return framing.is_over

    return Response(run, dates, Descriptions(columns_again(io.BytesIO(data).read)), lambda: tds.unfinished(framing.tail), copy=copy)


def _reading(source: Source) -> tuple[Read, Callable[[], object]]:
    """What reads a source, and what ends that, which fails if it is a file that changed meanwhile."""
    if isinstance(source, (bytes, bytearray, memoryview)):
        return io.BytesIO(source).read, lambda: None
    if isinstance(source, (str, os.PathLike)) or type(source) in OF_DESCRIPTORS:
        name = source if isinstance(source, (str, os.PathLike)) else os.dup(_descriptor_of(source))
        own = owned(open(name, "rb", buffering=0))
        return _watched(lambda most: own.read(most) or b"", own)
    read, descriptor = _read_of(source), _file_of(source)
    if descriptor < 0:
        return _guarded(_patient(source)) if _is_buffer(source) and type(source) is io.BufferedReader else read, lambda: None
    held, at = (source.peek(), source.tell()) if _is_buffer(source) else (b"", 0)  # type: ignore[union-attr]
    return _watched(read, owned(open(os.dup(descriptor), "rb", buffering=0)), held, at)


def _watched(read: Read, own: io.FileIO, held: bytes = b"", at: int = 0) -> tuple[Read, Callable[[], object]]:
    """The same, of a file that is open here too, of which the source has read some bytes from a place on already."""
    before = Before(own.fileno())
    is_other = os.pread(own.fileno(), len(held), at) != held if held else False

    def close() -> None:
        with own:
            check(before, is_other)

    return read, close


def _file_of(source: Any) -> int:
    """The descriptor of the regular file that an object reads, also one that is packed; -1 if there is none."""
    with contextlib.suppress(AttributeError, OSError, TypeError, ValueError):  # it has none, or is closed
        descriptor: int = source.fileno()
        return descriptor if stat.S_ISREG(os.fstat(descriptor).st_mode) else -1
    return -1


def _is_buffer(source: Any) -> bool:
    """Whether an object is the buffer of a file that is read by its descriptor."""
    return type(getattr(source, "raw", None)) is io.FileIO


def _patient(source: Any) -> Read:
    """What reads a buffered file of a pipe or a terminal, whose lock nobody has while nothing comes: what it holds, and then what comes."""
    held = -1  # bytes of its buffer, once something has come

    def read(most: int) -> bytes:
        nonlocal held
        held = len(source.peek()) if held < 0 else held
        if not held:
            events = select.poll()
            events.register(source.fileno(), select.POLLIN)
            events.poll()
        data: bytes = source.read1(min(most, held or most))
        held = max(held - len(data), 0)
        return data

    return read


def adapt_all(adapter: Adapter, found: NotedDescriptions) -> bool:
    """Rewrites a response, whose descriptions are noted. Returns whether it was whole. Raises BadAnswer if it can't be followed."""
    try:
        adapter.run()
        return True
    except Ended:
        return False
    except ValueError as wrong:
        raise BadAnswer(f"the response can't be followed: {wrong}") from None
    finally:
        found.end()


def _of_descriptor(descriptor: int, command: list[str], dates: Dates) -> Response:
    """A response in a file, which the program reads, and which is read here again for its descriptions and its end; or one
    that comes by a pipe or a socket."""
    if not stat.S_ISREG(os.fstat(descriptor).st_mode):
        return _fed(descriptor, command, dates)
    held = HeldFile(descriptor)
    return Response(Program(command, held.descriptor), dates, Descriptions(columns_again(held.read)), held.unfinished, held=held)


def _fed(source: Source, command: list[str], dates: Dates, adapts: Optional[str] = None) -> Response:
    """A response of any source, whose packets are read here, and handed to the program, rewritten if a character set is given for that."""
    read, close = _reading(source)
    run, found = Program(command), NotedDescriptions()
    walk: Union[Payload, Adapter] = Payload(read, run.put) if adapts is None else Adapter(read, run.put, adapts, found.add)

    def copy() -> bool:
        try:
            return found.watch(walk) if isinstance(walk, Payload) else adapt_all(walk, found)
        finally:
            close()

    return Response(run, dates, found, lambda: tds.unfinished(walk.tail), copy=copy, adapts=adapts is not None, close=close)


def _descriptor_of(source: Any) -> int:
    """The descriptor of an open file or socket, which has to block. Raises ValueError or OSError if it is closed, or a folder's."""
    descriptor: int = source if isinstance(source, int) else source.fileno()
    if descriptor < 0:
        raise ValueError("the source is closed")
    if stat.S_ISDIR(os.fstat(descriptor).st_mode):  # of which Python would leave a copy open
        raise IsADirectoryError(errno.EISDIR, os.strerror(errno.EISDIR))
    if not os.get_blocking(descriptor):
        raise ValueError("the source doesn't block: use `setblocking(True)` of a socket, or `os.set_blocking`")
    return descriptor


def _read_of(source: Any) -> Callable[[int], bytes]:
    """The method that reads from an object. Raises TypeError if it has none, or reads text, and ValueError if it is closed."""
    read = source.recv if isinstance(source, socket.socket) else getattr(source, "read", None)
    if not callable(read) or isinstance(source, io.TextIOBase):
        raise TypeError(f"a path, bytes, or an open binary file, socket or descriptor is needed, not {type(source).__name__}")
    if getattr(source, "closed", False):
        raise ValueError("the source is closed")
    return _guarded(read)


def _guarded(read: Callable[[int], Optional[bytes]]) -> Read:
    """The same method, of which whatever it raises is ReadFailed."""

    def reads(most: int) -> bytes:
        try:
            data = read(most)
        except StopIteration:  # who reads rows would take it for their end
            raise ReadFailed(RuntimeError("the source raised StopIteration")) from None
        except Exception as failure:
            raise ReadFailed(failure) from None
        if data is None:
            raise ReadFailed(BlockingIOError("the source doesn't block"))
        if len(data) > most:
            raise ReadFailed(OSError(f"the source gave {len(data)} bytes, and {most} were asked for"))
        return data

    return reads
