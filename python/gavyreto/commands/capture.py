"""Exports the answers of servers in a capture of the network: a text for each response, and a table.

FILE is a capture (pcap or pcapng), the dump of a client of FreeTDS (the file that the variable TDSDUMP names), or everything that
a server sent on one connection, as a proxy records it; it may be compressed by gzip, and - is standard input. The text of a
response is CLIENT-SERVER.NUMBER.csv in the folder OUT, or answer.NUMBER.csv if client and server aren't known, with .partial after
it if the response can't be read to its end. With --packets its packets are kept beside it, as CLIENT-SERVER.NUMBER.tds. The table
on standard output is CSV and has a line for each response as it ends: its text, client, server, the time of its first byte (UTC),
the first words of the statement if the client's side is there, the status, and the first line of tds_replay. A request without an
answer has a line too, and so has whatever isn't read: bytes that are encrypted, that follow a gap, that any frame shows to be sent
and aren't there, or that came again with other values. If a byte was captured several times, the first copy counts. A dump is as good
as the statements in it: some clients write them there as they are, and one may look like packets.

Standard error has the number of frames that aren't read, by reason, and ends with the sums of frames, connections, requests and
bytes of servers. Where it is a terminal, and standard output is none, a line says how far the capture is read. Memory doesn't
grow with the capture, nor with an answer.

The status is the greatest of these: 0 if every answer is whole and there is nothing else to report; 3 if the server reported an
error in a response, or a response was cancelled; 4 if something can't be read; 5 if a read, a write or the program failed, or the
sums don't agree; 2 if the arguments are refused; 130 after Ctrl-C, 143 after SIGTERM."""
from __future__ import annotations

import argparse
import contextlib
import itertools
import os
import signal
import stat
import sys
import tempfile
from collections.abc import Iterable, Iterator
from datetime import datetime, timedelta, timezone
from typing import IO, Optional, cast

from gavyreto import tds
from gavyreto.adapting import Adapter
from gavyreto.capturing import dumps, files
from gavyreto.capturing.accounts import Accounts
from gavyreto.capturing.connections import Connections
from gavyreto.capturing.desk import Answer, Sides
from gavyreto.capturing.keeping import Kept, Room
from gavyreto.capturing.messages import is_header
from gavyreto.commands.common import (
    SIGNALS, Changed, Input, Progress, Stopped, add_options_of_program, cause_of, check_input, checked_program, command_for, folder_of_texts, line, named, naming, number_in, parser_of, put, rename, tell,
)
from gavyreto.payload import Ended
from gavyreto.program import BAD_INPUT, DECIDED, DONE, FAILED, REFUSED, SERVER_ERROR, Ending, OutputFailed
from gavyreto.tds import PacketType

HEADER = ("text", "client", "server", "time", "statement", "status", "line")
FRAMES = 256  # after so many the time is looked at
UNFINISHED = "unfinished"  # at the beginning of the name of a folder of texts and packets under way, which a run leaves that is killed
MOST_COUNTED = 1 << 14  # connections whose number of texts is kept
EPOCH = datetime(1970, 1, 1, tzinfo=timezone.utc)


@contextlib.contextmanager
def signals(how: signal.Sigmasks, numbers: Iterable[int]) -> Iterator[set[int]]:
    """A context in which other signals are blocked. It gives those that were blocked before."""
    before = signal.pthread_sigmask(how, numbers)
    try:
        yield before
    finally:
        signal.pthread_sigmask(signal.SIG_SETMASK, before)


class Export:
    """Exports answers to texts in a folder, and puts a line into the table for each."""

    def __init__(self, asked: argparse.Namespace, room: Room) -> None:
        self.worst = 0
        self._asked, self._room = asked, room
        self._counts: dict[str, int] = {}  # of the texts of the connections that had one last

    def keep(self) -> Kept:
        """Where the packets of an answer go."""
        return Kept(self._room)

    def tell(self, sides: Sides, time: int, why: str, statement: str = "") -> None:
        """Puts a line for what isn't read."""
        self._put(None, sides, time, statement, BAD_INPUT, why)

    def answer(self, sides: Sides, answer: Answer) -> None:
        """Exports an answer whose packets are kept."""
        kept = cast(Kept, answer.kept)
        packets = kept.file() if self._asked.packets or self._asked.adapt else ""
        if self._asked.adapt:
            self._adapt(packets)
        ending, text = kept.export(answer.packets.is_whole and not answer.why)
        outcome = self._outcome(ending, answer)
        name = self._next_name(sides)
        suffix = ".csv" if outcome.status in (DONE, SERVER_ERROR) else ".csv.partial"
        self._put_file(text, name + suffix)
        if self._asked.packets:
            self._put_file(packets, name + ".tds")
        kept.drop()
        self._put(name + suffix, sides, answer.time, answer.words(), outcome.status, outcome.line)

    def _put_file(self, path: str, name: str) -> None:
        """Gives a file its name in the folder, unless something has put one there."""
        target = os.path.join(self._asked.out, name)
        try:
            rename(path, target)
        except FileExistsError:
            raise Stopped(f"{target} is there: something else writes into this folder", FAILED) from None

    def _adapt(self, packets: str) -> None:
        """Rewrites columns that the program refuses. What can't be followed stays as it is, and the program says why."""
        adapted = packets + ".adapted"
        with contextlib.suppress(ValueError, Ended), naming(self._asked.out):
            with open(packets, "rb") as source, open(adapted, "wb") as target:
                Adapter(source.read, target.write, self._asked.charset).run()
            os.replace(adapted, packets)

    def _outcome(self, outcome: Ending, answer: Answer) -> Ending:
        """The outcome of an answer, with what its packets say of its end."""
        outcome = outcome.refused(answer.why)
        unfinished = tds.unfinished(answer.packets.tail) if outcome.status == DONE else None
        return outcome._replace(status=SERVER_ERROR, line=f"{outcome.line}, {unfinished}") if unfinished else outcome

    def _next_name(self, sides: Sides) -> str:
        stem = f"{sides.client}-{sides.server}".replace(":", "_") if sides.client else "answer"
        number = self._counts.pop(stem, 0)
        if not number and len(self._counts) >= MOST_COUNTED:  # it may have had some
            path = os.path.join(self._asked.out, stem)
            number = next(it for it in itertools.count() if not any(os.path.lexists(f"{path}.{it + 1}{end}") for end in (".csv", ".csv.partial")))
            del self._counts[next(iter(self._counts))]
        self._counts[stem] = number + 1
        return f"{stem}.{number + 1}"

    def _put(self, text: Optional[str], sides: Sides, time: int, statement: str, status: int, said: str) -> None:
        put(line((text, sides.client or None, sides.server or None, moment_of(time), statement or None, status, said)))
        self._count(status)

    def note(self, text: str, status: int = 0) -> None:
        """Writes a line to standard error, with a status."""
        tell(text)
        self._count(status)

    def _count(self, status: int) -> None:
        self.worst = max(self.worst, status if status in DECIDED else FAILED)


def moment_of(time: int) -> Optional[str]:
    """A time as it is written, or None if there is none that a calendar has."""
    try:
        return (EPOCH + timedelta(microseconds=time)).strftime("%Y-%m-%d %H:%M:%S.%f") if time else None
    except OverflowError:
        return None


def capture(asked: argparse.Namespace) -> int:
    """Exports a capture or a dump, and returns the greatest status."""
    with Input(asked.file) as file, folder_of_texts(asked.out):
        check_input(file.fileno(), "the capture is")
        source = files.source_of(file)
        left = [name for name in os.listdir(asked.out) if name.endswith((".csv", ".partial", ".tds")) or name.startswith(UNFINISHED)]
        if left:
            raise Stopped(f"{asked.out} has texts, as {left[0]}: name a folder without them", REFUSED)
        # A signal waits while the folder is made, and while it is removed, so that it doesn't leave it there.
        with signals(signal.SIG_BLOCK, SIGNALS) as before, tempfile.TemporaryDirectory(
                prefix=UNFINISHED, dir=asked.out) as folder, signals(signal.SIG_SETMASK, before), contextlib.ExitStack() as stack:
            room = stack.enter_context(Room(folder, command_for(asked), not asked.packets and not asked.adapt))
            export, accounts = Export(asked, room), Accounts()
            if files.is_capture(source.head()):
                take_capture(source, export, accounts, set(asked.port or [1433]), file)
            elif is_header(source.head(), (PacketType.ANSWER,)):
                put(line(HEADER))
                dumps.take_recorded(source, export, accounts)
            elif not take_dump(source, export, accounts):
                raise Stopped(f"{asked.file} is neither a capture (pcap or pcapng), nor a dump of FreeTDS, nor what a server sent", REFUSED)
    export.note(accounts.line())
    if not accounts.meets():
        export.note("the sums don't meet", FAILED)
    return export.worst


def shown(frames: Iterator[files.Frame], file: IO[bytes], accounts: Accounts) -> Iterator[files.Frame]:
    """The same frames; while they come, a line on a terminal says how far the capture is read, where the table goes elsewhere."""
    found, progress = os.fstat(file.fileno()), Progress(not sys.stdout.isatty())

    def line_after(seconds: float) -> str:
        place = min(os.lseek(file.fileno(), 0, os.SEEK_CUR), found.st_size)
        left = seconds * (found.st_size - place) / max(place, 1)
        return f"{place} of {found.st_size} bytes, {accounts.answers} answers, {left:.0f} seconds left"

    try:
        for number, frame in enumerate(frames if progress.shows and stat.S_ISREG(found.st_mode) else ()):
            if number % FRAMES == 0:
                progress.show(line_after)
            yield frame
        yield from frames
    finally:
        progress.end()


def take_capture(source: files.Source, export: Export, accounts: Accounts, ports: set[int], file: IO[bytes]) -> None:
    """Exports the answers in a capture."""
    connections, drops, cut = Connections(ports, export, accounts), files.Drops(), ""
    put(line(HEADER))
    try:
        for frame in shown(files.frames(source, drops), file, accounts):
            connections.take(frame)
    except (files.CutShort, Changed) as why:
        cut = str(why)
    connections.finish()
    for kinds, status in (accounts.unread, BAD_INPUT), (accounts.foreign, 0):
        for reason, count in kinds.most_common():
            export.note(f"{count} frames aren't read: {reason}", status)
    if drops.total():
        export.note(f"{drops.total()} frames were lost while they were captured, as the capture itself counts them", BAD_INPUT)
    if drops.unknown:
        export.note(f"{drops.unknown} blocks of the capture aren't read: their types aren't known", BAD_INPUT)
    if connections.cut:
        export.note(f"{connections.cut} frames weren't captured whole: `tcpdump -s 0` keeps all of them", BAD_INPUT)
    others = ", ".join(str(port) for port, _ in connections.others.most_common())
    asked = ", ".join(map(str, sorted(ports)))
    if not accounts.connections:
        export.note(f"no server on port {asked}" + (f"; what looks like TDS is on port {others}" if others else "") + ": --port names another", BAD_INPUT)
    elif others:
        export.note(f"what looks like TDS is on port {others} too: --port names others than {asked}")
    if cut:
        export.note(cut, BAD_INPUT)


def take_dump(source: files.Source, export: Export, accounts: Accounts) -> bool:
    """Exports the answers in a dump. Returns whether it is one."""
    packets = dumps.dumped(source.lines())
    first = next(packets, None)
    if first is None:
        return False
    put(line(HEADER))
    try:
        dumps.take_packets(first, packets, export, accounts)
    except dumps.Mixed as why:
        export.note(f"{why}: the packets of several connections are mixed, or some are lacking, and the rest isn't read", BAD_INPUT)
    return True


def arguments(words: list[str]) -> argparse.Namespace:
    parser = parser_of("capture", __doc__)
    add = parser.add_argument
    add("--port", metavar="N", type=number_in(1, 65535), action="append", help="port of a server (default: 1433); repeat it for several")
    add("--packets", action="store_true",
        help="keep the packets of each response beside its text, for columns, adapt and many; with --adapt those rewritten")
    add_options_of_program(parser)
    add("file", metavar="FILE", type=named, help="the capture or dump, or - for standard input")
    add("out", metavar="OUT", type=named, help="the folder of the texts, which is made if it isn't there")
    return parser.parse_args(words)


def run(words: list[str]) -> int:
    """The command `capture`. Returns its exit status."""
    asked = arguments(words)
    asked.program = checked_program(asked.program)
    try:
        return capture(asked)
    except files.CutShort as cut:
        raise Stopped(f"{asked.file}: {cut}", BAD_INPUT) from None
    except OutputFailed as failed:
        raise Stopped(f"{asked.out}: {cause_of(failed.failure)}", FAILED) from None
