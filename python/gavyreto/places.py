"""Where outputs go: descriptors that are open, and files, which get their names once they are whole."""
from __future__ import annotations

import argparse
import contextlib
import fcntl
import os
import re
import stat
from collections.abc import Iterator
from typing import NamedTuple, Union

from gavyreto.commands.common import (
    STANDARD_ERROR, STANDARD_INPUT, STANDARD_OUTPUT, STREAMS, TWO_PLACES, Stopped, are_two_places, check_name, lock_file, naming, needed, opened_by,
    settle, write,
)
from gavyreto.program import FAILED, REFUSED

PARTIAL = ".partial"  # behind the name of what isn't whole
LISTS = ("system.posix_acl_access", "system.posix_acl_default")  # of who is named: of a file, and of what is made in a folder (Linux)
OTHERS = stat.S_IRWXG | stat.S_IRWXO  # all but the owner


class Place(NamedTuple):
    """Where an output goes: to a descriptor, or else to what its name leads to, a file that is replaced, a pipe or a device."""

    name: str  #: as it is asked for
    descriptor: int
    path: str = ""  #: without links

    def names(self) -> list[Union[str, int]]:
        """What is written to, also until it is whole."""
        return [self.path, self.path + PARTIAL] if self.path else [self.descriptor]

    def check(self) -> None:
        """Raises `Stopped` if it can't be opened, as far as that is known before."""
        if self._can_be_written():
            return
        has_folder = not self.path or os.path.exists(os.path.dirname(self.path))
        why = "it is a folder" if os.path.isdir(self.path) else "can't be written" if has_folder else "its folder isn't there"
        raise Stopped(f"{self.name}: {why}", FAILED)

    def _can_be_written(self) -> bool:
        """Whether it can be opened, as far as that is known before: a descriptor or what is no regular file itself, else the file beside it."""
        if not self.path:
            return fcntl.fcntl(self.descriptor, fcntl.F_GETFL) & os.O_ACCMODE != os.O_RDONLY
        if not os.path.isdir(os.path.dirname(self.name) or os.curdir):  # as of a name that ends with a slash, and is none of a folder
            return False
        if os.path.lexists(self.path) and not (os.path.isfile(self.path) and os.access(self.path, os.W_OK)):
            return not os.path.isdir(self.path) and os.access(self.path, os.W_OK)
        try:
            waiting = os.lstat(self.path + PARTIAL).st_mode
        except FileNotFoundError:
            waiting = stat.S_IFREG
        except OSError:  # its name is too long, or its folder is none
            return False
        return stat.S_ISREG(waiting) and os.access(os.path.dirname(self.path), os.W_OK)


def stats_of(*names: Union[str, int]) -> list[os.stat_result]:
    """What some names and descriptors lead to, as far as anything is there."""
    found = []
    for name in names:
        with contextlib.suppress(OSError):
            found.append(os.stat(name))
    return found


def mode_of(path: str) -> int:
    """The mode of a file, for one in its place, which nobody may open who is kept from it; 0 if none is there. Where that has another group,
    all but its owner may do what group and others both may; nothing where more are named, as in a list of the file or of its folder."""
    folder = os.path.dirname(os.path.abspath(path))
    try:
        found, above = os.stat(path), os.stat(folder)
    except OSError:
        return 0
    mode, group = found.st_mode, above.st_gid if above.st_mode & stat.S_ISGID else os.getegid()
    if found.st_gid != group:
        both = mode >> 3 & mode & stat.S_IRWXO
        mode = mode & ~OTHERS | both << 3 | both
    for place, name in zip((path, folder), LISTS):
        with contextlib.suppress(OSError):  # it has no such list
            os.getxattr(place, name)
            mode &= ~OTHERS
    return mode


def are_shared(some: list[os.stat_result], others: list[os.stat_result]) -> bool:
    """Whether one of some files or pipes is among others. A device keeps nothing."""
    return any(os.path.samestat(one, other) and not stat.S_ISCHR(one.st_mode) for one in some for other in others)


def place_of(name: str) -> Place:
    """The place of an output by its name. Raises `Stopped` if it is a descriptor that isn't open."""
    opened = opened_by(name)
    return Place(name, -1, os.path.realpath(name)) if opened is None else Place(name, opened)


def templates_of(asked: argparse.Namespace) -> list[str]:
    """The names of files to write, in which {} stands for a number."""
    return [it for it in (asked.output, asked.packets) if it]


class Places:
    """The places of the rows and packets of statements. No two may be one file, and none one that is read."""

    def __init__(self, asked: argparse.Namespace) -> None:
        """Raises `Stopped` if rows and packets could be one file, whatever the numbers."""
        self._asked = asked
        statements = asked.input or ([] if asked.statements else ["-"])
        inputs = {STANDARD_INPUT if it == "-" else it: "the statements are read from it" for it in statements}
        inputs |= {it: "it is read too" for it in (asked.certificates, asked.access_token_file, asked.program) if it}
        self._inputs = [(found, why) for it, why in inputs.items() for found in stats_of(it) if stat.S_ISREG(found.st_mode)]
        self._templates = templates_of(asked)
        self._paths = [os.path.realpath(it) for it in self._templates]
        form = "|".join(re.escape(it).replace(r"\{\}", "[0-9]+") for it in self._paths)
        self._own = re.compile(f"(?:{form})(?:{re.escape(PARTIAL)})?")
        self._links: dict[str, str] = {}  # the names of those that are links, by what they lead to
        are_files = all(opened_by(it) is None for it in self._templates)
        if are_files and any("{}" in it for it in self._templates) and not _are_apart(*self._paths):
            raise Stopped("--packets and -o could be one file: give them different names", REFUSED)

    def take(self, number: int) -> list[Place]:
        """The places of a statement: that of its rows, and that of its packets if they are kept. Raises `Stopped` if something would be lost
        or mixed, or can't be written."""
        named = [place_of(it.replace("{}", str(number))) for it in self._templates]
        places = named if self._asked.output else [Place(STREAMS[STANDARD_OUTPUT], needed(STANDARD_OUTPUT)), *named]
        if number > 1 and not named:
            return places  # of which nothing has changed
        for wrong in (*self._wrong_in(places), *self._wrong_links(named, number)):
            raise Stopped(wrong, REFUSED)
        for place in places:
            place.check()
        return places

    def _wrong_in(self, places: list[Place]) -> Iterator[str]:
        """What would be lost or mixed in the places of a statement, and where lines are written."""
        output, error = (Place(STREAMS[it], it) for it in (STANDARD_OUTPUT, STANDARD_ERROR))
        rows, *packets = places
        files = [it for it in places if it.path]
        there = {it: stats_of(*it.names()) for it in (*places, output, error)}
        yield from (f"{it.name}: {why}" for it in (*places, error) for found, why in self._inputs if are_shared([found], there[it]))
        yield from (f"{it.name}: the rows are written to it" for it in packets if {*it.names()} & {*rows.names()} or are_shared(there[it], there[rows]))
        yield from (f"{it.name}: the lines are written to it" for it in (*packets, *files) if are_shared(there[it], there[error]))
        yield from (f"{it.name}: {output.name} is written to it" for it in files if are_shared(there[it], there[output]))
        if not rows.path and are_two_places(rows.descriptor, STANDARD_ERROR):
            yield f"{rows.name} and {error.name} {TWO_PLACES}"

    def _wrong_links(self, named: list[Place], number: int) -> Iterator[str]:
        """Links to what another output is, or has for a name by another number."""
        for place, path in zip(named, self._paths):
            if place.path and place.path != path.replace("{}", str(number)):
                other = self._links.setdefault(place.path, place.name)
                if other != place.name or self._own.fullmatch(place.path):
                    yield f"{other if other != place.name else place.path} and {place.name} are one file"


def _are_apart(rows: str, packets: str = "") -> bool:
    """Whether paths in which {} stands for a number are those of different files, whatever the numbers, also until these are whole."""
    one, other = (re.sub(r"(\{\}|[0-9])+", "{}", it) for it in (rows, packets))
    return other not in (one, one + PARTIAL) and one != other + PARTIAL


class Opened:
    """An output under way. A file is written beside the one that it replaces, under its name with .partial behind it."""

    def __init__(self, place: Place) -> None:
        self._path, self._waiting = place.path, ""
        self.name = place.path or place.name  #: for a line
        with naming(place.name):
            self.descriptor = self._opened() if place.path else os.dup(place.descriptor)

    def _opened(self) -> int:
        """The file beside; what is no regular file, as a pipe or a device, itself."""
        mode = mode_of(self._path)
        if mode and not stat.S_ISREG(mode):
            return os.open(self._path, os.O_WRONLY | os.O_CLOEXEC)
        self._waiting = self._path + PARTIAL
        descriptor = created(self._waiting, stat.S_IMODE(mode or 0o666))
        if mode:
            os.chmod(descriptor, stat.S_IMODE(mode))
        return descriptor

    def write(self, data: bytes) -> None:
        """Writes bytes. Raises `Stopped` if that fails."""
        write(self.name, self.descriptor, data)

    def close(self, is_whole: bool) -> None:
        """All is there, or what there is. A file that is whole gets its name."""
        if self.descriptor < 0:
            return
        held, self.descriptor = self.descriptor, -1
        with naming(self.name), os.fdopen(held, "wb"):  # whose lock it has
            settle(held)
            if self._waiting and is_whole:
                check_name(self._waiting, held)
                os.replace(self._waiting, self._path)


def created(path: str, mode: int = 0o666) -> int:
    """A new file, which may be opened by whom its mode says, in the place of one that was left. Raises `Stopped` if another command
    writes that."""
    with contextlib.ExitStack() as held:
        with contextlib.suppress(OSError):
            left = os.open(path, os.O_RDONLY | os.O_NONBLOCK | os.O_NOFOLLOW | os.O_CLOEXEC)
            held.callback(os.close, left)
            lock_file(path, left)
        with contextlib.suppress(FileNotFoundError):
            os.remove(path)
    descriptor = os.open(path, os.O_WRONLY | os.O_CREAT | os.O_EXCL | os.O_CLOEXEC, mode)
    lock_file(path, descriptor)
    return descriptor
