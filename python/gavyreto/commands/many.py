"""Exports many responses, several at once: on this machine, or on the workers of a Dask cluster.

The text of FILE is FILE.csv in the folder OUT, and gets this name when it is whole; a response that is refused, or has more behind
it, leaves FILE.csv.partial. A folder stands for the files in it. The table OUT/outcomes.csv gets a line for each response as it ends: its
file, the status and first line of tds_replay, then its text, the bytes of that and the time of its change, the size, times and inode of
the file, the options, and the program's version and digest. A command that was stopped can be run again: it skips each response whose
line and text are there, if text, file, options and program are those of the line.

The status is the greatest of these: 0; 3 if the server reported an error in a response; 4 if a response was refused; 5 if one
failed and has to be tried again; 2 if the arguments are refused; 130 after Ctrl-C."""
from __future__ import annotations

import argparse
import concurrent.futures
import contextlib
import logging
import os
import re
import time
from concurrent.futures import FIRST_COMPLETED, Future, ThreadPoolExecutor, wait
from typing import Any, Generator, Optional, Union

from gavyreto import outcomes
from gavyreto.commands.common import (
    STANDARD_ERROR, STREAMS, Stopped, absolute, add_options_of_program, cause_of, checked_program, command_for, folder_of_texts, named, number_in, parser_of, relative,
)
from gavyreto.exporting import Record, end_all, export_file, kill_all, version_of
from gavyreto.outcomes import TABLE, Progress, stamp_of, summed, texts_of
from gavyreto.places import stats_of
from gavyreto.program import FAILED, INTERRUPTED, REFUSED

SECONDS_BETWEEN = 0.05  # two looks at whether exports have ended
SECONDS_OF_SCHEDULER = 30  # the longest that it may be silent, or that its file is waited for


class Table(outcomes.Table[Record]):
    """The table of outcomes of files, by their paths."""

    def __init__(self, folder: str, options: str, version: str) -> None:
        super().__init__(folder, Record, "file")
        self._options, self._version = options, version

    def check(self, files: list[str]) -> None:
        """Refuses files whose text has the name of the table, or of a text of another file."""
        of = {record.text: record.name for record in self.records.values() if record.text}
        inputs = _inodes_of(*files)
        if _inodes_of(STANDARD_ERROR) & inputs:
            raise Stopped(f"{STREAMS[STANDARD_ERROR]}: a response is read from it", REFUSED)
        for file in files:
            if TABLE in texts_of(file):
                raise Stopped(f"{file}: its text would have the name of the table, {TABLE}: give the file another name", REFUSED)
            for text in texts_of(file):
                if _inodes_of(os.path.join(self._folder, text)) & inputs:
                    raise Stopped(f"{text} would be the text of {file}, and is a file to export: name another folder", REFUSED)
                if of.get(text, file) != file and os.path.exists(os.path.join(self._folder, text)):
                    raise Stopped(f"{text} is the text of {of[text]}: export {file} to another folder", REFUSED)

    def is_done(self, file: str) -> bool:
        """Whether a file has the text that belongs to its line, and is as it was, with the same options and program."""
        record = self.records.get(file)
        if not record or not record.text or (record.options, record.program) != (self._options, self._version):
            return False
        try:
            text = os.stat(os.path.join(self._folder, record.text))
            return (text.st_size, text.st_ctime_ns, stamp_of(os.stat(file))) == (record.written, record.text_change, record.stamp())
        except OSError:
            return False

    def add(self, record: Record) -> None:
        record.options = self._options
        super().add(record)


def _inodes_of(*paths: Union[str, int]) -> set[tuple[int, int]]:
    """What files are, whatever names they have, as far as they are there."""
    return {(it.st_dev, it.st_ino) for it in stats_of(*paths)}


def files_of(asked: argparse.Namespace) -> list[str]:
    """The files to export, by their paths; the folder of the texts within another one is none. Raises `Stopped` if two of them would have one
    text, or texts would be taken for files."""
    found: list[str] = []
    out = os.path.realpath(asked.out)
    for path in asked.files:
        folder = os.path.realpath(path)
        if folder == out:
            raise Stopped(f"{path} is the folder of the texts too: name another one for them", REFUSED)
        inside = sorted(it.path for it in os.scandir(path) if os.path.join(folder, it.name) != out) if os.path.isdir(path) else [path]
        if not inside:
            raise Stopped(f"{path}: an empty folder", REFUSED)
        found += map(absolute, inside)
    names: dict[str, str] = {}
    for file in found:
        other = names.setdefault(os.path.basename(file), file)
        if other != file:
            raise Stopped(f"{other} and {file} would have one text: export them to two folders", REFUSED)
    return list(names.values())


# Where the work is done.

class Here(contextlib.nullcontext[None]):
    """This machine. A context, as a cluster is."""

    def __init__(self, jobs: int) -> None:
        super().__init__()
        self._jobs = jobs

    def version(self, name: str) -> str:
        return version_of(name)

    def outcomes(self, files: list[str], folder: str, command: list[str], adapts: Optional[str]) -> Generator[Record, None, None]:
        """The outcomes, as they come."""
        with ThreadPoolExecutor(self._jobs) as pool:
            running: set[Future[Record]] = set()
            try:
                for file in files:
                    running.add(pool.submit(export_file, file, folder, command, adapts))
                    if len(running) >= 2 * self._jobs:
                        ended, running = wait(running, return_when=FIRST_COMPLETED)
                        yield from (it.result() for it in ended)
                for it in list(running):
                    yield it.result()
            except BaseException:
                pool.shutdown(wait=False, cancel_futures=True)
                while any(it.running() for it in running):  # nobody waits for a long response, or for a program that hangs
                    kill_all()
                    time.sleep(SECONDS_BETWEEN)  # one may be about to start
                raise
            finally:
                pool.shutdown()
                end_all()


class Cluster:
    """The workers of a Dask cluster."""

    def __init__(self, where: str) -> None:
        self._where = where
        is_address = re.search(r"[^/:]:\d+$", where) is not None and not os.path.exists(where)
        self._how: dict[str, Any] = {"address": where} if is_address else {"scheduler_file": where}

    def _wait_for_file(self) -> None:
        """Waits for the file that a scheduler writes once it has begun."""
        until = time.monotonic() + SECONDS_OF_SCHEDULER
        while "scheduler_file" in self._how and not os.path.exists(self._where):
            if time.monotonic() > until:
                raise Stopped(f"{self._where} is neither an address with a port nor the file of a scheduler", REFUSED)
            time.sleep(0.1)

    def __enter__(self) -> Cluster:
        from distributed import Client

        for name in ("distributed", "distributed.client", "asyncio", "tornado.application"):
            logging.getLogger(name).setLevel(logging.CRITICAL)  # a worker that was lost, or is slow to leave, is seen by its responses
        self._wait_for_file()
        try:
            self._client = Client(**self._how, timeout=SECONDS_OF_SCHEDULER)  # type: ignore[no-untyped-call]
        except Exception as failure:  # of several kinds, if the file has something else
            cause = cause_of(failure) if isinstance(failure, OSError) else str(failure)
            raise Stopped(f"the scheduler {self._where} can't be reached: {cause}", FAILED) from None
        return self

    def __exit__(self, *_: object) -> None:
        with contextlib.suppress(OSError, RuntimeError, concurrent.futures.CancelledError):
            self._client.close(timeout=SECONDS_OF_SCHEDULER)  # type: ignore[no-untyped-call]

    def version(self, name: str) -> str:
        """That of the program of a worker."""
        future = self._client.submit(version_of, name, pure=False)  # type: ignore[no-untyped-call]
        try:
            return str(future.result())
        except concurrent.futures.CancelledError:
            raise Stopped(f"the scheduler {self._where} was lost", FAILED) from None
        except OSError as failure:
            raise Stopped(f"{name}, on a worker: {cause_of(failure)}", REFUSED) from None

    def outcomes(self, files: list[str], folder: str, command: list[str], adapts: Optional[str]) -> Generator[Record, None, None]:
        """The outcomes, as they come. A response whose workers or whose scheduler were lost has failed."""
        from distributed import as_completed

        futures = self._client.map(export_file, files, folder=folder, command=command, adapts=adapts, pure=False)  # type: ignore[no-untyped-call]
        of = dict(zip(futures, files))
        for future in as_completed(futures):  # type: ignore[no-untyped-call]
            yield self._outcome_of(future, of[future])

    def _outcome_of(self, future: Any, file: str) -> Record:
        try:
            failure = future.exception()
            record: Record = future.result() if failure is None else Record(file, FAILED, f"its worker failed: {failure}")
            return record
        except (OSError, concurrent.futures.CancelledError):  # of its connection: what a worker raised is returned
            return Record(file, FAILED, f"the scheduler {self._where} was lost")


def export_left(files: list[str], asked: argparse.Namespace) -> int:
    """Exports what isn't done, and returns the greatest status."""
    command = command_for(asked)
    place: Union[Here, Cluster] = Cluster(asked.scheduler) if asked.scheduler else Here(asked.jobs)
    with place:
        options = " ".join([*command[2:], *(["--adapt"] if asked.adapt else [])])
        table = Table(asked.out, options, place.version(asked.program))
        table.check(files)
        left = [file for file in files if not table.is_done(file)]
        table.begin(left)
        records = place.outcomes(left, asked.out, command, asked.charset if asked.adapt else None)
        table.fill(records, Progress("responses", len(files), len(files) - len(left)))
    return summed("responses", [(relative(file), table.records[file]) for file in files], table.shown())


def arguments(words: list[str]) -> argparse.Namespace:
    parser = parser_of("many", __doc__)
    add = parser.add_argument
    add("-j", "--jobs", metavar="N", type=number_in(1, 1024), default=len(os.sched_getaffinity(0)), help="responses read at once (default: the number of processors)")
    add("--scheduler", metavar="WHERE", type=named, help="a Dask cluster: its address, or its scheduler file; each worker must see FILE and OUT under the same paths")
    add_options_of_program(parser)
    add("files", metavar="FILE", nargs="+", type=named, help="responses, or folders of them")
    add("out", metavar="OUT", type=named, help="the folder of the texts, which is made if it isn't there")
    asked = parser.parse_args(words)
    asked.out = absolute(asked.out)
    return asked


def run(words: list[str]) -> int:
    """The command `many`. Returns its exit status, or raises what ended it."""
    asked = arguments(words)
    asked.program = asked.program if asked.scheduler else checked_program(asked.program)
    try:
        files = files_of(asked)
        with folder_of_texts(asked.out):
            return export_left(files, asked)
    except ImportError:
        raise Stopped("a cluster needs Python's module distributed: Debian's package python3-distributed", REFUSED) from None
    except KeyboardInterrupt:
        raise Stopped("interrupted: begun again it goes on from here", INTERRUPTED) from None
