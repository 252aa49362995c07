"""Proves crates in their rooms, several at once, and shows how far it is."""
import contextlib
import math
import os
import re
import sys
import threading
import time
from collections.abc import Callable, Iterator
from concurrent.futures import FIRST_COMPLETED, Future, ThreadPoolExecutor, wait
from typing import NamedTuple

from lib import repository as repo

ERROR = re.compile(r"error(\[\w+\])?:|\S+: error|note: .*it is not proved that|.*: not proved$|error ")

# What one proof may take, in bytes.
ROOM = 3_500_000_000

# The most processes that share a proof; more gain nothing.
MOST_JOBS = 4

# How much later than the others a proof's turn comes, by `nice`, if nothing waits for it.
LATEST = 10

# What the proofs of all crates take by the clock, from nothing.
WHOLE = "all of them take 14 to 27 minutes on four processors"


class Progress:
    """What is shown while crates are proved: a line for each that has ended and, on a terminal, one of what is under way."""

    def __init__(self, names: list[str], lacking: list[str]) -> None:
        self.names, self.lock, self.shows = names, threading.Lock(), sys.stderr.isatty()
        self.left = [*lacking]  # the crates that aren't proved
        self.under_way: list[str] = []

    def show(self, line: str = "") -> None:
        """Shows a line, and what is under way."""
        if line:
            print(f"\r\033[K{line}" if self.shows else line, file=sys.stderr, flush=True)
        if self.shows:
            print(f"\r\033[Kproving {', '.join(self.under_way)}" if self.under_way else "", end="", file=sys.stderr, flush=True)

    @contextlib.contextmanager
    def during(self, what: str) -> Iterator[None]:
        """Shows something as under way for as long as it is."""
        with self.lock:
            self.under_way.append(what)
            self.show()
        try:
            yield
        finally:
            with self.lock:
                self.under_way.remove(what)
                self.show()

    def begin(self) -> None:
        """Shows how many crates are to be proved."""
        if self.left:
            self.show(f"{len(self.left)} of {len(self.names)} crates to prove; {WHOLE}")

    def end(self, name: str, text: str) -> None:
        """Shows what became of a crate, and how many are left."""
        with self.lock:
            self.left.remove(name)
            left = f", {len(self.left)} left" if self.left else ""
            self.show(f"crate {self.names.index(name) + 1} of {len(self.names)}, {name}: {text}{left}")


def at_once() -> int:
    """How many proofs run at once, by processors and memory; they share the processors."""
    with open("/proc/meminfo", encoding="utf-8") as lines:
        free = next(1024 * int(line.split()[1]) for line in lines if line.startswith("MemAvailable:"))
    return max(1, min(len(os.sched_getaffinity(0)), free // ROOM))


def first_error(log: str) -> str:
    """The first line of a log that tells an error."""
    with open(log, encoding="utf-8", errors="replace") as lines:
        return next((line.rstrip() for line in lines if ERROR.match(line)), "no line of the log tells an error")


def ways_up(names: list[str]) -> dict[str, int]:
    """How long the way is from each of these crates up to the last that waits for it, in bytes of the sources to prove."""
    ways: dict[str, int] = {}
    for name in reversed(names):
        above = (way for it, way in ways.items() if name in repo.below(it))
        ways[name] = sum(map(os.path.getsize, repo.sources(name))) + max(above, default=0)
    return ways


class Share(NamedTuple):
    """What a proof gets of the processors: how many processes, and how much later than others their turn comes."""

    jobs: int
    later: int


def command_for(name: str, share: Share) -> list[str]:
    """The command that proves a crate, and runs it if it is a program."""
    nice = ["nice", "-n", str(share.later)] if share.later else []
    if not repo.is_program(name):
        return [*nice, "rt", "lib", "--jobs", str(share.jobs)]
    args = repo.path_of("crates", name, "args")
    words = open(args, encoding="utf-8").read().splitlines() if os.path.exists(args) else []
    return [*nice, "rt", "run", "--jobs", str(share.jobs), "--", *words]


def prove(name: str, share: Share, progress: Progress) -> bool:
    """Proves one crate over what is proved below it, with this share of the processors, and returns whether it is."""
    began, found = time.monotonic(), repo.sum_of(name)
    log = repo.path_of("bin", "logs", name + ".log")
    os.makedirs(os.path.dirname(log), exist_ok=True)

    with open(log, "w", encoding="utf-8") as out, progress.during(name):
        status = repo.in_room(name, command_for(name, share), out.write)
    if status:
        progress.end(name, f"not proved\n{first_error(log)}\nThe whole log: {os.path.relpath(log)}")
        return False
    progress.end(name, f"proved in {time.monotonic() - began:.0f} seconds")
    repo.set_done("proved", name, found)
    return True


def need_programs(names: list[str]) -> None:
    """Ends with one line if a program that bin/ calls proved isn't there any more."""
    for name in filter(repo.is_program, names):
        if not os.path.isfile(repo.path_of("crates", name, "out", name)):
            sys.exit(f"crates/{name}/out/{name} isn't there, and bin/ calls it proved: remove bin/proved/{name}, and it is proved again")


class Proving:
    """Crates under way: each is proved once those below it are, and tested, if `test` is given, once it is proved."""

    def __init__(self, names: list[str], lacking: list[str], test: Callable[[str, int], None] | None) -> None:
        self.lacking, self.test = lacking, test
        self.tested = [it for it in names if test and repo.has_tests(it)]
        self.left = [it for it in names if it in lacking or it in self.tested]
        self.proved = {*names} - {*self.left}
        self.progress, self.most, self.ways = Progress(names, lacking), at_once(), ways_up(names)
        self.running: dict[Future[bool], str] = {}

    def work(self, name: str, share: Share) -> bool:
        """Proves a crate if it isn't proved, and runs its tests."""
        if name in self.lacking and not prove(name, share, self.progress):
            return False
        if name in self.tested and self.test:
            with self.progress.during(f"the tests of {name}"):
                self.test(name, share.jobs)
        return True

    def share_of(self, name: str, beside: list[str]) -> Share:
        """What a crate gets beside others: all wait for the one with the longest way up. Each process that helps a proof reads the
        libraries first, so the other proofs get few more of them than there are processors."""
        longest = max(self.ways[it] for it in beside)
        if self.ways[name] == longest:
            return Share(min(MOST_JOBS, self.most), 0)
        return Share(min(MOST_JOBS, math.ceil(self.most / len(beside))), round(LATEST * (1 - self.ways[name] / longest)))

    def start(self, pool: ThreadPoolExecutor) -> None:
        """Starts what is ready."""
        ready = [it for it in self.left if self.proved.issuperset(repo.below(it))]
        beside = [*self.running.values(), *ready]
        for name in ready:
            self.left.remove(name)
            self.running[pool.submit(self.work, name, self.share_of(name, beside))] = name

    def take(self) -> None:
        """Waits until something ends. What is above a crate that isn't proved is given up."""
        done: set[Future[bool]] = wait(self.running, return_when=FIRST_COMPLETED).done
        for it in done:
            name = self.running.pop(it)
            if it.result():
                self.proved.add(name)
            else:
                self.left = [one for one in self.left if name not in repo.below(one)]

    def run(self) -> None:
        """Proves and tests all that is left."""
        self.progress.begin()
        with ThreadPoolExecutor(self.most) as pool:
            while self.left or self.running:
                self.start(pool)
                self.take()


def prove_all(asked: list[str], test: Callable[[str, int], None] | None = None) -> bool:
    """Proves the crates asked for and those below them. `test`, if it is given, is called with each crate that has tests, once it
    is proved, and with how many processes its tests may take."""
    names = [it for it in repo.CRATES if it in asked or any(it in repo.below(one) for one in asked)]
    lacking = [it for it in names if not repo.is_done("proved", it)]
    # a library is built anew if a crate above it needs it and it isn't there
    lacking = [it for it in names if it in lacking or not repo.is_built(it) and any(it in repo.below(one) for one in lacking)]
    need_programs([it for it in names if it not in lacking])
    proving = Proving(names, lacking, test)
    if proving.left:
        repo.need_rt()
        proving.run()
    return proving.proved.issuperset(names)
