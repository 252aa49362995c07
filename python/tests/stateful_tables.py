"""Runs of `query --tables` beside a server that refuses, breaks off and sends too much, stopped and begun again, against a model of the
folder.

usage: python3 -m tests.stateful_tables EXAMPLES, in the folder python, by a Python that has hypothesis"""
from __future__ import annotations

import contextlib
import csv
import io
import os
import shutil
import socket
import struct
import sys
import tempfile
import threading
from collections import Counter
from typing import NamedTuple, Optional

from hypothesis import HealthCheck, settings
from hypothesis import strategies as st
from hypothesis.stateful import RuleBasedStateMachine, rule, run_state_machine_as_test

from gavyreto import outcomes, program, tables, tds
from gavyreto.commands import common, query
from gavyreto.connection import Channel
from tests.beside import SECONDS, answered, command_for, exported, log_in, responses, served, serving_each, wire
from tests.stopping import Stop

ANSWERS = {
    "orders": wire("orders"), "longer": wire("orders", 40), "sets": wire("sets"), "kinds": wire("kinds"), "error": wire("error"), "float": wire("float"),
    "cancelled": answered(*responses.order_rows(0), served.done(tds.CANCELLED)),
}
AFTER_SET = wire("orders", 1)  # what a connection answers after SET ROWCOUNT 1
NAMES = ["a", "b", "A", "a.csv", "ü", 'q"', "n" * 240, "-x"]
runs: Counter[str] = Counter()


class Item(NamedTuple):
    """A line of the file: its name, what is asked, what the server answers, and on how many connections it breaks off first."""

    name: str
    is_table: bool
    sets: bool  # something that holds for the rest of the connection
    answer: str
    breaks: int
    cut: float  # how much of the answer comes where it breaks off
    surplus: bool  # more comes behind the answer

    def statement(self) -> str:
        wanted = f"{self.answer}.t{NAMES.index(self.name)}"
        return f"SELECT * FROM {wanted}" if self.is_table else ("SET ROWCOUNT 1 " if self.sets else "") + f"SELECT {wanted}"

    def line(self) -> str:
        return f"{self.name}\t{self.statement().split()[-1] if self.is_table else self.statement()}\n"

    def ending(self, retries: int) -> tuple[int, Optional[bytes]]:
        """The status, and the text."""
        if self.breaks > retries:
            return program.FAILED, None
        status, text = WANTED[self.answer]
        return (program.BAD_INPUT if self.surplus else status), text


def name_of(item: Item) -> str:
    return item.name


WANTED = {name: exported(data) for name, data in ANSWERS.items()}
WANTED["cancelled"] = (program.SERVER_ERROR, WANTED["cancelled"][1])


def item_of(name: str, kind: int, answer: str, breaks: int, cut: float, surplus: bool) -> Item:
    """An item. An answer that is refused is neither broken off nor too long, since what comes behind the refused token isn't awaited."""
    is_refused = answer == "float"
    return Item(name, kind == 0, kind == 2, answer, 0 if is_refused else breaks, cut, surplus and not is_refused)


class Server:
    """A server that answers items, each connection in a thread."""

    def __init__(self, items: list[Item], closes: bool) -> None:
        self.closes = closes  # each connection behind its first answer
        self.items = {item.statement(): item for item in items}
        self.asked: Counter[str] = Counter()
        self._lock = threading.Lock()

    def serve(self, connected: socket.socket) -> None:
        is_set = False
        with connected, contextlib.suppress(OSError, EOFError):
            channel = Channel(connected, SECONDS)
            log_in(channel)
            while True:
                statement = served.statement_of(channel.read_message()[1])
                item, data = self.items[statement], AFTER_SET if is_set else ANSWERS[self.items[statement].answer]
                is_set = is_set or item.sets
                with self._lock:
                    self.asked[statement] += 1
                    is_broken = self.asked[statement] <= item.breaks
                if is_broken:
                    channel.write(data[:int(len(data) * item.cut)])
                    if item.cut > 0.5:
                        connected.setsockopt(socket.SOL_SOCKET, socket.SO_LINGER, struct.pack("ii", 1, 0))
                    return
                channel.write(data + (ANSWERS["orders"] if item.surplus else b""))
                if self.closes and not item.surplus:
                    return


ITEM = st.builds(
    item_of, st.sampled_from(NAMES), st.integers(0, 2), st.sampled_from(sorted(ANSWERS)), st.sampled_from([0, 0, 0, 1, 2]), st.sampled_from([0.0, 0.1, 0.4, 0.7, 0.95]),
    st.sampled_from([False, False, False, True]))


class Folder(RuleBasedStateMachine):
    """What each line of the table has to say, and each text."""

    def __init__(self) -> None:
        super().__init__()
        self.root = tempfile.mkdtemp()
        self.out, self.file = os.path.join(self.root, "out"), os.path.join(self.root, "tables")
        self.lines: dict[str, tuple[int, str]] = {}  # status and statement
        self.texts: dict[str, bytes] = {}  # by the names of files

    def teardown(self) -> None:
        shutil.rmtree(self.root)

    @rule(items=st.lists(ITEM, min_size=1, max_size=6, unique_by=name_of), jobs=st.integers(1, 3), retries=st.integers(0, 3), stop=st.one_of(st.none(), st.integers(0, 4)), closes=st.booleans())
    def runs(self, items: list[Item], jobs: int, retries: int, stop: Optional[int], closes: bool) -> None:
        """A run to its end, or one that is stopped. A connection may break by being closed, too, where another attempt is left."""
        with open(self.file, "w", encoding="utf-8") as file:
            file.writelines(item.line() for item in items)
        server, Stop.after = Server(items, closes and retries > max(item.breaks for item in items)), stop
        os.environ["SQLCMDPASSWORD"] = "secret"
        with serving_each(server.serve) as port, contextlib.redirect_stderr(io.StringIO()) as said:
            words = command_for(port, "--tables", self.file, "-o", self.out, "-j", str(jobs), "--retries", str(retries))
            try:
                status = query.run(words[4:])
            except common.Stopped as stopped:
                assert stop is not None and stop < len(items) and stopped.status == program.INTERRUPTED, stopped
                status = program.INTERRUPTED
        is_whole = status != program.INTERRUPTED
        runs["whole" if is_whole else "stopped"] += 1
        found = self.told()
        ended = [item for item in items if is_whole or (item.name in found)]
        if is_whole:
            assert status == max(item.ending(retries)[0] for item in items), said.getvalue()
            assert server.asked == Counter({item.statement(): 1 + min(item.breaks, retries) for item in items}), server.asked
        else:
            assert len(ended) == (stop or 0) + 1, (found, stop)
        for item in items:
            self.lines.pop(item.name, None)
        for item in ended:
            self.put(item, retries)
        self.check(found)

    def put(self, item: Item, retries: int) -> None:
        """The model after an item has ended."""
        status, text = item.ending(retries)
        self.lines[item.name] = (status, item.statement())
        for name in (item.name + ".csv", item.name + ".csv.partial"):
            self.texts.pop(name, None)
        if text is not None:
            self.texts[item.name + (".csv.partial" if status == program.BAD_INPUT else ".csv")] = text

    def told(self) -> dict[str, list[str]]:
        """The lines of the table, by names."""
        with open(os.path.join(self.out, outcomes.TABLE), encoding="utf-8", newline="") as file:
            return {line[0]: line for line in list(csv.reader(io.StringIO(file.read())))[1:]}

    def check(self, found: dict[str, list[str]]) -> None:
        """Each line is true, each text is there as a whole, and nothing else."""
        assert {name: (int(line[1]), line[7]) for name, line in found.items()} == self.lines, (found, self.lines)
        there = {}
        for name in sorted(os.listdir(self.out)):
            if name != outcomes.TABLE:
                with open(os.path.join(self.out, name), "rb") as file:
                    there[name] = file.read()
        assert there == self.texts, (sorted(there), sorted(self.texts))
        for name, line in found.items():
            text = next((it for it in (name + ".csv", name + ".csv.partial") if it in there), None)
            assert line[2] and line[3:5] == [text or "NULL", str(len(there[text]) if text else 0)], line


def main() -> None:
    setattr(tables, "Progress", Stop)
    setattr(tables, "MOST_PAUSE", 0)
    run_state_machine_as_test(Folder, settings=settings(  # type: ignore[no-untyped-call]
        max_examples=int(sys.argv[1]), stateful_step_count=8, deadline=None, database=None, suppress_health_check=list(HealthCheck), derandomize=True))
    print(sum(runs.values()), dict(runs))


if __name__ == "__main__":
    main()
