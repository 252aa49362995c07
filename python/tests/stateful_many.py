"""Runs of `many` over files that come, change and vanish: runs stop, overlap and begin again, against a model of the folder.

usage: python3 -m tests.stateful_many EXAMPLES, in the folder python, by a Python that has hypothesis"""
from __future__ import annotations

import contextlib
import fcntl
import io
import os
import shutil
import sys
import tempfile
from typing import Optional

from hypothesis import HealthCheck, settings
from hypothesis import strategies as st
from hypothesis.stateful import RuleBasedStateMachine, precondition, rule, run_state_machine_as_test

from gavyreto import exporting, outcomes, program, tds
from gavyreto.commands import common, many
from tests.beside import PROGRAM, answered, exported, responses, served, wire
from tests.stopping import Stop

NAMES = ["a", "b", "a.csv", "a.csv.partial", "A", "x\r\ny", 'q"', "ü", "\udcff", "n" * 243]
CONTENTS = {
    "orders": wire("orders"), "sets": wire("sets"), "error": wire("error"), "float": wire("float"), "cut": wire("orders")[:-20], "empty": b"",
    "longer": wire("orders", 4), "cancelled": answered(*responses.order_rows(0), served.done(tds.CANCELLED)),
}
ROOMS = ["1048576", "1000000"]  # for descriptions, which change no text
runs: dict[str, int] = {}


WANTED = {name: exported(data) for name, data in CONTENTS.items()}
WANTED["cancelled"] = (program.SERVER_ERROR, WANTED["cancelled"][1])


class Folder(RuleBasedStateMachine):
    """Files, and what is known of the folder of texts."""

    def __init__(self) -> None:
        super().__init__()
        self.root = tempfile.mkdtemp()
        self.inside, self.out = os.path.join(self.root, "in"), os.path.join(self.root, "out")
        os.mkdir(self.inside)
        self.files: dict[str, str] = {}  # what each file has
        self.texts: dict[str, str] = {}  # of files that were done, what they had
        self.clock = 10**18

    def teardown(self) -> None:
        shutil.rmtree(self.root)

    def path(self, name: str) -> str:
        return os.path.join(self.inside, name)

    @rule(name=st.sampled_from(NAMES), content=st.sampled_from(sorted(CONTENTS)), later=st.integers(-3, 3), is_renamed=st.booleans())
    def writes(self, name: str, content: str, later: int, is_renamed: bool) -> None:
        """A file comes, or changes: in place or as another file, with a time that may be older or the same."""
        path = self.path(name)
        self.clock += later
        target = os.path.join(self.root, "new") if is_renamed or name not in self.files else path
        with open(target, "wb") as file:
            file.write(CONTENTS[content])
        os.utime(target, ns=(self.clock, self.clock))
        if target != path:
            os.replace(target, path)
        elif self.files[name] != content and len(CONTENTS[content]) == len(CONTENTS[self.files[name]]):
            os.utime(target, ns=(self.clock + 10, self.clock + 10))
        self.files[name] = content

    @precondition(lambda self: bool(self.files))
    @rule(data=st.data())
    def vanishes(self, data: st.DataObject) -> None:
        name = data.draw(st.sampled_from(sorted(self.files)))
        os.remove(self.path(name))
        del self.files[name]

    @precondition(lambda self: bool(self.texts))
    @rule(data=st.data(), length=st.integers(0, 300), is_removed=st.booleans())
    def a_text_is_damaged(self, data: st.DataObject, length: int, is_removed: bool) -> None:
        """A text is cut or made longer, or removed."""
        name = data.draw(st.sampled_from(sorted(self.texts)))
        path = os.path.join(self.out, text_of(name, self.texts[name]))
        if is_removed:
            os.remove(path)
        else:
            os.truncate(path, length if length != os.path.getsize(path) else length + 1)
        del self.texts[name]

    @rule()
    def the_table_is_torn(self) -> None:
        """A line is cut, as by a stop of the machine; the next run writes the table anew, so that none is cut behind another."""
        path = os.path.join(self.out, outcomes.TABLE)
        if os.path.exists(path):
            with open(path, "r+b") as file:
                file.write(b'"/torn","' if file.read().endswith(b"\r\n") else b"")

    @precondition(lambda self: bool(self.files))
    @rule(room=st.sampled_from(ROOMS), stop=st.one_of(st.none(), st.integers(0, 4)), jobs=st.integers(1, 3))
    def runs(self, room: str, stop: Optional[int], jobs: int) -> None:
        """A run to its end, or one that is stopped."""
        runs["runs"] = runs.get("runs", 0) + 1
        Stop.after = stop
        words = ["-j", str(jobs), "--column-room", room, "--program", PROGRAM, self.inside, self.out]
        with contextlib.redirect_stderr(io.StringIO()):
            try:
                status = many.run(words)
            except common.Stopped as stopped:
                assert stop is not None and stopped.status == program.INTERRUPTED, stopped
                runs["stopped"] = runs.get("stopped", 0) + 1
                self.texts = {}
                return
        Stop.after = None
        assert status == max(WANTED[content][0] for content in self.files.values())
        self.check_texts()

    def check_texts(self) -> None:
        """Each file has the text of an export by hand, and one name of it; each line of the table tells of it."""
        lines = {record.name: record for record in self.lines()}
        for name, content in self.files.items():
            status, text = WANTED[content]
            with open(os.path.join(self.out, text_of(name, content)), "rb") as file:
                assert file.read() == text, (name, content)
            other = name + (".csv" if status == 4 else ".csv.partial")
            assert not os.path.exists(os.path.join(self.out, other)), other
            assert lines[self.path(name)].status == status, lines[self.path(name)]
        assert not [name for name in os.listdir(self.out) if name.endswith(".unfinished")]
        self.texts = dict(self.files)

    def lines(self) -> list[exporting.Record]:
        return [*many.Table(self.out, "", "").records.values()]

    @precondition(lambda self: bool(self.files))
    @rule()
    def overlaps(self) -> None:
        """A run while another one has the folder changes nothing."""
        runs["overlaps"] = runs.get("overlaps", 0) + 1
        os.makedirs(self.out, exist_ok=True)
        before = {entry.name: entry.stat().st_mtime_ns for entry in os.scandir(self.out)}
        descriptor = os.open(self.out, os.O_RDONLY)
        fcntl.flock(descriptor, fcntl.LOCK_EX)
        try:
            many.run(["--program", PROGRAM, self.inside, self.out])
            raise AssertionError("two runs at once")
        except common.Stopped as stopped:
            assert stopped.status == program.REFUSED
        finally:
            os.close(descriptor)
        assert before == {entry.name: entry.stat().st_mtime_ns for entry in os.scandir(self.out)}


def text_of(name: str, content: str) -> str:
    return name + (".csv.partial" if WANTED[content][0] == 4 else ".csv")


def main() -> None:
    setattr(many, "Progress", Stop)
    run_state_machine_as_test(Folder, settings=settings(  # type: ignore[no-untyped-call]
        max_examples=int(sys.argv[1]), stateful_step_count=20, deadline=None, database=None, suppress_health_check=list(HealthCheck), derandomize=True))
    print(sum(runs.values()), runs)


if __name__ == "__main__":
    main()
