"""Counts that pages tell: of edits, functions, tests, worked rows, wrong rules, generated responses and faults."""
from __future__ import annotations

import glob
import os
import re
from collections.abc import Iterator

from lib import repository as repo, worked_rows
from lib.lints.pages import PAGES, functions
from plain.cases import chosen

PROOFS, CRATES = "docs/PROOFS.md", "crates/README.md"
KINDS = ("by search", "by a shown value", "by an answer alone")  # what refuses an edit, as `tools/edits-by-search` tells it
FIGURES = ("functions", "edits", *KINDS)  # the columns of the gate's figures, after the crate
RANDOM = 1_000  # responses at random that `make generated` reads by default


def number(text: str) -> int:
    """A number as pages and code write it."""
    return int(re.sub("[_,]", "", text))


def sources_of(crate: str) -> list[str]:
    """The texts of a crate's sources."""
    return [repo.text_of(path) for path in sorted(glob.glob(repo.path_of("crates", crate, "src", "**", "*.rt"), recursive=True))]


def edits() -> dict[str, set[str]]:
    """The names of the must-fail edits of each crate."""
    return {crate: {os.path.basename(it)[:-len(".edit")] for it in glob.glob(repo.path_of("crates", crate, "must-fail", "*.edit"))} for crate in repo.CRATES}


def told(what: str, count: int, pattern: str, *pages: str) -> Iterator[str]:
    """The places in pages where a count is told by a pattern and isn't so."""
    for page in pages:
        for it in re.findall(pattern, repo.text_of(page)):
            if number(it) != count:
                yield f"{page}: {count} {what}, not {it}"


def wrong_edits() -> Iterator[str]:
    """Edits that pages name and that aren't there, and counts of edits that aren't so."""
    known = edits()
    for page, end in ((PROOFS, "## What no contract"), (CRATES, "## What callers")):
        named = set(re.findall(r"`(\w+_\w+_\w+\w*)`", repo.text_of(page).split("## Laws")[1].split(end)[0]))
        for name in sorted(named - set().union(*known.values()) - functions("*")):
            if not name.startswith("tds_"):
                yield f"{page}: no edit {name}"
    for crate, count in figures("edits").items():
        if len(known.get(crate, ())) != number(count):
            yield f"{PROOFS}: {crate} has {len(known.get(crate, ()))} edits, not {count}"
    refused = {kind: {crate: number(it) for crate, it in figures(kind).items()} for kind in KINDS}
    for crate in figures("edits"):
        kinds = sum(counts[crate] for counts in refused.values())
        if kinds != len(known.get(crate, ())):
            yield f"{PROOFS}: {crate} has {len(known.get(crate, ()))} edits, and {kinds} of them are told to be refused"
    total = sum(map(len, known.values()))
    yield from told("edits", total, r"([\d,]+) wrong changes", "README.md")
    yield from told("edits", total, r"([\d,]+) must-fail edits in all", PROOFS)
    for kind, counts in refused.items():
        yield from told(f"edits refused {kind}", sum(counts.values()), rf"([\d,]+) (?:of them )?(?:refused )?{kind}\b", PROOFS)


def changed(crate: str) -> set[tuple[str, str]]:
    """The texts that edits of a crate change, each after its file."""
    found: set[tuple[str, str]] = set()
    file = ""
    for name in sorted(glob.glob(repo.path_of("crates", crate, "must-fail", "*.edit"))):
        for line in repo.text_of(name).split("\n"):
            file = line.removeprefix("file: ").strip() if line.startswith("file: ") else file
            if line.startswith("old: "):
                found.add((file, line.removeprefix("old: ")))
    return found


def unchanged() -> Iterator[str]:
    """The public functions whose own code no edit changes, but laws."""
    for crate in repo.CRATES:
        texts = changed(crate)
        for path in sorted(glob.glob(repo.path_of("crates", crate, "src", "**", "*.rt"), recursive=True)):
            file = os.path.relpath(path, repo.path_of("crates", crate))
            for it in re.finditer(r"(?ms)^( *)pub fn (\w+).*?^\1\}", "" if file.endswith("laws.rt") else repo.text_of(path)):
                if not any(name == file and text in it[0] for name, text in texts):
                    yield it[2]


def wrong_unchanged() -> Iterator[str]:
    """Public functions that no edit changes and that the page doesn't tell of, or the other way round."""
    known = {name for sentence in re.findall(r"`pub` and no law has one in its own code but (.*?\.)", repo.text_of(PROOFS)) for name in re.findall(r"(\w+)`", sentence)}
    for name in sorted({*unchanged()} ^ known):
        yield f"{PROOFS}: an edit changes {name}, or it is not told that none does"


def figures(column: str) -> dict[str, str]:
    """A column of the gate's figures by crates."""
    row = r"(?m)^\| `(\w+)` \|" + r" (\d+) \|" * len(FIGURES) + "$"
    rows = re.findall(row, repo.text_of(PROOFS).split("## The gate's figures")[1])
    return {crate: counts[FIGURES.index(column)] for crate, *counts in rows}


def wrong_functions() -> Iterator[str]:
    """Counts of functions that aren't so: those in the sources of each crate but those of tests."""
    counts = {crate: sum(len(re.findall(r"(?m)^(?!\s*//).*?\bfn \w+", text)) for text in sources_of(crate)) for crate in repo.CRATES if not crate.endswith("_tests")}
    rows = figures("functions")
    for crate, count in counts.items():
        if rows.get(crate) != str(count):
            yield f"{PROOFS}: {crate} has {count} functions, not {rows.get(crate)}"
    yield from told("functions", sum(counts.values()), r"([\d,]+) functions", "README.md")


def wrong_tests() -> Iterator[str]:
    """Counts of tests of a crate that aren't so."""
    for crate in ("parts_tests", "export_tests"):
        tests = sum(len(re.findall(r"(?m)^#\[test\]$", text)) for text in sources_of(crate))
        pattern = rf"(\d+)(?: tests)? in `{crate}`"
        if not re.search(pattern, repo.text_of(PROOFS)):
            yield f"{PROOFS}: no count of tests in {crate}"
        yield from told(f"tests in {crate}", tests, pattern, PROOFS)


def wrong_rows() -> Iterator[str]:
    """Counts of worked rows, wrong rules and generated responses that aren't so."""
    yield from told("worked rows", len(worked_rows.all_rows()), r"([\d,]+) worked rows", *PAGES)
    yield from told("wrong rules", len(re.findall(r"(?m)^== ", repo.text_of("tools", "plain", "wrong_rules.txt"))), r"([\d,]+) wrong rules", *PAGES)
    yield from told("generated responses, to the nearest thousand", round(len(chosen()) + RANDOM, -3), r"([\d,]+) generated responses", *PAGES)


def wrong_faults() -> Iterator[str]:
    """Faults whose number or name PROTOCOL tells otherwise than the code."""
    code = dict(re.findall(r"Fault::(\w+)[^=\n]*=> (\d+),", repo.text_of("crates/tds_packet/src/fault.rt")))
    rows = {name: fault for fault, name in re.findall(r"(?m)^\| (\d+) \| `(\w+)", repo.text_of("docs/PROTOCOL.md"))}
    for name in sorted({*code} | {*rows}):
        if code.get(name) != rows.get(name):
            yield f"docs/PROTOCOL.md: fault {name} is {code.get(name)}, not {rows.get(name)}"
    yield from told("faults", len(code), r"(\d+) numbered faults", "README.md")


def findings() -> Iterator[str]:
    """Counts that aren't so."""
    for check in (wrong_edits, wrong_unchanged, wrong_functions, wrong_tests, wrong_rows, wrong_faults):
        yield from check()
