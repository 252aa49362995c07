"""The tables of docs/CONTRIBUTING.md: each file that names a token or kind that is there already is in the table for a new one.

Files in a table are below crates/tds_export if they begin with src/, specs/ or proofs/."""
from __future__ import annotations

import os
import re
from collections.abc import Iterator

from lib import repository as repo

PAGE = "docs/CONTRIBUTING.md"

# A section of the page, and the names by which sources name a token or kind.
NAMES = {
    "A token": {
        "ORDER": r"\b(Order|AnOrder|order_byte)\b|\bORDER\b(?! BY)",
        "RETURNSTATUS": r"\b(RETURNSTATUS|RETURN_STATUS|ReturnStatus|return_status|AStatus|return_status_byte)\b",
    },
    "A scalar kind": {"Money4": r"\b(Money4|MONEY4|smallmoney)\b"},
}

# What no new token or kind has to touch: the edits, the benchmarks, tests of the package, pages that only mention it.
LEFT_OUT = re.compile(r"crates/\w+/must-fail/|bench/|docs/(?!PROTOCOL)|crates/README|tools/lib/lints/|examples/|python/tests/")


def files_with(pattern: str) -> list[str]:
    """The files of the repository whose text has the pattern."""
    found = []
    for file in repo.files():
        if not LEFT_OUT.match(file):
            with open(repo.path_of(file), encoding="utf-8", errors="replace") as it:
                if re.search(pattern, it.read()):
                    found.append(file)
    return found


def table_of(heading: str) -> set[str]:
    """The files that the table of a section names, by their paths in the repository."""
    text = repo.text_of(PAGE).split(f"### {heading}\n", 1)[1].split("\n#", 1)[0]
    rows = [line.split("|")[1] for line in text.split("\n") if line.startswith("| `")]
    names = [name for row in rows for name in re.findall(r"`([^`]+)`", row)]
    return {f"crates/tds_export/{it}" if it.startswith(("src/", "specs/", "proofs/")) else it for it in names}


def listing() -> Iterator[str]:
    """The files of each name."""
    for names in NAMES.values():
        for name, pattern in names.items():
            yield from (f"{name}: {file}" for file in files_with(pattern))


def findings() -> Iterator[str]:
    """Files that a table leaves out, or names and that aren't there."""
    for heading, names in NAMES.items():
        table = table_of(heading)
        yield from (f"{PAGE}, {heading}: no file {it}" for it in sorted(table) if not os.path.exists(repo.path_of(it)))
        for name, pattern in names.items():
            files = files_with(pattern)
            if not files:
                yield f"{PAGE}, {heading}: no file names {name}"
            yield from (f"{PAGE}, {heading}: the table leaves out {it}, which names {name}" for it in files if it not in table)
