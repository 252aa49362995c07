"""The licences of what the program holds: tools/debian/copyright lists each crate of the kit that it links, and says what the kit says."""
from __future__ import annotations

import os
import re
from collections.abc import Iterator

from lib import bill, repository as repo

TESTS = ("parts_tests", "export_tests")


def named() -> set[str]:
    """The crates of the kit that crates.txt names for what is no test."""
    return {name for crate, names in repo.CRATES.items() if crate not in TESTS for name in names} - {*repo.CRATES}


def license_of(name: str) -> str:
    """The text of a crate's licence in the kit, or nothing: MIT's if there are several."""
    for file in ("LICENSE-MIT", "LICENSE"):
        path = repo.kit_path(name, file)
        if os.path.exists(path):
            with open(path, encoding="utf-8") as text:
                return text.read()
    return ""


def used_by(name: str) -> set[str]:
    """The crates of the kit with a licence that the sources of one name."""
    words: set[str] = set()
    for at, _, files in os.walk(repo.kit_path(name, "src")):
        for file in files:
            with open(os.path.join(at, file), encoding="utf-8") as text:
                words |= set(re.findall(r"\b([a-z_0-9]+)::", text.read()))
    return {it for it in words - {name} if license_of(it)}


def unlike_the_kit(crate: bill.Crate) -> Iterator[str]:
    """What the list says of a crate otherwise than the kit does."""
    head, permission, rest = license_of(crate.name).partition("Permission is hereby")
    if " ".join((permission + rest).split()) != bill.text_of_license(crate.license):
        yield f"{bill.COPYRIGHT}: the kit's licence of {crate.name} isn't {crate.license}"
    holders = re.findall(r"(?m)^Copyright (?:\(c\) )?(.*)$", head)
    if holders and holders != crate.holders:
        yield f"{bill.COPYRIGHT}: {crate.name} is held by {', '.join(holders)}"


def findings() -> Iterator[str]:
    """Crates that the list lacks, and what it says otherwise than the kit; that only where the kit is there."""
    listed = bill.crates()
    names = {crate.name for crate in listed}
    needed = named()
    if os.path.isdir(repo.kit_path()):
        needed |= {it for name in names for it in used_by(name)}
        yield from (it for crate in listed for it in unlike_the_kit(crate))
    yield from (f"{bill.COPYRIGHT}: no crate {name}" for name in sorted(needed - names))
