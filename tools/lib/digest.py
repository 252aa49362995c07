"""The digest of the program's sources, which `--version` tells: the same sources give it on each machine, with git and without."""
import hashlib
import re

from lib import repository as repo

VERSION = "crates/tds_arguments/src/version.rt"
TOLD = re.compile(rb"(?<=\(sources )[0-9a-f]{16}(?=\))")


def digest() -> str:
    """The first 16 digits of the SHA-256 of the code of the crates that the program is made of, without the digest in it."""
    found = hashlib.sha256()
    for crate in [*repo.below("replay"), "replay"]:
        found.update(repr((crate, repo.CRATES[crate])).encode())
        for path in repo.sources(crate, "src"):
            with open(path, "rb") as file:
                found.update(repr((path[len(repo.ROOT):], TOLD.sub(b"", file.read()))).encode())
    return found.hexdigest()[:16]


def told() -> str:
    """The digest that `--version` tells."""
    found = TOLD.search(repo.text_of(VERSION).encode())
    return found[0].decode() if found else ""


def write() -> None:
    """Has `--version` tell the digest of the sources as they are."""
    text = TOLD.sub(digest().encode(), repo.text_of(VERSION).encode())
    with open(repo.path_of(VERSION), "wb") as file:
        file.write(text)
