"""The form of definitions and proofs: lines that fit a screen, and imports in one style, `use MODULE.{NAME, ..}`."""
from __future__ import annotations

import re
from collections.abc import Iterator

from lib import repository as repo

# How many characters a line has at most.
LONGEST = 160

# An import that names modules within its braces, or goes on in the next line.
NESTED = re.compile(r"^(?:pub )?use \S*\{(?:[^{}\n]*(?:\{|\w\.[^{}\n ])|[^}\n]*$)", re.M)


def findings() -> Iterator[str]:
    """The lines that are longer, and the imports in another style."""
    for file in repo.files():
        if file.endswith(".antt"):
            text = repo.text_of(file)
            yield from (f"{file}:{at}: {len(line)} characters, at most {LONGEST}" for at, line in enumerate(text.split("\n"), 1) if len(line) > LONGEST)
            yield from (f"{file}:{text.count(chr(10), 0, it.start()) + 1}: an import that names modules in braces" for it in NESTED.finditer(text))
