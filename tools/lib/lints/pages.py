"""Pages: their links, the files and functions that they name, and their length."""
from __future__ import annotations

import functools
import glob
import os
import re
from collections.abc import Iterator

from lib import repository as repo

PAGES = ["README.md", *sorted(os.path.relpath(it, repo.ROOT) for it in glob.glob(repo.path_of("docs", "*.md")))]
INDEX = "docs/README.md"
BESIDE = ["CHANGELOG.md", "crates/README.md", "bench/README.md", "python/README.md"]  # whose words aren't counted
MOST_WORDS = {"README.md": 1_200, "docs/ARCHITECTURE.md": 2_000, "docs/RECIPES.md": 2_500}
MOST_IN_DOCS = 17_000


def without_code(text: str) -> str:
    """A page without its fenced blocks."""
    return re.sub(r"(?ms)^```.*?^```$", "", text)


@functools.cache
def prose(page: str) -> str:
    """The text of a page without its fenced blocks."""
    return without_code(repo.text_of(page))


def anchors_of(page: str) -> set[str]:
    """The anchors of a page's headings, as hosts of repositories make them."""
    return {re.sub(r"[^\w\- ]", "", it.lower()).replace(" ", "-") for it in re.findall(r"(?m)^#+ (.*)$", prose(page))}


def dead_links(page: str) -> Iterator[str]:
    """Links of a page, and its pictures, to a file or a heading that isn't there."""
    targets = re.findall(r"\]\(([^)\s]+)\)", prose(page)) + re.findall(r'(?:src|srcset|href)="([^"]+)"', prose(page))
    for target in targets:
        file, _, anchor = target.partition("#")
        path = os.path.normpath(os.path.join(os.path.dirname(page), file)) if file else page
        if re.match(r"[a-z]+:", target):
            continue
        if not os.path.exists(repo.path_of(path)):
            yield f"{page}: no file {target}"
        elif anchor and anchor not in anchors_of(path):
            yield f"{page}: no heading for {target}"


def wrong_names(page: str, files: list[str]) -> Iterator[str]:
    """Names in a page that look like files of the repository, and are none."""
    for name in re.findall(r"`([\w./-]+\.(?:rt|antt|py|sh|md|txt|tds|edit))`", prose(page)):
        is_pattern = any(part.split(".")[0].isupper() for part in name.split("/"))
        if "/" in name and not is_pattern and not any(it == name or it.endswith("/" + name) for it in files):
            yield f"{page}: no file {name}"
    for name in re.findall(r"`((?:tools|bench|examples)/[\w-]+)(?: [^`]*)?`", prose(page)):
        if not os.path.exists(repo.path_of(name)):
            yield f"{page}: no file {name}"


def wrong_targets(page: str) -> Iterator[str]:
    """Targets of `make` that a page names and that the Makefile doesn't have."""
    known = set(re.search(r"(?m)^\.PHONY: (.*)$", repo.text_of("Makefile"))[1].split())  # type: ignore[index]
    for name in re.findall(r"(?:`|^)make ([a-z-]+)", repo.text_of(page), re.M):
        if name not in known:
            yield f"{page}: no target {name}"


@functools.cache
def functions(crate: str) -> set[str]:
    """The names of functions in the sources of a crate, or of all for `*`."""
    paths = glob.glob(repo.path_of("crates", crate, "src", "**", "*.rt"), recursive=True)
    return {name for path in paths for name in re.findall(r"\bfn (\w+)", repo.text_of(path))}


def wrong_calls(page: str) -> Iterator[str]:
    """Calls named with their crate, as tds_export::export, that the crate doesn't have."""
    for name in re.findall(r"`((?:tds_\w+|example)(?:::\w+)+)`", prose(page)):
        crate, last = name.split("::")[0], name.split("::")[-1]
        is_module = os.path.exists(repo.path_of("crates", crate, "src", last + ".rt"))
        if last[0].islower() and not is_module and last not in functions(crate):
            yield f"{page}: no function {name}"


def long_pages() -> Iterator[str]:
    """Pages that have more words than they may."""
    counts = {page: len(repo.text_of(page).split()) for page in PAGES}
    for page, most in MOST_WORDS.items():
        if counts[page] > most:
            yield f"{page}: {counts[page]} words, more than {most}"
    total = sum(counts.values()) - counts["README.md"]
    if total > MOST_IN_DOCS:
        yield f"docs: {total} words, more than {MOST_IN_DOCS}"


def without_entry() -> Iterator[str]:
    """Pages and man pages that the index doesn't name."""
    index = repo.text_of(INDEX)
    for name in sorted(os.listdir(repo.path_of("docs"))):
        is_page = name.endswith(".md") and f"]({name})" in index
        if name.endswith((".md", ".1")) and name != os.path.basename(INDEX) and not is_page and f"`{name}`" not in index:
            yield f"{INDEX}: no entry for {name}"


def findings() -> Iterator[str]:
    """What isn't so in the pages."""
    files = repo.files()
    for page in PAGES:
        yield from (*dead_links(page), *wrong_names(page, files), *wrong_targets(page), *wrong_calls(page))
    for page in BESIDE:
        yield from (*dead_links(page), *wrong_names(page, files), *wrong_targets(page), *wrong_calls(page))
    yield from (*long_pages(), *without_entry())
