"""What completion offers in bash, zsh and fish: the shells run the files of tools/completion themselves."""
from __future__ import annotations

import os
import re
import shlex
import shutil
import subprocess
from collections.abc import Iterator

from lib import repository as repo

SHELLS = ("bash", "zsh", "fish")
PROGRAMS = ("tds_replay", "gavyreto")

# In place of the two calls by which zsh shows what it is given: each prints that, a line each.
ZSH_CALLS = '_arguments() { print -rl -- "$@"; }; _describe() { print -rl -- ${(P)2}; }'


def file_of(shell: str, program: str) -> str:
    """The file of completion, by its path in the repository."""
    return f"tools/completion/{program}.{shell}"


FILES = [file_of(shell, program) for shell in SHELLS for program in PROGRAMS]


def said_by(shell: str, *words: str) -> list[str]:
    """The lines that a shell prints."""
    return subprocess.run([shell, *words], capture_output=True, text=True, check=True).stdout.splitlines()


def in_bash(program: str, words: list[str]) -> list[str]:
    """What bash offers for the last of these words."""
    quoted = " ".join(shlex.quote(word) for word in words)
    return said_by("bash", "-c", (
        f". {repo.path_of(file_of('bash', program))}; COMP_WORDS=({program} {quoted}); COMP_CWORD={len(words)}; _{program};"
        ' printf "%s\\n" "${COMPREPLY[@]}"'))


def in_fish(program: str, words: list[str]) -> list[str]:
    """What fish offers for the last of these words."""
    line = " ".join([program, *words])
    lines = said_by("fish", "--no-config", "-c", f"source {repo.path_of(file_of('fish', program))}; complete -C {shlex.quote(line)}")
    return [it.split("\t")[0] for it in lines]


def in_zsh(program: str, words: list[str]) -> list[str]:
    """What zsh is given to offer: commands and options, or the values of the option before the last word."""
    quoted = " ".join(shlex.quote(word) for word in words)
    script = f"{ZSH_CALLS}; words=({program} {quoted}); CURRENT={len(words) + 1}; . {repo.path_of(file_of('zsh', program))}"
    given = [re.sub(r"^(\([^)]*\)|\*)", "", it) for it in said_by("zsh", "-fc", script)]
    names = {it: re.split(r"[=\[:]", it)[0] for it in given}
    before = words[-2] if len(words) > 1 else ""
    if before.startswith("-"):
        values = [re.search(r":\(([^)]*)\)$", it) for it, name in names.items() if name == before]
        return [value for found in values if found for value in found[1].split()]
    return [name for name in names.values() if name]


def completed(shell: str, program: str, *words: str) -> set[str]:
    """What a shell offers for the last of these words."""
    offer = {"bash": in_bash, "zsh": in_zsh, "fish": in_fish}[shell]
    return {it for it in offer(program, [*words]) if it}


def there() -> list[str]:
    """The shells that are on the path."""
    return [shell for shell in SHELLS if shutil.which(shell)]


def lacking() -> Iterator[str]:
    """Shells that aren't there, if the variable CI is set."""
    for shell in SHELLS:
        if not shutil.which(shell):
            print(f"completion for {shell}: skipped, since {shell} isn't there: `make needs` installs it")
            if os.environ.get("CI"):
                yield f"completion for {shell} wasn't looked at"
