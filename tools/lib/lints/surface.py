"""The command's surface: options, ranges, defaults and statuses as docs/COMMAND.md has them, which code, man pages, help and
completion are held to; what a user may see; and the commands of the Python package with their options."""
from __future__ import annotations

import functools
import glob
import os
import re
import subprocess
import sys
from collections.abc import Iterator
from dataclasses import dataclass

from lib import digest, repository as repo
from lib.lints import shells
from lib.lints.counts import number
from lib.lints.pages import PAGES

PAGE, MANUAL, HELP = "docs/COMMAND.md", "docs/tds_replay.1", "crates/tds_arguments/src/help.rt"
PROGRAM = repo.path_of("bin", "tds_replay")
LINES, COLUMNS = 24, 80  # of a terminal


@dataclass
class Option:
    """A row of COMMAND's table of options."""

    names: list[str]
    commands: list[str]  # of which it is an option; all that list it if none is named
    range: str
    default: str


def section(heading: str) -> str:
    """A section of COMMAND."""
    return repo.text_of(PAGE).split(f"\n{heading}\n")[1].split("\n## ")[0]


def cells(table: str) -> list[list[str]]:
    """The rows of a table without its head."""
    rows = [[cell.strip() for cell in line.split("|")[1:-1]] for line in table.split("\n") if line.startswith("| ")]
    return rows[1:]


@functools.cache
def usages() -> dict[str, list[str]]:
    """The options of each command, in the order of COMMAND's table of commands."""
    rows = cells(repo.text_of(PAGE).split("\n## ")[0])
    return {row[0].strip("`").split()[0]: re.findall(r"--[a-z-]+", row[0]) for row in rows}


@functools.cache
def options() -> list[Option]:
    """COMMAND's table of options."""
    found = []
    for row in cells(section("## Options")):
        names = [name.split()[0] for name in re.findall(r"`(--?[^`]+)`", row[0])]
        found.append(Option(names, [it for it in re.findall(r"`(\w+)`", row[0]) if it in usages()], row[3].replace("`", ""), row[4].replace("`", "")))
    return found


def statuses() -> dict[str, str]:
    """COMMAND's exit statuses and their meanings."""
    return {row[0]: row[1].replace("`", "") for row in cells(section("## Exit statuses"))}


def manual() -> str:
    """The man page of the program without the marks of roff within its lines."""
    return re.sub(r"\\f[BIR]", "", repo.text_of(MANUAL).replace("\\-", "-"))


# The code

@functools.cache
def limits() -> dict[str, tuple[int, int]]:
    """The ranges of the limits in the code, by the names of their options."""
    text = repo.text_of("crates/tds_meter/src/area.rt") + repo.text_of("crates/tds_meter/src/limits.rt")
    found: dict[str, int] = {}
    for name, value in re.findall(r"const (\w+): \w+ = ([\w ]+);", text):
        found[name] = number(value) if re.fullmatch(r"[\d_]+", value) else found[value.split()[0]]
    ends = [name[len("LEAST_"):] for name in found if name.startswith("LEAST_")]
    return {"--" + name.lower().replace("_", "-"): (found["LEAST_" + name], found["GREATEST_" + name]) for name in ends if "GREATEST_" + name in found}


def wrong_code() -> Iterator[str]:
    """Options, ranges, defaults and statuses of COMMAND that the code doesn't have."""
    code = repo.text_of("crates/tds_arguments/src/options.rt")
    defaults = dict(re.findall(r'(?s)number\(alloc, (\w+),[^;]*?default_value\("(\d+)"\)', code))
    names = {f"--{name}" for name in re.findall(r'(?m)^pub\(crate\) const [A-Z_]+: &str = "([a-z-]+-[a-z]+|charset|all)";$', code) if name != "utf-8"}
    listed = {name for option in options() for name in option.names}
    if listed != {*names, "-h", "--help", "-V", "--version"}:
        yield f"{PAGE}: options {sorted(listed)}, in the code {sorted(names)}"
    for option in options():
        least_greatest = limits().get(option.names[0])
        default = defaults.get(option.names[0][2:].upper().replace("-", "_"))
        if least_greatest and option.range != "{} to {}".format(*least_greatest):
            yield f"{PAGE}: {option.names[0]} is {option.range}, in the code {least_greatest}"
        if default and option.default not in (default, "the line is refused"):
            yield f"{PAGE}: {option.names[0]} is {option.default} if it isn't given, in the code {default}"
    code_statuses = set(re.findall(r"Status::\w+ => (\d),", repo.text_of("crates/tds_replay/src/status.rt")))
    if {*statuses()} != code_statuses:
        yield f"{PAGE}: statuses {sorted(statuses())}, in the code {sorted(code_statuses)}"


def wrong_version() -> Iterator[str]:
    """The version of the Python package, the last one of CHANGELOG and the digest of the sources, if they aren't the program's, and a version without a date."""
    program = re.search(r'VERSION: &str = "([\d.]+) ', repo.text_of(digest.VERSION))
    version = program[1] if program else ""
    if digest.told() != digest.digest():
        yield f"{digest.VERSION}: the digest of the sources is {digest.digest()}: `make digest` writes it"
    for page, pattern in (("python/gavyreto/version.py", r'(?m)^__version__ = "([\d.]+)"$'), ("CHANGELOG.md", r"(?m)^## Unreleased\n(?:.*\n)*?## (\d[\d.]*), \d{4}-\d\d-\d\d$")):
        found = re.search(pattern, repo.text_of(page))
        if found is None or found[1] != version:
            yield f"{page}: version {found[1] if found else 'none'}, the program has {version}"


# The man page

def wrong_synopsis() -> Iterator[str]:
    """Options of a command that the synopsis of the man page doesn't have as COMMAND has them."""
    parts = manual().split(".SH SYNOPSIS")[1].split(".SH ")[0].split(".br\n")
    for command, wanted in usages().items():
        found = re.findall(r"--[a-z-]+", next((it for it in parts if f"tds_replay {command}" in it), ""))
        if found != wanted:
            yield f"{MANUAL}: {command} has {' '.join(wanted)} in {PAGE}, not {' '.join(found) or 'nothing'}"


def paragraphs(heading: str) -> dict[str, str]:
    """The paragraphs of a section of the man page, by their first lines."""
    parts = manual().split(f".SH {heading}\n")[1].split(".SH ")[0].split(".PP\n.B recut")[0].split(".TP\n")[1:]
    return dict(part.split("\n", 1) for part in parts)


def wrong_paragraph(option: Option) -> Iterator[str]:
    """What the man page's paragraph of an option tells otherwise than COMMAND; there has to be one."""
    names = [rf"(?<![\w-]){name}(?![\w-])" for name in option.names]
    text = next((text for head, text in paragraphs("OPTIONS").items() if all(re.search(name, head) for name in names)), None)
    if text is None:
        yield f"{MANUAL}: no {', '.join(option.names)}"
        return
    wanted = [option.range] if option.range[:1].isdigit() else option.range.split(", ")
    found = re.findall(r"\d+ to \d+", text) or [it for it in wanted if it in text]
    if {*found} != {*wanted}:
        yield f"{MANUAL}: {option.names[0]} is {', '.join(found) or 'nothing'}, in {PAGE} {option.range}"
    if option.default and option.default != "the line is refused" and not re.search(rf"Without it\n?[ .BR]*{re.escape(option.default)}\b", text):
        yield f"{MANUAL}: {option.names[0]} isn't {option.default} if it isn't given"


def wrong_options() -> Iterator[str]:
    """Options, ranges and defaults that the man page tells otherwise than COMMAND, or only one of them has."""
    for option in options():
        yield from wrong_paragraph(option)
    listed = {name for option in options() for name in option.names}
    for name in re.findall(r"--[a-z-]+", " ".join(paragraphs("OPTIONS"))):
        if name not in listed:
            yield f"{MANUAL}: {PAGE} has no {name}"


def wrong_statuses() -> Iterator[str]:
    """Statuses that the man page tells otherwise than COMMAND, or only one of them has."""
    found = {head.removeprefix(".B "): " ".join(text.split()) for head, text in paragraphs('"EXIT STATUS"').items()}
    for status in sorted({*found} | {*statuses()}):
        if found.get(status) != statuses().get(status):
            yield f"{MANUAL}: status {status} is {found.get(status)!r}, in {PAGE} {statuses().get(status)!r}"


def wrong_remedies() -> Iterator[str]:
    """What a user may see that is in only one of COMMAND's table and the man page."""
    rows = [row[0].replace("`", "") for row in cells(repo.text_of(PAGE).split("\n## What you see")[1].split("\n## ")[0])]
    listed = re.findall(r'(?m)^\.B "(.*)"$', repo.text_of(MANUAL).split('.SH "WHAT YOU SEE')[1].split("\n.SH")[0])
    yield from (f"{PAGE} and {MANUAL}: not in both: {it}" for it in sorted({*rows} ^ {*listed}))


# Help

def help_of(*words: str) -> str:
    """What the program prints for these words."""
    return subprocess.run([PROGRAM, *words], capture_output=True, text=True, check=False).stdout


def wrong_help_texts() -> Iterator[str]:
    """Ranges and statuses of the help's texts that aren't COMMAND's."""
    texts = dict(re.findall(r'(?s)pub\(crate\) const (\w+): [^=]* =(.*?);\n', repo.text_of(HELP)))
    for option in options():
        name = option.names[0][2:].upper().replace("-", "_")
        constants = [("NEW_" if "recut" in option.commands else "") + name] if name in texts else []
        for constant in constants:
            found = re.findall(r"from (\d+) to (\d+)", texts[constant])
            if option.range[:1].isdigit() and {" to ".join(it) for it in found} != {option.range}:
                yield f"{HELP}: {constant} has {found}, and {option.names[0]} is {option.range}"
            if not option.range[:1].isdigit() and not all(word in texts[constant] for word in option.range.split(", ")):
                yield f"{HELP}: {constant} lacks a value of {option.range}"
    known = {*statuses()}
    for constant, wanted in (("PROGRAM_END", known), ("EXPORT", known), ("CHECK", known), ("RECUT", known - {"3"})):
        found_statuses = set(re.findall(r"(?<![\w-])(\d)(?=\s+[a-z])", texts[constant].split("Exit statuses:")[-1].split("\n\n")[0]))
        if found_statuses != wanted:
            yield f"{HELP}: {constant} has the statuses {' '.join(sorted(found_statuses))}, not {' '.join(sorted(wanted))}"


def wrong_help() -> Iterator[str]:
    """Help, if the program is built, that lacks an option, or doesn't fit a terminal."""
    if not os.path.exists(PROGRAM):
        return
    for command, wanted in usages().items():
        found = set(re.findall(r"(?m)^\s+(?:-\w, )?(--[a-z-]+)", help_of(command, "--help")))
        if found != {*wanted, "--help"}:
            yield f"help of {command}: {sorted(found)}, not {sorted({*wanted, '--help'})}"
    before: list[list[str]] = [[], *([command] for command in usages())]
    for words in ([*words, option] for words in before for option in ("--help", "-h")):
        lines = help_of(*words).rstrip("\n").split("\n")
        yield from (f"help of {' '.join(words)} has a line of {len(line)} columns: {line}" for line in lines if len(line) > COLUMNS)
        if len(lines) > LINES and (words[-1] == "-h" or len(words) == 1):
            yield f"help of {' '.join(words)} has {len(lines)} lines"


# Completion

def unlike(what: str, found: set[str], wanted: set[str]) -> Iterator[str]:
    """What completion lacks, and what it has beside that."""
    if wanted - found:
        yield f"{what}: no {', '.join(sorted(wanted - found))}"
    if found - wanted:
        yield f"{what}: {', '.join(sorted(found - wanted))} isn't there to be completed"


def wrong_values(shell: str, option: Option) -> Iterator[str]:
    """Values that completion offers of an option and that COMMAND doesn't have, or the other way."""
    path, name = shells.file_of(shell, "tds_replay"), option.names[0]
    values = shells.completed(shell, "tds_replay", "export", name, "")
    if option.range[:1].isdigit():
        least, greatest = map(int, option.range.split(" to "))
        yield from (f"{path}: {name} {value} isn't in its range" for value in values if not least <= int(value) <= greatest)
    elif option.range:
        yield from unlike(f"{path}: {name}", values, {*option.range.split(", ")})


def wrong_completion() -> Iterator[str]:
    """Commands, options and values that completion doesn't offer as COMMAND has them."""
    general = {name for option in options() if not option.range and not option.commands for name in option.names}
    yield from shells.lacking()
    for shell in shells.there():
        path = shells.file_of(shell, "tds_replay")
        first = shells.completed(shell, "tds_replay", "") | shells.completed(shell, "tds_replay", "-")
        yield from unlike(path, first, {*usages(), "help", *general})
        yield from unlike(f"{path}: help", shells.completed(shell, "tds_replay", "help", "") & {*usages()}, {*usages()})
        for command, wanted in usages().items():
            yield from unlike(f"{path}: {command}", shells.completed(shell, "tds_replay", command, "-"), {*wanted, "-h", "--help"})
        for option in options():
            if option.range:
                yield from wrong_values(shell, option)


# The Python package

@functools.cache
def package_help(*words: str) -> str:
    """The help of the Python package's commands, as a terminal gets it."""
    environment = os.environ | {"PYTHONPATH": repo.path_of("python"), "PYTHONDONTWRITEBYTECODE": "1", "COLUMNS": str(COLUMNS)}
    return subprocess.run([sys.executable, "-m", "gavyreto", *words], env=environment, capture_output=True, text=True, check=True).stdout


def package_options(command: str) -> set[str]:
    """The options that the help of a command of the Python package names."""
    return set(re.findall(r"(?<![\w-])(--?[a-zA-Z][a-z-]*)\b", package_help("help", command).split("options:")[-1]))


def wide_help() -> Iterator[str]:
    """Lines of the Python package's help that are wider than a terminal."""
    for words in (["help"], *(["help", command] for command in package_commands())):
        yield from (f"gavyreto {' '.join(words)} has a line of {len(it)} columns: {it}" for it in package_help(*words).splitlines() if len(it) > COLUMNS)


def package_commands() -> dict[str, set[str]]:
    """The options of each command of the Python package."""
    files = os.listdir(repo.path_of("python", "gavyreto", "commands"))
    names = sorted(name[:-len(".py")] for name in files if name not in ("__init__.py", "common.py") and name.endswith(".py"))
    return {name: package_options(name) for name in names}


def wrong_package() -> Iterator[str]:
    """Commands of the Python package, and options of them, that its man page or completion doesn't have."""
    text, commands = repo.text_of("docs/gavyreto.1").replace("\\-", "-"), package_commands()
    for command, wanted in commands.items():
        for name in sorted({command, *wanted}):
            if not re.search(rf"(?<![\w-]){name}(?![\w-])", text):
                yield f"docs/gavyreto.1: no {name}"
    for shell in shells.there():
        path = shells.file_of(shell, "gavyreto")
        first = shells.completed(shell, "gavyreto", "") | shells.completed(shell, "gavyreto", "-")
        yield from unlike(path, first, {*commands, "help", "-h", "--help", "-V", "--version"})
        yield from unlike(f"{path}: help", shells.completed(shell, "gavyreto", "help", ""), {*commands})
        for command, wanted in commands.items():
            yield from unlike(f"{path}: {command}", shells.completed(shell, "gavyreto", command, "-"), wanted)


# Ranges and examples

def wrong_ranges() -> Iterator[str]:
    """Ranges in pages, help, completion and the Python package that begin or end as a limit does, and aren't its range."""
    known = {*limits().values()}
    ends = {greatest for _, greatest in known} | {least for least, _ in known if least > 10}
    sources = [os.path.relpath(it, repo.ROOT) for it in glob.glob(repo.path_of("python", "gavyreto", "**", "*.py"), recursive=True)]
    for page in (*PAGES, MANUAL, "docs/gavyreto.1", HELP, *shells.FILES, *sources):
        for least, greatest in re.findall(r"\b(\d[\d,]*)(?: to |\.\.=?)(\d[\d,]*\d|\d)", repo.text_of(page)):
            pair = number(least), number(greatest)
            if pair not in known and (pair[0] in ends or pair[1] in ends):
                yield f"{page}: {least} to {greatest} is no range of a limit"


def wrong_examples() -> Iterator[str]:
    """Commands of COMMAND, if the program is built, that print something else than is below them."""
    if not os.path.exists(PROGRAM):
        return
    environment = {**os.environ, "PATH": os.path.dirname(PROGRAM) + os.pathsep + os.environ["PATH"]}
    for command, wanted in re.findall(r"(?ms)^```\n\$ (tds_replay [^\n]*)\n(.*?)^```$", repo.text_of(PAGE)):
        if "response.tds" in command:
            continue
        ran = subprocess.run(["sh", "-c", command], cwd=repo.ROOT, env=environment, capture_output=True, text=True, check=False)
        came = ran.stdout or ran.stderr
        if wanted and came.replace("\r", "").strip() != wanted.strip():
            yield f"{PAGE}: `{command}` prints {came!r}"


def findings() -> Iterator[str]:
    """What isn't so of the command's surface."""
    checks = (
        wrong_code, wrong_version, wrong_synopsis, wrong_options, wrong_statuses, wrong_remedies, wrong_help_texts, wrong_help, wrong_completion, wrong_package, wide_help, wrong_ranges, wrong_examples,
    )
    for check in checks:
        yield from check()
