"""What the scripts beside this file share: the crates of the repository, what is proved of each, a room in which it is proved
beside others, and the arguments of a script.

`rt` works in one crate at a time and in those below it. A room is a folder with copies of a crate and of those below,
so crates that don't use one another are proved at once. What `rt` keeps of a crate, its `out/`, is moved into its room and
back. After an import of this module Python finds the package in `python/`, and writes no compiled modules."""
import argparse
import functools
import hashlib
import os
import shutil
import subprocess
import sys
from collections.abc import Callable, Iterator
from typing import NoReturn

ROOT = os.path.dirname(os.path.dirname(os.path.dirname(os.path.abspath(__file__))))
BIN = os.path.join(ROOT, "bin")
PARTS = ("src", "specs", "proofs")
STORED = ("stdin", "stdout", "args", "status", "data")

sys.dont_write_bytecode = True
sys.path.append(os.path.join(ROOT, "python"))


def path_of(*names: str) -> str:
    """A path below the repository's top."""
    return os.path.join(ROOT, *names)


def arguments(about: str | None) -> argparse.ArgumentParser:
    """The parser of a script's arguments; help is the script's docstring."""
    return argparse.ArgumentParser(description=about, formatter_class=argparse.RawDescriptionHelpFormatter)


def add_program(parser: argparse.ArgumentParser) -> None:
    """The argument PROGRAM, which has to be there."""
    parser.add_argument(
        "program", nargs="?", type=program_at, default=os.path.join(BIN, "tds_replay"), metavar="PROGRAM", help="bin/tds_replay if none is named")


def program_at(path: str) -> str:
    """The whole path of a program; if it isn't there, the script ends with one line."""
    if not os.access(path, os.X_OK):
        sys.exit(f"{path} isn't there: build it by `make build`, or name another program by PROGRAM=")
    return os.path.abspath(path)


def skip(what: str, reason: str) -> NoReturn:
    """Says that a check is skipped, and ends it: as failed if the variable CI is set."""
    print(f"{what}: skipped, since {reason}: `make needs` installs it")
    sys.exit(1 if os.environ.get("CI") else 0)


def text_of(*names: str) -> str:
    """The text of a file of the repository."""
    with open(path_of(*names), encoding="utf-8") as file:
        return file.read()


def has_git() -> bool:
    """Whether this is a checkout: an archive of the sources has no `.git`."""
    return os.path.exists(path_of(".git"))


def said_by_git(*words: str) -> str:
    """What `git` prints in the repository."""
    return subprocess.run(["git", *words], cwd=ROOT, capture_output=True, text=True, check=True).stdout.strip()


def files() -> list[str]:
    """The files under version control, and those that will be, by their paths in the repository: of an archive all but what is made."""
    if has_git():
        names = said_by_git("ls-files", "--cached", "--others", "--exclude-standard").split("\n")
    else:
        names = list(files_without(text_of(".gitignore").replace("/", "").split()))
    return [name for name in names if name and os.path.isfile(path_of(name))]


def files_without(left_out: list[str]) -> Iterator[str]:
    """All files of the repository but those in folders with these names, by their paths in it."""
    for at, folders, names in os.walk(ROOT):
        folders[:] = sorted(name for name in folders if name not in left_out)
        yield from (os.path.relpath(os.path.join(at, name), ROOT) for name in sorted(names))


def listed() -> dict[str, list[str]]:
    """Each crate of crates.txt with all that it names, in the order of the file; none where the package is that has some of the tools."""
    if not os.path.exists(path_of("crates.txt")):
        return {}
    with open(path_of("crates.txt"), encoding="utf-8") as lines:
        pairs = [line.split(":") for line in lines if ":" in line and not line.startswith("#")]
    return {name.strip(): named.split() for name, named in pairs}


CRATES = listed()


@functools.cache
def below(name: str) -> list[str]:
    """The crates of the repository that a crate uses, lowest first."""
    named = [it for it in CRATES[name] if it in CRATES]
    return [it for it in CRATES if any(it == one or it in below(one) for one in named)]


def is_program(name: str) -> bool:
    """Whether a crate is a program."""
    return os.path.exists(path_of("crates", name, "src", "main.rt"))


def sources(name: str, *parts: str) -> Iterator[str]:
    """The files that a crate's proof depends on, or those of these parts of it, in a fixed order."""
    for part in parts or PARTS:
        for at, folders, files in os.walk(path_of("crates", name, part)):
            folders.sort()
            yield from (os.path.join(at, file) for file in sorted(files))


def has_tests(name: str) -> bool:
    """Whether a crate has tests."""
    return any("#[test]" in open(file, encoding="utf-8").read() for file in sources(name) if file.endswith(".rt"))


@functools.cache
def kit() -> bytes:
    """The kit's one-line identity. Where `rt` isn't on the path, as under `sudo`, it is that of the kit that proved last, or nothing."""
    if shutil.which("rt"):
        return subprocess.run(["rt", "version"], capture_output=True, check=True).stdout
    noted = os.path.join(BIN, "kit")
    if not os.path.exists(noted):
        return b""
    with open(noted, "rb") as file:
        return file.read()


def sum_of(name: str) -> str:
    """A sum of the kit, of crates.txt's line, and of all sources of a crate and of those below it."""
    found = hashlib.sha256(kit())
    for crate in [*below(name), name]:
        found.update(repr((crate, CRATES[crate])).encode())
        for file in sources(crate):
            with open(file, "rb") as it:
                found.update(repr((os.path.relpath(file, ROOT), it.read())).encode())
    return found.hexdigest()


def is_done(what: str, name: str) -> bool:
    """Whether bin/ says that this was done to the crate as it is now."""
    try:
        with open(os.path.join(BIN, what, name), encoding="utf-8") as it:
            return it.read() == sum_of(name)
    except OSError:
        return False


def set_done(what: str, name: str, found: str) -> None:
    """Notes in bin/ that this was done to the crate as it was."""
    os.makedirs(os.path.join(BIN, what), exist_ok=True)
    with open(os.path.join(BIN, what, name), "w", encoding="utf-8") as it:
        it.write(found)
    with open(os.path.join(BIN, "kit"), "wb") as noted:
        noted.write(kit())


def is_built(name: str) -> bool:
    """Whether a library is ready for the crates above it."""
    return os.path.isfile(path_of("crates", name, "out", "rlib", "stamp"))


def put_back(name: str) -> None:
    """Gives a crate back what a room of it holds, and removes the room."""
    kept, out = path_of("bin", "rooms", name, "crates", name, "out"), path_of("crates", name, "out")
    if os.path.isdir(kept):
        shutil.rmtree(out, ignore_errors=True)
        os.rename(kept, out)
    shutil.rmtree(path_of("bin", "rooms", name), ignore_errors=True)


def make_room(name: str) -> str:
    """Makes a room for a crate, and returns the crate's folder in it."""
    put_back(name)
    room = path_of("bin", "rooms", name)
    for crate in [*below(name), name]:
        folder = os.path.join(room, "crates", crate)
        for part in PARTS:
            if os.path.isdir(path_of("crates", crate, part)):
                shutil.copytree(path_of("crates", crate, part), os.path.join(folder, part))
    for crate in below(name):
        kept = path_of("crates", crate, "out", "rlib")
        if os.path.isdir(kept):
            shutil.copytree(kept, os.path.join(room, "crates", crate, "out", "rlib"), copy_function=os.link)
    folder = os.path.join(room, "crates", name)
    for stored in STORED:
        if os.path.isfile(path_of("crates", name, stored)):
            shutil.copy(path_of("crates", name, stored), folder)
    if os.path.isdir(path_of("crates", name, "out")):
        os.rename(path_of("crates", name, "out"), os.path.join(folder, "out"))
    os.mkdir(os.path.join(room, ".git"))
    with open(os.path.join(room, "crates.txt"), "w", encoding="utf-8") as lines:
        lines.writelines(f"{it}: {' '.join(CRATES[it])}\n" for it in [*below(name), name])
    return folder


def in_room(name: str, command: list[str], each_line: Callable[[str], object]) -> int:
    """Runs a command in a crate's room, hands each line that it prints to `each_line`, and returns its status."""
    folder = make_room(name)
    try:
        stored = os.path.join(folder, "stdin")
        with open(stored if os.path.isfile(stored) else os.devnull, "rb") as source:
            run = subprocess.Popen(
                command, cwd=folder, stdin=source, stdout=subprocess.PIPE, stderr=subprocess.STDOUT, text=True, errors="replace"
            )
        for line in run.stdout or ():
            each_line(line)
        return run.wait()
    finally:
        put_back(name)


def put_program() -> None:
    """Puts the program that was built last into bin/, under the name that users call it by."""
    made, program = path_of("crates", "replay", "out", "replay"), os.path.join(BIN, "tds_replay")
    os.makedirs(BIN, exist_ok=True)
    if not os.path.exists(program) or os.path.getmtime(made) > os.path.getmtime(program):
        shutil.copy2(made, program)


def runner() -> str:
    """The toolchain's program that runs tests which are built."""
    return os.path.join(os.path.dirname(os.path.realpath(shutil.which("rt") or "")), "rattle-test")


def kit_path(*names: str) -> str:
    """A path below the sources of the kit's crates."""
    return os.path.join(os.path.dirname(os.path.dirname(os.path.realpath(shutil.which("rt") or "/nowhere/bin/rt"))), "rattle", *names)


def need_rt() -> None:
    """Ends with one line if the toolchain isn't there."""
    if shutil.which("rt") is None:
        sys.exit("rt isn't there: proving and building need the Rattle kit (README.md says where it comes from)")
