"""The commands of the package: python3 -m gavyreto COMMAND, or gavyreto COMMAND once it is installed."""
from __future__ import annotations

import os
import signal
import sys

INTERRUPTED = 130


def _interrupted(_: int, __: object) -> NoReturn:
    """Ctrl-C before a command has begun, or after it has ended."""
    try:
        os.write(2, b"interrupted\n")
    finally:
        os._exit(INTERRUPTED)


_came: Optional[BaseException] = None  # the last signal that came while a command ran


def _raising(number: int, _: object) -> NoReturn:
    """A signal while a command runs. An exception that is raised where Python drops one, as in the call of a weak reference, ends
    nothing: that it came is kept too."""
    global _came
    _came = KeyboardInterrupt() if number == signal.SIGINT else common.Signalled(number)
    raise _came


def _begin() -> None:
    """Ctrl-C is a line and a status from here on. It is ignored of what the shell runs in the background. How a program ended is known
    only if its signal isn't."""
    if signal.getsignal(signal.SIGINT) is signal.default_int_handler:
        signal.signal(signal.SIGINT, _interrupted)
    if signal.getsignal(signal.SIGCHLD) is signal.SIG_IGN:
        signal.signal(signal.SIGCHLD, signal.SIG_DFL)


if __name__ == "__main__":
    _begin()  # before anything else is imported: what is imported may be interrupted too

import contextlib  # noqa: E402
import importlib  # noqa: E402
from typing import NoReturn, Optional  # noqa: E402

from gavyreto import program  # noqa: E402
from gavyreto.commands import common  # noqa: E402
from gavyreto.version import COMMIT, __version__  # noqa: E402

COMMANDS = {
    "query": "asks a server, and writes the rows of its answers as quoted CSV",
    "capture": "exports the responses in a capture of the network, each to a text",
    "columns": "prints the columns of a response with their types, or tables for them",
    "adapt": "rewrites a response with refused columns, with types that are read",
    "many": "exports many responses, several at once, here or on a Dask cluster",
}
OF_PROGRAM = ("export", "check", "recut")  # commands of tds_replay
USAGE = "usage: gavyreto COMMAND [ARGUMENTS]\n\n" + "".join(f"  {name:9}{does}\n" for name, does in COMMANDS.items()) + (
    "\ngavyreto help COMMAND prints the help of one; gavyreto --version the version\n")


def run(words: list[str]) -> int:
    """Runs a command, and returns its exit status. Raises what ended it."""
    name, *rest = words or [""]
    if name == "help" and rest:
        name, rest = rest[0], ["--help"]
    if name in COMMANDS:
        return run_command(name, rest)
    if name in ("-h", "--help", "help"):
        common.put(USAGE)
        return 0
    if name in ("-V", "--version"):
        common.put(f"gavyreto {__version__}{f' (commit {COMMIT})' if COMMIT else ''}\n")
        return 0
    elsewhere = f": tds_replay {name} does that" if name in OF_PROGRAM else ""
    common.tell(f"gavyreto: {f'no command {name}{elsewhere}' if name else 'a command is needed'}")
    common.say("\n" + USAGE)
    return program.REFUSED


def run_command(name: str, words: list[str]) -> int:
    """Runs a command. Ctrl-C raises KeyboardInterrupt as long as it runs, and what else ends it, by default, `Signalled`."""
    command = importlib.import_module(f"gavyreto.commands.{name}")
    before = {number: signal.getsignal(number) for number in common.SIGNALS}
    try:
        for number, handler in before.items():
            if handler is _interrupted or handler is signal.SIG_DFL:
                with contextlib.suppress(ValueError):  # only the main thread may set one, which alone changes it
                    signal.signal(number, _raising)
        common.check_streams()
        return int(command.run(words))
    finally:
        for number, handler in before.items():
            if signal.getsignal(number) is not handler:
                signal.signal(number, handler)


def ending(words: list[str]) -> tuple[str, int]:
    """Runs a command, and returns the line that tells what ended it, if anything did, and its exit status."""
    try:
        return "", run(words)
    except SystemExit as refused:  # by argparse, which has said why
        return "", refused.code if isinstance(refused.code, int) else program.REFUSED
    except BaseException as failure:
        return common.ending_of(failure)


def ended(words: list[str]) -> int:
    """Runs a command, and returns its exit status: whatever ends it is a line on standard error."""
    line, status = ending(words)
    if _came and status != common.ending_of(_came)[1]:
        line, status = common.ending_of(_came)
    if line:
        common.tell(line)
    return status


def main(words: Optional[list[str]] = None) -> NoReturn:
    _begin()
    common.open_descriptors()
    status = ended(sys.argv[1:] if words is None else words)
    try:
        sys.stdout.flush()
        common.settle(common.STANDARD_OUTPUT)
    except OSError as failure:
        common.tell(f"standard output: {common.cause_of(failure)}")
        sys.stdout = open(os.devnull, "w", encoding="utf-8")  # so that the interpreter doesn't try again
        status = status or program.FAILED
    sys.exit(status)


if __name__ == "__main__":
    main()
