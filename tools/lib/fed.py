"""Runs the program over responses that it is given one at a time, each once the text and the lines of the one before have come."""
from __future__ import annotations

import contextlib
import subprocess
import threading
from collections.abc import Iterable
from typing import IO

from plain import reader as plain

# How long a text is waited for at most, in seconds.
PATIENCE = 60


def given(pipe: IO[bytes], wire: bytes) -> threading.Thread:
    """A thread that writes a response to the program; one that reads no further breaks the pipe."""
    def write() -> None:
        with contextlib.suppress(BrokenPipeError):
            pipe.write(wire)
            pipe.flush()

    thread = threading.Thread(target=write)
    thread.start()
    return thread


def run(program: str, wires: list[bytes], answers: list[plain.Answer], options: Iterable[str]) -> tuple[bytes, str, int]:
    """What the program writes, says and ends with. It is ended if it keeps back what belongs to a response that it was given whole."""
    words = [program, "export", "--all", *options]
    ran = subprocess.Popen(words, stdin=subprocess.PIPE, stdout=subprocess.PIPE, stderr=subprocess.PIPE)
    assert ran.stdin and ran.stdout and ran.stderr
    impatient = threading.Timer(PATIENCE, ran.kill)
    impatient.start()
    text, said = b"", b""
    for wire, answer in zip(wires, answers):
        writing = given(ran.stdin, wire)
        if not answer.stop:
            text += ran.stdout.read(len(answer.text))
            said += ran.stderr.read(len(answer.said.encode()))
        writing.join()
    with contextlib.suppress(BrokenPipeError):
        ran.stdin.close()
    text, said = text + ran.stdout.read(), said + ran.stderr.read()
    status = ran.wait()
    impatient.cancel()
    return text, said.decode("utf-8", "replace"), status
