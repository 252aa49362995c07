"""Statements that are asked on a session, and the program that writes the text of each answer while it comes."""
from __future__ import annotations

import contextlib
import signal
import threading
from types import FrameType
from typing import Callable, Optional

from gavyreto import program
from gavyreto.adapting import hand_over
from gavyreto.commands import common
from gavyreto.commands.common import Signalled, Stopped
from gavyreto.connection import Session
from gavyreto.errors import BadAnswer, ConnectionFailed, TimedOut
from gavyreto.program import BAD_INPUT, DONE, INTERRUPTED, SERVER_ERROR, Ending, Program, Write

SECONDS_OF_PATIENCE = 1  # after which it is told that the server is waited for
WAITING = "interrupted: waiting for the server to stop; Ctrl-C again doesn't wait"


class Broken(Stopped):
    """The connection broke within an answer: another one may last."""


class Interrupt:
    """What Ctrl-C does: the first within an answer asks the server to stop, any other ends at once. It is told what is waited for if that
    takes a while."""

    def __init__(self, session: Session) -> None:
        self.came = False
        self._late: Optional[threading.Timer] = None
        self._session = session
        before = signal.getsignal(signal.SIGINT)
        if callable(before):  # it is ignored of what the shell runs in the background
            self._before = before
            signal.signal(signal.SIGINT, self._handle)

    def _handle(self, number: int, frame: Optional[FrameType]) -> None:
        try:
            self._before(number, frame)  # it keeps that Ctrl-C came, which decides the status in the end
        except KeyboardInterrupt:
            if self.came or self._session.is_ready():
                raise
        self.came = True
        with contextlib.suppress(ConnectionFailed):  # who waits for the answer finds it too
            self._session.interrupt()
        self._late = threading.Timer(SECONDS_OF_PATIENCE, lambda: common.tell(WAITING))
        self._late.daemon = True
        self._late.start()

    def settle(self) -> None:
        """Nothing is waited for any more."""
        if self._late:
            self._late.cancel()


class Asking:
    """A session on which statements are asked, the program that reads their answers, and a character set if refused columns are rewritten."""

    def __init__(self, session: Session, run: Program, adapts: Optional[str], interrupt: Optional[Interrupt] = None) -> None:
        self._session, self._run, self._adapts, self._interrupt = session, run, adapts, interrupt

    def answer(
        self, statement: str, output: program.Output, came: Callable[[int], object] = lambda _: None, keep: Optional[Write] = None,
    ) -> Ending:
        """Sends a statement, and runs the program on its answer; `came` is told how many bytes come of it, 0 while it is waited for, and
        `keep` is given its packets as they come."""
        session, run, wrong = self._session, self._run, ""
        failure: Optional[BaseException] = None
        run.begin()

        def attend(source: int, seconds: float) -> float:
            came(0)
            return run.attend(source, seconds, output)

        def hand(data: bytes) -> None:
            came(len(data))
            run.hand(data, output)

        def following() -> bytes:
            data = session.next() if keep or run.is_reading else b""
            if keep:
                keep(data)
            return data

        session.meanwhile(attend)
        try:
            session.send(statement)
            wrong = hand_over(following, hand, self._adapts)
            while keep and following():
                pass  # what the program needs no more of is kept too
        except (ConnectionFailed, BadAnswer, Signalled) as error:
            failure = error
        if failure or wrong or self._interrupt and self._interrupt.came:
            run.cut()
        return self._judged(run.finish(output), failure, wrong)

    def is_whole(self) -> bool:
        """Whether all of the last answer was read."""
        return self._session.is_ready()

    def _judged(self, ending: Ending, failure: Optional[BaseException], wrong: str) -> Ending:
        """How an answer ended, by the program's ending, what came instead of the rest, and what can't be rewritten. Raises `Stopped`."""
        session = self._session
        if self._interrupt and self._interrupt.came:
            line = ending.line_after(finished(session))
            self._interrupt.settle()
            raise Stopped(line, INTERRUPTED)
        if failure:
            ended, status = common.ending_of(failure)
            kind = Broken if isinstance(failure, ConnectionFailed) and not isinstance(failure, TimedOut) else Stopped
            raise kind(ended if status == BAD_INPUT else ending.line_after(ended), status)
        ending = ending.refused(wrong)
        if ending.status == DONE and session.unfinished:
            return ending._replace(status=SERVER_ERROR, notes=f"{ending.notes}{session.unfinished}\n")
        return ending


def finished(session: Session) -> str:
    """Waits, after an interrupt, for the server to stop. Returns what there is to say."""
    if session.closed_after:
        return f"interrupted, and {session.closed_after}"
    try:
        session.finish()
    except ConnectionFailed as failure:
        return f"interrupted, and {failure}"
    return "interrupted"
