"""What takes answers and lines of the table, and what an answer is."""
from __future__ import annotations

from dataclasses import dataclass
from typing import Optional, Protocol

from gavyreto.capturing.messages import Packets, Request


class Kept(Protocol):
    """Keeps the packets of an answer while they come."""

    def write(self, data: bytes) -> None: ...
    def cut(self, length: int) -> None: ...
    def first(self, length: int) -> bytes: ...
    def drop(self) -> None: ...


class Desk(Protocol):
    """What takes answers and lines of the table."""

    def keep(self) -> Kept: ...
    def answer(self, sides: Sides, answer: Answer) -> None: ...
    def tell(self, sides: Sides, time: int, why: str, statement: str = "") -> None: ...


@dataclass(frozen=True)
class Sides:
    """The client and the server of a connection, as they are written; both are empty if they aren't known."""

    client: str = ""
    server: str = ""


@dataclass
class Answer:
    """An answer: when it began, what was asked for, its packets, and what is known of its end."""

    time: int
    kept: Kept
    packets: Packets
    request: Optional[Request] = None
    length: int = 0
    why: str = ""  #: why it isn't whole, if that is known

    def words(self) -> str:
        return self.request.words if self.request else ""


@dataclass
class Lost:
    """Bytes of a server that are passed over, up to where an answer is known to begin."""

    time: int
    passed: int = 0
    lacking: int = 0
    why: str = "no packet begins here"
    is_start: bool = False  #: whether they are the first of the capture

    def line(self) -> str:
        lacking = f"{self.lacking} bytes are lacking, and " if self.lacking else ""
        return f"{self.why}: {lacking}{self.passed} {'passed over' if lacking else 'bytes are passed over'}"
