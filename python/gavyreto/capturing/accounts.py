"""The books of a capture: what every frame, request and byte of a server came to, and whether the sums meet."""
from __future__ import annotations

from collections import Counter
from dataclasses import dataclass, field

MOST_KINDS = 20  # of frames that aren't read, by their names


@dataclass
class Accounts:
    """Counts of two kinds: what came in, counted where it comes, and what became of it, counted where that is decided."""

    frames: int = 0
    in_connections: int = 0  #: frames of connections to the ports that are asked for
    elsewhere: int = 0  #: frames of other connections and protocols
    unread: Counter[str] = field(default_factory=Counter)  #: frames that may be of such connections and aren't read, by the reason
    foreign: Counter[str] = field(default_factory=Counter)  #: frames that aren't read and show nothing of such connections, by their kind
    packets: int = 0  #: of a dump
    connections: int = 0
    requests: int = 0  #: messages of clients that ask for something
    answered: int = 0
    unanswered: int = 0
    received: int = 0  #: bytes of servers, each once
    in_answers: int = 0
    in_greetings: int = 0
    in_logins: int = 0
    in_acknowledgements: int = 0  #: of attentions, after an answer that was whole
    told: int = 0  #: bytes that a line of the table is about
    answers: int = 0

    def count(self, kinds: Counter[str], kind: str) -> None:
        """Counts a frame that isn't read, of at most so many kinds by their names."""
        kinds[kind if kind in kinds or len(kinds) < MOST_KINDS else "further kinds"] += 1

    def not_read(self) -> int:
        """Frames that aren't read."""
        return sum(self.unread.values()) + sum(self.foreign.values())

    def meets(self) -> bool:
        """Whether nothing is without a place."""
        return (
            self.frames == self.in_connections + self.elsewhere + self.not_read()
            and self.requests == self.answered + self.unanswered
            and self.received == self.in_answers + self.in_greetings + self.in_logins + self.in_acknowledgements + self.told)

    def line(self) -> str:
        """All sums, on one line."""
        frames = f"frames {self.frames}: {self.in_connections} in connections, {self.elsewhere} of others, {self.not_read()} not read; "
        attentions = f"{self.in_acknowledgements} after attentions, "
        return (
            f"{frames if self.frames else ''}{f'packets {self.packets}; ' if self.packets else ''}connections {self.connections}; "
            f"requests {self.requests}: {self.answered} answered, {self.unanswered} not; "
            f"bytes {self.received}: {self.in_answers} in {self.answers} answers, {self.in_greetings} in greetings, {self.in_logins} in logins, "
            f"{attentions if self.in_acknowledgements else ''}{self.told} told")
