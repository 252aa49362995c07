"""What all connections hold together: bytes that wait for their turn, and copies that further ones are compared with."""
from __future__ import annotations

from collections import OrderedDict, deque
from typing import Any, Callable

MOST_HELD = 1 << 23  # bytes of all connections
MOST_SUMS = 1 << 14  # checksums of all connections
OBJECT = 200  # bytes that each piece costs besides


class Memory:
    """The shares of all connections, those that hold something in the order in which they were last active."""

    def __init__(self) -> None:
        self.held = 0
        self.holders: OrderedDict[Share, None] = OrderedDict()
        self._sums: deque[tuple[dict[int, Any], int]] = deque()

    def remember(self, sums: dict[int, Any], key: int) -> None:
        """One of these checksums is the latest of all: the oldest is forgotten if there are more than may be."""
        self._sums.append((sums, key))
        if len(self._sums) > MOST_SUMS:
            oldest, which = self._sums.popleft()
            oldest.pop(which, None)

    def shorten(self) -> None:
        """Sees to it that no more is held than may be: those that were silent for longest hold less."""
        while self.held > MOST_HELD and self.holders:
            next(iter(self.holders)).shorten()

    def touch(self, share: Share) -> None:
        """A share is that of a connection that is active."""
        if share.held:
            self.holders.move_to_end(share)


class Share:
    """What one connection holds, and how it comes to hold less."""

    def __init__(self, memory: Memory, shorten: Callable[[], None]) -> None:
        self.held = 0
        self.shorten = shorten
        self.memory = memory

    def count(self, size: int) -> None:
        """So many bytes more, or fewer."""
        before, self.held = self.held, self.held + size
        self.memory.held += size
        if not before and self.held:
            self.memory.holders[self] = None
        elif before and not self.held:
            del self.memory.holders[self]

    def close(self) -> None:
        """Its connection has ended."""
        self.shorten = lambda: None
