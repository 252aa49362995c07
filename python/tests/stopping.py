"""A run of many that is stopped in its middle, for the stateful tests."""
from __future__ import annotations

from typing import Optional

from gavyreto import outcomes


class Stop(outcomes.Progress):
    """Stops a run, as Ctrl-C does, once so many responses are done."""

    after: Optional[int] = None

    def step(self, has_failed: bool) -> None:
        if Stop.after is not None:
            Stop.after -= 1
            if Stop.after < 0:
                raise KeyboardInterrupt
