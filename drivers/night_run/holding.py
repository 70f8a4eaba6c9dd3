"""What keeps commands from beginning for a while, because the system has no room for them."""

from __future__ import annotations

import time

from .telling import tell_once

# How many seconds pass before a command that couldn't begin is tried again.
SECONDS = 1.0


class Holding:
    """Why the last command that was due couldn't begin, until one can."""

    def __init__(self) -> None:
        self.why, self.until = "", 0.0

    def hold(self, why: str) -> None:
        """No command begins for a moment. That is printed once."""
        self.why, self.until = why, time.monotonic() + SECONDS
        tell_once(f"{why}: commands are started later")

    def is_over(self) -> bool:
        """Whether it is time for another attempt."""
        return time.monotonic() >= self.until

    def has_begun(self) -> None:
        """A command could begin."""
        self.why = ""
