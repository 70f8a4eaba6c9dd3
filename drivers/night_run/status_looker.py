"""Looks at a night in a thread of its own, one look after another. So whoever shows the night isn't
held up if the machine is late with an answer.
"""

from __future__ import annotations

import threading
import time
from dataclasses import dataclass

from .exits import why_ended
from .files import Files
from .jobs import Jobs
from .status import Status, Watcher

# A look that takes more seconds than this is late.
LATE = 10.0


@dataclass(frozen=True)
class Seen:
    """What a look came to: the night at a moment, or why it can't be read."""

    it: Status | str
    at: float | None = None  # None before the first look is over


class Looker:
    """The looks. What the last one came to is `seen`."""

    def __init__(self, files: Files, jobs: Jobs | None) -> None:
        self.files = files
        self.watcher = Watcher(files, jobs)
        self.seen = Seen(f"{files.shown}: not read yet")
        self.began = 0.0  # when the look that goes on began, by the monotonic clock
        self.asked, self.idle = threading.Event(), threading.Event()
        self.idle.set()
        self.thread: threading.Thread | None = threading.Thread(target=self.run, daemon=True)
        try:
            self.thread.start()
        except (RuntimeError, MemoryError):
            self.thread = None  # (so each look is made by who asks)

    def ask(self) -> None:
        """Begins another look, unless one goes on."""
        if not self.is_idle():
            return
        self.began = time.monotonic()
        if self.thread is None:
            self.seen = self.look()
            return
        self.idle.clear()
        self.asked.set()

    def is_idle(self) -> bool:
        """Whether no look goes on."""
        return self.idle.is_set()

    def is_late(self) -> bool:
        return not self.is_idle() and not self.left()

    def left(self) -> float:
        """After how many seconds the look that goes on is late."""
        return max(0.0, self.began + LATE - time.monotonic())

    def run(self) -> None:
        while True:
            self.asked.wait()
            self.asked.clear()
            self.seen = self.look()
            self.idle.set()

    def look(self) -> Seen:
        """The night at this moment. What can't be read now may be readable the next time."""
        try:
            it = self.watcher.look()
        except Exception as error:  # (also what nobody foresaw: nobody waits for this thread)
            return Seen(f"{self.files.shown}: {why_ended(error)}", time.time())
        return Seen(it, it.now)
