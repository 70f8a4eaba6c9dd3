"""What runs: the session of a command, whoever began it, and how it is stopped."""

from __future__ import annotations

import signal
import time

from .ends import End
from .far import PATIENCE, Elsewhere
from .processes import signal_session
from .tries import Named


class Running:
    """A session with a command, of this driver or of one that was killed."""

    def __init__(self, job_name: tuple[str, str], pid: int) -> None:
        self.name, self.pid = job_name, pid
        self.record: Named | None = None  # by which its file is called (`tries`)
        self.stopped: float | None = None
        self.why: End | None = None  # the end that it was stopped for; None where it was cut off
        self.is_killed = False
        self.elsewhere: Elsewhere | None = None  # of one that runs by its group's words

    @property
    def is_here(self) -> bool:
        """Whether its session is surely its own."""
        return True

    def stop(self, why: End | None) -> None:
        """Asks it to end, once, here and elsewhere; after a grace `press` kills what is here.
        Without a why it is cut off."""
        if self.stopped is None:
            if self.elsewhere:
                self.elsewhere.stop()
            self.stopped, self.why = time.monotonic(), why
            if self.is_here:
                self.signal(signal.SIGTERM)

    def press(self, grace: float) -> None:
        if self.stopped is not None and not self.is_killed and self.is_here \
                and time.monotonic() >= self.stopped + grace:
            self.is_killed = True
            self.signal(signal.SIGKILL)

    def signal(self, which: signal.Signals) -> None:
        signal_session(self.pid, which)

    def is_late(self, grace: float) -> bool:
        """Whether one that was stopped is asked for no more, wherever it may run."""
        return self.stopped is not None and time.monotonic() >= self.stopped + 2 * grace + (
            PATIENCE if self.why else 0.0)
