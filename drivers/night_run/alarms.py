"""The commands of `--on-begin`, `--on-success` and `--on-failure`. A command that takes too long
is ended, and so is one that runs when a signal asks the driver to end.
"""

from __future__ import annotations

import contextlib
import os
import signal
import subprocess
import time
from collections.abc import Mapping

from . import descriptors
from .beside import Umask, write_all
from .beginnings import SHELL
from .escapes import plain_lines
from .processes import signal_session
from .signals import Signals
from .telling import tell

# How many seconds such a command has, and from SIGTERM to SIGKILL.
SECONDS, GRACE = 60.0, 2.0
# How often one that runs is looked at.
LOOK = 0.05


class Alarm:
    """A command that an option names, and that the shell runs once."""

    def __init__(self, word: str, command: str, signals: Signals) -> None:
        self.word, self.command, self.signals = word, command, signals
        self.seconds = SECONDS

    def run(self, text: str, environment: Mapping[str, str]) -> bool:
        """Runs it with this text on its standard input, and returns whether it ends well; if not,
        that is reported."""
        try:
            file = self.input(text)
            try:
                it = subprocess.Popen([SHELL, "-c", self.command], stdin=file,
                                      env={**os.environ, **environment}, start_new_session=True,
                                      umask=Umask.of_caller)
            finally:
                os.close(file)
        except (OSError, ValueError) as error:
            tell(f"{self.word}: {descriptors.why(error) if isinstance(error, OSError) else error}")
            return False
        why = self.waited_for(it)
        if why:
            end(it)
        elif it.returncode:
            why = f"it ended with status {it.returncode}" if it.returncode > 0 \
                else f"signal {-it.returncode} ended it"
        if why:
            tell(f"{self.word}: {why}")
        return not why

    def input(self, text: str) -> int:
        """The text as a file; where the system has no room for one, an empty one."""
        try:
            return input_of(text)
        except OSError as error:
            tell(f"{self.word}: {descriptors.why(error)}: it is run without the summary")
            return os.open(os.devnull, os.O_RDONLY)

    def waited_for(self, it: subprocess.Popen[bytes]) -> str:
        """Waits for it. Returns why it has to be ended, or an empty text if it has ended by
        itself."""
        late, steps = time.monotonic() + self.seconds, self.signals.steps
        while it.poll() is None:
            if self.signals.steps > steps:
                return "it was ended, as a signal asked for"
            if time.monotonic() >= late:
                return f"it was ended after {self.seconds:.0f} s"
            self.signals.drain()
            self.signals.wait(LOOK)
        return ""


def input_of(text: str) -> int:
    """A file in memory with this text; the disk may be full."""
    file = os.memfd_create("summary")
    write_all(file, plain_lines(text).encode("utf-8", "backslashreplace"))
    os.lseek(file, 0, os.SEEK_SET)
    return file


def end(it: subprocess.Popen[bytes]) -> None:
    """Ends it with its session."""
    signal_session(it.pid, signal.SIGTERM)
    with contextlib.suppress(subprocess.TimeoutExpired):
        it.wait(GRACE)
    signal_session(it.pid, signal.SIGKILL)
    it.wait()
