"""The signals that ask a driver to end. The first Ctrl-C lets the running commands end, and the
second one stops them, as SIGTERM, SIGHUP and each other signal that would end it do at once.

Until the commands of a night are begun, and again while its summary is printed, a signal ends the
work at hand by KeyboardInterrupt. In between signals are counted, and the loop, an alarm or a
renewal looks at the count.
"""

from __future__ import annotations

import contextlib
import os
import select
import signal
from collections.abc import Iterator
from functools import partial

from .early import STEPS, taken
from .telling import tell


class Asked:
    """How far a driver is asked to end: 1 is that nothing more begins, 2 that all is stopped. A
    fault asks for that, too."""

    def __init__(self, signals: Signals) -> None:
        self.signals, self.is_cut_off = signals, False

    @property
    def steps(self) -> int:
        return max(self.signals.steps, 2) if self.is_cut_off else self.signals.steps


class Signals:
    """The signals of this process, once it listens. `wake` can be read after a signal has come,
    also after that of a child's end."""

    def __init__(self) -> None:
        self.steps = 0
        self.raises = True
        try:
            self.wake, wakes = os.pipe()
        except OSError as error:
            raise OSError(error.errno, error.strerror, "a pipe") from None
        os.set_blocking(self.wake, False)
        os.set_blocking(wakes, False)
        self.wakes = wakes

    def listen(self) -> None:
        signal.set_wakeup_fd(self.wakes, warn_on_full_buffer=False)
        signal.signal(signal.SIGCHLD, lambda *_: None)
        for it, steps in STEPS.items():
            if signal.getsignal(it) != signal.SIG_IGN:
                signal.signal(it, partial(self.heard, steps))
        for number in taken():
            self.heard(STEPS[signal.Signals(number)])

    def heard(self, steps: int, *_: object) -> None:
        self.steps += steps
        if self.raises:
            self.raises = False  # (what follows is the end, which another one doesn't end)
            raise KeyboardInterrupt
        if self.steps == 1:
            tell("no more commands are started; Ctrl-C again stops those that run")

    @contextlib.contextmanager
    def raising(self) -> Iterator[None]:
        """Within this a signal is a KeyboardInterrupt."""
        self.raises = True
        try:
            yield
        finally:
            self.raises = False

    def drain(self) -> bool:
        """Whether a signal came since the last call."""
        came = False
        with contextlib.suppress(BlockingIOError):
            while os.read(self.wake, 4096):
                came = True
        return came

    def wait(self, seconds: float) -> None:
        """Sleeps this long, or until a signal comes."""
        poll = select.poll()
        poll.register(self.wake, select.POLLIN)
        poll.poll(max(0.0, seconds) * 1000)
