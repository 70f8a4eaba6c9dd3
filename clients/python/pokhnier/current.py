"""The running task, as its function sees it."""

from __future__ import annotations

import contextvars
import threading

from .errors import Canceled, Error

_current: contextvars.ContextVar[Try] = contextvars.ContextVar("pokhnier_try")


class Try:
    """A try of a task. `attempt` counts the earlier tries, also those that were interrupted."""

    def __init__(self, group: str, key: str, attempt: int) -> None:
        self.group, self.key, self.attempt = group, key, attempt
        self.stopped = threading.Event()
        self.why: Error | None = None

    def check(self) -> None:
        """Raises `Canceled` if the task has to stop, and `Interrupted` if this run ends."""
        if self.why:
            raise type(self.why)(*self.why.args)

    def sleep(self, seconds: float) -> None:
        """Sleeps, but not after the task has to stop. Then it raises as `check` does."""
        self.stopped.wait(seconds)
        self.check()

    def stop(self, why: Error) -> None:
        """The task has to stop. The first reason counts."""
        self.why = self.why or why
        self.stopped.set()

    def is_cut(self) -> bool:
        """Whether it has to stop because this run ends."""
        return self.why is not None and not isinstance(self.why, Canceled)


def current() -> Try:
    """The task whose function calls this."""
    return _current.get()


def enter(one: Try) -> None:
    """From now on, this thread or asyncio task runs this try."""
    _current.set(one)
