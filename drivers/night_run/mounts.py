"""Looks at files that may be on a mount that doesn't answer, because its server is gone for
example. Such a call never ends, so a thread of its own makes it, and is given up after a while.
"""

from __future__ import annotations

import os
import threading
import time
from collections.abc import Callable
from typing import Generic, TypeVar

T = TypeVar("T")
# How many seconds a look at a folder may keep the loop waiting, once, and it may take in all.
AT_ONCE, PATIENCE = 0.2, 10.0


class NoAnswer(Exception):
    """A mount doesn't answer."""


class Look(Generic[T]):
    """A call that a thread makes."""

    def __init__(self, call: Callable[[], T]) -> None:
        self.call, self.began = call, time.monotonic()
        self.value: T | None = None
        self.error: Exception | None = None
        self.is_done = threading.Event()
        try:
            threading.Thread(target=self.run, daemon=True).start()
        except (RuntimeError, MemoryError):  # (the system has no room for one)
            self.run()

    def run(self) -> None:
        try:
            self.value = self.call()
        except Exception as error:
            self.error = error
        self.is_done.set()

    def answer(self, seconds: float) -> T | None:
        """The result or the error of the call; NoAnswer if it hasn't ended after this long."""
        if not self.is_done.wait(seconds):
            raise NoAnswer
        if self.error:
            raise self.error
        return self.value


def answered(call: Callable[[], T], seconds: float) -> T | None:
    """The result of a call; NoAnswer if it takes longer."""
    return Look(call).answer(seconds)


class Folders:
    """The folders that commands run in, each with its look if that hasn't ended yet."""

    def __init__(self) -> None:
        self.looks: dict[str, Look[bool]] = {}

    def has(self, path: str) -> bool | None:
        """Whether there is such a folder; None if that isn't known yet, and NoAnswer after the look
        has taken long enough."""
        look = self.looks.get(path)
        is_first = look is None
        if look is None:
            look = self.looks[path] = Look(lambda: os.path.isdir(path))
        try:
            found = bool(look.answer(AT_ONCE if is_first else 0.0))
        except NoAnswer:
            if time.monotonic() >= look.began + PATIENCE:
                raise
            return None
        del self.looks[path]
        return found
