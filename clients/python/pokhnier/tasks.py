"""A task of a group, as its caller sees it."""

from __future__ import annotations

import asyncio
from collections.abc import Callable, Generator
from concurrent.futures import Future
from typing import Any, Generic, TypeVar

from .calls import Call, Settled
from .pump import Pump
from .wishes import CancelCall

T = TypeVar("T")


class Task(Generic[T]):
    """A task. Its result is what its function returned, in this run or in an earlier one of the
    night. It is durable once it is there."""

    def __init__(self, pump: Pump, call: Call) -> None:
        self._pump, self._call = pump, call
        self._future: Future[T] = call.future

    @property
    def group(self) -> str:
        """The name of the group in the store."""
        return self._call.group.name

    @property
    def key(self) -> str:
        """The name of the task in the store."""
        return self._call.key

    def result(self, timeout: float | None = None) -> T:
        """Waits for the end of the task, and returns the result, or raises the error."""
        self._check()
        return self._future.result(timeout)

    def exception(self, timeout: float | None = None) -> BaseException | None:
        """Waits for the end of the task, and returns the error, if it has one."""
        self._check()
        return self._future.exception(timeout)

    def _check(self) -> None:
        """In a process that was forked, nobody ends a task."""
        if self._pump.left and not isinstance(self._call.state, Settled):
            raise self._pump.left

    def done(self) -> bool:
        """Whether the task has ended, durably."""
        return self._future.done()

    def add_done_callback(self, function: Callable[[Future[T]], object]) -> None:
        """Calls a function with the future of the task once it has ended, durably. It mustn't wait
        for another task."""
        self._future.add_done_callback(function)

    def cancel(self, why: str = "canceled") -> None:
        """Cancels the task. If its function runs, it has to stop. A crash before its end loses the
        cancel. Otherwise the cancel is durable once this returns."""
        wish = CancelCall(self._call, why)
        self._pump.add(wish)
        wish.answer.result()

    def __await__(self) -> Generator[Any, None, T]:
        return asyncio.wrap_future(self._future).__await__()
