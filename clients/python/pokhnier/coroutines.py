"""Coroutine functions that run as asyncio tasks."""

from __future__ import annotations

import asyncio
import contextlib
import contextvars
import functools
from collections.abc import Callable, Coroutine
from concurrent.futures import Future
from typing import Any

from .calls import Call
from .current import Try, enter
from .errors import Interrupted
from .outcomes import Outcome, good, wrong
from .threads import Report, outcome_after


async def ended(future: Future[Any]) -> None:
    """Waits until a future has a result or an exception."""
    loop, done = asyncio.get_running_loop(), asyncio.Event()

    def wake(_: Future[Any]) -> None:
        with contextlib.suppress(RuntimeError):  # (the loop is closed)
            loop.call_soon_threadsafe(done.set)
    future.add_done_callback(wake)
    await done.wait()


class CoroutineRunner:
    """Runs a coroutine function in the loop in which it was called."""

    def __init__(self, function: Callable[[], Coroutine[Any, Any, Any]], report: Report) -> None:
        self.function, self.report = function, report
        self.loop = asyncio.get_running_loop()
        self.context = contextvars.copy_context()
        self.task: asyncio.Task[None] | None = None
        self.has_ended = False

    def begin(self, call: Call, one: Try) -> None:
        self.has_ended = False
        try:
            self.loop.call_soon_threadsafe(self.create, call, one)
        except RuntimeError as closed:
            one.stop(Interrupted("the event loop is closed"))
            self.end(call, wrong(closed), closed)

    def create(self, call: Call, one: Try) -> None:
        self.task = self.loop.create_task(self.work(call, one), context=self.context.copy())
        self.task.add_done_callback(functools.partial(self.ended, call, one))

    async def work(self, call: Call, one: Try) -> None:
        enter(one)
        try:
            one.check()
            value = await self.function()
        except asyncio.CancelledError as error:
            # (If it hadn't to stop, the loop ends, or somebody else cancelled the asyncio task.)
            one.stop(Interrupted("the asyncio task was cancelled"))
            self.end(call, outcome_after(one, error), error)
        except (KeyboardInterrupt, SystemExit, GeneratorExit) as error:
            # (The loop ends with the first two, and the last one says that it has ended.)
            one.stop(Interrupted(f"the event loop ends: {type(error).__name__}"))
            self.end(call, outcome_after(one, error), error)
            raise
        except BaseException as error:
            self.end(call, outcome_after(one, error), error)
        else:
            self.end(call, good(value), None)

    def end(self, call: Call, outcome: Outcome, seen: BaseException | None) -> None:
        self.has_ended = True
        self.report(call, outcome, seen)

    def ended(self, call: Call, one: Try, _: asyncio.Task[None]) -> None:
        """The asyncio task is done. If it was cancelled before its first step, nothing of it ran."""
        if not self.has_ended:
            one.stop(Interrupted("the asyncio task was cancelled"))
            error = asyncio.CancelledError()
            self.end(call, outcome_after(one, error), error)

    def stop(self) -> None:
        with contextlib.suppress(RuntimeError):  # (the loop is closed, and its tasks with it)
            self.loop.call_soon_threadsafe(self.cancel)

    def cancel(self) -> None:
        if self.task:
            self.task.cancel()

    def is_lost(self) -> bool:
        """Whether the loop was closed before the function had ended."""
        return self.loop.is_closed() and not self.has_ended

    def is_here(self) -> bool:
        """Whether this is called in the loop of the function."""
        try:
            return asyncio.get_running_loop() is self.loop
        except RuntimeError:
            return False
