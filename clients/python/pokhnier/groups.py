"""Groups of tasks."""

from __future__ import annotations

import asyncio
from collections.abc import Callable, Coroutine
from functools import partial
from types import TracebackType
from typing import Any, ParamSpec, TypeVar

from .calls import Call, GroupPlan, Runner, Settled
from .coroutines import CoroutineRunner, ended
from .ends import cut_of, end_of, may_have_failed
from .errors import Interrupted, Refused
from .names import key_name
from .pump import Pump
from .tasks import Task
from .threads import ThreadRunner
from .wishes import AddCall, AskFirst, CancelGroup

P = ParamSpec("P")
T = TypeVar("T")


class Group:
    """Functions that run as tasks. Use it in a `with` statement, or in an `async with` if its
    functions are coroutine functions. The statement ends once all its tasks have ended durably, and
    raises the first error that a function raised, in this run or in an earlier one of the night."""

    def __init__(self, pump: Pump, plan: GroupPlan) -> None:
        self._pump, self._plan = pump, plan
        self._calls: dict[str, Call] = {}

    @property
    def name(self) -> str:
        """The name of the group in the store."""
        return self._plan.name

    def run(self, key: str, function: Callable[P, T], /, *args: P.args,
            **kwargs: P.kwargs) -> Task[T]:
        """Calls a function in a thread, as soon as the program lets the task begin. It isn't called
        if the task has ended well in an earlier run of the night. The result has to be one that
        JSON can write, and is what JSON reads."""
        return self._add(key, ThreadRunner(partial(function, *args, **kwargs), self._pump.report))

    def start(self, key: str, function: Callable[P, Coroutine[Any, Any, T]], /, *args: P.args,
              **kwargs: P.kwargs) -> Task[T]:
        """The same for a coroutine function, which runs as an asyncio task of the running loop."""
        return self._add(key,
                         CoroutineRunner(partial(function, *args, **kwargs), self._pump.report))

    def _add(self, key: str, runner: Runner) -> Task[T]:
        name = key_name(key)
        call = Call(self._plan, name, runner)
        try:
            if self._calls.setdefault(name, call) is not call:
                raise Refused(f"{self.name}: this run has called {key} before")
            self._pump.add(AddCall(call))
        except KeyboardInterrupt:
            self._pump.board.forget(call)
            raise
        return Task(self._pump, call)

    def cancel(self, why: str = "canceled") -> None:
        """Cancels the group for this night. Functions that run have to stop, and none begins any
        more. That is durable once this returns."""
        wish = CancelGroup(self._plan, why)
        self._pump.add(wish)
        wish.answer.result()

    def wait(self) -> None:
        """Waits until all tasks have ended, as the end of a `with` statement does, and raises the
        first error."""
        self.__exit__(None, None, None)

    def _asked(self) -> AskFirst | None:
        """Asks the program for the first error, if a function may have failed."""
        calls = list(self._calls.values())
        if cut_of(calls) or not may_have_failed(self._plan, calls, self._pump.board.results):
            return None
        self._pump.add(wish := AskFirst(self._plan))
        return wish

    def _end(self, first: str | None, seen: BaseException | None) -> None:
        """Raises the error of the group, unless it is this one, which is raised already. That this
        run is over comes first, and then the first error of a function."""
        calls, board = list(self._calls.values()), self._pump.board
        error = cut_of(calls)
        if not error and first is not None:
            error = board.error_with(self._plan, first)
        error = error or end_of(self._plan, calls, board.results)
        if error and error is not seen:
            raise error

    def _is_own(self, error: BaseException | None) -> bool:
        """Whether a block ends without an error, or by that of a task of this group."""
        return error is None or any(it.future.done() and it.future.exception() is error
                                    for it in list(self._calls.values()))

    def _cut(self) -> None:
        """This run has no use for the group any more. Its functions are waited for."""
        if self._pump.left:
            return
        self._pump.cut_group(self._plan, Interrupted("its block has ended early"))
        self.join()

    def join(self) -> None:
        """Waits until all tasks have ended, and raises no error of theirs."""
        if self._pump.left:
            raise self._pump.left
        left = self._open()
        if any(it.runner.is_here() for it in left):
            raise Refused(f"{self.name}: its functions run in this event loop, which can't wait"
                          " here for them; use `async with`")
        with self._pump.board.gate() as gate:
            while left:
                while left and isinstance(left[-1].state, Settled):
                    left.pop()
                if left:
                    gate.acquire(timeout=1)
                left = left or self._open()

    def _open(self) -> list[Call]:
        """The calls that haven't ended."""
        return [it for it in list(self._calls.values()) if not isinstance(it.state, Settled)]

    def __enter__(self) -> Group:
        return self

    def __exit__(self, kind: type[BaseException] | None, error: BaseException | None,
                 trace: TracebackType | None) -> None:
        if not self._is_own(error):
            self._cut()
            return
        try:
            self.join()
            asked = self._asked()
            first = asked.answer.result() if asked else None
        except BaseException:
            self._cut()
            raise
        self._end(first, error)

    async def __aenter__(self) -> Group:
        return self

    async def __aexit__(self, kind: type[BaseException] | None, error: BaseException | None,
                        trace: TracebackType | None) -> None:
        if not self._is_own(error):
            await self._all_cut()
            return
        try:
            await self._all()
            asked = self._asked()
            first = await asyncio.wrap_future(asked.answer) if asked else None
        except asyncio.CancelledError:
            await self._all_cut()
            raise
        self._end(first, error)

    async def _all(self) -> None:
        while left := [it.future for it in list(self._calls.values()) if not it.future.done()]:
            for it in left:
                await ended(it)

    async def _all_cut(self) -> None:
        self._pump.cut_group(self._plan, Interrupted("its block has ended early"))
        await asyncio.shield(self._all())
