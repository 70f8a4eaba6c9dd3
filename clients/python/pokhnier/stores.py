"""Stores: a night of groups, which goes on after a crash."""

from __future__ import annotations

import os
import threading
import time
from types import TracebackType
from typing import Any, Literal, TypeVar

from . import files
from .board import Board
from .calls import GroupPlan, Retries
from .clock import Until, now, until_of
from .drive import Drive
from .ends import is_final
from .errors import Abandoned, Error, InUse, Interrupted, Refused
from .groups import Group
from .names import group_name
from .orders import Night, Over
from .outcomes import json_of
from .plan import Plan
from .program import make_store
from .pump import Pump
from .results import Results
from .tasks import Task
from .wishes import AddGroup, Finish

T = TypeVar("T")
VALUES = "_values"
FORKED = "the store belongs to the process that this one was forked from"


def open(path: str | os.PathLike[str], *, timeout: float | None = None,  # noqa: A001
         deadline: float | None = None, fresh: bool = False, patience: float = 10.0) -> Store:
    """Opens the store at this path, and makes it if there is none. The last night goes on, if it
    isn't over, or another one begins. With `fresh` another one begins in any case.

    All groups of the night are canceled `timeout` seconds after its first run has begun, or at the
    moment `deadline`, in seconds since 1970. `InUse` is raised if another run has the store for
    `patience` seconds."""
    # (The files next to a store are found whatever link leads to it.)
    return Store(os.path.realpath(os.fspath(path)), until_of(timeout, deadline), fresh, patience)


class Store:
    """An open store. Its methods may be called by any thread."""

    def __init__(self, path: str, until: Until | None, is_fresh: bool, patience: float) -> None:
        ends = time.monotonic() + patience
        lock = files.lock(f"{path}.client", patience)
        if lock is None:
            raise InUse(f"{path}: another run of a client has it open")
        drive: Drive | None = None
        try:
            make_store(path)
            plan, drive, night = opened(path, until, is_fresh, ends)
            results = loaded(f"{path}.results", night)
        except BaseException:
            if drive:
                drive.end()
            os.close(lock)
            raise
        self.path, self.night = path, night
        self._lock, self._drive, self._results = lock, drive, results
        self._groups: dict[str, Group] = {}
        self._values: dict[str, Task[Any]] = {}
        self._making, self._closing, self._is_closed = threading.Lock(), threading.Lock(), False
        self._pump = Pump(drive, Board(plan, results))
        self._pump.thread.start()
        OPEN.add(self)

    def group(self, name: str, *, limit: int | None = None, retries: int | Retries = 0,
              on_error: Literal["cancel", "stop", "go-on"] = "cancel",
              timeout: float | None = None, deadline: float | None = None) -> Group:
        """Makes a group. At most `limit` of its tasks run at a time.

        A task whose function raises an error is tried again `retries` times. If it fails for good,
        `on_error` says what happens to the others: with `cancel` those that run have to stop, and
        none begins; with `stop` none begins; with `go-on` nothing happens. The group is canceled
        `timeout` seconds after a run of the night first had it, or at the moment `deadline`."""
        plan = GroupPlan(group_name(name), on_error, limit,
                         retries if isinstance(retries, Retries) else Retries(retries),
                         until_of(timeout, deadline))
        with self._making:
            if plan.name in self._groups:
                raise Refused(f"this run has a group {name} already")
            return self._group(plan)

    def _group(self, plan: GroupPlan) -> Group:
        """Makes a group. The lock of those who make one is held."""
        group = self._groups[plan.name] = Group(self._pump, plan)
        self._pump.add(AddGroup(plan))
        return group

    def value(self, name: str, value: T) -> T:
        """Returns the value that the first run of the night gave for this name."""
        with self._making:
            task = self._values.get(name)
            if task is None:
                given = json_of(value)  # (A task that fails would have no value in this night.)
                plan = GroupPlan(VALUES, "go-on", None, Retries(), None)
                values = self._groups.get(VALUES) or self._group(plan)
                task = self._values[name] = values.run(name, lambda: given)
        found: T = task.result()
        return found

    def finish(self) -> None:
        """Waits for all tasks, ends the night, and closes the store. The next run begins another
        night. If a task of the night is left to do, the store is closed all the same, and
        `Interrupted` or `Abandoned` is raised. Then the next run goes on with the night."""
        if self._pump.left:
            raise self._pump.left
        try:
            for group in list(self._groups.values()):
                group.join()
            if left := self._left():
                raise left
            wish = Finish()
            self._pump.add(wish)
            if not wish.answer.result():
                raise Interrupted("the night isn't over")
        finally:
            self.close()

    def _left(self) -> Error | None:
        """What is left to do in the night, as far as this run knows."""
        for call in (it for it in self._pump.board.plan.calls if it):
            if not is_final(call):
                return Interrupted(f"{call.group.name}: {call.key} hasn't ended")
        left = [f"{group}: {key}" for group, key in self._results.unended()
                if group not in self._groups]
        return Abandoned(f"this run didn't call {', '.join(left)}") if left else None

    def close(self) -> None:
        """Ends this run. Functions that run have to stop, and are waited for. The next run goes on
        with the night."""
        if self._is_closed:
            return
        with self._closing:
            if self._is_closed:
                return
            self._pump.interrupt(Interrupted("this run has ended"))
            for group in list(self._groups.values()):
                group.join()
            self._pump.end()
            self._drive.end()
            self._results.close()
            OPEN.discard(self)
            self._is_closed = True
            os.close(self._lock)

    def _leave(self) -> None:
        """Gives up the store in a process that was forked. Otherwise the files would stay open, and
        the store in use, as long as that process runs."""
        self._making, self._closing, self._is_closed = threading.Lock(), threading.Lock(), True
        self._pump.leave(Refused(FORKED))
        self._drive.leave()
        self._results.close()
        os.close(self._lock)

    def __enter__(self) -> Store:
        return self

    def __exit__(self, kind: type[BaseException] | None, error: BaseException | None,
                 trace: TracebackType | None) -> None:
        if kind is None or self._is_of_task(error) and not self._left():
            self.finish()
        else:
            self.close()

    def _is_of_task(self, error: BaseException | None) -> bool:
        """Whether a task ended with this error."""
        return any(it.future.done() and it.future.exception() is error
                   for it in self._pump.board.plan.calls if it)


def opened(path: str, until: Until | None, is_fresh: bool, ends: float) -> tuple[Plan, Drive, int]:
    """Opens the store, and begins the night or goes on with it. Returns its number."""
    while True:
        drive, plan = Drive(path), Plan()
        try:
            answer = drive.ask(plan.first_part(until, is_fresh))
            first = drive.ask([*plan.first_round(), f"now {now()}"])
        except InUse:
            # (The program of a run that was killed ends a moment later.)
            if time.monotonic() >= ends:
                raise
            time.sleep(0.02)
            continue
        except BaseException:
            drive.end()
            raise
        if Over() not in first:
            return plan, drive, next(it.number for it in answer if isinstance(it, Night))
        # (The last run was killed while it finished the night.)
        drive.end()
        is_fresh = False


def loaded(path: str, night: int) -> Results:
    """Opens the results of a night."""
    results = Results(files.Lines(path), night)
    try:
        results.load()
    except BaseException:
        results.close()
        raise
    return results


# The open stores of this process.
OPEN: set[Store] = set()


def leave_all() -> None:
    for store in list(OPEN):
        store._leave()
    OPEN.clear()


os.register_at_fork(after_in_child=leave_all)
