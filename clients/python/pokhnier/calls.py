"""A call of a function, as a command of the plan, and what became of it."""

from __future__ import annotations

from concurrent.futures import Future
from dataclasses import dataclass, field
from typing import Any, Protocol

from .clock import Until
from .current import Try
from .outcomes import Outcome


HUGE = 4_294_967_295
WAYS = ("cancel", "stop", "go-on")


class Runner(Protocol):
    """What calls the function."""

    def begin(self, call: Call, one: Try) -> None:
        """Calls the function. Its end is added to the pump of the store."""

    def stop(self) -> None:
        """The function has to stop. `Try.stop` was called before."""

    def is_lost(self) -> bool:
        """Whether the function hasn't ended, and never will."""

    def is_here(self) -> bool:
        """Whether the function can't go on before the caller of this does."""


@dataclass(frozen=True)
class Retries:
    """How often a task is tried again after a failure: the first time after `wait` seconds, and
    each later time `factor` times as long after it, but at most `longest` seconds."""
    count: int = 0
    wait: int = 0
    factor: int = 1
    longest: int = 86_400

    def __post_init__(self) -> None:
        its = (self.count, self.wait, self.factor, self.longest)
        if not all(type(it) is int and 0 <= it <= HUGE for it in its):
            raise ValueError(f"retries are whole numbers from 0 to {HUGE}")


@dataclass(eq=False)
class GroupPlan:
    """A group of the plan."""
    name: str
    way: str
    limit: int | None
    retries: Retries
    until: Until | None
    number: int = -1
    pool: int | None = None
    is_cut: bool = False

    def __post_init__(self) -> None:
        if self.limit is not None and not (type(self.limit) is int and 0 < self.limit <= HUGE):
            raise ValueError(f"a limit is a whole number from 1 to {HUGE}")
        if self.way not in WAYS:
            raise ValueError(f"on_error is one of {', '.join(WAYS)}")


@dataclass(frozen=True)
class Waits:
    """It hasn't begun in this run, or it waits for a retry."""


@dataclass(frozen=True)
class Runs:
    """This try runs, as this task of the store."""
    task: int
    one: Try


@dataclass(frozen=True)
class Ended:
    """Its last try has ended, which is reported in this round. `seen` is the error of it."""
    outcome: Outcome
    seen: BaseException | None


@dataclass(frozen=True)
class Settled:
    """Its future has a result or an exception. If it isn't final, this run has ended before it."""
    is_final: bool = True
    failed: bool = False


def running_future() -> Future[Any]:
    """A future that nobody can cancel, as `asyncio.wait_for` would."""
    future: Future[Any] = Future()
    future.set_running_or_notify_cancel()
    return future


@dataclass(eq=False)
class Call:
    """A call of a function."""
    group: GroupPlan
    key: str
    runner: Runner
    future: Future[Any] = field(default_factory=running_future)
    number: int = -1
    state: Waits | Runs | Ended | Settled = field(default_factory=Waits)
    reason: str | None = None  # for which it was canceled in this run

    @property
    def name(self) -> tuple[str, str]:
        return self.group.name, self.key


def has_failed(call: Call) -> bool:
    """Whether its function has failed for good."""
    return isinstance(call.state, Settled) and call.state.failed
