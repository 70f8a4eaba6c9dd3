"""What waits for the next round."""

from __future__ import annotations

from concurrent.futures import Future
from dataclasses import dataclass, field

from .calls import Call, GroupPlan, running_future
from .outcomes import Outcome


@dataclass(frozen=True)
class AddGroup:
    group: GroupPlan


@dataclass(frozen=True)
class AddCall:
    call: Call


@dataclass(frozen=True)
class End:
    """The function of a call has ended. `seen` is the error that it raised."""
    call: Call
    outcome: Outcome
    seen: BaseException | None


@dataclass(frozen=True)
class CancelCall:
    call: Call
    why: str
    answer: Future[None] = field(default_factory=running_future)


@dataclass(frozen=True)
class CancelGroup:
    group: GroupPlan
    why: str
    answer: Future[None] = field(default_factory=running_future)


@dataclass(frozen=True)
class CutGroup:
    """Nothing of this group begins any more in this run."""
    group: GroupPlan


@dataclass(frozen=True)
class AskFirst:
    """The text of the first error of a group, if it has one."""
    group: GroupPlan
    answer: Future[str | None] = field(default_factory=running_future)


@dataclass(frozen=True)
class AskError:
    """The text of the error with which the last try of a call has failed, if it has."""
    call: Call


@dataclass(frozen=True)
class Finish:
    """The night ends, if nothing is left to do. The answer says whether it has."""
    answer: Future[bool] = field(default_factory=running_future)


Wish = (AddGroup | AddCall | End | CancelCall | CancelGroup | CutGroup | AskFirst | AskError
        | Finish)
