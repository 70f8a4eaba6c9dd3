"""How a group has ended."""

from __future__ import annotations

from .calls import Call, GroupPlan, Settled, has_failed
from .errors import Abandoned, Canceled, Error
from .results import Results


def cut_of(calls: list[Call]) -> BaseException | None:
    """Why this run is over, if the end of a group says so. Nobody knows then how it will end."""
    return next((error for it in calls if isinstance(error := it.future.exception(), Error)
                 and not isinstance(error, Canceled) and not has_failed(it)), None)


def may_have_failed(group: GroupPlan, calls: list[Call], results: Results) -> bool:
    """Whether a function of a group may have failed, in any run."""
    return any(has_failed(it) for it in calls) or bool(results.failures(group.name))


def end_of(group: GroupPlan, calls: list[Call], results: Results) -> BaseException | None:
    """What the end of a group raises of which no function has failed: that this run hasn't called
    all its tasks, or that one was canceled."""
    called = {it.name for it in calls}
    left = [key for name, key in results.unended()
            if name == group.name and (name, key) not in called]
    if left:
        return Abandoned(f"{group.name}: this run didn't call {', '.join(left)}")
    return next((error for it in calls if (error := it.future.exception())), None)


def is_final(call: Call) -> bool:
    """Whether it never begins again in this night."""
    return isinstance(call.state, Settled) and call.state.is_final
