"""What a `--redo` would make of a night: whether its commands could begin again. One that couldn't
is refused, since otherwise a command that is ok would turn into one that wasn't started."""

from __future__ import annotations

import time
from collections.abc import Mapping
from dataclasses import replace
from typing import TYPE_CHECKING

from . import Name
from .facts import Facts, reopened_groups
from .jobs import Jobs
from .phases import Phase
from .settings import OF_ALL
from .standing import Standing
from .tonight import Tonight

if TYPE_CHECKING:
    from .changes import Night


def is_forgotten(facts: Facts, its: Tonight, name: Name) -> bool:
    """Whether a command is to run again by a want that the facts don't know yet."""
    return its.redo.get(name) != facts.tonight.redo.get(name)


def refusal(night: Night, its: Tonight, words: Mapping[str, list[Name]]) -> str:
    """Why commands can't run again that are named by these words: a deadline has passed for good,
    what one comes after has failed, or its group has stopped. Empty where they can."""
    if not words or night.stand is None:
        return ""
    for name in (name for names in words.values() for name in names):
        if night.standings[name].phase != Phase.NOT_DUE and (why := passed(night.jobs, name)):
            return f"{'/'.join(name)} can't run again: {why} has passed"
    found = night.stand(facts_to_come(night, its))
    for name in [names[0] for word, names in words.items() if "/" in word]:
        if found[name].is_final:
            return f"{'/'.join(name)} can't run again: it would be {how(found[name])}"
    return ""


def passed(jobs: Jobs, name: Name) -> str:
    """The deadline of a command that no other one follows; empty where it has none, or it hasn't
    passed."""
    its = [jobs.groups[it].deadline for it in (name[0], OF_ALL) if it in jobs.groups]
    now = int(time.time())
    found = [str(it) for it in its if it and it.moment(now) <= now]
    return found[0] if found and not jobs.cleans_up(name) else ""


def facts_to_come(night: Night, its: Tonight) -> Facts:
    """The facts once what is wanted holds."""
    had = night.facts
    made = replace(had, ends={**had.ends}, failures={**had.failures},
                   failed_at={**had.failed_at}, interrupted={*had.interrupted},
                   done={**had.done}, busy={*had.busy}, changed=set(), tonight=its)
    for name in [it for it in its.redo if is_forgotten(had, its, it)]:
        made.forget(name)
    made.stay_canceled(its.canceled, time.time())
    for group in reopened_groups(night.book, made):
        del made.done[group]
    return made


def how(it: Standing) -> str:
    """How a command would stand, and why."""
    if it.phase in (Phase.NOT_STARTED, Phase.NOT_NEEDED) and it.why:
        return f"{it.phase}, because {it.why}"
    return f"{it.phase} {it.why}".rstrip()
