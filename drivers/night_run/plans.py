"""What a run would do, by its options: which night it belongs to, which commands run again, and
what `--dry-run` prints of that."""

from __future__ import annotations

import datetime
import enum
import time
from collections.abc import Collection, Mapping, Sequence
from dataclasses import replace

from . import Name
from .changes import Night
from .escapes import one_line
from .facts import Facts, book_of, facts_of
from .jobs import Jobs
from .past import Past
from .phases import Phase
from .planner import Planner
from .rounds import Role, role_name
from .standing import Standing
from .state import State
from .status_waits import Run, Waits
from .taking import Opening, fresh_night
from .views import View
from .wants import Want, by_me

# How many values of a list are shown.
MOST_VALUES = 40


class Wish(enum.Enum):
    """What a run is to do besides the rest of the night."""

    REST = "rest"
    FAILED = "failed"
    AGAIN = "again"
    NIGHTLY = "nightly"


def is_left(state: State, past: Past) -> bool:
    """Whether the last night wasn't brought to its end: then the store has no mark of that."""
    if not state.scopes[1:] and not past.round:
        return False
    night = max(state.night(), past.night)
    top = book_of(state, past, night).top
    return top is None or role_name(top.name, Role.ENDED) not in state.by_name \
        or past.notes.of(night).is_open


def forgiven(found: Mapping[Name, Standing], facts: Facts) -> dict[Name, int]:
    """The commands that `--failed` runs again, with how often each had failed."""
    return {name: facts.failures.get(name, 0) for name, it in found.items()
            if it.phase in (Phase.FAILED, Phase.CANCELED)}


def groups_to_reopen(again: Collection[Name], facts: Facts, jobs: Jobs) -> set[str]:
    """The groups that get another scope as these commands run again: theirs, if they are done, and
    those whose deadline has passed since the night ended over a command that never began. It may
    begin after all."""
    found = {group for group, _ in again if group in facts.done}
    if again:
        found |= {group for group in facts.late if any(
            it not in facts.ends for it in jobs.members.get(group, ()))}
    return found


def planned(planner: Planner, view: View, most: int, wish: Wish, wanted: Opening,
            own: tuple[Want, ...] = ()) -> list[str]:
    """What the file's lists came to, and what a run would do with each command. Those that it would
    begin at once come first."""
    return [*map(list_line, planner.jobs.lists()),
            *commands(planner, view, most, wish, wanted, own)]


def list_line(it: tuple[str, Sequence[str]]) -> str:
    """A list, by its first values."""
    name, values = it
    more = len(values) - MOST_VALUES
    return f"each {name}: {' '.join(values[:MOST_VALUES])}" + (f" and {more} more" if more > 0
                                                                else "")


def commands(planner: Planner, view: View, most: int, wish: Wish, wanted: Opening,
             own: tuple[Want, ...]) -> list[str]:
    is_rest = wish is Wish.NIGHTLY and is_left(view.state, view.past)
    is_first = not view.state.scopes[1:] and not view.past.round
    if is_rest or is_first or wish in (Wish.REST, Wish.FAILED):
        view = with_wants(planner, view, wanted, own)
    if wish is Wish.FAILED:
        return lines(planner, again(view, planner.jobs), most)
    if wish is Wish.REST or is_first:
        return lines(planner, view.facts, most)
    tonight = datetime.date.today() if planner.jobs.has_days else None
    night = view.book.night
    wanted.take(night + 1, fresh_night(planner.jobs, night + 1), own, by_me())
    facts = Facts(busy=set(view.facts.busy), day=tonight, tonight=wanted.notes.of(night + 1))
    if not is_rest:
        return lines(planner, facts, most)
    return [f"night {night}, the rest of it:", *lines(planner, view.facts, most),
            f"night {night + 1}:",
            *(line(name, it, f"after the rest of night {night}")
              for name, it in planner.standings(facts).items())]


def with_wants(planner: Planner, view: View, wanted: Opening, own: tuple[Want, ...]) -> View:
    """A night as what is wanted of it makes it."""
    top = view.book.top
    has_ended = bool(top and role_name(top.name, Role.ENDED) in view.state.by_name)
    wanted.take(view.book.night, Night(planner.jobs, view.book, view.facts, view.standings,
                                       has_ended, planner.standings), own, by_me())
    view.past.notes = wanted.notes
    book = replace(book_of(view.state, view.past, view.book.night), day=view.book.day)
    facts = facts_of(view.state, view.past, view.lines, book, time.time(), {})
    facts.busy = set(view.facts.busy)
    return replace(view, book=book, facts=facts, standings=planner.standings(facts))


def again(view: View, jobs: Jobs) -> Facts:
    """The facts once failures are forgiven, and the groups that are made again for that."""
    its = forgiven(view.standings, view.facts)
    groups = groups_to_reopen(its, view.facts, jobs)
    facts = facts_of(view.state, view.past, view.lines, view.book, time.time(), its)
    facts.busy = set(view.facts.busy)
    for group in groups:
        facts.done.pop(group, None)
    return facts


def lines(planner: Planner, facts: Facts, most: int) -> list[str]:
    its, now = facts.tonight, time.time()
    planner.jobs.limits = its.limits
    found, most = planner.standings(facts), its.most or most
    at_once = planner.choose(facts, 0 if its.paused else most, now).names
    waits = Waits(planner.jobs, facts, {
        name: Standing(Phase.RUNNING) if name in at_once else it for name, it in found.items()},
        Run(now, most, True, its.paused is not None))
    return [*(f"begin {' '.join(it)}: {one_line(planner.jobs.all[it].command)}" for it in at_once),
            *(line(name, it, waits.one(name).why) for name, it in found.items()
              if name not in at_once)]


def line(name: Name, it: Standing, wait: str) -> str:
    """How a command stands, or what it waits for."""
    is_begun = it.is_final or it.phase == Phase.RUNNING
    what, why = (it.phase, it.why) if is_begun else ("later", wait)
    return f"{what} {' '.join(name)}" + (f": {why}" if why else "")
