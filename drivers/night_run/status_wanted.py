"""What operators have wanted of a night besides its file of commands, as a status shows it: one
line for each kind, on a screen of any width."""

from __future__ import annotations

from collections.abc import Iterator, Sequence
from dataclasses import dataclass

from . import Name
from .jobs import Jobs
from .tonight import Notes


@dataclass(frozen=True)
class Setting:
    """A setting that was changed for the night."""

    name: str  # j, or GROUP.limit
    value: int
    who: str
    at: int


@dataclass(frozen=True)
class Wanted:
    """What was wanted of a night, besides a pause: which settings were changed, which commands were
    skipped, left out by `--only`, and run again; and what the next run is to take."""

    settings: tuple[Setting, ...] = ()
    skipped: tuple[str, ...] = ()
    not_only: tuple[str, ...] = ()
    again: tuple[str, ...] = ()
    next: tuple[str, ...] = ()


def wanted_of(notes: Notes, night: int, jobs: Jobs) -> Wanted:
    """What is written down of a night. Commands that aren't in its file any more aren't named."""
    its = notes.of(night)
    return Wanted(
        tuple(Setting(name, value, by.who, by.at) for name, (value, by) in its.sets.items()),
        named(name for name in jobs.all if name in its.skip),
        named(name for name in jobs.all if its.only and name not in {**its.only, **its.skip}),
        named(name for name in jobs.all if name in its.redo),
        tuple(want.text for want, _ in notes.next))


def named(names: Iterator[Name]) -> tuple[str, ...]:
    return tuple("/".join(it) for it in names)


def lists(it: Wanted) -> Iterator[tuple[str, Sequence[str]]]:
    """What a screen lists, each with its title."""
    yield "set tonight", [f"{one.name}={one.value}" for one in it.settings]
    yield "skipped tonight", it.skipped
    yield "left out by --only", it.not_only
    yield "again tonight", it.again
    yield "for the next run", it.next


def listed(title: str, its: Sequence[str], columns: int) -> str:
    """A line with as many of these as there is room for, and the number of the others."""
    for count in range(len(its), 0, -1):
        more = f" and {len(its) - count} more" if count < len(its) else ""
        line = f"{title}: {', '.join(its[:count])}{more}"
        if len(line) <= columns:
            return line
    return f"{title}: {len(its)}"
