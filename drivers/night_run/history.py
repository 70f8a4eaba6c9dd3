"""The last nights: how each command ended in each of them, after how many tries and how long, and
of each night how long it took, what failed and how much was printed.

The nights before tonight are read from their logs, STORE.log.N, one after the other, and of a log
the lines of its own night alone: the log of an older driver has those of many. What a command was
in a night is one small value (`Cell`), so the memory doesn't grow with the logs. A log that can't
be read is reported, and its night is left out; so is a line of another form. What has never begun
in a night stands in no log, so it has no cell there.
"""

from __future__ import annotations

import collections
import os
import statistics
from collections.abc import Iterable, Iterator, Mapping
from dataclasses import dataclass, field, replace

from . import Name, rows
from .beside import Part
from .ends import INTERRUPTED, Kind, read_end
from .files import Files
from .log import Line, Tried, backwards, read_line
from .nights import Nights, read_nights
from .phases import Phase
from .report_words import kind_of, last_end
from .rounds import base_of, round_of
from .telling import note_once

# How many nights are looked at, tonight among them.
MOST_NIGHTS = 30
# How a command stands tonight that has no try, and has a cell all the same.
STANDS = (Phase.FAILED, Phase.CANCELED, Phase.NOT_STARTED, Phase.INTERRUPTED, Phase.RUNNING)
# How one stands that was neither ok nor failed in the end.
UNDONE = (Phase.CANCELED, Phase.NOT_STARTED, Phase.INTERRUPTED)


@dataclass(frozen=True)
class Cell:
    """A command in a night."""

    night: int
    phase: Phase  # how its last try ended, or how it stands tonight
    end: str
    tries: int
    failures: int  # tries that failed
    seconds: float | None  # all its tries together, as far as their times are known
    cpu: float | None = None
    memory: int | None = None  # the most of a try
    output: int | None = None

    @property
    def is_troubled(self) -> bool:
        """Whether something of it failed, even if a later try was ok."""
        return self.failures > 0 or self.phase is Phase.FAILED


@dataclass(frozen=True)
class Command:
    """A command over the nights in which it ran, the latest last."""

    group: str
    key: str
    cells: tuple[Cell, ...]
    is_listed: bool  # whether the command file has it now
    tonight: Cell | None

    @property
    def troubles(self) -> int:
        """In how many nights something of it failed."""
        return sum(it.is_troubled for it in self.cells)

    @property
    def well(self) -> int:
        return sum(it.phase is Phase.OK for it in self.cells)

    @property
    def is_flaky(self) -> bool:
        """Whether it fails in some nights or tries, and is ok in others."""
        return bool(self.troubles and self.well)

    @property
    def median(self) -> float | None:
        """The median of its seconds in the nights before tonight in which it was ok."""
        its = [it.seconds for it in self.cells
               if it.phase is Phase.OK and it.seconds is not None and it != self.tonight]
        return statistics.median(its) if its else None


@dataclass(frozen=True)
class Night:
    """A night as a whole."""

    number: int
    began: float | None  # when its first command began, or else the night itself
    seconds: float | None  # from then to the end of its last command
    commands: int  # that have a cell
    failed: int  # whose last try failed
    undone: int  # that were canceled or interrupted, or never began
    tries: int
    output: int | None  # bytes that they printed


@dataclass(frozen=True)
class History:
    """The nights, the latest last, and the commands: flaky ones first, then those that always fail,
    then the others, and last those that the command file doesn't have now."""

    store: str
    now: float
    nights: tuple[Night, ...]
    commands: tuple[Command, ...]

    @property
    def flaky(self) -> list[Command]:
        return [it for it in self.commands if it.is_listed and it.is_flaky]

    @property
    def failing(self) -> list[Command]:
        return [it for it in self.commands if it.is_listed and it.troubles and not it.well]

    @property
    def others(self) -> list[Command]:
        return [it for it in self.commands if it.is_listed and not it.troubles]

    @property
    def gone(self) -> list[Command]:
        return [it for it in self.commands if not it.is_listed]


# --- what makes it

def history(files: Files, tonight: rows.Report, most: int = MOST_NIGHTS) -> History:
    """The nights that are kept, up to the one that this report is about."""
    kept = read_nights(files)
    before = [it for it in files.old_logs() if it < tonight.night][-(most - 1):]
    cells: dict[Name, list[Cell]] = {(it.group, it.key): [] for it in tonight.rows}
    nights = []
    for number in before:
        tally = tally_of(files, kept, number)
        if tally.tries:
            nights.append(tally.night())
            for name, cell in tally.cells():
                cells.setdefault(name, []).append(cell)
    found = cells_of(tonight)
    if found or tonight.began is not None or tonight.opened is not None:
        nights.append(night_of(tonight, found))
    listed = {(it.group, it.key) for it in tonight.rows}
    made = [Command(*name, (*its, *([found[name]] if name in found else [])), name in listed,
                    found.get(name)) for name, its in cells.items()]
    return History(tonight.store, tonight.now, tuple(nights), tuple(sorted(made, key=rank)))


def medians(its: History) -> dict[Name, float]:
    """The usual seconds of each command that the command file has."""
    return {(it.group, it.key): it.median for it in its.commands
            if it.is_listed and it.median is not None}


def rank(it: Command) -> tuple[bool, int, bool]:
    """By which commands are sorted; those of the same rank stay as they are."""
    return not it.is_listed, -it.troubles if it.is_flaky else 0, not it.troubles


# --- a night before tonight

@dataclass
class Tally:
    """What the log of a night says of its commands, the last line first."""

    number: int
    begun: float | None  # when the night began, as far as it is known
    first: float | None = None  # the first begin that a line has
    last: float | None = None  # the last end
    tries: dict[Name, list[Line]] = field(
        default_factory=lambda: collections.defaultdict(list))
    seen: set[Tried] = field(default_factory=set)

    def add(self, tried: Tried, line: Line) -> None:
        """Takes in a try, unless it is the command of a later one, which it outlived."""
        name = base_of(tried[0]), tried[1]
        later = self.tries[name][-1] if name in self.tries else None
        lived_on = line.end == INTERRUPTED and later is not None and line.began != "-" \
            and later.began == line.began
        if tried in self.seen or lived_on:
            return
        self.seen.add(tried)
        self.tries[name].append(replace(line, command=""))
        began, ended = line.began_at(), line.ended_at()
        if began is not None:
            self.first = began if self.first is None else min(began, self.first)
        if ended is not None:
            self.last = ended if self.last is None else max(ended, self.last)

    def cells(self) -> Iterator[tuple[Name, Cell]]:
        for name, lines in self.tries.items():
            yield name, cell_of(self.number, [
                rows.Try(0, None, it.took(), it.end.text, it.used) for it in reversed(lines)])

    def night(self) -> Night:
        seconds = None if self.first is None or self.last is None else self.last - self.first
        began = self.begun if self.first is None else self.first
        return summed(self.number, began, seconds, [cell for _, cell in self.cells()])


def tally_of(files: Files, kept: Nights, number: int) -> Tally:
    """What the log of a night says; nothing if it can't be read."""
    its = kept.begun.get(number)
    tally = Tally(number, its.begun if its else None)
    for tried, line in lines_in(files, f"{files.name(Part.LOG)}.{number}"):
        if is_of(kept, number, tried, tally):
            tally.add(tried, line)
    return tally


def is_of(kept: Nights, number: int, tried: Tried, tally: Tally) -> bool:
    """Whether a try is of this night. Its group's name says so, by the rounds with which the nights
    began; where these aren't known, by the round of the log's last line."""
    of = round_of(tried[0]).number
    its, later = kept.begun.get(number), kept.begun.get(number + 1)
    if its is not None:
        return its.round <= of and (later is None or of < later.round)
    return not tally.seen or of == round_of(next(iter(tally.seen))[0]).number


def lines_in(files: Files, name: str) -> Iterator[tuple[Tried, Line]]:
    """The lines of a log beside the store, the last one first."""
    try:
        file = files.folder.open(name)
        try:
            yield from (it for it in map(read_line, backwards(file)) if it is not None)
        finally:
            os.close(file)
    except FileNotFoundError:
        pass
    except OSError as error:
        note_once(f"{error.filename or name}: {error.strerror}; this night is left out")


# --- tonight

def cells_of(tonight: rows.Report) -> dict[Name, Cell]:
    """The commands that have begun tonight, or that never will."""
    return {(it.group, it.key): replace(cell_of(tonight.night, it.tries), phase=it.phase,
                                        end=it.end)
            for it in tonight.rows if it.tries or it.phase in STANDS}


def night_of(tonight: rows.Report, cells: Mapping[Name, Cell]) -> Night:
    began, end = tonight.began or tonight.opened, last_end(tonight.rows)
    seconds = end - tonight.began if end is not None and tonight.began is not None else None
    return summed(tonight.night, began, seconds, list(cells.values()))


# --- both

def cell_of(night: int, tries: Iterable[rows.Try]) -> Cell:
    """What these tries come to, of which the last counts."""
    its = list(tries)
    ends = [it.end for it in its if it.end]
    failures = sum(read_end(it).kind is Kind.FAILED for it in ends)
    phase = kind_of(its[-1]) if its else Phase.RUNNING
    outputs = [it.used.output for it in its if it.used.output is not None]
    return Cell(night, phase, its[-1].end if its else "", len(its), failures,
                total(it.took for it in its), total(it.used.cpu for it in its),
                max((it.used.memory for it in its if it.used.memory is not None), default=None),
                sum(outputs) if outputs else None)


def summed(number: int, began: float | None, seconds: float | None, its: list[Cell]) -> Night:
    outputs = [it.output for it in its if it.output is not None]
    return Night(number, began, seconds, len(its), sum(it.phase is Phase.FAILED for it in its),
                 sum(it.phase in UNDONE for it in its), sum(it.tries for it in its),
                 sum(outputs) if outputs else None)


def total(its: Iterable[float | None]) -> float | None:
    """The sum of those that are known, to the millisecond; None where none is."""
    known = [it for it in its if it is not None]
    return round(sum(known), 3) if known else None
