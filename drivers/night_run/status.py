"""How a night stands at this moment: what runs, what waits and for what, what isn't well, and when
the night will end. Nothing is written, and no lock of a night is waited for.
"""

from __future__ import annotations

import collections
import contextlib
import time
from collections.abc import Iterable, Iterator, Mapping
from dataclasses import dataclass, replace

from . import Name, rows
from .beside import Part
from .files import Files
from .jobs import Jobs
from .nights import read_nights
from .opening import check
from .phases import FINAL, PHASES, Phase
from .planner import Planner
from .processes import Process, age, lives
from .report_words import end_of
from .rounds import base_of
from .standing import Standing
from .status_forecast import Forecast, Moment, forecast
from .status_plan import Plan, known_alone, parsed_plan, plan_text
from .status_times import Times, Usual, usual_times
from .status_waits import Run, Waiting, Waits
from .status_wanted import Wanted, wanted_of
from .tries import NAME, Named, process_in
from .views import View, look, moment, row, tries_of
from .wants import By

# What didn't end well and runs no more tonight, in the order in which it is shown.
UNWELL = (Phase.FAILED, Phase.CANCELED, Phase.NOT_STARTED)


@dataclass(frozen=True)
class Running:
    """A command that runs: since when, for how many seconds, its usual time, which try it is, its
    process, and the path of its output."""

    group: str
    key: str
    command: str
    began: float | None
    seconds: float | None
    usual: Usual | None
    tries: int
    process: int | None
    output: str


@dataclass(frozen=True)
class Status:
    """A night at one moment."""

    store: str
    night: int
    now: float
    began: float | None
    ended: float | None  # when its last command ended
    driver: int | None  # the process of the night-run that runs it
    driver_began: float | None
    most: int | None  # how many commands it runs at a time
    path: str  # the file of commands, or "" where it isn't known
    counts: dict[Phase, int]
    running: tuple[Running, ...]
    unwell: tuple[rows.Row, ...]
    waiting: tuple[Waiting, ...]
    forecast: Forecast | None
    nights: int  # how many earlier nights have usual times
    paused: By | None = None  # who paused it, and when
    wanted: Wanted = Wanted()

    @property
    def total(self) -> int:
        return sum(self.counts.values())

    @property
    def is_over(self) -> bool:
        return all(it in FINAL for it in self.counts)


class Watcher:
    """Looks at the night of a store, as often as it is asked. The times of earlier nights are read
    once a night."""

    def __init__(self, files: Files, jobs: Jobs | None) -> None:
        self.files, self.given = files, jobs
        self.times: tuple[int, Times] | None = None
        self.planner: Planner | None = None
        self.kept: Kept = Kept(files)

    def close(self) -> None:
        if self.planner:
            self.planner.close()

    def look(self) -> Status:
        """The night at this moment."""
        plan = self.plan()
        if plan is None:
            return nothing(self.files)
        view = look(self.files, self.planner_of(plan.jobs))
        return self.status(plan, view)

    def plan(self) -> Plan | None:
        """The commands of the night: those of the file that was given, of the last run, or those
        that are known without either; None if no night has begun."""
        kept = self.kept.plan()
        if self.given:
            return Plan(self.given, kept.most if kept else None, self.given.path)
        return kept or self.known()

    def known(self) -> Plan | None:
        past, state = moment(self.files)
        check(self.files, state, past.events)
        its = [it.name for it in state.tasks if not it.is_withdrawn]
        its += [(base_of(group), key) for group, key, _ in past.ends]
        names = dict.fromkeys([*its, *processes(self.files)], "-")
        return Plan(known_alone(self.files.shown, names), None, "") if names else None

    def planner_of(self, jobs: Jobs) -> Planner:
        """The planner over these commands. It is kept as long as they are the same."""
        if self.planner is None or self.planner.jobs is not jobs:
            self.close()
            self.planner = Planner(jobs)
        return self.planner

    def times_of(self, night: int, jobs: Jobs) -> Times:
        if self.times is None or self.times[0] != night:
            self.times = night, usual_times(self.files, night, jobs.all.keys())
        return self.times[1]

    def status(self, plan: Plan, view: View) -> Status:
        files, now, night = self.files, time.time(), view.book.night
        wanted = view.book.tonight
        plan = replace(plan, most=wanted.most or plan.most)
        times, tries = self.times_of(night, plan.jobs), tries_of(view)
        made = [row(files, view, plan.jobs.all[name].command, name, tries.get(name, []))
                for name, it in view.standings.items() if it.phase in (Phase.RUNNING, *UNWELL)]
        its = processes(files)
        running = tuple(running_of(it, its.get((it.group, it.key)), times, now) for it in made
                        if it.phase == Phase.RUNNING)
        holder, begun = view.holder, read_nights(files).begun.get(night)
        waits = waits_of(plan, view, holder is not None, now)
        moments = [it for one in tries.values() for _, it in one]
        first, last = min([*begins(moments), now]), max(ends(moments), default=None)
        return Status(
            files.shown, night, now,
            begun.begun if begun else first, last, holder.pid if holder else None,
            now - age(holder) if holder else None, plan.most, plan.path,
            counted(view.standings), running,
            tuple(it for phase in UNWELL for it in made if it.phase == phase),
            tuple(waits.all()), forecast_of(plan, view, times, running, waits, now), times.nights,
            wanted.paused, wanted_of(view.past.notes, night, plan.jobs))


class Kept:
    """The plan of the last run, read again only after it has changed."""

    def __init__(self, files: Files) -> None:
        self.files = files
        self.text, self.found = "", parsed_plan(files, "")

    def plan(self) -> Plan | None:
        text = plan_text(self.files)
        if text != self.text:
            self.text, self.found = text, parsed_plan(self.files, text)
        return self.found


def nothing(files: Files) -> Status:
    """A store in which no night has begun."""
    return Status(files.shown, 1, time.time(), None, None, None, None, None, "", {}, (), (), (),
                  None, 0)


def processes(files: Files) -> dict[Name, Process]:
    """The process of each command that runs."""
    found: dict[Name, Process] = {}
    with contextlib.suppress(OSError), contextlib.closing(files.below(Part.TRIES)) as folder:
        for it in map(NAME.fullmatch, folder.names()):
            tried = Named(it[1], it[2], int(it[3])) if it else None
            process = process_in(folder, tried) if tried else None
            if tried and process and lives(process):
                found[tried.name] = process
    return found


def begins(tries: Iterable[rows.Try]) -> Iterator[float]:
    return (it.began for it in tries if it.began is not None)


def ends(tries: Iterable[rows.Try]) -> Iterator[float]:
    return (end for it in tries if (end := end_of(it)) is not None)


def counted(standings: Mapping[Name, Standing]) -> dict[Phase, int]:
    """How many commands are in each phase, in the order of PHASES."""
    found = collections.Counter(it.phase for it in standings.values())
    return {phase: found[phase] for phase in PHASES if found[phase]}


def running_of(it: rows.Row, process: Process | None, times: Times, now: float) -> Running:
    """A command that runs. How long it has run is what the system says of its process, since the
    clock may have been set meanwhile."""
    began = it.tries[-1].began if it.tries else None
    seconds = age(process) if process else None if began is None else max(0.0, now - began)
    if process:
        began = now - age(process)
    usual = times.usual.get((it.group, it.key))
    return Running(it.group, it.key, it.command, began, seconds, usual, len(it.tries),
                   process.pid if process else None, it.output)


def waits_of(plan: Plan, view: View, is_active: bool, now: float) -> Waits:
    """What each command of a night waits for."""
    return Waits(plan.jobs, view.facts, view.standings, Run(
        now, plan.most, is_active, view.book.tonight.paused is not None))


def forecast_of(plan: Plan, view: View, times: Times, running: Iterable[Running], waits: Waits,
                now: float) -> Forecast | None:
    """When the night ends; None if that can't be said."""
    if plan.most is None:
        return None
    seconds = {(it.group, it.key): it.seconds or 0.0 for it in running}
    due = {name: at for name in waits.phases if (at := waits.due(name)) is not None}
    deadlines = {group: float(scope.deadline) for group, scope in view.book.scopes.items()
                 if scope.deadline is not None and group not in view.facts.done
                 and group in plan.jobs.members}
    return forecast(plan.jobs, times.usual,
                    Moment(now, plan.most, waits.phases, seconds, due, deadlines))
