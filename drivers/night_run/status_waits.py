"""What each command waits for that hasn't begun."""

from __future__ import annotations

from collections.abc import Mapping
from dataclasses import dataclass

from . import Name
from .facts import Facts
from .jobs import Job, Jobs, Need
from .phases import Phase
from .report_words import clock
from .standing import Standing
from .status_forecast import Room, is_open, retry_due


@dataclass(frozen=True)
class Waiting:
    """A command that waits, and what it waits for."""

    group: str
    key: str
    why: str
    due: float | None  # when its retry is due


@dataclass(frozen=True)
class Run:
    """What decides about a wait besides the commands: the moment, how many run at a time, where
    that is known, whether a `night-run` is active, and whether it is paused."""

    now: float
    most: int | None
    is_active: bool
    is_paused: bool


class Waits:
    """What each command waits for that hasn't begun."""

    def __init__(self, jobs: Jobs, facts: Facts, standings: Mapping[Name, Standing],
                 run: Run) -> None:
        self.jobs, self.facts, self.run = jobs, facts, run
        self.phases = {name: it.phase for name, it in standings.items()}
        self.whys = {name: it.why for name, it in standings.items()}
        self.room = Room(self.jobs, run.most or 0)
        for name, phase in self.phases.items():
            if phase == Phase.RUNNING:
                self.room.take(self.jobs.all[name])
        for group, _ in facts.busy - self.jobs.all.keys():
            self.room.take_place(group)

    def all(self) -> list[Waiting]:
        """Those that could begin at once come first, in the order in which they will."""
        its = [self.one(name) for name, phase in self.phases.items()
               if phase in (Phase.WAITING, Phase.INTERRUPTED)]
        ranks = {name: at for at, name in enumerate(self.jobs.all)}

        def rank(it: Waiting) -> tuple[bool, bool, int, int, int]:
            job = self.jobs.all[it.group, it.key]
            return (self.is_blocked(job), it.due is not None, -self.jobs.priority(it.group),
                    -job.priority, ranks[job.name])
        return sorted(its, key=rank)

    def is_blocked(self, job: Job) -> bool:
        return any(is_open(self.jobs, self.phases, it) for it in job.after)

    def one(self, name: Name) -> Waiting:
        job, due = self.jobs.all[name], self.due(name)
        why = self.reason(job, due)
        if self.phases[name] == Phase.INTERRUPTED:
            why = f"interrupted; {why}"
        return Waiting(*name, why, due)

    def due(self, name: Name) -> float | None:
        """When the retry of a command is due that has failed; None if none is waited for."""
        if self.phases[name] != Phase.WAITING:
            return None
        return retry_due(self.jobs.all[name], self.facts)

    def reason(self, job: Job, due: float | None) -> str:
        open_ones = [it for it in job.after if is_open(self.jobs, self.phases, it)]
        if open_ones:
            return f"after {', '.join(map(named, open_ones))}"
        if due is not None and due > self.run.now:
            return f"for its retry at {clock(due)}, after {self.whys[job.name]}"
        if self.run.is_paused:
            return "for the end of the pause"
        if not self.run.is_active:
            return "for the next run"
        if not self.room.limits.get(job.group, 1) > 0:
            return f"for the limit {self.jobs.limit(job.group)} of {job.group}"
        for pool, amount in job.uses:
            free = self.room.pools.get(pool, 0)
            if free < amount:
                are = "none is" if free < 1 else "1 is" if free == 1 else f"{free} are"
                return f"for {amount} of the pool {pool}, of which {are} free"
        has_no_place = self.run.most is not None and self.room.places <= 0
        return f"for a place (-j {self.run.most})" if has_no_place else "about to be started"


def named(need: Need) -> str:
    of = need.of if isinstance(need.of, str) else "/".join(need.of)
    return {"failed": f"a failure of {of}", "ended": f"the end of {of}"}.get(need.when, of)
