"""When a night will end: the rest of it is played in advance, with the usual time of each command.

The play keeps the rules by which commands are started: what they come after, the limits of groups,
pools, how many run at a time, priorities, the waits before retries, and deadlines. In it each
command that is started ends ok after its usual time. A command that already runs for longer ends
after its longest time, or at once if it has run for that long, too.

A command without a usual time takes no time in the play. Then, and after a command that is later
than ever, the night ends at the moment that was found or later: `is_least`.
"""

from __future__ import annotations

import collections
import heapq
import itertools
from collections.abc import Mapping
from dataclasses import dataclass, field

from . import Name
from .facts import Facts
from .jobs import Job, Jobs, Need
from .phases import Phase
from .status_times import Usual

# No wait before a retry is longer, in seconds, or grows more often.
MOST_WAIT, MOST_GROWTH = 49 * 86_400, 32
# What takes fewer seconds than this is over in a moment.
A_MOMENT = 1.0
# The phases of what has yet to end.
OPEN = (Phase.RUNNING, Phase.WAITING, Phase.INTERRUPTED)
WELL = (Phase.OK, Phase.NOT_NEEDED, Phase.NOT_DUE)


@dataclass(frozen=True)
class Moment:
    """What is known of a night at one moment: the phase of each command, for how many seconds each
    running one has run, when a retry is due, and when a group's deadline passes."""

    now: float
    most: int
    phases: Mapping[Name, Phase]
    running: Mapping[Name, float] = field(default_factory=dict)
    due: Mapping[Name, float] = field(default_factory=dict)
    deadlines: Mapping[str, float] = field(default_factory=dict)


@dataclass(frozen=True)
class Forecast:
    """When the night ends, or that it ends then or later; the commands without a usual time, and
    those that run for longer than ever; and which command ends last."""

    at: float
    is_least: bool
    unknown: tuple[Name, ...]
    late: tuple[Name, ...]
    last: Name | None

    def is_vague(self, now: float) -> bool:
        """Whether all that is left, but for a moment, takes nobody knows how long."""
        return self.is_least and self.at - now < A_MOMENT

    def may_end(self, now: float) -> bool:
        """Whether all that is left, but for a moment, runs longer than ever."""
        return self.is_vague(now) and not self.unknown


def forecast(jobs: Jobs, usual: Mapping[Name, Usual], it: Moment) -> Forecast | None:
    """When the rest of the night ends; None if nothing is left, or if no command that is left has
    a usual time."""
    left = [name for name, phase in it.phases.items() if phase in OPEN]
    if not any(name in usual for name in left):
        return None
    return Play(jobs, usual, it).end()


def retry_due(job: Job, facts: Facts) -> float | None:
    """When the retry is due of a command that has failed; None if it hasn't."""
    count, at = facts.failures.get(job.name, 0), facts.failed_at.get(job.name)
    if job.name not in facts.ends or at is None or not count:
        return None
    most = MOST_WAIT if job.most_wait is None else job.most_wait
    growth: int = job.factor ** min(count - 1, MOST_GROWTH)
    return at + min(job.wait * growth, most)


def is_open(jobs: Jobs, phases: Mapping[Name, Phase], need: Need) -> bool:
    """Whether a command that comes after this still waits for it. One failure is enough of a
    group."""
    its = jobs.members[need.of] if isinstance(need.of, str) else [need.of]
    has_failed = need.when == "failed" and any(phases[it] == Phase.FAILED for it in its)
    return not has_failed and any(phases[it] in OPEN for it in its)


# What comes next in a play: at this moment this happens to this command or group. Of one moment,
# ends come before deadlines, and then each event in the order in which it was found.
Event = tuple[float, bool, int, str, "Name | str"]


class Play:
    """The rest of a night, from a moment on."""

    def __init__(self, jobs: Jobs, usual: Mapping[Name, Usual], it: Moment) -> None:
        self.jobs, self.usual, self.it = jobs, usual, it
        self.now = self.last = it.now
        self.last_name: Name | None = None
        self.events: list[Event] = []
        self.counter = itertools.count()
        self.phases = {name: it.phases.get(name, Phase.WAITING) for name in jobs.all}
        self.begun: set[Name] = set()
        self.unknown: list[Name] = []
        self.late: list[Name] = []
        self.passed: set[str] = set()  # groups whose deadline has passed
        self.free = Room(jobs, it.most)
        self.ready = Ready(jobs)
        self.wanted: dict[Name | str, list[Name]] = collections.defaultdict(list)
        self.count: dict[Name, int] = {}
        self.members = {group: sum(self.phases[name] in OPEN for name in its)
                        for group, its in jobs.members.items()}
        self.open = sum(self.members.values())

    def end(self) -> Forecast:
        for group, deadline in self.it.deadlines.items():
            self.add(deadline, "deadline", group)
        for name, phase in self.phases.items():
            if phase == Phase.RUNNING:
                self.go_on(name)
        for name, phase in self.phases.items():
            if phase in OPEN and phase != Phase.RUNNING:
                self.expect(self.jobs.all[name])
        self.start()
        while self.events and self.open:
            self.now = self.events[0][0]
            while self.events and self.events[0][0] <= self.now:
                self.happens(*heapq.heappop(self.events)[3:])
            self.start()
        return Forecast(self.last, bool(self.unknown or self.late), tuple(self.unknown),
                        tuple(self.late), self.last_name)

    def add(self, when: float, what: str, of: Name | str) -> None:
        event = max(when, self.it.now), what == "deadline", next(self.counter), what, of
        heapq.heappush(self.events, event)

    # --- what happens

    def happens(self, what: str, of: Name | str) -> None:
        if isinstance(of, str):
            self.pass_deadline(of)
        elif what == "due":
            self.ready.add(self.jobs.all[of])
        elif self.phases[of] in OPEN:
            self.free.give_back(self.jobs.all[of])
            self.last, self.last_name = max(self.last, self.now), of
            self.over(of, Phase.OK)

    def pass_deadline(self, group: str) -> None:
        """What hasn't begun of the group never begins, and what runs is stopped."""
        self.passed.add(group)
        for name in self.jobs.members[group]:
            if self.phases[name] in OPEN and not self.jobs.cleans_up(name):
                if name in self.begun:
                    self.free.give_back(self.jobs.all[name])
                    self.last, self.last_name = max(self.last, self.now), name
                self.over(name, Phase.NOT_STARTED)

    def over(self, name: Name, phase: Phase) -> None:
        """A command has ended, or never begins; what comes after it may be next."""
        its = [(name, phase)]
        while its:
            one, how = its.pop()
            if self.phases[one] not in OPEN:
                continue
            self.phases[one] = how
            group = one[0]
            self.members[group] -= 1
            self.open -= 1
            done: list[Name | str] = [one] if self.members[group] else [one, group]
            for of in done:
                for other in self.wanted.pop(of, ()):
                    self.count[other] -= 1
                    if not self.count[other]:
                        its += self.met(self.jobs.all[other])

    def met(self, job: Job) -> list[tuple[Name, Phase]]:
        """All that a command comes after is over: it may begin, or never does."""
        how = self.fate(job)
        if how is not None:
            return [(job.name, how)]
        due = self.it.due.get(job.name)
        if due is not None and due > self.now:
            self.add(due, "due", job.name)
        else:
            self.ready.add(job)
        return []

    def fate(self, job: Job) -> Phase | None:
        """How a command stands that never begins; None if it may."""
        if job.group in self.passed and not job.cleans_up:
            return Phase.NOT_STARTED
        for it in job.after:
            its = self.jobs.members[it.of] if isinstance(it.of, str) else [it.of]
            has_failed = [name for name in its if self.phases[name] == Phase.FAILED]
            if it.when == "failed" and not has_failed:
                return Phase.NOT_NEEDED
            if it.when == "well" and any(self.phases[name] not in WELL for name in its):
                return Phase.NOT_STARTED
        return None

    # --- what begins

    def go_on(self, name: Name) -> None:
        """A command that runs already ends after what is left of its time."""
        job = self.jobs.all[name]
        self.begun.add(name)
        self.free.take(job)
        had, usual = self.it.running.get(name, 0.0), self.usual.get(name)
        if usual is None:
            self.unknown.append(name)
        elif had > usual.longest:
            self.late.append(name)
        left = 0.0 if usual is None else \
            usual.seconds - had if had <= usual.seconds else usual.longest - had
        left = min(left, job.timeout - had) if job.timeout else left
        self.add(self.now + max(0.0, left), "end", name)

    def expect(self, job: Job) -> None:
        """A command that hasn't begun waits for what it comes after."""
        open_ones = {it.of for it in job.after if is_open(self.jobs, self.phases, it)}
        self.count[job.name] = len(open_ones)
        for of in open_ones:
            self.wanted[of].append(job.name)
        if not open_ones:
            for name, how in self.met(job):
                self.over(name, how)

    def start(self) -> None:
        """Starts what there is room for."""
        while job := self.ready.next(self.free, self.phases):
            self.free.take(job)
            self.begun.add(job.name)
            usual = self.usual.get(job.name)
            if usual is None:
                self.unknown.append(job.name)
            took = usual.seconds if usual else 0.0
            self.add(self.now + (min(took, job.timeout) if job.timeout else took), "end", job.name)


class Room:
    """How much is free: places, places of groups, and pools."""

    def __init__(self, jobs: Jobs, most: int) -> None:
        self.places = most
        self.limits = {group: limit for group in jobs.members
                       if (limit := jobs.limit(group)) is not None}
        self.pools = dict(jobs.pools)

    def fits(self, job: Job) -> bool:
        return self.places > 0 and self.limits.get(job.group, 1) > 0 \
            and all(self.pools.get(pool, 0) >= amount for pool, amount in job.uses)

    def take(self, job: Job, times: int = 1) -> None:
        self.places -= times
        if job.group in self.limits:
            self.limits[job.group] -= times
        for pool, amount in job.uses:
            self.pools[pool] = self.pools.get(pool, 0) - times * amount

    def give_back(self, job: Job) -> None:
        self.take(job, -1)

    def take_place(self, group: str) -> None:
        """The place of what runs and isn't in the file."""
        self.places -= 1
        if group in self.limits:
            self.limits[group] -= 1


class Ready:
    """What may begin, in the order in which `night plan` begins it. Commands that need the same
    room stand in one row, so what doesn't fit is looked at once for all of them."""

    def __init__(self, jobs: Jobs) -> None:
        self.jobs = jobs
        self.numbers = {name: at for at, name in enumerate(jobs.all)}
        self.rows: dict[object, list[tuple[int, int, int]]] = collections.defaultdict(list)
        self.names = list(jobs.all)

    def add(self, job: Job) -> None:
        rank = -self.jobs.priority(job.group), -job.priority, self.numbers[job.name]
        heapq.heappush(self.rows[job.group, job.uses], rank)

    def next(self, free: Room, phases: Mapping[Name, Phase]) -> Job | None:
        """Takes the first one that there is room for."""
        if free.places <= 0:
            return None
        best: list[tuple[int, int, int]] | None = None
        for key in list(self.rows):
            row = self.rows[key]
            while row and phases[self.names[row[0][2]]] not in OPEN:
                heapq.heappop(row)
            if not row:
                del self.rows[key]
            elif (best is None or row[0] < best[0]) \
                    and free.fits(self.jobs.all[self.names[row[0][2]]]):
                best = row
        return self.jobs.all[self.names[heapq.heappop(best)[2]]] if best else None
