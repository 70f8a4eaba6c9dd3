"""How each command of a night has to stand, by what the commands wrote of themselves, by what was
done to the night, and by the words of the pages (docs/command-file.md, docs/options.md). What the
driver says counts for nothing here.

Moments are those of the monotonic clock, in seconds. What happens within a moment of an accident
may count as before or as after it: then a command has several standings that are right. How many
have only one is printed by the test.
"""

from __future__ import annotations

import datetime
import enum
import math
from collections.abc import Callable, Iterable, Iterator
from dataclasses import dataclass, field, replace

from nights_oracle import PROMPT, Try
from thirty_plan import Command, Name, Need, Plan, When
from thirty_room import SLOW_FROM, Clock, Run

# How long before the wait for a retry is over it may begin: clocks are read in between.
EARLY = 0.05
# Less than lies between two lines that commands write.
TINY = 1e-7


class Phase(enum.Enum):
    """How a command stands, in the words of the pages."""

    OK = "ok"
    FAILED = "failed"
    CANCELED = "canceled"
    NOT_STARTED = "not started"
    NOT_NEEDED = "not needed"
    NOT_DUE = "not due"
    LEFT_OUT = "left out"
    INTERRUPTED = "interrupted"
    OPEN = "open"  # it has yet to begin, or to end


# Those that are no failure.
WELL = (Phase.OK, Phase.NOT_NEEDED, Phase.NOT_DUE, Phase.LEFT_OUT)


@dataclass(frozen=True)
class Standing:
    """How a command stands, and with which end, if it failed or was canceled."""

    phase: Phase
    end: str = ""


OK, CUT = Standing(Phase.OK), Standing(Phase.INTERRUPTED)


@dataclass(frozen=True)
class Stop:
    """That a driver or its `night` was stopped between these moments, and whether its commands
    were, too."""

    at: float
    done: float
    ends_commands: bool


@dataclass(frozen=True)
class Cancel:
    """That these commands were canceled between these moments."""

    at: float
    done: float
    names: frozenset[Name]
    why: str


@dataclass(frozen=True)
class Skip:
    """That these commands were left out between these moments."""

    at: float
    done: float
    names: frozenset[Name]


@dataclass(frozen=True)
class Redo:
    """That a command was to run again, with what comes after it, between these moments."""

    at: float
    done: float
    names: frozenset[Name]
    target: Name


@dataclass
class Facts:
    """What is known of a night: its file, its commands' tries, and what was done to it."""

    number: int
    day: datetime.date
    plan: Plan
    began: float
    tries: dict[Name, list[Try]] = field(default_factory=dict)
    over: float = math.inf
    stops: list[Stop] = field(default_factory=list)
    cancels: list[Cancel] = field(default_factory=list)
    skips: list[Skip] = field(default_factory=list)
    redos: list[Redo] = field(default_factory=list)
    full: list[tuple[float, float]] = field(default_factory=list)  # while the disk was full
    # The files before this one of the night, each with the moment at which the next one was read.
    earlier: list[tuple[Plan, float]] = field(default_factory=list)
    renamed: float | None = None  # when a group got another name in the midst of it

    def is_due(self, it: Command) -> bool:
        return it.is_due(self.day)


@dataclass(frozen=True)
class State:
    """What a command may have come to: its failures that count for its retries, how it stands,
    where that is final, and all its failures."""

    failures: int = 0
    final: Standing | None = None
    all_failures: int = 0
    last: str = ""  # how its last failure ended


@dataclass(frozen=True)
class Found:
    """How a command may stand, each time with its failures."""

    states: frozenset[tuple[Standing, int]]

    @property
    def standings(self) -> set[Standing]:
        return {it for it, _ in self.states}

    @property
    def phases(self) -> set[Phase]:
        return {it.phase for it in self.standings}

    @property
    def is_certain(self) -> bool:
        return len(self.states) == 1


class Oracle:
    """A night, as it has to be."""

    def __init__(self, facts: Facts, clock: Clock, runs: list[Run],
                 slack: Callable[[float, float], float]) -> None:
        self.facts, self.plan, self.clock, self.runs = facts, facts.plan, clock, runs
        self.slack = slack
        self.found: dict[Name, Found] = {}
        self.bad: list[str] = []
        self.redos = [self.taken(it) for it in facts.redos]
        self.cancels = {it: list(self.cancels_of(it)) for it in self.plan.groups}

    def tries(self, name: Name) -> list[Try]:
        return self.facts.tries.get(name, [])

    def complaints(self) -> list[str]:
        """What the commands did that can't be right, however they stand."""
        self.all()
        return self.bad

    # --- when something is obeyed

    def moment(self, at: float) -> float:
        """Until when what is to be seen at a moment may be seen later."""
        return at + PROMPT + self.slack(at, at + PROMPT)

    def lag(self, at: float) -> float:
        """How much later a driver may see that a command has ended. (On a slow machine nobody knows
        it better than by the slack.)"""
        slack = self.slack(at, at)
        return 0.2 + (slack / 6 if slack < SLOW_FROM else slack)

    def lateness(self, at: float) -> float:
        """How long on a slow machine a command may have been starting until it wrote that down."""
        slack = self.slack(at, at)
        return slack if slack >= SLOW_FROM else 0.0

    def taken(self, it: Redo) -> Redo:
        """The same with the moment since when ends count: what comes after the command begins only
        after that, and so not before the command does."""
        begins = [one.began for one in self.tries(it.target) if one.began > it.at]
        return replace(it, at=min([it.done, *begins]) - TINY)

    def obeyed(self, at: float) -> float:
        """Until when an active driver must have seen what happened at this moment."""
        for run in self.runs:
            begun = max(at, run.began)
            until, ended = self.moment(begun), math.inf if run.ended is None else run.ended
            if ended >= until or ended > begun and run.status in (0, 1):
                return min(until, ended)
        return math.inf

    def cancels_of(self, group: str) -> Iterator[Cancel]:
        """What cancels a whole group: its deadline, and a failure where that cancels it."""
        members = frozenset(it.name for it in self.plan.members(group) if not it.cleans_up)
        since = self.facts.began
        for plan, until in [*self.facts.earlier, (self.plan, self.facts.over)]:
            deadline = plan.deadline(group)
            if deadline is not None:
                moment = deadline.moment(self.clock.shown(since))
                step = self.clock.passes(moment, since)
                if step and step.at < until:
                    yield Cancel(step.at, self.obeyed(step.done), members, str(deadline))
            # (another deadline counts from the moment of the run that reads it)
            since = until if plan.deadline(group) != self.plan.deadline(group) else since
        if group == "pair":
            for it in self.plan.members(group):
                for at, end in self.failed_for_good(it):
                    yield Cancel(at, self.obeyed(at), members, end)

    def failed_for_good(self, it: Command) -> Iterator[tuple[float, str]]:
        """When a command failed for the last time, by its own word."""
        since = 0.0
        for redo in self.redos:
            since = redo.at if it.name in redo.names else since
        ends = [one for one in self.tries(it.name) if one.began > since and one.status]
        if len(ends) > it.retries:
            last = ends[it.retries]
            if last.ended is not None:
                yield last.ended, f"exit {last.status}"

    def cancels_for(self, it: Command, since: float) -> list[Cancel]:
        """All cancels of a command since this moment. One that no driver was there to obey is
        recorded, and the next driver stops what still runs."""
        by_hand = [replace(one, done=self.obeyed(one.done)) for one in self.facts.cancels]
        every = [*by_hand, *self.cancels.get(it.group, ())]
        return [one for one in every if it.name in one.names and one.at >= since]

    # --- how tries ended

    def ends(self, it: Command, one: Try, since: float) -> set[Standing]:
        """How a try may have ended."""
        at, found = one.ended, set[Standing]()
        stopped = one.terms[0] if one.terms else None
        seen = at if at is not None else stopped
        cancels = [Standing(Phase.CANCELED, f"canceled: {its.why}")
                   for its in self.cancels_for(it, since)
                   if seen is not None and its.at <= seen + self.lag(seen) and seen <= its.done]
        if at is not None:
            found.add(OK if one.status == 0 else Standing(Phase.FAILED, f"exit {one.status}"))
        if seen is not None and it.timeout and \
                seen - one.began + self.lateness(one.began) >= it.timeout - EARLY:
            found.add(Standing(Phase.FAILED, f"timeout {it.timeout}s"))
        found.update(cancels)
        if any(its.ends_commands and self.may_cut(one, its, seen) for its in self.facts.stops):
            found.add(CUT)
        return found or {Standing(Phase.OPEN)}

    def may_cut(self, one: Try, stop: Stop, seen: float | None) -> bool:
        """Whether a stop may have kept the end of a try from being recorded."""
        if one.began > stop.done:
            return False
        return seen is None or seen >= stop.at or stop.at <= self.moment(seen)

    # --- how commands stand

    def all(self) -> dict[Name, Found]:
        for name in self.plan.commands:
            self.of(name)
        return self.found

    def of(self, name: Name) -> Found:
        if name not in self.found:
            self.found[name] = self.stand(self.plan.commands[name])
        return self.found[name]

    def stand(self, it: Command) -> Found:
        tries = self.tries(it.name)
        if not self.facts.is_due(it):
            if tries:
                self.bad.append(f"{shown(it.name)} isn't due, and began")
            return Found(frozenset([(Standing(Phase.NOT_DUE), 0)]))
        states, since = {State()}, 0.0
        redos = [redo for redo in self.redos if it.name in redo.names]
        events: list[tuple[float, Try | Redo]] = [*((one.began, one) for one in tries),
                                                  *((redo.at, redo) for redo in redos)]
        for at, event in sorted(events, key=lambda pair: pair[0]):
            if isinstance(event, Redo):
                states = {State(all_failures=one.all_failures) for one in states}
                since = event.at
                continue
            ends = self.ends(it, event, since)
            before, states = states, set(advanced(states, ends, it.retries))
            if not states:
                self.bad.append(f"{shown(it.name)} began again at {at:.3f}, and was"
                                f" {[one.final for one in before]}")
                return Found(frozenset())
        found = {(standing, one.all_failures) for one in states
                 for standing in ([one.final] if one.final else self.reasons(it, one, since))}
        if not found:
            self.bad.append(f"{shown(it.name)} hasn't come to an end, without a reason: {states},"
                            f" tries {tries}")
        return Found(frozenset(found))

    def reasons(self, it: Command, state: State, since: float) -> set[Standing]:
        """How a command stands that may not begin any more, or not again."""
        found = set[Standing]()
        failed = {Standing(Phase.FAILED, state.last)} if state.failures else set()
        for skip in self.facts.skips:
            if it.name in skip.names and skip.done >= since:
                found |= failed or {Standing(Phase.LEFT_OUT)}
        for cancel in self.cancels_for(it, since):
            found |= {Standing(Phase.CANCELED, f"canceled: {cancel.why}"), *failed}
        for need in it.needs:
            found |= {Standing(phase) for phase in self.unmet(need)}
        if it.group == "steps" and self.has_stopped(it):
            found |= {Standing(Phase.NOT_STARTED), *failed}
        return found

    def has_stopped(self, it: Command) -> bool:
        """Whether another command of a group has failed for good, or was canceled, which counts as
        a failure where a group stops on one."""
        others = [one for one in self.plan.members(it.group) if one.name != it.name]
        return any(list(self.failed_for_good(one)) for one in others) or any(
            one.name in cancel.names for one in others for cancel in self.facts.cancels)

    def unmet(self, need: Need) -> set[Phase]:
        """How a command may stand because this isn't met."""
        its = [self.of(name).phases for name in need.of]
        if need.when is When.ENDED:
            return set()
        if need.when is When.FAILED:
            is_sure = any(phases == {Phase.FAILED} for phases in its)
            return set() if is_sure else {Phase.NOT_NEEDED}
        kept = {Phase.LEFT_OUT, Phase.NOT_NEEDED}
        return {phase if phase in kept else Phase.NOT_STARTED
                for phases in its for phase in phases - {Phase.OK, Phase.NOT_DUE}}


def advanced(states: Iterable[State], ends: set[Standing], retries: int) -> Iterator[State]:
    """What a command may have come to after a further try, which begins only if it hasn't ended."""
    for state in states:
        for end in ends if state.final is None else ():
            if end.phase is Phase.FAILED:
                failures = state.failures + 1
                yield State(failures, end if failures > retries else None,
                            state.all_failures + 1, end.end)
            elif end.phase is Phase.INTERRUPTED:
                yield state
            else:
                yield replace(state, final=end)


def shown(name: Name) -> str:
    return "/".join(name)
