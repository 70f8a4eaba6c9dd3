"""Which commands may begin and how each stands, as drivers/night-run decided it by itself before
`night plan` did: `after`, limits, retries, `stop on failure`, groups that are done."""

from __future__ import annotations

from dataclasses import dataclass, field

FINAL = ("ok", "failed", "canceled", "not started")


@dataclass
class Job:
    """A command: its group, what it comes after (commands, and groups by their names), retries."""

    group: str
    after: list[int | str]
    retries: int
    wait: int


@dataclass
class Facts:
    """What a night has so far, of commands by their numbers. An end is ok, failed or canceled."""

    now: int
    ends: dict[int, str] = field(default_factory=dict)
    failures: dict[int, int] = field(default_factory=dict)
    failed_at: dict[int, int] = field(default_factory=dict)
    interrupted: set[int] = field(default_factory=set)
    busy: set[int] = field(default_factory=set)
    done: set[str] = field(default_factory=set)


class Oracle:
    """The rules over one file of commands."""

    def __init__(self, jobs: list[Job], limits: dict[str, int | None], stops: set[str],
                 order: list[int]) -> None:
        self.jobs, self.limits, self.stops, self.order = jobs, limits, stops, order
        self.members = {group: [at for at, it in enumerate(jobs) if it.group == group]
                        for group in limits}

    def has_failed(self, facts: Facts, at: int) -> bool:
        """Whether a command that has ended has failed for good."""
        job = self.jobs[at]
        return facts.ends[at] != "ok" and (
            facts.ends[at] == "canceled" or job.group in facts.done
            or facts.failures.get(at, 0) > job.retries)

    def standings(self, facts: Facts) -> list[str]:
        failed = {group for group in self.stops if any(
            at in facts.ends and self.has_failed(facts, at) for at in self.members[group])}
        found: dict[int, str] = {}
        for at in self.order:
            found[at] = self.standing(facts, at, failed, found)
        return [found[at] for at in range(len(self.jobs))]

    def standing(self, facts: Facts, at: int, failed: set[str], found: dict[int, str]) -> str:
        job, end = self.jobs[at], facts.ends.get(at)
        if at in facts.busy:
            return "running"
        if end == "ok":
            return "ok"
        if end and (job.group in failed or self.has_failed(facts, at)):
            return "canceled" if end == "canceled" else "failed"
        if job.group in facts.done:
            return "canceled"
        if job.group in failed:
            return "not started"
        for it in job.after:
            its = self.members[it] if isinstance(it, str) else [it]
            if any(found[other] in ("failed", "canceled", "not started") for other in its):
                return "not started"
        return "waiting" if end or at not in facts.interrupted else "interrupted"

    def is_met(self, facts: Facts, need: int | str) -> bool:
        its = self.members[need] if isinstance(need, str) else [need]
        return all(facts.ends.get(it) == "ok" and it not in facts.busy for it in its)

    def due(self, facts: Facts, at: int) -> int | None:
        """When a retry is due that waits; None where it doesn't. A clock that was set back since
        its failure says nothing."""
        wait = self.jobs[at].wait
        failed = facts.failed_at[at] if at in facts.ends and wait else 0
        return failed + wait if failed <= facts.now < failed + wait else None

    def may_begin(self, facts: Facts, left: list[int], places: int) -> list[int]:
        """The first of those that are left and may be begun, no more than there are places."""
        found: list[int] = []
        for at in left:
            job = self.jobs[at]
            limit = self.limits[job.group]
            used = sum(self.jobs[it].group == job.group for it in [*facts.busy, *found])
            if len(found) < places and (limit is None or used < limit) \
                    and job.group not in facts.done and self.is_free(facts, at) \
                    and self.due(facts, at) is None:
                found.append(at)
        return found

    def is_free(self, facts: Facts, at: int) -> bool:
        """Whether a command doesn't run, and all that it comes after is ok."""
        return at not in facts.busy and all(self.is_met(facts, it) for it in self.jobs[at].after)
