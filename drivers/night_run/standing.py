"""How a command stands in its night, in the words that are shown, and why."""

from __future__ import annotations

from collections.abc import Mapping
from dataclasses import dataclass

from . import Name
from .ends import canceled
from .facts import Facts
from .jobs import Job, Jobs, Need
from .phases import FINAL, Phase


@dataclass(frozen=True)
class Standing:
    """How a command stands in its night, and why, if it didn't end well or never begins."""

    phase: Phase
    why: str = ""

    @property
    def is_final(self) -> bool:
        return self.phase in FINAL

    def at_its_end(self, name: Name) -> str:
        """Why nothing can be done to this command: how it ended, or why it never begins."""
        if self.phase in (Phase.NOT_STARTED, Phase.NOT_NEEDED):
            return f"{' '.join(name)} is {self.phase}, because {self.why}"
        return f"{' '.join(name)} has ended: {self.why or self.phase}"


def groups_left(standings: Mapping[Name, Standing]) -> set[str]:
    """The groups of the file in which something is left to do."""
    return {group for (group, _), it in standings.items() if not it.is_final}


class Shown:
    """Shows how commands stand, by the words of `night plan` for each."""

    def __init__(self, jobs: Jobs, facts: Facts, words: Mapping[Name, str]) -> None:
        self.jobs, self.facts, self.words = jobs, facts, words
        self.first: dict[str, Name | None] = {}
        self.ended: dict[str, Name | None] = {}
        self.found: dict[Name, Standing] = {}

    def all(self) -> dict[Name, Standing]:
        """How each command of the file stands, in the file's order. Each is found after all that it
        comes after."""
        for it in self.jobs.order:
            if isinstance(it, tuple):
                self.found[it] = self.one(it, self.words[it])
        return {name: self.found[name] for name in self.words}

    def one(self, name: Name, word: str) -> Standing:
        facts, end = self.facts, self.facts.ends.get(name)
        if name in facts.busy:
            return Standing(Phase.RUNNING)
        if word == "ok":
            return Standing(Phase.OK) if end is not None else self.not_due(self.jobs.all[name])
        if facts.is_left_out(name):
            return Standing(Phase.LEFT_OUT, facts.left_out(name))
        if word in ("failed", "canceled"):
            cause = end or canceled(facts.done.get(name[0], ""))
            return Standing(Phase.CANCELED if cause.is_canceled else Phase.FAILED, cause.text)
        if word == "given-up":
            return self.never_begun(self.jobs.all[name])
        if end is not None:
            return Standing(Phase.WAITING, end.text)
        return Standing(Phase.INTERRUPTED if name in facts.interrupted else Phase.WAITING)

    def not_due(self, job: Job) -> Standing:
        """How a command stands that isn't due in this night, which nothing waits for."""
        day = self.facts.day
        return Standing(Phase.NOT_DUE, job.days.why_not(day) if job.days and day else "")

    def never_begun(self, job: Job) -> Standing:
        """How a command stands that neither failed nor was canceled, and never begins."""
        failed = None if job.cleans_up else self.failure(job.group)
        if failed is not None:
            return Standing(Phase.NOT_STARTED, f"{'/'.join(failed)} failed, and" + (
                " that cancels the group" if self.jobs.cancels(job.group)
                else " the group stops on failure"))
        found = [it for it in map(self.in_vain, job.after) if it is not None]
        its = [it for it in found if it.phase != Phase.LEFT_OUT]
        return (its or found or [Standing(Phase.NOT_STARTED)])[0]

    def in_vain(self, need: Need) -> Standing | None:
        """How a command stands because this need of it is never met; None where it may be."""
        of = need.of
        if need.when == "well":
            other = self.member(of) if isinstance(of, str) else of if self.is_never(of) else None
            if other is None:
                return None
            if other in self.found and self.found[other].phase == Phase.LEFT_OUT:
                return Standing(Phase.LEFT_OUT, f"because {'/'.join(other)} is left out")
            is_needed = other not in self.found or self.found[other].phase != Phase.NOT_NEEDED
            return Standing(Phase.NOT_STARTED if is_needed else Phase.NOT_NEEDED,
                            self.reason(other, need))
        its = self.jobs.members[of] if isinstance(of, str) else [of]
        if need.when == "failed" and all(self.words[it] == "ok" or self.is_never(it) and
                                         self.words[it] != "failed" for it in its):
            named = of if isinstance(of, str) else "/".join(of)
            is_due = any(it in self.facts.ends or self.jobs.all[it].is_due(self.facts.day)
                         for it in its)
            return Standing(Phase.NOT_NEEDED,
                            f"{named} didn't fail" if is_due else f"{named} isn't due")
        return None

    def reason(self, other: Name, need: Need) -> str:
        """Why a command stands as it does, because this other one never begins again."""
        failed = self.failure_behind(other)
        if failed is None:
            return f"{'/'.join(other)} {self.never(other)}"
        is_of_group = isinstance(need.of, str)
        return f"{'/'.join(failed)} failed" + (
            "" if is_of_group else f", and that canceled {'/'.join(other)}")

    def failure_behind(self, name: Name) -> Name | None:
        """The command whose failure canceled the group of this one, and this one with it."""
        facts, group = self.facts, name[0]
        if self.words[name] != "canceled" or not self.jobs.cancels(group):
            return None
        end = facts.ends.get(name) or canceled(facts.done.get(group, ""))
        its = [it for it in self.jobs.members[group] if self.words[it] == "failed"
               and it in facts.ends and canceled(facts.ends[it].text) == end]
        its.sort(key=lambda it: facts.failed_at.get(it, 0.0))
        return its[0] if its else None

    def failure(self, group: str) -> Name | None:
        """The first command that has failed of a group that doesn't go on after one."""
        if group not in self.first:
            stops = self.jobs.stops(group) or self.jobs.cancels(group)
            its = self.jobs.members[group] if stops else ()
            self.first[group] = next((it for it in its if self.words[it] == "failed"), None)
        return self.first[group]

    def member(self, group: str) -> Name | None:
        """The first command of a group that never begins again; one that is left out only where
        no other is."""
        if group not in self.ended:
            its = [it for it in self.jobs.members[group] if self.is_never(it)]
            others = [it for it in its
                      if it in self.found and self.found[it].phase != Phase.LEFT_OUT]
            self.ended[group] = next(iter(others or its), None)
        return self.ended[group]

    def is_never(self, name: Name) -> bool:
        return self.words[name] in ("failed", "canceled", "given-up")

    def never(self, name: Name) -> str:
        """How a command that never begins again has ended."""
        end = self.facts.ends.get(name)
        if self.words[name] == "given-up":
            is_needed = name not in self.found or self.found[name].phase != Phase.NOT_NEEDED
            return "was not started" if is_needed else "was not needed"
        is_failed = self.words[name] == "failed" and not (end and end.is_canceled)
        return "failed" if is_failed else "was canceled"
