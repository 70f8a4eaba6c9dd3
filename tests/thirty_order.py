"""In which order the commands of a night may begin: what comes after what, how long a retry waits,
what is shared, what has the higher priority, and what may not begin at all."""

from __future__ import annotations

import math
from collections.abc import Iterator

from nights_oracle import Try
from thirty_oracle import EARLY, Cancel, Oracle, Skip, shown
from thirty_plan import Command, Name, Need, When


class Order:
    """The order of a night's tries."""

    def __init__(self, oracle: Oracle) -> None:
        self.oracle, self.facts, self.plan = oracle, oracle.facts, oracle.plan
        self.clock = oracle.clock

    def tries(self, name: Name) -> list[Try]:
        return self.oracle.tries(name)

    def complaints(self) -> list[str]:
        """What began too early, or should not have begun."""
        return [why for check in (self.ordered, self.waited, self.shared, self.ranked,
                                  self.not_left_out, self.known) for why in check()]

    def ordered(self) -> Iterator[str]:
        """Each command begins only once what it comes after has ended in that way."""
        for it in self.plan.commands.values():
            for one in self.tries(it.name):
                for need in it.needs:
                    if why := self.too_early(need, one.began):
                        yield f"{shown(it.name)} began at {one.began:.3f}, and {why}"

    def too_early(self, need: Need, at: float) -> str:
        its = [self.plan.commands[name] for name in need.of]
        its = [it for it in its if self.facts.is_due(it)]
        if need.when is When.FAILED:
            return "" if any(self.failures(it, at) > self.retries_left(it, at) for it in its) else \
                f"none of {need.of} had failed"
        for it in its:
            since, until = self.epoch(it.name, at)
            tries = [one for one in self.tries(it.name) if since < one.began < until]
            last = next((one for one in reversed(tries) if one.began < at), None)
            if need.when is When.WELL and (last is None or last.status != 0
                                           or last.ended is None or last.ended > at):
                return f"{shown(it.name)} hadn't ended ok: {last}"
            if need.when is When.ENDED and (any(one.began > at for one in tries) or last
                                            and self.goes_on(last, at)):
                return f"{shown(it.name)} hadn't ended"
        return ""

    def retries_left(self, it: Command, at: float) -> int:
        """How often a command may fail until it has failed for good: once, if it was canceled or
        left out before it was tried again."""
        ends: list[Cancel | Skip] = [*self.oracle.cancels_for(it, 0.0), *(
            one for one in self.facts.skips if it.name in one.names)]
        return 0 if any(one.at < at for one in ends) else it.retries

    def goes_on(self, it: Try, at: float) -> bool:
        ended = it.ended if it.ended is not None else it.terms[0] if it.terms else None
        return ended > at if ended is not None else not any(
            stop.ends_commands and it.began < stop.done < at for stop in self.facts.stops)

    def epoch(self, name: Name, at: float) -> tuple[float, float]:
        """Since when and until when the ends of a command count, about this moment."""
        moments = [it.at for it in self.oracle.redos if name in it.names]
        return (max([it for it in moments if it <= at], default=-math.inf),
                min([it for it in moments if it > at], default=math.inf))

    def failures(self, it: Command, at: float) -> int:
        since, _ = self.epoch(it.name, at)
        return sum(bool(one.status) and one.ended is not None and one.ended < at
                   or bool(one.terms and it.timeout and one.terms[0] < at)
                   for one in self.tries(it.name) if since < one.began < at)

    def waited(self) -> Iterator[str]:
        """A retry waits as long as the file says, unless the clock was set meanwhile."""
        for it in self.plan.commands.values():
            for one, other in zip(self.tries(it.name), self.tries(it.name)[1:]):
                gap = other.began - (one.ended or other.began)
                if one.status and it.wait and gap < it.wait - EARLY and not self.clock.was_set(
                        one.began, other.began) and not self.is_new(it.name, one, other):
                    yield f"{shown(it.name)} was tried again after {gap:.2f} s, not {it.wait} s"

    def is_new(self, name: Name, one: Try, other: Try) -> bool:
        """Whether a try may be none after a failure: it was asked for, or the failure was lost."""
        return any(name in it.names and one.began < it.at < other.began
                   for it in self.oracle.redos) or any(
            it.ends_commands and one.began < it.at < other.began for it in self.facts.stops)

    def shared(self) -> Iterator[str]:
        """No more of a pool is taken than there is."""
        events: list[tuple[float, int]] = []
        for it in self.plan.commands.values():
            for one in self.tries(it.name) if it.tapes else ():
                events += [(one.began, it.tapes), (self.end_of(one), -it.tapes)]
        taken = 0
        for at, count in sorted(events):
            taken += count
            if taken > 2:
                yield f"{taken} tapes are in use at {at:.3f}, and there are 2"
                return

    def end_of(self, it: Try) -> float:
        """When a try ended, at the latest as somebody stopped it."""
        stops = [one.at for one in self.facts.stops if one.ends_commands and one.done >= it.began]
        ends = [it.ended, *it.terms[:1], *stops[:1]]
        return min((one for one in ends if one is not None), default=it.began)

    def ranked(self) -> Iterator[str]:
        """Of a group with one place those with a higher priority come first, then in the order of
        the file."""
        its = [it for it in self.plan.members("steps") if self.tries(it.name)]
        if any(it.name in redo.names for it in its for redo in self.oracle.redos):
            return
        wanted = sorted(its, key=lambda it: -it.priority)
        found = sorted(its, key=lambda it: self.tries(it.name)[0].began)
        if wanted != found:
            yield f"steps began in the order {[it.key for it in found]}"

    def not_left_out(self) -> Iterator[str]:
        """What was left out begins no more."""
        for skip in self.facts.skips:
            for name in skip.names:
                until = self.epoch(name, skip.at)[1]
                late = [one for one in self.tries(name) if skip.done < one.began < until]
                if late and name in self.plan.commands:
                    yield f"{shown(name)} began at {late[0].began:.3f}, after it was left out"

    def known(self) -> Iterator[str]:
        """What the file doesn't have begins no more."""
        for name, tries in self.facts.tries.items():
            if name not in self.plan.commands and (
                    self.facts.renamed is None or tries[-1].began > self.facts.renamed):
                yield f"{shown(name)} began at {tries[-1].began:.3f}, and isn't in the file"
