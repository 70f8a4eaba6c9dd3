"""A night under way: the driver that runs it, how it is stopped, and the trace of its commands so
far."""

from __future__ import annotations

import random
import time
from collections.abc import Collection

from nights_oracle import Try
from nights_hits import hit
from thirty_oracle import Facts, Stop
from thirty_plan import Command, Name
from thirty_room import JOBS, STORE, Room, Run, text_of

# What a run may say after an earlier one was killed: a command runs, or ends just as it is to be
# stopped. And after the clock was set back, and after a group was renamed.
LIVES = r"\S+ \S+ still runs from the last run: process \d+"
ENDS = r"\S+ \S+: process \d+ may be another program by now, so it is left running"
AHEAD = rf"{STORE}: its clock is (\d+) s ahead of the machine's; a new store replaces it, and .*"
MISSING = rf"{JOBS}: no longer has commands that {STORE} has yet to finish \(\d+\): .*"


class Evening:
    """A night that is under way, and the driver that runs it."""

    def __init__(self, room: Room, facts: Facts, dice: random.Random, run: Run, begun: int,
                 held: Collection[Name]) -> None:
        self.room, self.facts, self.dice, self.run, self.begun = room, facts, dice, run, begun
        self.held = held  # the commands that end only once all accidents have happened
        self.is_left = False  # whether the next evening's run does the rest
        self.is_set_back = False  # whether the clock was
        self.may_say: list[str] = []  # what each later run of the night may say

    def wait_for_moment(self, least: int, most: int) -> bool:
        """Waits until some commands more have begun; whether the night has begun, and still runs.
        (A run that is killed before the first command may leave no night, and the next run wouldn't
        begin one.)"""
        self.room.until(lambda: not self.run.is_active or self.room.begins() > self.begun)
        count = self.begun + self.dice.randint(least, most)
        self.room.until(lambda: not self.run.is_active or self.room.begins() >= count, 4)
        time.sleep(self.dice.choice((0.0, 0.005, 0.02, 0.1)))
        return self.run.is_active and self.room.begins() > self.begun

    def is_held(self) -> bool:
        """Whether a command runs that waits for the accidents, so that the night doesn't end."""
        return self.run.is_active and any(map(self.is_running, self.held))

    def has_store(self) -> bool:
        """Whether the driver has the store, and so takes requests."""
        lock = text_of(f"{self.room.path}/{STORE}.lock")
        return f" {self.run.process.pid} " in lock

    def stop(self, who: str) -> None:
        """Kills the driver, or more, and waits for its end."""
        at = time.monotonic()
        hit(self.run.process, who)
        if who == "all":
            self.room.kill_all()
        self.run.process.wait()
        self.run.ended = time.monotonic()
        self.facts.stops.append(Stop(at, self.run.ended, who == "all"))

    def go_on(self, *words: str) -> None:
        """Another driver goes on with the night."""
        self.run = self.room.start(*words)
        self.run.may_say += [LIVES, ENDS, *([AHEAD] if self.is_set_back else []),
                             *([MISSING] if self.facts.renamed is not None else []),
                             *self.may_say]

    def may_lack_groups(self) -> bool:
        """Whether a driver may have been killed before it made the groups of the night, in a store
        that replaced another one, or for a group that was renamed."""
        return not self.run.is_active and (self.is_set_back or self.facts.renamed is not None)

    def kill(self, who: str) -> bool:
        self.stop(who)
        time.sleep(self.dice.choice((0.0, 0.0, 0.2, 0.6)))
        self.go_on(*self.dice.choice(((), ("--resume",))))
        return True

    def tries(self) -> list[Try]:
        """The tries of this night, so far."""
        return self.room.trace().tries[self.begun:]

    def target(self) -> Command:
        """A command that is due; mostly one that hasn't ended."""
        its = [it for it in self.facts.plan.commands.values() if self.facts.is_due(it)]
        left = [it for it in its if not self.ended(it)]
        running = [it for it in its if self.is_running(it.name)]
        return self.dice.choice(self.dice.choices(
            [running or left or its, left or its, its], (6, 3, 1))[0])

    def last(self, name: Name) -> Try | None:
        return next((it for it in reversed(self.tries()) if (it.group, it.key) == name), None)

    def is_running(self, name: Name) -> bool:
        last = self.last(name)
        return last is not None and last.ended is None and not last.terms

    def ended(self, it: Command) -> bool:
        """Whether a command has ended ok for so long that the driver must have seen it."""
        last = self.last(it.name)
        now = time.monotonic()
        return last is not None and last.status == 0 and last.ended is not None \
            and last.ended < now - self.room.pace.slack(now - 1, now) - 1 and self.run.is_active

    def may_have_ended(self, it: Command) -> bool:
        """Whether a command may have come to an end of whatever kind: it ran, or what it comes
        after, or its group, may keep it from beginning."""
        return self.last(it.name) is not None or bool(it.needs) or it.group in ("steps", "pair") \
            or not self.facts.is_due(it)
