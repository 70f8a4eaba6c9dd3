"""What decides a night: which commands begin, and which have to stop; what the ends of commands
mean for their groups; and whether anything is left to do. `night plan` decides the first by the
facts, which change here. It knows commands by their names and tasks, and executes nothing
(`orders`).
"""

from __future__ import annotations

import time
from functools import partial

from . import Name
from .batches import Batch
from .course import Course
from .ends import End
from .executor import Executor
from .night import NotStarted
from .orders import Ended, Stop
from .restarts import Restarts
from .signals import Asked
from .standing import Standing
from .starts import Starts
from .taking import Taker
from .telling import error_text, tell_once
from .timing import Deadlines, cause_of, moments


class Decider:
    """The decisions over a course."""

    def __init__(self, course: Course, executor: Executor, starts: Starts, taker: Taker,
                 restarts: Restarts, asked: Asked) -> None:
        self.course, self.executor, self.starts = course, executor, starts
        self.taker, self.restarts, self.asked = taker, restarts, asked
        self.planner, self.jobs = course.planner, course.jobs
        self.deadlines = Deadlines()
        self.later: float | None = None  # when the next retry is due

    # --- what has ended

    def add_ends(self, batch: Batch) -> None:
        """The ends of commands. They are logged, and their places free, once all is acked."""
        facts, now = self.course.facts, time.time()
        for it in self.executor.own.ended():
            if it.end is None:
                self.cut_off(it)
                continue
            batch.add(f"finish {it.task} {it.end.words}", partial(self.recorded, it.name, it.task))
            self.free(it)
            facts.ended(it.name, it.end, now)
            self.cancel_after(batch, it.name, it.end)

    def recorded(self, name: Name, task: int, _: str = "ok") -> None:
        """The end of a task is durable."""
        self.restarts.recorded()
        end = self.executor.own.durable(name, task)
        self.course.is_woken |= not end.is_ok

    def cut_off(self, it: Ended) -> None:
        """A command was cut off: it has no end in this session."""
        self.free(it)
        self.course.facts.cut_off(it.name)

    def free(self, it: Ended) -> None:
        """The place of a command is free, unless it may still run elsewhere."""
        busy = self.course.facts.busy
        busy.discard(it.name)
        if it.may_run_elsewhere:
            busy.add(it.name)

    def cancel_after(self, batch: Batch, name: Name, end: End) -> None:
        """Cancels a group that a failure of this command cancels."""
        group, course, facts = name[0], self.course, self.course.facts
        if name in self.jobs.all and self.jobs.cancels(group) and group not in facts.done \
                and not end.is_canceled and self.planner.has_failed(
                    facts, self.jobs.all[name], end):
            facts.cancel(group, end.text)
            if group in course.book.scopes:
                batch.add(f"cancel {course.book.scopes[group].name} {end.text}")

    def look_for_leftovers(self, batch: Batch) -> None:
        """Takes the ends of tries of an earlier driver that are over. Of what is over without one
        another try begins."""
        left, facts, own = self.executor.left, self.course.facts, self.executor.own.its
        for it in left.over():
            # (a limit may be less than what runs, where the file has another one now)
            limit = self.jobs.limit_in_store(it.name[0]) if it.counts and it.job else None
            if limit is not None and sum(name[0] == it.name[0] for name in own) >= limit:
                continue
            left.drop(it)
            if it.name not in left.names():
                facts.busy.discard(it.name)
            is_open = it.name not in own and it.name not in facts.ends
            if it.counts and it.job and it.is_known() and is_open:
                self.executor.adopt(it, it.job)
                facts.busy.add(it.name)
                self.starts.add(batch, it.name)
                self.course.is_woken = True
            else:
                left.forget(it)

    # --- what begins

    def add_clock(self, batch: Batch) -> None:
        """Moves the clock, and sees which deadlines pass."""
        self.deadlines.add(batch, self.course.book, self.course.facts, int(time.time()))

    def add_begins(self, batch: Batch) -> list[Name]:
        """Submits and starts what has a place; it begins once that is acked."""
        self.later = None
        course = self.course
        if self.asked.steps or course.capacity.is_full or course.missing \
                or self.taker.wants_scopes:
            return []
        try:
            found = self.planner.choose(course.facts, self.taker.most, time.time(),
                                        self.executor.own.its)
        except NotStarted as error:
            self.hold(error)
            return []
        self.later = found.later
        for name in found.names:
            self.executor.own.expect(name)
            course.facts.busy.add(name)
            self.starts.add(batch, name)
        return list(found.names)

    def hold(self, error: NotStarted) -> None:
        """Waits until the system has room for another run of `night`, as long as commands run:
        else they would be stopped."""
        if not self.executor.own.its or self.asked.steps > 1:
            raise error
        tell_once(f"{error_text(error)}: commands are started later")

    def begin(self, name: Name, events: int) -> None:
        """Begins a command whose start is acked; where the system has no room for it, later."""
        self.course.is_woken |= self.executor.own.begin(name, events)

    def begin_those_held(self, events: int) -> None:
        """Begins those that had no room, and drops those that aren't to begin any more."""
        own, course = self.executor.own, self.course
        may_retry = own.may_retry()
        for name in own.unbegun():
            if self.asked.steps or course.missing or course.is_done_for(name):
                own.drop(name)
                course.facts.busy.discard(name)
            elif may_retry and not self.taker.is_paused:
                self.begin(name, events)

    # --- what has to stop, and what is left

    def stop_those_due(self) -> None:
        """Has all end that has to."""
        cuts_off, now = self.asked.steps > 1, time.time()
        self.executor.press(lambda name: Stop(
            self.cause(name, now), self.course.facts.ends.get(name), cuts_off))

    def cause(self, name: Name, now: float) -> str | None:
        """Why a command is to be stopped because of its group; None where it isn't."""
        if self.jobs.cleans_up(name):
            return None
        return cause_of(self.course.book, self.course.facts, name[0], now)

    def is_over(self) -> bool:
        """Whether nothing runs, and nothing is left to do."""
        if self.executor.own.its:
            return False
        has_left = self.executor.has_left()
        if self.asked.steps:
            return self.asked.steps < 2 or not has_left
        return not has_left and not self.may_go_on()

    def may_go_on(self) -> bool:
        """Whether something may be begun now or later."""
        course = self.course
        if course.is_woken:
            return True
        if course.capacity.is_full or course.missing:
            return False
        found = self.planner.first(course.facts, time.time())
        return bool(found.names) or found.later is not None

    def moments(self) -> list[float]:
        """When something comes due: deadlines, and the next retry."""
        its = moments(self.course.book, self.course.facts)
        return its if self.later is None else [*its, self.later]

    def known(self) -> dict[Name, Standing]:
        """How each command stands by what the driver knows, once it has ended by a fault."""
        self.course.facts.busy.clear()
        return self.planner.standings(self.course.facts)
