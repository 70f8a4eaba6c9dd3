"""How a driver obeys the cancels that it is asked for (`cancels`).

The scope of a group, or of all groups together, is canceled in the store. A command has no scope.
If it runs, it is stopped. Otherwise it gets a task that ends as canceled before it begins, in a
group without a limit if its own group may be at its limit. A request is answered once its effect is
durable; until then each round comes back to it.
"""

from __future__ import annotations

from functools import partial

from . import Name
from .batches import Batch
from .cancels import NO_GROUP, REFUSED, Desk, Request, is_key
from .course import Course
from .ends import End, canceled
from .executor import Executor
from .guesses import no_command
from .phases import Phase
from .rounds import base_of
from .settings import OF_ALL
from .starts import Starts


class Canceler:
    """The cancels of a driver."""

    def __init__(self, course: Course, executor: Executor, starts: Starts) -> None:
        self.course, self.executor, self.starts = course, executor, starts
        self.desk = Desk(course.files)

    def add(self, batch: Batch) -> dict[Request, str]:
        """The lines for what is asked for, and the answers to it, once all is acked."""
        answers: dict[Request, str] = {}
        for it in self.desk.requests():
            refused = self.refusal(it)
            if refused:
                answers[it] = f"{REFUSED}{refused}"
            elif it.key:
                self.add_command(batch, it, answers)
            else:
                self.add_group(batch, it, answers)
        return answers

    def answer(self, answers: dict[Request, str]) -> None:
        if answers:
            self.desk.answer(answers)

    def refusal(self, it: Request) -> str:
        """Why a request isn't obeyed; empty where it is."""
        course = self.course
        names = course.jobs.all
        if it.key:
            if (it.group, it.key) not in names:
                return no_command(it.group, it.key, names)
            full = course.capacity.is_full and (it.group, it.key) not in course.facts.busy
            return f"{course.files.shown} is full" if full else ""
        key = it.why.partition(" ")[0]
        return is_key(it.group, key) if (it.group, key) in names else ""

    def add_group(self, batch: Batch, it: Request, answers: dict[Request, str]) -> None:
        book = self.course.book
        answers[it] = NO_GROUP
        groups = list(book.scopes) if it.group == OF_ALL else [it.group]
        scopes = [book.scopes[group] for group in groups if group in book.scopes]
        for scope in scopes:
            self.course.facts.cancel(base_of(scope.name), it.why)
        if it.group == OF_ALL and book.top:
            scopes.insert(0, book.top)
        for scope in scopes:
            batch.add(f"cancel {scope.name} {it.why}")
        for scope in scopes[:1]:
            batch.add(f"scope {scope.name}", partial(answers.__setitem__, it))

    def add_command(self, batch: Batch, it: Request, answers: dict[Request, str]) -> None:
        name, end = (it.group, it.key), canceled(it.why)
        if name in self.course.facts.busy:
            self.executor.cancel(name, end)
            return
        found = self.course.planner.standings(self.course.facts)[name]
        if not found.is_final:
            self.end(batch, name, end)
        elif found.phase == Phase.CANCELED:
            answers[it] = found.why
        else:
            answers[it] = REFUSED + found.at_its_end(name)

    def end(self, batch: Batch, name: Name, end: End) -> None:
        """Gives a command that doesn't run a task, which ends in the next round."""
        self.executor.own.never(name, end)
        self.course.facts.busy.add(name)
        self.starts.add(batch, name, self.starts.free_group(batch, name[0]))
        self.course.is_woken = True
