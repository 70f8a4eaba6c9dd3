"""The tasks with which commands begin: the lines that submit and start them, the groups of the
store that they are in, and the numbers of tries. It decides, and executes nothing (`orders`).
"""

from __future__ import annotations

from functools import partial

from . import Name
from .batches import Batch
from .course import Course
from .executor import Executor
from .orders import Task
from .state import JOB


class Starts:
    """The starts of a night's tasks."""

    def __init__(self, course: Course, executor: Executor) -> None:
        self.course, self.executor = course, executor

    def add(self, batch: Batch, name: Name, group: str = "") -> None:
        """The lines that submit and start a task for a command, in its group or in this one."""
        book = self.course.book
        base, key = name
        group = group or book.groups.get(base) or self.add_group(batch, base)
        last = book.last.get(name)
        is_retry = last is not None and last.group == group and last.phase == "interrupted" \
            and last.number not in book.retried
        if last is not None and is_retry:
            book.retried.add(last.number)
            batch.add(f"retry {last.number}", self.submitted)
        else:
            batch.add(f"go {group} {JOB} {key}", self.submitted)
        tried = book.tries[group, key]
        book.tries[group, key] += 1
        batch.add("start", partial(self.started, name, group, tried))

    def add_group(self, batch: Batch, base: str) -> str:
        """The lines that make a group of the store in a group's scope."""
        book, jobs = self.course.book, self.course.jobs
        scope = book.scopes[base].name
        is_taken = scope in book.limits or scope in self.course.past.groups() \
            or book.is_old(base, scope)
        group = book.next_name(base) if is_taken else scope
        limit = jobs.limit_in_store(base) if base in jobs.members else None
        book.groups[base], book.limits[group] = group, limit
        batch.add(f"bare {group} {scope}", self.submitted)
        if limit:
            batch.add(f"limit {group} {limit}")
        return group

    def free_group(self, batch: Batch, base: str) -> str:
        """A group of the store that is never at a limit; empty where the usual one has none."""
        book = self.course.book
        if not self.course.jobs.limit_in_store(base):
            return ""
        if base not in book.free:
            made = book.free[base] = book.next_name(base)
            book.limits[made] = None
            batch.add(f"bare {made} {book.scopes[base].name}", self.submitted)
        return book.free[base]

    def submitted(self, reply: str) -> None:
        self.course.capacity.submitted(reply)

    def started(self, name: Name, group: str, tried: int, reply: str) -> None:
        """A task has started: its command may begin. Or there was no place for it."""
        words = reply.split()
        if words[0] == "start":
            self.course.capacity.started()
            self.executor.own.bind(name, Task(int(words[1]), group, tried))
            return
        if self.executor.own.unbind(name):
            self.course.facts.busy.discard(name)
        self.course.capacity.is_full = True
