"""The lines of the log: of each task that has ended, once, and with its times if they are known."""

from __future__ import annotations

from collections.abc import Iterable, Iterator, Mapping

from . import Name
from .commands import Command
from .ends import INTERRUPTED, End
from .jobs import Jobs
from .leftovers import Leftovers
from .log import Line, Log, Tried, line_of
from .orders import Recorded


class Recorder:
    """Adds lines to the log for the ends that the store has."""

    def __init__(self, jobs: Jobs, log: Log, left: Leftovers) -> None:
        self.jobs, self.log, self.left = jobs, log, left

    def catch_up(self, its: Iterable[Recorded], commands: Mapping[Name, Command]) -> None:
        """Adds what the log lacks of these; the times are those of these commands, which are at
        hand."""
        self.log.add(self.lines(its, commands))

    def lines(self, its: Iterable[Recorded], commands: Mapping[Name, Command]) -> Iterator[
            tuple[Tried, Line]]:
        for it in its:
            if it.tried not in self.log.lines:
                yield it.tried, self.line(it, commands.get(it.name))

    def line(self, task: Recorded, it: Command | None) -> Line:
        """The line of a task, for which this command may be at hand. An interrupted one has its
        begin if the command lived on."""
        job, end = self.jobs.all.get(task.name), task.end
        text, is_own = job.command if job else "-", it is not None and it.number == task.task
        if end is INTERRUPTED:
            began = it.began or None if it and is_own else self.left.began(task.tried, self.log)
            return line_of(began, None, end, text)
        if it and is_own and it.took is not None:
            return line_of(it.began, it.took, end, it.text, it.used)
        return line_of(None, None, end, text)

    def ended(self, it: Command, end: End) -> None:
        """The end of a command is durable."""
        began = None if it.is_never or not it.began else it.began
        self.log.add(iter([((it.group, it.job.key, it.tried),
                            line_of(began, it.took, end, it.text, it.used))]))
