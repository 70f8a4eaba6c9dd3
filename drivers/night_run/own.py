"""The commands of this driver: those that are to begin, those that run, and those that have ended
and whose ends aren't durable yet. It executes, and decides nothing (`orders`).
"""

from __future__ import annotations

import contextlib
import os
from collections.abc import Iterator

from . import Name
from .beginnings import Beginning, NotNow
from .commands import Command
from .ends import INTERRUPTED, End
from .far import Far
from .files import Files
from .holding import Holding
from .jobs import Jobs
from .leftovers import Leftovers
from .orders import Ended, Task
from .processes import session_lives
from .recording import Recorder
from .telling import tell
from .tries import Tries


class OwnCommands:
    """The commands, by their names: at most one try of each."""

    def __init__(self, files: Files, jobs: Jobs, tries: Tries, left: Leftovers, recorder: Recorder,
                 grace: float) -> None:
        self.files, self.jobs, self.tries = files, jobs, tries
        self.left, self.recorder, self.grace = left, recorder, grace
        self.far, self.holding = Far(files), Holding()
        self.its: dict[Name, Command] = {}
        self.replaced: dict[int, Command] = {}  # by tasks: another try came before this was durable
        self.ran: dict[Name, Command] = {}  # those whose end is durable
        self.inherited = dict(os.environ)

    # --- before they begin

    def expect(self, name: Name) -> None:
        """A command is to begin, once it is bound to a task."""
        self.its[name] = Command(self.jobs.all[name], "", 0, -1, "")

    def never(self, name: Name, end: End) -> None:
        """A command ends so without having begun, but with a task."""
        command = self.its.get(name)
        if command is None or command.has_begun:
            if command:
                self.replaced[command.number] = command
            self.expect(name)
        self.its[name].never(end)

    def bind(self, name: Name, task: Task) -> None:
        """A command has this task from now on; if it runs, its output gets the name of that."""
        command = self.its[name]
        output = self.files.outputs.name(task.group, command.job.key, task.tried)
        if command.output and command.output != output:
            with contextlib.suppress(OSError):
                self.files.outputs.move(command.output, output)
        command.group, command.tried, command.output = task.group, task.tried, output
        command.number = task.number

    def unbind(self, name: Name) -> bool:
        """A command gets no task. One that hasn't begun is dropped, and whether it is."""
        command = self.its[name]
        command.number = -1
        if not command.has_begun:
            self.drop(name)
        return name not in self.its

    def drop(self, name: Name) -> None:
        """A command that was to begin doesn't; its task is interrupted by the next opening."""
        self.its.pop(name, None)

    def begin(self, name: Name, events: int) -> bool:
        """Begins a command whose task's start is durable, in a store that has this many events;
        where the system has no room for it, later. Whether it has ended already, since it can't be
        begun at all."""
        command = self.its.get(name)
        if command is None or command.number < 0 or command.has_begun:
            return False
        try:
            Beginning(command, self.tries, self.far).begin(events, self.inherited)
            self.holding.has_begun()
        except NotNow as why:
            self.holding.hold(str(why))
        return bool(command.failure)

    def unbegun(self) -> list[Name]:
        """Those that are yet to begin."""
        return [name for name, it in self.its.items() if not it.has_begun]

    def may_retry(self) -> bool:
        """Whether it is time to begin those for which the system had no room."""
        for it in self.its.values():
            if it.put_off:
                self.holding.hold(it.put_off)
                it.put_off = ""
        return self.holding.is_over()

    # --- once they have ended

    def ended(self) -> Iterator[Ended]:
        """Those that are over by now, one after another. They stay at hand until their ends are
        durable, but for those that were cut off."""
        for command in list(self.its.values()):
            if command.poll(self.grace):
                end = command.end()
                if end is None or command.number < 0:
                    yield self.forget(command)
                else:
                    yield Ended(command.name, command.number, end, self.left.keep(command))

    def forget(self, command: Command) -> Ended:
        """A command was cut off: the next opening interrupts its task."""
        del self.its[command.name]
        if command.end() is None:
            self.put_aside(command)
        may_run = self.left.keep(command)
        tell(f"{command.name[0]} {command.name[1]}: interrupted")
        return Ended(command.name, command.number, None, may_run)

    def given_up(self) -> Iterator[Ended]:
        """Those that are over by now, as the driver ends by a fault: no end of them is recorded."""
        for it in [it for it in self.its.values() if it.poll(self.grace)]:
            yield self.forget(it)
        self.its = {name: it for name, it in self.its.items() if it.has_begun}

    def durable(self, name: Name, task: int) -> End:
        """The end of a task is durable: it is logged, and the command isn't at hand any more."""
        command = self.its.get(name)
        if command is not None and command.number == task:
            del self.its[name]
        else:
            command = self.replaced.pop(task)
        self.put_aside(command)
        if not command.is_never:
            self.ran[name] = command
        end = command.end() or INTERRUPTED
        self.recorder.ended(command, end)
        return end

    def put_aside(self, command: Command) -> None:
        """The file of a try says nothing any more, unless something of it is left that may not
        be."""
        may_be = command.may_leave or not command.pid or command.is_clear \
            or not session_lives(command.pid)
        if command.record and may_be:
            self.tries.forget(command.record)

    # --- another session

    def reopen(self) -> dict[Name, int]:
        """Another session begins: what hasn't begun is dropped. The others, with their tasks in the
        last session."""
        self.replaced.clear()
        self.its = {name: it for name, it in self.its.items()
                    if it.has_begun and not it.is_never}
        return {name: it.number for name, it in self.its.items()}

    def without_task(self) -> list[Name]:
        """Those that need a task in a new session: they run on, or have an end that isn't durable.
        (One that was cut off has none.)"""
        return [name for name, it in self.its.items()
                if it.end() is not None or it.status is None]
