"""The loop: rounds over a store, in which what decides (`decider`) hears what executes (`executor`)
and gives it orders (`orders`). At every moment, and after any kill, these rules hold:

 1. A command begins only after the `acked` of its task's start.
 2. A place is free only once the end of the command that had it is acked, or its task is
    interrupted. So at most `-j` commands, and at most `limit` of a group, live or are unrecorded.
 3. Each round takes a bounded time, whatever the commands do: it records ends, moves the clock,
    obeys cancels, deadlines and timeouts, and begins at most as many commands as there are free
    places.
 4. No two tries of a key live at the same time. STORE.tries names those that live, and STORE.far
    those that may run elsewhere; no command can take a try out of either by closing a descriptor. A
    try counts as running until its group's `ask` knows that it is over.
 5. A command whose end was acked doesn't run again in its night. A try that was stopped, by a
    cancel, a deadline, a timeout or a signal of ours, is never ok, whatever its status.
 6. After a kill of the driver and of `night` no command runs again, because the shell that begins a
    command writes into STORE.tries how it ended. After a kill of such shells, too, or a crash of
    the machine, only commands whose end wasn't acked run again: at most `-j`, or twice that after
    two kills.
 7. A command that has ended has no process left in its session, unless it has `background keep`.
 8. A file that can't be read (a cancel, a log, the ends of a renewed store) ends no night: it is
    reported once and passed over, or the night doesn't begin.
 9. `--list`, `--report`, `--dry-run` and `--status` write nothing, lock nothing, and show one
    moment.
10. At its end, even after a fault, a run prints what the night did: how many commands ran now,
    which ended before, and which weren't started and why. The status is 0 only if every command of
    the file is ok.
11. While the store isn't in its place, no more commands are begun, and nothing new is made there.

1, 2, 3 and 11 are kept by `Driver.round` and `Decider.add_begins`, 4 and 6 by `leftovers`, `far`
and `Decider.look_for_leftovers`, 5 by `Command.end` and `facts`, 7 by `Command.poll`, 8 by
`cancels`, `log` and `past`, 9 by `views`, 10 by `summary` and `Decider.known`.
"""

from __future__ import annotations

import time

from . import Fault
from .batches import Batch
from .capacity import StoreFull
from .course import Course
from .decider import Decider
from .executor import IDLE, LINGER, Executor
from .files import Files
from .keeping import Keeper
from .leftovers import Leftovers
from .log import Log
from .night import NightEnded, NotStarted, SessionFull
from .obeying import Canceler
from .past import Past
from .planner import Planner
from .restarts import Restarts
from .sessions import Sessions
from .signals import Asked, Signals
from .starts import Starts
from .status_line import Line
from .taking import ScopesWanted, Taker
from .telling import progress
from .tries import Tries

# A run of `night` that doesn't answer has this many seconds once the driver is asked to stop.
HURRY = 3.0


class Driver:
    """Runs the commands of a file over a store, from what has ended to the end of the night."""

    def __init__(self, files: Files, planner: Planner, log: Log, past: Past, tries: Tries,
                 left: Leftovers, most: int, grace: float, signals: Signals,
                 keeper: Keeper) -> None:
        self.files, self.signals, self.asked = files, signals, Asked(signals)
        self.course = Course(files, planner, past, most)
        self.executor = Executor(files, planner.jobs, tries, left, log, grace)
        starts, restarts = Starts(self.course, self.executor), Restarts()
        self.canceler = Canceler(self.course, self.executor, starts)
        self.taker = Taker(self.course, self.executor)
        self.decider = Decider(self.course, self.executor, starts, self.taker, restarts,
                               self.asked)
        self.sessions = Sessions(self.course, self.executor, self.decider, restarts, keeper,
                                 signals, self.meanwhile)
        self.line = Line(files, planner.jobs)
        signals.raises = False
        planner.meanwhile = self.meanwhile

    # --- from the first round to the last

    def run(self) -> None:
        try:
            while self.asked.steps < 2 or self.executor.own.its:
                try:
                    self.sessions.open()
                    self.work()
                    self.sessions.close()
                    self.files.sight.look()
                    if self.course.missing:
                        raise Fault(self.course.missing)
                    return
                except (SessionFull, ScopesWanted):
                    self.sessions.end()
                except StoreFull:
                    self.sessions.give_back()
                except NightEnded as ended:
                    self.sessions.after(ended)
                except NotStarted as error:
                    self.decider.hold(error)
                    self.sessions.let_go()
                    self.signals.wait(IDLE)
                    self.meanwhile()
        finally:
            self.cut_off()
            self.sessions.let_go()
            progress.clear()

    def work(self) -> None:
        while True:
            self.round()
            if progress.is_on:
                progress.show(self.line.text(self.course, self.executor))
            if self.decider.is_over():
                return
            self.wait()

    def round(self) -> None:
        """Records ends, moves the clock, obeys cancels and deadlines, and begins what has a place:
        one batch, and one flush, for all of it; but where an operator wants something, what comes
        before that is acked first."""
        batch, decider, sessions = Batch(), self.decider, self.sessions
        self.drain()
        self.course.is_woken = False
        self.files.sight.look()
        decider.add_ends(batch)
        decider.look_for_leftovers(batch)
        answers = self.canceler.add(batch)
        decider.add_clock(batch)
        self.taker.take(batch, sessions.send)
        begun = decider.add_begins(batch)
        if batch.lines:
            sessions.send(batch)
        self.canceler.answer(answers)
        for name in begun:
            decider.begin(name, sessions.acked)
        decider.begin_those_held(sessions.acked)
        decider.stop_those_due()
        self.course.look_at_room()
        self.taker.look_for_scopes()

    def cut_off(self) -> None:
        """Stops what still runs as the driver ends by a fault; what an earlier one left, only where
        a signal asks for that."""
        is_asked, self.asked.is_cut_off = self.asked.steps > 1, True
        left = self.executor.left
        left.its = left.its if is_asked else []
        while True:
            for it in self.executor.own.given_up():
                self.course.facts.take_back(it.name)  # (its end isn't acked)
                self.decider.cut_off(it)
            if self.executor.is_cut_off():
                return
            self.decider.stop_those_due()
            time.sleep(LINGER)

    # --- between two rounds, and while `night` is waited for

    def wait(self) -> None:
        """Sleeps until a command ends, a signal comes, the next thing is due, or a second."""
        if self.course.is_woken:
            return
        seconds, now = self.executor.patience(), time.time()
        for it in self.decider.moments():
            seconds = min(seconds, max(0.0, it - now))
        self.signals.wait(seconds)

    def drain(self) -> None:
        self.course.is_woken |= self.signals.drain()

    def meanwhile(self) -> float:
        """What goes on while `night` is waited for: commands are stopped that are due. How many
        seconds it has in all."""
        self.drain()
        self.decider.stop_those_due()
        return HURRY if self.asked.steps > 1 else 1e9
