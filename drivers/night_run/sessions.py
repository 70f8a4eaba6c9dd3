"""The runs of `night script` of a driver, one after another, over one store: how each is opened,
how it ends, and whether another one follows. As one is opened, what the store has of the night is
read, scopes are made for what is left to do, and commands that run on get tasks again. A store that
is full is renewed between two of them. It decides, and executes nothing (`orders`).
"""

from __future__ import annotations

import contextlib
import time
from collections.abc import Callable

from . import Fault
from .batches import Batch
from .beside import Part
from .counted import Counted
from .course import Course
from .decider import Decider
from .executor import Executor
from .facts import book_of, facts_of, groups_of, recorded_in
from .keeping import Keeper
from .night import FULL, NightEnded, Session
from .nights import know_day
from .opening import advance, ready_state, set_limits, withdraw, withdrawn
from .renewal import renew
from .restarts import Restarts
from .rounds import Role, role_name
from .scoping import Scopes
from .signals import Signals
from .state import ENDED, State
from .telling import note, tell


class Sessions:
    """The sessions of a driver; `session` is the last one."""

    session: Session | None = None

    def __init__(self, course: Course, executor: Executor, decider: Decider, restarts: Restarts,
                 keeper: Keeper, signals: Signals, meanwhile: Callable[[], float]) -> None:
        self.course, self.executor, self.decider = course, executor, decider
        self.restarts, self.keeper = restarts, keeper
        self.signals, self.meanwhile = signals, meanwhile
        self.files = course.files
        self.before: State | None = None  # the state that was read before the next opening
        self.acked = 0  # how many events are durable

    # --- the opening

    def open(self) -> None:
        """Opens a session, and brings the store to what the file of commands asks for."""
        course = self.course
        session, state = self.opened()
        self.decider.deadlines.clock = state.clock
        advance(session, int(time.time()))
        withdraw(session, state)
        state = withdrawn(state)
        self.executor.catch_up(recorded_in(state, course.night))
        self.take_in(session, state)
        if Scopes(course, self.executor, self.keeper, session, state).make():
            course.night, course.begins_night = course.book.night, False
            course.reopened.clear()
            self.decider.taker.tidy()
        set_limits(session, course.book, course.jobs, list(course.book.groups))
        self.cancel_groups()
        self.rebind()

    def opened(self) -> tuple[Session, State]:
        """A session that has the store, and the state of that."""
        self.restarts.begin()
        if self.files.stat(Part.FAILED) is not None:
            self.files.sight.let_go()  # (`night` puts a copy in the store's place)
        before, self.before = self.before, None
        session = self.session = Session(self.files.path, self.signals.wake, self.meanwhile,
                                         lambda: self.decider.asked.steps)
        self.executor.sign_night(session.it.pid)
        state = ready_state(session, self.files, before)
        self.files.sight.keep()
        self.restarts.open()
        return session, state

    def take_in(self, session: Session, state: State) -> None:
        """Takes in what the store says of this night, also ends whose reply didn't come."""
        course, executor = self.course, self.executor
        tasks = executor.own.reopen()
        course.book = book_of(state, course.past, course.night + course.begins_night)
        know_day(self.files, course.book, course.jobs)
        course.jobs.limits = course.book.tonight.limits
        last = course.book.last
        for name, task in tasks.items():
            if name in last and last[name].phase in ENDED and task == last[name].number:
                self.decider.recorded(name, task)
        course.facts = facts_of(state, course.past, executor.log.lines, course.book, time.time(),
                                course.forgiven)
        if not course.has_looked:
            ours = set() if course.begins_night else groups_of(
                state, course.past, course.book.night)
            executor.left.take_up(
                executor.own.far, Counted(state, course.past, ours, course.again),
                executor.own.inherited)
        course.facts.busy = executor.living()
        course.reopened |= course.facts.reopened
        top = course.book.top
        course.has_mark = bool(top and role_name(top.name, Role.ENDED) in state.by_name)
        course.has_looked = True
        self.decider.deadlines.ask(session, course.book, course.facts)

    def cancel_groups(self) -> None:
        """Cancels the groups that an earlier failure cancels: a kill may have come between the
        two."""
        batch = Batch()
        for name, end in list(self.course.facts.ends.items()):
            self.decider.cancel_after(batch, name, end)
        if batch.lines:
            batch.send(self.running())

    def rebind(self) -> None:
        """Gives each command that runs on, or whose end isn't recorded, a running task again."""
        batch = Batch()
        for name in self.executor.own.without_task():
            self.decider.starts.add(batch, name)
        self.send(batch)
        self.course.look_at_room()

    # --- while it runs

    def running(self) -> Session:
        assert self.session
        return self.session

    def send(self, batch: Batch) -> None:
        """Sends lines; all events so far are durable then."""
        self.acked = batch.send(self.running())

    # --- its end, and the next one

    def close(self) -> None:
        """Ends the session, with a mark where the whole night has ended."""
        course, session = self.course, self.running()
        top = course.book.top
        found = course.planner.standings(course.facts)
        if top and all(it.is_final for it in found.values()) and not course.has_mark:
            when = time.strftime("%Y-%m-%dT%H:%M:%S%z")
            mark = role_name(top.name, Role.ENDED)
            session.ask([f"derive {mark} {top.name} value ended {when}"], may=[4, *FULL])
        session.close()
        if all(it.is_final for it in found.values()):
            self.decider.taker.close()

    def end(self) -> None:
        """Ends the session, since another one follows."""
        with contextlib.suppress(NightEnded):
            self.running().close()

    def let_go(self) -> None:
        """Ends a session that a fault left: it has the store's lock."""
        if self.session:
            self.session.abandon()
        self.executor.log.write("")  # (what it had no room for)

    def after(self, ended: NightEnded) -> None:
        """Decides whether another run of `night` is begun."""
        self.files.sight.look()
        if self.decider.asked.steps > 1 or self.course.missing:
            raise Fault(self.course.missing or str(ended))
        self.files.forget_pages()
        if self.restarts.is_waiting(ended):
            self.meanwhile()
            time.sleep(0.1)
            return
        if not self.restarts.may_begin(ended, self.files.is_marked()):
            raise ended
        note(f"{ended}; it is started again")

    def give_back(self) -> None:
        """Renews the store in the midst of a night. The commands run on meanwhile."""
        self.end()
        course, capacity = self.course, self.course.capacity
        if not capacity.cannot_renew and not capacity.is_fruitless:
            self.files.sight.let_go()
            course.past, is_renewed = renew(
                self.files, self.executor.log, course.past, course.planner, self.signals.wake,
                self.meanwhile, self.executor.catch_up)
            capacity.renewed()
            if is_renewed:
                return
        if not capacity.cannot_renew:
            tell(f"{self.files.shown} is full: no more commands are started; run this again")
        capacity.give_up()
