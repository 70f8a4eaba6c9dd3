"""A session, made ready for the loop: the store as the file of commands wants it.

Tasks are submitted only when they are started. So a task that is ready in a store comes from a
driver that was killed between the two requests, or from an older driver. Such a task is withdrawn
(started, and ended with an error that doesn't count), because a start would take it before all
others.
"""

from __future__ import annotations

import time
from collections.abc import Callable, Iterable
from dataclasses import replace

from . import Fault
from .capacity import StoreFull
from .ends import WITHDRAWN
from .facts import Book
from .files import Files
from .jobs import Jobs
from .night import (ALREADY_DONE, CLOCK_NOT_FORWARD, FULL, LIMIT_WHILE_ACTIVE, NO_SUCH_SCOPE,
                    MOST_BUSY, NOTHING_READY, WAITED, NightEnded, Session, ran, refusal)
from .rounds import Role, Round, base_of, named, role_name
from .settings import OF_ALL, Deadline
from .state import FRESH, JOB, Scope, State, read_state


def inspected(files: Files) -> State:
    """The state of the store, as far as it can be read."""
    return read_state(ran("inspect", "--json", files.path), "night")


def check(files: Files, state: State, events: int) -> None:
    """Only tasks of a driver may be in the store, because a driver would start any others, too."""
    if state.count < events:
        raise Fault(f"{files.shown}.ended belongs to another store: move it away")
    for it in state.tasks:
        if it.job != JOB:
            raise Fault(f"{files.shown} has a task of another kind: {it.number}, {it.job}:"
                        " give night-run a store of its own")


def opened(files: Files, before: State | None, wake: int,
           meanwhile: Callable[[], float]) -> tuple[Session, State]:
    """A session that is open, and its state. While another program has the store, such as one that
    reads it for a moment, the opening is tried again."""
    for left in reversed(range(MOST_BUSY)):
        session = Session(files.path, wake, meanwhile)
        try:
            return session, ready_state(session, files, before)
        except NightEnded as ended:
            if not ended.is_in_use() or not left:
                raise
        except BaseException:
            session.abandon()
            raise
        meanwhile()
        time.sleep(0.1)
    raise AssertionError


def ready_state(session: Session, files: Files, before: State | None) -> State:
    """The state once the session is open. The state that was read before serves if nothing came
    between the two: the opening is one event."""
    reply = session.ask(["flush"])[0]
    if before and reply == f"acked {before.count + 1}":
        return before.reopened()
    return inspected(files)


def withdraw(session: Session, state: State) -> None:
    """Ends all tasks that are ready or held, without beginning their commands."""
    left = sum(it.phase in FRESH for it in state.tasks)
    while left:
        count = min(8, left)
        replies = session.ask(["start"] * count, may=[NOTHING_READY])
        numbers = [it.split()[1] for it in replies if it.startswith("start ")]
        if not numbers:
            raise Fault(f"{left} tasks of the store can't be started: a group has the limit 0")
        session.ask([f"finish {it} {WITHDRAWN.words}" for it in numbers])
        left -= len(numbers)


def withdrawn(state: State) -> State:
    """The state after the tasks that were ready or held are withdrawn."""
    tasks = tuple(replace(it, phase="error", error=WITHDRAWN.text) if it.phase in FRESH else it
                  for it in state.tasks)
    return replace(state, tasks=tasks)


def now_of(state: State) -> int:
    """The moment from which a deadline counts. The store's clock never steps back."""
    return max(int(time.time()), state.clock)


class Maker:
    """Makes the scopes that the groups of the file need, in one batch of lines."""

    def __init__(self, session: Session, book: Book, jobs: Jobs, state: State) -> None:
        self.session, self.book, self.jobs = session, book, jobs
        self.now = now_of(state)
        self.state = state
        self.lines: list[str] = []
        self.number = len(state.scopes)

    def top(self) -> None:
        """Makes the scope of all groups together, if it isn't there, is done, or has another
        deadline now."""
        book = self.book
        if book.top and not self.is_done(book.top) and not self.is_other(book.top, OF_ALL):
            return
        greatest = max([book.round, *book.rounds.values()])
        if book.is_new:
            book.round = Round(greatest.number + 1)
        elif book.rounds:
            book.round = greatest.next()
        book.rounds[OF_ALL], book.is_new = book.round, False
        name = named(OF_ALL, book.round)
        book.top = self.scope(name, "root", OF_ALL)
        if book.night > 1:
            self.derive(role_name(name, Role.ROUND), name, f"value {OF_ALL} {book.night}")
        if book.day:
            self.derive(role_name(name, Role.DAY), name, f"value day {book.day.isoformat()}")

    def below(self) -> str:
        """The scope below which the groups' scopes are made."""
        top = self.book.top
        assert top
        return role_name(top.name, Role.ROUND) if self.book.night > 1 else top.name

    def group(self, base: str) -> None:
        """Makes the scope of a group."""
        name = self.book.next_name(base)
        scope = self.book.scopes[base] = self.scope(name, self.below(), base)
        own, of_all = (str(its.deadline) if its and its.deadline else None for its in (
            self.jobs.groups.get(base), self.jobs.groups[OF_ALL]))
        self.book.set_deadline(base, scope, own, of_all)
        self.book.gone.pop(base, None)
        self.book.groups.pop(base, None)

    def scope(self, name: str, parent: str, base: str) -> Scope:
        """A scope that can be canceled with a cause. If it has a deadline, it lies below a scope
        with that."""
        deadline = self.jobs.groups[base].deadline if base in self.jobs.groups else None
        moment = self.book.top.deadline if self.book.top and base != OF_ALL else None
        if deadline:
            own = deadline.moment(self.now)
            moment = own if moment is None else min(own, moment)
            above = role_name(name, Role.UNTIL)
            self.derive(above, parent, f"deadline {own} {deadline}")
            parent = above
        number = self.derive(name, parent, "cause")
        if deadline:
            self.derive(role_name(name, Role.SAID), name, f"value deadline {deadline}")
        return Scope(number, name, None, "cause", None, None, moment, False, None)

    def derive(self, name: str, parent: str, kind: str) -> int:
        self.lines.append(f"derive {name} {parent} {kind}")
        self.number += 1
        return self.number - 1

    def is_done(self, scope: Scope) -> bool:
        return scope.done or scope.deadline is not None and scope.deadline <= self.now

    def is_other(self, scope: Scope, base: str) -> bool:
        """Whether the file now has another deadline for a scope than the scope was made with."""
        wanted = self.jobs.groups[base].deadline if base in self.jobs.groups else None
        return deadline_changed(self.state, scope, wanted)

    def send(self) -> None:
        # (below a scope that has no place there is none)
        replies = self.session.ask([*self.lines, "flush"], may=[NO_SUCH_SCOPE, *FULL])
        self.lines = []
        if any(refusal(it) for it in replies):
            raise StoreFull


def deadline_changed(state: State, scope: Scope, wanted: Deadline | None) -> bool:
    if scope.name not in state.by_name:
        return False
    written = state.deadline_words(scope.name)
    if written is None and state.has_own_deadline(scope.number):
        # (of an older driver, which didn't keep the words)
        return wanted is None
    return (str(wanted) if wanted else None) != written


def set_limits(session: Session, book: Book, jobs: Jobs, bases: Iterable[str]) -> None:
    """Sets the limits of open groups that differ from the file. (The driver itself begins no more
    commands than the file says, so it doesn't matter if a limit can't be set now.)"""
    lines = []
    for base in bases:
        group = book.groups.get(base)
        if group and base in jobs.members and book.limits.get(group) != jobs.limit_in_store(base):
            lines.append(f"limit {group} {jobs.limit_in_store(base) or 'none'}")
            book.limits[group] = jobs.limit_in_store(base)
    session.ask(lines, may=[LIMIT_WHILE_ACTIVE, WAITED])


def advance(session: Session, now: int) -> None:
    """Moves the clock. A clock that is ahead stays where it is."""
    session.ask([f"advance {now}"], may=[CLOCK_NOT_FORWARD])


def give_back(session: Session, state: State, night: int, needed: Iterable[str]) -> None:
    """The lines after which a renewal drops all groups, and the scopes of earlier nights and of
    groups that have nothing left to do. Groups that are needed are named."""
    withdraw(session, state)
    lines = [f"wait {it.name}" for it in state.groups if not it.waited]
    gone = [it.name for it in state.tops(1, night - 1)]
    gone += [it.name for it in state.scopes if it.kind == "cause" and base_of(it.name) != OF_ALL
             and base_of(it.name) not in needed and state.night_of(it.number) == night]
    for name in gone:
        lines += [f"cancel {it}" for it in (role_name(name, Role.UNTIL), name)
                  if it in state.by_name]
    session.ask([*lines, "flush"], may=[ALREADY_DONE])
