"""The facts of a night so far: how each command ended in it, and which groups are done."""

from __future__ import annotations

import collections
import datetime
import re
import time
from collections.abc import Iterator, Mapping
from dataclasses import dataclass, field, replace

from . import Name
from .ends import End, Kind, canceled
from .log import Line, Tried
from .orders import Recorded
from .past import Past
from .rounds import Round, base_of, named, round_of
from .settings import OF_ALL
from .state import ENDED, Scope, State, Task
from .tonight import Tonight

PASSED = "its deadline has passed"
# A command that has failed this often has no retry left, whatever the file allows.
MOST_FAILURES = 1000
# The cause of a group whose deadline has passed; that of one that was canceled is another.
OF_DEADLINE = re.compile(rf"(until|within) \S+$|{PASSED}$")


@dataclass
class Facts:
    """Of one night. A command that isn't in `ends` hasn't ended in it."""

    ends: dict[Name, End] = field(default_factory=dict)
    failures: dict[Name, int] = field(default_factory=dict)
    failed_at: dict[Name, float] = field(default_factory=dict)
    interrupted: set[Name] = field(default_factory=set)
    done: dict[str, str] = field(default_factory=dict)  # groups, with the cause
    busy: set[Name] = field(default_factory=set)  # those that live, or whose end isn't recorded
    changed: set[Name] = field(default_factory=set)  # whose ends did since a planner got them
    day: datetime.date | None = None  # of the night; None if it makes no difference
    tonight: Tonight = field(default_factory=Tonight)  # what is wanted of the night
    reopened: set[str] = field(default_factory=set)  # groups that were done, and begin again
    late: set[str] = field(default_factory=set)  # whose deadline passed after the night's end

    def ended(self, name: Name, end: End, now: float) -> None:
        """Takes in the end of a command."""
        self.interrupted.discard(name)
        self.changed.add(name)
        self.ends[name] = end
        if not end.is_ok:
            self.failures[name] = self.failures.get(name, 0) + 1
            self.failed_at[name] = now

    def cut_off(self, name: Name) -> None:
        """Takes in that a command was interrupted."""
        self.interrupted.add(name)
        self.changed.add(name)

    def take_back(self, name: Name) -> None:
        """The end of a command was taken in, and doesn't count."""
        self.ends.pop(name, None)
        self.changed.add(name)

    def forget(self, name: Name) -> None:
        """Nothing of a command counts any more: it runs again."""
        self.ends.pop(name, None)
        self.failures.pop(name, None)
        self.failed_at.pop(name, None)
        self.interrupted.discard(name)
        self.changed.add(name)

    def stay_canceled(self, causes: Mapping[Name, str], now: float) -> None:
        """Commands stay canceled whose group begins again. One that had failed, with a retry left,
        isn't tried again."""
        for name, cause in causes.items():
            if name not in self.ends:
                self.ends[name], self.failed_at[name] = canceled(cause), now
            elif not self.is_ok(name):
                self.failures[name] = max(MOST_FAILURES, self.failures.get(name, 0))
            self.changed.add(name)

    def left_out(self, name: Name) -> str:
        """By whom a command isn't to be begun any more; empty where it may be."""
        return self.tonight.left_out(name)

    def is_left_out(self, name: Name) -> bool:
        """Whether a command never ran to an end, because it is left out."""
        by, end = self.left_out(name), self.ends.get(name)
        return bool(by) and (end is None or end == canceled(by))

    def is_ok(self, name: Name) -> bool:
        return name in self.ends and self.ends[name].is_ok

    def cancel(self, group: str, cause: str) -> None:
        self.done.setdefault(group, cause)

    def at_its_end(self) -> list[Facts]:
        """The facts without the deadlines that passed after the night's end, if there are such."""
        done = {group: why for group, why in self.done.items() if group not in self.late}
        return [replace(self, done=done, changed=set())] if len(done) < len(self.done) else []


@dataclass
class Book:
    """Where the commands of a night stand in the store, as a session makes it."""

    night: int
    round: Round  # of new names, at least
    top: Scope | None = None  # of all groups together
    scopes: dict[str, Scope] = field(default_factory=dict)  # of each group, its last one
    gone: dict[str, str] = field(default_factory=dict)  # groups whose scope was done and is gone
    groups: dict[str, str] = field(default_factory=dict)  # the store's group of each, if it is open
    limits: dict[str, int | None] = field(default_factory=dict)  # of the store's groups
    rounds: dict[str, Round] = field(default_factory=dict)  # the greatest one of each group
    is_new: bool = False  # whether nothing of it is in the store yet
    free: dict[str, str] = field(default_factory=dict)  # the same for a group without a limit
    tries: collections.Counter[tuple[str, str]] = field(default_factory=collections.Counter)
    deadlines: dict[str, str] = field(default_factory=dict)  # as the file has them
    last: dict[Name, Task] = field(default_factory=dict)
    day: datetime.date | None = None  # on which the night began, as far as it is known
    retried: set[int] = field(default_factory=set)
    tonight: Tonight = field(default_factory=Tonight)  # what is wanted of the night
    ended: float | None = None  # when it ended first, if it has

    def set_deadline(self, base: str, scope: Scope, own: str | None, of_all: str | None) -> None:
        """Keeps which deadline a group is stopped by: at one moment that of all groups together
        comes first."""
        is_of_all = self.top is not None and self.top.deadline == scope.deadline
        self.deadlines[base] = (of_all if is_of_all else own) or PASSED

    def next_name(self, base: str) -> str:
        """A name for a new scope or group, which nothing had before."""
        made = self.rounds[base] = self.next_round(base)
        return named(base, made)

    def next_round(self, base: str) -> Round:
        """The round of that name."""
        had = self.rounds.get(base)
        return had.next() if had and had >= self.round else self.round

    def close_old(self) -> None:
        """A command that is to run again has its new tries in another group of the store: no
        group is open that is older."""
        for its in (self.groups, self.free):
            for base in [it for it, name in its.items() if self.is_old(it, name)]:
                del its[base]

    def is_old(self, base: str, name: str) -> bool:
        """Whether a group of the store is older than what has to run again."""
        since = [it.since for (group, _), it in self.tonight.redo.items() if group == base]
        return bool(since) and round_of(name) < max(since)


def groups_of(state: State, past: Past, night: int) -> set[str]:
    """The names that the store's groups of a night have, or had before a renewal."""
    its = {it.name for it in state.groups if state.night_of(it.scope) == night}
    return its | past.groups() | set(past.done) if past.night == night else its


def book_of(state: State, past: Past, night: int) -> Book:
    """The book of a night, by what the store has."""
    rounds: dict[str, Round] = {}
    for base, its in [*state.rounds(), *past.rounds()]:
        rounds[base] = max(rounds.get(base, its), its)
    if past.round:
        rounds[OF_ALL] = max(rounds.get(OF_ALL, Round()), Round(past.round))
    tops = state.tops(night, night)
    book = Book(night, round_of(tops[-1].name) if tops else Round(max(past.round, 1)),
                rounds=rounds, is_new=night > max(state.night() if state.scopes else 1, past.night))
    book.top = tops[-1] if tops else None
    book.day = next((day for it in tops if (day := state.day(it.name))), None)
    book.ended = min((when for it in tops if (when := state.ended(it.name))), default=None)
    below = {it.number for it in state.scopes if state.night_of(it.number) == night}
    for scope in state.scopes:
        if scope.number in below and scope.kind == "cause" and base_of(scope.name) != OF_ALL:
            book.scopes[base_of(scope.name)] = scope
    of_all = state.deadline_words(book.top.name) if book.top else None
    for base, scope in book.scopes.items():
        book.set_deadline(base, scope, state.deadline_words(scope.name), of_all)
    last = {it.number: base for base, it in book.scopes.items()}
    for group in state.groups:
        book.limits[group.name] = group.limit
        if group.scope in last and not group.waited:
            book.groups[last[group.scope]] = group.name
    ours = {it.name for it in state.groups if it.scope in below}
    for task in state.tasks:
        book.tries[task.group, task.key] += 1
        if task.group in ours and not task.is_withdrawn:
            book.last[task.name] = task
        if task.retry_of is not None:
            book.retried.add(task.retry_of)
    if past.night == night:
        book.gone = {base_of(it): cause for it, cause in past.done.items()
                     if base_of(it) not in book.scopes}
    book.tonight = past.notes.of(night)
    book.close_old()
    return book


def numbered(state: State) -> Iterator[tuple[Task, Tried]]:
    """Each task, with which try of its key in its group it is."""
    counts: collections.Counter[tuple[str, str]] = collections.Counter()
    for it in state.tasks:
        yield it, (it.group, it.key, counts[it.group, it.key])
        counts[it.group, it.key] += 1


def ended_in(state: State, night: int) -> Iterator[tuple[Task, Tried]]:
    """The tasks of a night that have ended, each with which try it is."""
    ours = state.groups_of(night)
    return ((task, tried) for task, tried in numbered(state)
            if task.end and task.group in ours and not task.is_withdrawn)


def recorded_in(state: State, night: int) -> Iterator[Recorded]:
    """The same as the log needs them."""
    return (Recorded(task.name, task.number, tried, task.end)
            for task, tried in ended_in(state, night) if task.end)


def logged_groups(state: State, past: Past) -> set[str]:
    """The groups whose lines in the log say something of what the store and its ends have."""
    return {it.name for it in state.groups} | {it for it, _, _ in past.ends} | set(past.had)


def facts_of(state: State, past: Past, lines: Mapping[Tried, Line], book: Book, now: float,
             forgiven: Mapping[Name, int]) -> Facts:
    """What a night has so far. Failures of a command that are forgiven don't count."""
    facts = Facts(day=book.day, tonight=book.tonight)
    if past.night == book.night:
        read_past_ends(facts, past, lines, now)
    ours = state.groups_of(book.night)
    for task, tried in numbered(state):
        if task.group in ours and not task.is_withdrawn and counts(facts, task.name, task.group):
            read_task(facts, task, lines.get(tried), now)
    facts.stay_canceled(book.tonight.canceled, now)
    for name, count in forgiven.items():
        left = facts.failures.get(name, 0) - count
        facts.failures[name] = max(0, left)
        if left <= 0 and not facts.is_ok(name):
            facts.ends.pop(name, None)
    read_done(facts, book, max(state.clock, now))
    facts.reopened = reopened_groups(book, facts)
    for group in facts.reopened:
        del facts.done[group]
    facts.late -= facts.reopened
    return facts


def reopened_groups(book: Book, facts: Facts) -> set[str]:
    """The groups that were done as a command of them was to run again: they get another scope,
    unless they have it already. One whose deadline has passed since then is done."""
    found = set()
    for (group, _), it in facts.tonight.redo.items():
        scope = book.scopes.get(group)
        is_old = scope is None or round_of(scope.name) < it.since
        if it.is_reopened and is_old and group in facts.done:
            found.add(group)
    return found


def counts(facts: Facts, name: Name, group: str) -> bool:
    """Whether an end in a group of the store counts: not if the command runs again since then."""
    again = facts.tonight.redo.get(name)
    return again is None or round_of(group) >= again.since


def read_past_ends(facts: Facts, past: Past, lines: Mapping[Tried, Line], now: float) -> None:
    """What the ends of a renewed store say, and how often a command had failed; of an older
    driver's the log says that."""
    failed = collections.Counter((group, key) for (group, key, _), line in lines.items()
                                 if line.end.kind not in (Kind.OK, Kind.INTERRUPTED))
    for group, key, end in past.ends:
        name = base_of(group), key
        if not counts(facts, name, group):
            continue
        facts.ended(name, end, now)
        if not end.is_ok:
            facts.failures[name] = max(1, failed[group, key])
    # (also of one that was interrupted then, in another try)
    last = dict(sorted(past.rounds(), key=lambda it: it[1]))
    facts.failures.update({
        name: count for name, count in past.failures.items()
        if name not in facts.tonight.redo or name[0] in last
        and last[name[0]] >= facts.tonight.redo[name].since})


def read_task(facts: Facts, task: Task, line: Line | None, now: float) -> None:
    if task.end and task.phase in ENDED:
        when = line.ended_at() if line and task.error else None
        late = 0 if line and line.is_exact else 1
        facts.ended(task.name, task.end, now if when is None else min(now, when + late))
    else:
        facts.ends.pop(task.name, None)
        facts.interrupted.add(task.name)


def read_done(facts: Facts, book: Book, now: float) -> None:
    """Which groups are done, those whose deadline has passed by now among them."""
    facts.done.update(book.gone)
    for base, scope in book.scopes.items():
        has_passed = scope.deadline is not None and scope.deadline <= now
        if scope.done:
            facts.cancel(base, scope.cause or "")
        elif has_passed:
            facts.cancel(base, book.deadlines.get(base, PASSED))
        if has_passed and is_late(scope, facts.done[base], book):
            facts.late.add(base)


def is_late(scope: Scope, cause: str, book: Book) -> bool:
    """Whether a deadline passed only after the end of its night, and so changes nothing."""
    return (scope.deadline is not None and book.ended is not None
            and scope.deadline > book.ended and bool(OF_DEADLINE.match(cause)))


def when_ended(facts: Facts, lines: Mapping[Tried, Line], names: set[Name]) -> str:
    """When the last of these commands ended, as the log says, in this machine's zone; or ''."""
    moments = [it.ended_at() for (group, key, _), it in lines.items()
               if (base_of(group), key) in names and it.began != "-"]
    last = max((it for it in moments if it is not None), default=None)
    return "" if last is None else time.strftime("%Y-%m-%d %H:%M", time.localtime(last))
