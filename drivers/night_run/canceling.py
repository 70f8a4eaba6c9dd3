"""What `--cancel` does. If a driver is active, it is asked to cancel (`cancels`); otherwise the
cancel is done here. A driver that has no session yet does it in the same way.

A group, or all groups together, is a scope of the store, and that scope is canceled. A command has
no scope: a task of it is made, and ends as canceled before it begins. `--failed` runs again
whatever was canceled in either way.
"""

from __future__ import annotations

import contextlib
import errno
import os
import re
import time
from collections.abc import Callable, Iterator
from dataclasses import dataclass

from . import Fault, Mistake, Name, cancels
from .ends import canceled, text_of
from .facts import book_of, facts_of
from .files import Files
from .guesses import no_command, no_group
from .jobs import Jobs
from .night import ALREADY_DONE, FULL, NightEnded, Session, refusal
from .opening import advance, inspected, now_of, opened, withdraw
from .parsing import check_group, check_key
from .past import read_past
from .phases import Phase
from .planner import Planner
from .reading import Wrong, short
from .rounds import Role, base_of, role_name
from .settings import OF_ALL
from .state import JOB
from .status_plan import names_of_plan
from .strangers import keep_out
from .telling import error_text, note
from .tries import running_now

BY_HAND = "by hand"
# How many seconds a driver has to obey.
SECONDS = 60.0
LOOK = 0.05
# The state of a scope that is done, as the store shows it.
DONE = re.compile(r"done; deadline \S+; err context (canceled|deadline exceeded); cause (.+)")


@dataclass(frozen=True)
class Target:
    """What is to be canceled: a group, or a command of it."""

    group: str
    key: str = ""

    @property
    def name(self) -> Name:
        return self.group, self.key

    def __str__(self) -> str:
        return f"{self.group}/{self.key}" if self.key else self.group


def target_of(word: str, flag: str = "--cancel") -> Target:
    group, slash, key = word.partition("/")
    made = Target(base_of(group), key)
    try:
        check_group(made.group)
        if slash:
            check_key(key)
            if made.group == OF_ALL:
                raise Wrong(f"the group {OF_ALL} stands for all groups")
    except Wrong as wrong:
        raise Mistake(f"{flag} {short(word)}: {wrong}") from None
    return made


def cancel(files: Files, jobs: str | None, word: str, *words: str) -> str:
    """Cancels what a word names, for the reason that follows it; `jobs` is the file of commands, if
    it was named."""
    target = target_of(word)
    if not files.exists():
        raise Mistake(f"{files.shown}: {os.strerror(errno.ENOENT)}")
    why = " ".join(words) or BY_HAND
    if text_of(why) != why:
        raise Mistake("WHY is 1 to 64 bytes of printable ASCII")
    its = (lambda: Jobs(jobs)) if jobs is not None else None
    return f"{target}: {in_words(cancelled(files, its, target, why))}"


def in_words(state: str) -> str:
    """The state of a scope as an operator reads it: why it was canceled first, or which deadline
    had passed before."""
    found = DONE.fullmatch(state)
    if not found:
        return state
    how = "canceled" if found[1] == "canceled" else "its deadline has passed"
    return f"{how}: {found[2]}"


def obeys(files: Files, jobs: Jobs) -> bool:
    """Obeys the cancels that this driver is asked for before it has a session; whether there are
    any."""
    desk = cancels.Desk(files)
    requests = desk.requests()
    for it in requests:
        desk.answer({it: answer_to(files, jobs, it)})
    return bool(requests)


def answer_to(files: Files, jobs: Jobs, it: cancels.Request) -> str:
    try:
        return Alone(files, lambda: jobs).cancel(Target(it.group, it.key), it.why)
    except OSError as error:
        return f"{cancels.REFUSED}{error_text(error)}"
    except (Mistake, Fault, NightEnded) as why:
        return f"{cancels.REFUSED}{why}"


def cancelled(files: Files, jobs: Callable[[], Jobs] | None, target: Target, why: str) -> str:
    """How it is, once it is canceled."""
    if files.lock.take_for_cancel():
        return cancelled_alone(files, jobs, target, why)
    request = cancels.ask(files, target.group, target.key, why)
    end = time.monotonic() + SECONDS
    try:
        while time.monotonic() < end:
            answer = cancels.answered(files, request.name)
            if answer == cancels.NO_GROUP:
                raise Mistake(no_group(files.shown, target.group, names_of_plan(files)))
            if answer.startswith(cancels.REFUSED):
                raise Mistake(answer.removeprefix(cancels.REFUSED))
            if answer:
                return answer
            if files.lock.take_for_cancel():
                # (its driver has ended)
                return cancelled_alone(files, jobs, target, why)
            time.sleep(LOOK)
    finally:
        cancels.withdraw(files, request.name)
    if target.key:
        raise Fault(f"{target} was asked to end, and hasn't ended within {SECONDS:.0f} s")
    if files.lock.holder() is None:
        raise Fault(f"{files.shown}: in use by a night-run that isn't seen here, as one in a"
                    f" container is: cancel {target} from there")
    raise Fault(f"the active night-run hasn't read {files.shown}.cancel within {SECONDS:.0f} s:"
                f" {target} is not canceled")


def cancelled_alone(files: Files, jobs: Callable[[], Jobs] | None, target: Target,
                    why: str) -> str:
    """The same where no driver runs."""
    found = Alone(files, jobs).cancel(target, why)
    for name in sorted({it.name for it in running_now(files)}):
        if name == target.name or not target.key and target.group in (OF_ALL, name[0]):
            note(f"{' '.join(name)} still runs from the last run; the next one stops it")
    return found


class Alone:
    """A cancel where nobody has a session. `jobs` reads the file of commands, if it is known."""

    def __init__(self, files: Files, jobs: Callable[[], Jobs] | None) -> None:
        self.files, self.jobs = files, jobs
        self.past = read_past(files)
        self.state = inspected(files)
        self.night = max(self.state.night(), self.past.night)
        self.book = book_of(self.state, self.past, self.night)

    def cancel(self, target: Target, why: str) -> str:
        top = self.book.top
        scope = top if target.group == OF_ALL else self.book.scopes.get(target.group)
        if scope is None:
            raise Mistake(no_group(self.files.shown, target.group, names_of_plan(self.files)))
        if top and role_name(top.name, Role.ENDED) in self.state.by_name:
            raise Mistake(f"{self.files.shown}: night {self.night} has ended, and nothing of it is"
                          " left to cancel")
        return self.command(target, why, scope.name) if target.key else \
            self.group(target.group, why, scope.name)

    def group(self, group: str, why: str, scope: str) -> str:
        key = why.partition(" ")[0]
        if key in self.keys(group):
            raise Mistake(cancels.is_key(group, key))
        with self.opened() as session:
            _, look, _ = session.ask([f"cancel {scope} {why}", f"scope {scope}", "flush"],
                                     may=[ALREADY_DONE])
        return look

    def keys(self, group: str) -> set[str]:
        """The keys of a group that are known here."""
        found = {it.key for it in self.state.tasks if it.name[0] == group}
        found |= {key for it, key, _ in self.past.ends if base_of(it) == group}
        if self.jobs is not None:
            # (what is wrong in the file keeps no group from being canceled)
            with contextlib.suppress(Mistake):
                found |= {key for it, key in self.jobs().all if it == group}
        return found

    def command(self, target: Target, why: str, scope: str) -> str:
        if self.jobs is None:
            raise Mistake(f"no night-run runs: night-run {self.files.shown} JOBS --cancel {target}"
                          " cancels this command, by its file of commands")
        jobs = self.jobs()
        if target.name not in jobs.all:
            raise Mistake(no_command(target.group, target.key, jobs.all))
        facts = facts_of(self.state, self.past, {}, self.book, time.time(), {})
        with contextlib.closing(Planner(jobs)) as planner:
            found = planner.standings(facts)[target.name]
        if found.phase == Phase.CANCELED:
            return found.why
        if found.is_final:
            raise Mistake(found.at_its_end(target.name))
        end, group = canceled(why), self.book.next_name(target.group)
        with self.opened() as session:
            withdraw(session, self.state)
            replies = session.ask([f"bare {group} {scope}", f"go {group} {JOB} {target.key}",
                                   "start"], may=FULL)
            if any(refusal(it) for it in replies):
                raise Fault(f"{self.files.shown} is full")
            session.ask([f"finish {replies[-1].split()[1]} {end.words}", "flush"])
        return end.text

    @contextlib.contextmanager
    def opened(self) -> Iterator[Session]:
        """A session, whose events are durable at its end."""
        keep_out(self.files)
        wake, wakes = os.pipe()
        try:
            session, self.state = opened(self.files, self.state, wake, lambda: 1e9)
            advance(session, now_of(self.state))
            yield session
            session.close()
        finally:
            os.close(wake)
            os.close(wakes)
