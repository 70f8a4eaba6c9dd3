"""When the deadlines of groups pass, and the store's clock, by which it sees that.

The clock is moved with other lines, where a deadline passes, and once in a while; never back. What
the store says of a scope whose deadline has passed is the cause for which its commands are stopped.
"""

from __future__ import annotations

from collections.abc import Iterator
from functools import partial

from .batches import Batch
from .facts import PASSED, Book, Facts
from .night import Session
from .state import Scope

# With nothing else to do the clock is moved so often, in seconds.
TICK = 10


class Deadlines:
    """The clock of a store during a night."""

    def __init__(self) -> None:
        self.clock = self.ticked = 0  # where it stands, and when that was looked at

    def add(self, batch: Batch, book: Book, facts: Facts, now: int) -> bool:
        """The lines for this moment, beside those that the batch has. Whether a deadline has
        passed."""
        passed = [(group, it) for group, it in open_scopes(book, facts)
                  if it.deadline is not None and it.deadline <= max(now, self.clock)]
        is_due = now > self.ticked and (batch.lines or passed)
        if is_due or now >= self.ticked + TICK:
            self.ticked = now
            if now > self.clock:
                self.clock = now
                batch.add(f"advance {now}")
        for group, scope in passed:
            facts.cancel(group, deadline_words(book, group))
            batch.add(f"scope {scope.name}", partial(take_cause, facts, group))
        return bool(passed)

    def ask(self, session: Session, book: Book, facts: Facts) -> None:
        """Asks why scopes are done whose deadline passed as the clock was moved."""
        its = [(group, it.name) for group, it in book.scopes.items()
               if group in facts.done and not it.done]
        for (group, _), reply in zip(its, session.ask([f"scope {name}" for _, name in its])):
            take_cause(facts, group, reply)


def take_cause(facts: Facts, group: str, reply: str) -> None:
    """Takes in why a scope is done, as the store says it."""
    _, is_done, cause = reply.partition("; cause ")
    if is_done:
        facts.done[group] = cause


def open_scopes(book: Book, facts: Facts) -> Iterator[tuple[str, Scope]]:
    """The groups that aren't done, each with its scope."""
    return ((group, it) for group, it in book.scopes.items() if group not in facts.done)


def moments(book: Book, facts: Facts) -> list[float]:
    """When the next deadlines pass, in no order."""
    return [it.deadline for _, it in open_scopes(book, facts) if it.deadline is not None]


def cause_of(book: Book, facts: Facts, group: str, now: float) -> str | None:
    """Why the commands of a group are to be stopped; None where they aren't."""
    scope = book.scopes.get(group)
    cause = facts.done.get(group)
    if cause is None and scope and scope.deadline is not None and scope.deadline <= now:
        return deadline_words(book, group)
    return cause


def deadline_words(book: Book, group: str) -> str:
    """A group's deadline, as the file of commands has it."""
    return book.deadlines.get(group, PASSED)
