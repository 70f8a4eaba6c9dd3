"""Lines for `night` that are sent together."""

from __future__ import annotations

from collections.abc import Callable

from .night import ALREADY_DONE, CLOCK_NOT_FORWARD, FULL, NOTHING_READY, Session

Then = Callable[[str], None]


class Batch:
    """Lines for `night`, each with what its reply leads to. Nothing is led to before the reply to
    the last one, a flush, has come."""

    def __init__(self) -> None:
        self.lines: list[str] = []
        self.then: list[Then | None] = []

    def add(self, line: str, then: Then | None = None) -> None:
        self.lines.append(line)
        self.then.append(then)

    def send(self, session: Session) -> int:
        """How many events are acked then."""
        replies = session.ask([*self.lines, "flush"],
                              may=[ALREADY_DONE, CLOCK_NOT_FORWARD, NOTHING_READY, 2, *FULL])
        for reply, then in zip(replies, self.then):
            if then:
                then(reply)
        self.lines, self.then = [], []
        return int(replies[-1].split()[1])
