"""The answer of `night plan` to a round, by its form (docs/formats/plan.md). One of another form is
a fault: whatever gave it isn't that program.
"""

from __future__ import annotations

import re
from dataclasses import dataclass, field

from . import Fault
from .reading import short

# A line has at most this many bytes.
LONGEST_LINE = 64
LINE = re.compile("(begin|stop|later) (0|[1-9][0-9]{0,12})|stands (0|[1-9][0-9]{0,12})"
                  " (pending|ready|waiting|busy|ok|failed|canceled|given-up)(?: [0-9]{1,13})?")


@dataclass
class Answer:
    """The commands that may begin, in order, and those that have to stop; when to ask again; and a
    word for how each command stands, if that was asked."""

    begins: list[int] = field(default_factory=list)
    stops: list[int] = field(default_factory=list)
    later: int | None = None
    stands: list[str] = field(default_factory=list)

    def takes(self, line: str, count: int) -> bool:
        """Takes in a line of a plan of `count` commands; returns whether it has the form of one."""
        found = LINE.fullmatch(line)
        if not found:
            return False
        if found[3]:
            self.stands.append(found[4])
            return int(found[3]) == len(self.stands) - 1 < count
        number = int(found[2])
        if found[1] == "later":
            is_first, self.later = self.later is None, number
            return is_first
        its = self.begins if found[1] == "begin" else self.stops
        is_after = found[1] == "begin" or not its or its[-1] < number
        its.append(number)
        return number < count and is_after


def longest(count: int) -> int:
    """The most bytes that an answer for a plan of `count` commands has."""
    return LONGEST_LINE * (3 * count + 2)


def read_answer(lines: list[str], count: int) -> Answer:
    answer = Answer()
    for line in lines:
        if not answer.takes(line, count):
            raise wrong(line)
    if len(set(answer.begins)) < len(answer.begins):
        raise wrong(next(f"begin {it} twice" for it in answer.begins
                         if answer.begins.count(it) > 1))
    return answer


def wrong(answer: str) -> Fault:
    return Fault(f"`night plan`: it answered {short(answer)}")
