"""The days of a group or a command:

    on mon..fri        on these days of the week; `on sat..mon` is three days
    on 1 15            on these days of the month; `last` is its last one
    on sun 1..7,last   on each of these days

Each night has a day, that on which it began, whenever its commands run. A command that isn't due
counts as if it weren't in the file tonight: what comes after it doesn't wait for it.
"""

from __future__ import annotations

import calendar
import datetime
import re
from dataclasses import dataclass

from .reading import Words, Wrong, short

WEEK = ("mon", "tue", "wed", "thu", "fri", "sat", "sun")
LAST = "last"
NAMES = "|".join(WEEK)
# A word of days, and how one that has a mistake begins.
OF_WEEK = re.compile(rf"({NAMES})(?:\.\.({NAMES}))?")
OF_MONTH = re.compile(r"([0-9]{1,2})(?:\.\.([0-9]{1,2}))?")
BEGINS = re.compile(rf"(?:{NAMES}|{LAST}|[0-9]+)(?:\.\.|,|\Z| )")


@dataclass(frozen=True)
class Days:
    """Days of the week, 0 to 6 from Monday on, and of the month, with 0 for its last one."""

    text: str
    week: frozenset[int]
    month: frozenset[int]

    def has(self, day: datetime.date) -> bool:
        is_last = day.day == calendar.monthrange(day.year, day.month)[1]
        return day.weekday() in self.week or day.day in self.month or is_last and 0 in self.month

    def why_not(self, day: datetime.date) -> str:
        """Why what has these days isn't due in the night of that one."""
        return f"on {self.text}; tonight is {shown(day)}"


def shown(day: datetime.date) -> str:
    return f"{WEEK[day.weekday()]} {day.isoformat()}"


def read_days(words: Words) -> Days:
    """The days that the next words name, one at least."""
    texts = [words.value("the day after `on`")]
    while words and BEGINS.match(words.left[0]):
        texts.append(words.take())
    week: set[int] = set()
    month: set[int] = set()
    for it in ",".join(texts).split(","):
        if found := OF_WEEK.fullmatch(it):
            week |= of_week(found[1], found[2] or found[1])
        elif found := OF_MONTH.fullmatch(it):
            month |= of_month(it, int(found[1]), int(found[2] or found[1]))
        elif it == LAST:
            month.add(0)
        else:
            raise Wrong(no_day(it))
    return Days(" ".join(texts), frozenset(week), frozenset(month))


def of_week(first: str, last: str) -> set[int]:
    at, end = WEEK.index(first), WEEK.index(last)
    return {it % 7 for it in range(at, end + 1 if end >= at else end + 8)}


def of_month(word: str, first: int, last: int) -> set[int]:
    if not 1 <= first <= last <= 31:
        raise Wrong(no_day(word))
    return set(range(first, last + 1))


def no_day(word: str) -> str:
    return f"the day {short(word)} is not written like mon, mon..fri, 1, 1..7 or last"
