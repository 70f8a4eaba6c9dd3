"""STORE.nights: when the last nights began, and when a night last ended with every command ok. Its
lines are

    night N round R begun MOMENT last MOMENT     the names of night N have the round R at least;
                                                 the last command before it ended then, or -
    well N at MOMENT                             the last night in which every command was ok

with moments in seconds since 1970. A line of another form says nothing, and neither does a file
that can't be read: a file stays unless it is known to be of an old night.
"""

from __future__ import annotations

import datetime
import re
from dataclasses import dataclass, field

from .beside import Part
from .facts import Book
from .files import Files
from .jobs import Jobs
from .telling import error_text, note_once

MOMENT = r"([0-9]{1,12}(?:\.[0-9]{1,3})?)"
NIGHT = re.compile(rf"night ([0-9]{{1,9}}) round ([0-9]{{1,9}}) begun {MOMENT} last (?:{MOMENT}|-)")
WELL = re.compile(rf"well ([0-9]{{1,9}}) at {MOMENT}")


@dataclass(frozen=True)
class Night:
    """How a night began."""

    number: int
    round: int
    begun: float
    last: float | None  # when the last command before it ended

    def line(self) -> str:
        last = "-" if self.last is None else f"{self.last:.3f}"
        return f"night {self.number} round {self.round} begun {self.begun:.3f} last {last}\n"


@dataclass
class Nights:
    """What the file says."""

    begun: dict[int, Night] = field(default_factory=dict)
    well: tuple[int, float] | None = None

    def text(self) -> str:
        lines = [self.begun[it].line() for it in sorted(self.begun)]
        if self.well:
            lines.append(f"well {self.well[0]} at {self.well[1]:.3f}\n")
        return "".join(lines)

    def add(self, it: Night, keep: int) -> None:
        """Adds a night. Nights of which nothing is kept are forgotten, and so are those of an older
        store: a later night has a greater number and a greater round."""
        self.begun = {number: one for number, one in self.begun.items()
                      if it.number - keep <= number < it.number and one.round < it.round}
        self.begun[it.number] = it
        if self.well and self.well[0] >= it.number:
            self.well = None


def know_day(files: Files, book: Book, jobs: Jobs) -> None:
    """Sets the day of a night, if it makes a difference: that on which it began, as the store has
    it, or else this file; or today, if it has yet to begin."""
    if not jobs.has_days:
        book.day = None
    elif book.day is None:
        begun = None if book.is_new else read_nights(files).begun.get(book.night)
        book.day = datetime.date.fromtimestamp(begun.begun) if begun else datetime.date.today()


def read_nights(files: Files) -> Nights:
    found = Nights()
    try:
        lines = files.read(Part.NIGHTS).decode("ascii", "replace").split("\n")
    except FileNotFoundError:
        return found
    except OSError as error:
        note_once(f"{files.shown_of(Part.NIGHTS)}: {error.strerror}")
        return found
    for line in lines:
        if it := NIGHT.fullmatch(line):
            last = float(it[4]) if it[4] else None
            found.begun[int(it[1])] = Night(int(it[1]), int(it[2]), float(it[3]), last)
        elif it := WELL.fullmatch(line):
            found.well = int(it[1]), float(it[2])
    return found


def write_nights(files: Files, nights: Nights) -> None:
    """Puts this in the file's place. If it can't be written, the night goes on."""
    try:
        files.put(Part.NIGHTS, nights.text().encode("ascii"))
    except OSError as error:
        note_once(error_text(error))
