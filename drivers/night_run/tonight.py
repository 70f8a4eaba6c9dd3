"""STORE.tonight: what operators have wanted of a night (`wants`), as far as it holds. It lasts for
that night, however often a driver is killed. Its lines are

    night N skip GROUP KEY by WHO at MOMENT            not begun any more
    night N only GROUP KEY by WHO at MOMENT            begun, as nothing is without such a line
    night N redo GROUP KEY since ROUND [anew] by WHO at MOMENT
                                                       its ends count from this round on; its group
                                                       was done, and begins again
    night N canceled GROUP KEY CAUSE                   canceled with its group, which begins again,
                                                       or had failed, and isn't tried again
    night N set NAME=VALUE by WHO at MOMENT            j, or GROUP.limit
    night N pause by WHO at MOMENT                     nothing is begun
    night N open                                       it had ended, and something of it runs again
    next WANT by WHO at MOMENT                         a want that the next run is to take; those of
                                                       one moment were asked for in one line

The file is there only while it has a line. A night doesn't begin over one that can't be read, or
that has a line of another form: what was to be left out would run.
"""

from __future__ import annotations

import copy
import re
from collections.abc import Iterator
from dataclasses import dataclass, field

from . import Fault, Name
from .beside import Part
from .files import Files
from .rounds import Round
from .wants import By, Want, read_want

NIGHT = re.compile(r"night ([1-9][0-9]{0,8}) ([a-z]+)(?: (.+))?")
NEXT = re.compile(r"next (.+) by ([!-~]{1,32}) at ([0-9]{1,12})")
BY = re.compile(r"(?:(.+) )?by ([!-~]{1,32}) at ([0-9]{1,12})")
NAMED = re.compile(r"([a-z0-9_-]{1,20}) ([a-z0-9_-]{1,32})(?: (.+))?")
SINCE = re.compile(r"since ([0-9]{1,9})-([0-9]{1,9})( anew)?")
SET = re.compile(r"(j|([a-z0-9_-]{1,20})\.limit)=([0-9]{1,4})")


@dataclass(frozen=True)
class Again:
    """That a command is to run again: ends count only from names of this round on."""

    since: Round
    by: By
    is_reopened: bool = False  # whether its group was done, and so gets another scope


@dataclass
class Tonight:
    """What is wanted of one night."""

    skip: dict[Name, By] = field(default_factory=dict)
    only: dict[Name, By] = field(default_factory=dict)  # nothing is left out where it is empty
    redo: dict[Name, Again] = field(default_factory=dict)
    canceled: dict[Name, str] = field(default_factory=dict)
    sets: dict[str, tuple[int, By]] = field(default_factory=dict)
    paused: By | None = None
    is_open: bool = False

    def left_out(self, name: Name) -> str:
        """By whom a command is left out of the night, and how; empty where it isn't."""
        if name in self.skip:
            return f"by {self.skip[name].who} (--skip)"
        if self.only and name not in self.only:
            return f"by {next(iter(self.only.values())).who} (--only)"
        return ""

    @property
    def most(self) -> int | None:
        """How many commands may run at a time, if that was set."""
        return self.sets["j"][0] if "j" in self.sets else None

    @property
    def limits(self) -> dict[str, int]:
        """The limits of groups that were set."""
        return {name.partition(".")[0]: value for name, (value, _) in self.sets.items()
                if name != "j"}

    def lines(self) -> Iterator[str]:
        for name, by in self.skip.items():
            yield f"skip {' '.join(name)} {by.text}"
        for name, by in self.only.items():
            yield f"only {' '.join(name)} {by.text}"
        for name, it in self.redo.items():
            since = f"{it.since.number}-{it.since.again}{' anew' if it.is_reopened else ''}"
            yield f"redo {' '.join(name)} since {since} {it.by.text}"
        for name, cause in self.canceled.items():
            yield f"canceled {' '.join(name)} {cause}"
        for what, (value, by) in self.sets.items():
            yield f"set {what}={value} {by.text}"
        if self.paused:
            yield f"pause {self.paused.text}"
        if self.is_open:
            yield "open"

    def takes(self, what: str, rest: str) -> bool:
        """Takes in a line; whether it has the form of one."""
        if what == "open" and not rest:
            self.is_open = True
            return True
        if what == "canceled":
            found = NAMED.fullmatch(rest)
            if found and found[3]:
                self.canceled[found[1], found[2]] = found[3]
            return bool(found and found[3])
        said = BY.fullmatch(rest)
        return said is not None and self.takes_said(what, said[1] or "",
                                                    By(said[2], int(said[3])))

    def takes_said(self, what: str, rest: str, by: By) -> bool:
        """The same for a line that says who wanted it."""
        if what == "pause" and not rest:
            self.paused = by
            return True
        if what == "set" and (found := SET.fullmatch(rest)):
            self.sets[found[1]] = int(found[3]), by
            return True
        named = NAMED.fullmatch(rest)
        if not named:
            return False
        name = named[1], named[2]
        if what in ("skip", "only") and not named[3]:
            (self.skip if what == "skip" else self.only)[name] = by
            return True
        since = SINCE.fullmatch(named[3] or "")
        if what == "redo" and since:
            self.redo[name] = Again(Round(int(since[1]), int(since[2])), by, bool(since[3]))
        return what == "redo" and bool(since)


@dataclass
class Notes:
    """What the file says: of nights, and for the next run."""

    nights: dict[int, Tonight] = field(default_factory=dict)
    next: list[tuple[Want, By]] = field(default_factory=list)

    def of(self, night: int) -> Tonight:
        """What is wanted of a night."""
        return self.nights.get(night) or Tonight()

    def copied(self) -> Notes:
        return copy.deepcopy(self)

    def text(self) -> str:
        lines = [f"night {number} {line}" for number in sorted(self.nights)
                 for line in self.nights[number].lines()]
        lines += [f"next {want.text} {by.text}" for want, by in self.next]
        return "".join(f"{it}\n" for it in lines)


class Unclear(Fault):
    """The file can't be read, or has a line of another form."""

    def __init__(self, path: str, why: str) -> None:
        super().__init__(f"{path}: {why}; nothing is started: mend it. If you move it away, what it"
                         " leaves out runs")


def read_notes(files: Files) -> Notes:
    """What the file says; Unclear if it can't be read, or has a line of another form."""
    made, shown = Notes(), files.shown_of(Part.TONIGHT)
    try:
        text = files.read(Part.TONIGHT).decode("ascii", "replace")
    except (FileNotFoundError, NotADirectoryError):
        return made
    except OSError as error:
        raise Unclear(shown, error.strerror or str(error)) from None
    for number, line in enumerate(text.split("\n")[:-1], 1):
        if not takes(made, line):
            raise Unclear(shown, f"line {number} says nothing that night-run knows")
    if text and not text.endswith("\n"):
        raise Unclear(shown, "it is cut off")
    return made


def takes(made: Notes, line: str) -> bool:
    """Takes in a line of the file; whether it has the form of one."""
    if found := NIGHT.fullmatch(line):
        its = made.nights.setdefault(int(found[1]), Tonight())
        return its.takes(found[2], found[3] or "")
    if (found := NEXT.fullmatch(line)) and (want := read_want(found[1])):
        made.next.append((want, By(found[2], int(found[3]))))
        return True
    return False


def write_notes(files: Files, notes: Notes, night: int) -> None:
    """Puts this in the file's place, durably. What was wanted of nights before this one is
    forgotten."""
    notes.nights = {number: it for number, it in notes.nights.items() if number >= night}
    text = notes.text()
    if text:
        files.put(Part.TONIGHT, text.encode("ascii"))
    elif files.stat(Part.TONIGHT) is not None:
        files.remove(Part.TONIGHT)
        files.folder.sync()
