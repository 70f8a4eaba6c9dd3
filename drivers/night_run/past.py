"""STORE.ended: how each command ended whose group a renewal has dropped. Its first line is

    events N night M round R lines L

with the number of events that the store had at least when the file was written, the number of the
night, the greatest round of a name, and the number of lines that follow. Each of these is one of

    GROUP KEY END              END is the text of an end (`ends`)
    : GROUP CAUSE              the group's scope was done, and is dropped, too
    : GROUP                    a name that was used, and that no other line here has
    + GROUP KEY N              how often a command had failed, by its group in the file of commands

What the store itself has of a key is later, and counts. (The first line of an older driver is
`events N` alone, because it knew one night. It wrote nothing of failures, so these are read from
the log.)
"""

from __future__ import annotations

import re
from collections.abc import Iterable
from dataclasses import dataclass, field

from . import Fault, Name
from .beside import Part
from .ends import End, read_end
from .files import Files
from .rounds import Round, base_of, round_of
from .tonight import Notes, read_notes

HEAD = re.compile(r"events ([0-9]{1,20})"
                  r"(?: night ([0-9]{1,9}) round ([0-9]{1,9}) lines ([0-9]{1,9}))?")
LINE = re.compile(r"([a-z0-9_-]{1,32}) ([a-z0-9_-]{1,32}) ([ -~]{1,64})")
NAMED = re.compile(r": ([a-z0-9_-]{1,32})(?: ([ -~]{1,64}))?")
FAILED = re.compile(r"\+ ([a-z0-9_-]{1,32}) ([a-z0-9_-]{1,32}) ([0-9]{1,6})")


@dataclass
class Past:
    """The contents of the file. For a store that was never renewed it says nothing."""

    events: int = 0
    night: int = 1
    round: int = 0
    ends: list[tuple[str, str, End]] = field(default_factory=list)
    done: dict[str, str] = field(default_factory=dict)
    had: list[str] = field(default_factory=list)
    failures: dict[Name, int] = field(default_factory=dict)
    notes: Notes = field(default_factory=Notes)  # what is wanted of nights, of a file of its own

    @property
    def is_of_a_replaced_store(self) -> bool:
        """Whether the store replaced another one, and so counts its events from the start."""
        return not self.events and bool(self.round)

    def groups(self) -> set[str]:
        """The names of the store's groups that a renewal dropped."""
        return {group for group, _, _ in self.ends} | set(self.had)

    def rounds(self) -> Iterable[tuple[str, Round]]:
        for it in [*(group for group, _, _ in self.ends), *self.done, *self.had]:
            yield base_of(it), round_of(it)


class Unreadable(Fault):
    """The file can't be read, or has a line of another form. Then nothing says which commands had
    ended, and all of them would run again."""

    def __init__(self, path: str, why: str) -> None:
        super().__init__(f"{path}: {why}; nothing is started: restore a whole copy of it. If you"
                         " move it away, the commands that have ended according to it run again")
        self.path = path


def read_past(files: Files) -> Past:
    """The contents of the file, beside what is wanted of nights."""
    made = read_ended(files)
    made.notes = read_notes(files)
    return made


def read_ended(files: Files) -> Past:
    """The contents of the file; Unreadable if a line has another form."""
    shown = files.shown_of(Part.ENDED)
    try:
        lines = files.read(Part.ENDED).decode("ascii", "replace").split("\n")
    except FileNotFoundError:
        return Past()
    except OSError as error:
        raise Unreadable(shown, error.strerror) from None
    head = HEAD.fullmatch(lines[0])
    if not head or lines[-1] or int(head[4] or len(lines) - 2) != len(lines) - 2:
        raise Unreadable(shown, "it doesn't begin with `events N ..`, or is cut off")
    past = Past(int(head[1]), int(head[2] or 1), int(head[3] or 1))
    for number, line in enumerate(lines[1:-1], 2):
        if found := LINE.fullmatch(line):
            past.ends.append((found[1], found[2], read_end(found[3])))
        elif (found := NAMED.fullmatch(line)) and found[2]:
            past.done[found[1]] = found[2]
        elif found:
            past.had.append(found[1])
        elif found := FAILED.fullmatch(line):
            past.failures[found[1], found[2]] = int(found[3])
        else:
            raise Unreadable(shown, f"line {number} is not GROUP KEY END")
    return past


def write_past(files: Files, past: Past) -> None:
    """Puts this in the file's place, durably."""
    lines = [f"events {past.events} night {past.night} round {past.round}"
             f" lines {sum(map(len, (past.done, past.had, past.ends, past.failures)))}\n",
             *(f": {group} {cause}\n" for group, cause in past.done.items()),
             *(f": {group}\n" for group in past.had),
             *(f"{group} {key} {end.text}\n" for group, key, end in past.ends),
             *(f"+ {group} {key} {it}\n" for (group, key), it in past.failures.items())]
    files.put(Part.ENDED, "".join(lines).encode("ascii"))
