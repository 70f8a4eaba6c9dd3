"""What a group is called in the store. In the first night `disks` has its own name, and in the
tenth it is `disks--10`. If it needs another scope or group in one night, as after `--failed` or
with another deadline, that is `disks--10-2`, and then `disks--10-3`.

A scope beside it has a role after that name, as `disks--10--until`; if this were longer than a name
may be, only the role's first letter, as `--u`. No group of a file of commands has `--` in its name,
but one may end with `-`: `disks---2` is the second night's name of `disks-`.
"""

from __future__ import annotations

import enum
import re
from dataclasses import dataclass

MOST = 32
ROUND = re.compile(r"([0-9]{1,9})(?:-([0-9]{1,9}))?")


class Role(enum.Enum):
    """What a scope next to that of a group, or of all groups together, is for."""

    UNTIL = "until"  # it has the deadline
    SAID = "said"  # the deadline's words
    ROUND = "round"  # the night's number
    ENDED = "ended"  # the night has ended
    DAY = "day"  # the day of the night


@dataclass(frozen=True, order=True)
class Round:
    """Which of the names of a group it is: the number of the night, and which one of that night."""

    number: int = 1
    again: int = 1

    def next(self) -> Round:
        return Round(self.number, self.again + 1)


def split(name: str) -> tuple[str, str]:
    """The group of a name, and the part after `--`."""
    at = name.find("--")
    if at < 0:
        return name, ""
    while name[at + 2:at + 3] == "-":
        at += 1
    return name[:at], name[at + 2:]


def base_of(name: str) -> str:
    """The group of the file of commands that has this name."""
    return split(name)[0]


def round_of(name: str) -> Round:
    found = ROUND.fullmatch(split(name)[1].partition("--")[0])
    return Round(int(found[1]), int(found[2] or 1)) if found else Round()


def named(base: str, of: Round) -> str:
    if of == Round():
        return base
    return f"{base}--{of.number}" + (f"-{of.again}" if of.again > 1 else "")


def role_name(name: str, role: Role) -> str:
    """The name of the scope with a role, next to the scope of this name."""
    whole = f"{name}--{role.value}"
    return whole if len(whole) <= MOST else f"{name}--{role.value[0]}"
