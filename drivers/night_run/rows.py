"""What a report is made of: how a night stands at one moment, as plain values.

The rows are read elsewhere, from the store, the log and the outputs; a report needs nothing else.
Texts are as they were found: a byte that is not UTF-8 is a lone surrogate (`surrogateescape`), and
a command or its output may have any character.
"""

from __future__ import annotations

from collections.abc import Mapping
from dataclasses import dataclass, field

from .phases import Phase
from .used import Used

# The name of all groups together.
OF_ALL = "night"


@dataclass(frozen=True)
class Try:
    """A try of a command. Moments are seconds since 1970; a moment that the log lacks is None."""

    number: int
    began: float | None
    took: float | None
    end: str  # as in the log: `ok`, `interrupted` or an error's text; "" while it runs
    used: Used = Used()  # what it took, as far as the log says it


@dataclass(frozen=True)
class Row:
    """A command of the file, with its tries of this night."""

    group: str
    key: str
    command: str
    phase: Phase
    end: str  # why it didn't end well, or isn't begun; else ""
    tries: tuple[Try, ...]
    output: str  # the path of its last try's output, or ""
    tail: tuple[str, ...]  # the last lines of that


@dataclass(frozen=True)
class Group:
    """A group of the file. The one called OF_ALL is all of them together, and has no rows."""

    name: str
    is_done: bool  # canceled, or its deadline has passed
    cause: str  # why it is done, or ""
    deadline: int | None
    limit: int | None


@dataclass(frozen=True)
class Report:
    """A night: the groups and the rows in the order of the file of commands."""

    store: str
    night: int  # 1 for the first night of the store
    now: float
    began: float | None
    groups: tuple[Group, ...]
    rows: tuple[Row, ...]
    # What is known besides the tries: when the night began, when the last command before it ended,
    # and when the last night was all well.
    opened: float | None = None
    last_before: float | None = None
    last_well: float | None = None
    # The seconds that commands took in the nights before, as far as they were read.
    usual: Mapping[tuple[str, str], float] = field(default_factory=dict)
