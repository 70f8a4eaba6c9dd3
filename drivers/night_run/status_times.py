"""The usual times of commands: how long each took in the last nights in which it ended ok, by the
logs that are kept of them.

No more than NIGHTS logs are read, from their ends, and of all of them together MOST bytes at most.
So the time and the memory that this takes don't grow with the nights.
"""

from __future__ import annotations

import contextlib
import functools
import os
import re
from collections.abc import Collection
from dataclasses import dataclass, field

from . import Name
from .beside import Part
from .files import Files
from .log import backwards
from .rounds import base_of, round_of

# How many nights count, and how many bytes of their logs are read.
NIGHTS, MOST = 7, 16 << 20
SECONDS = re.compile(rb"[0-9]{1,9}\.[0-9]{1,6}")


@dataclass(frozen=True)
class Usual:
    """The usual time of a command in seconds, the median of the last nights; the longest of them;
    and how many there are."""

    seconds: float
    longest: float
    nights: int


@dataclass
class Times:
    """The usual time of each command that has one, and in how many nights they were measured."""

    usual: dict[Name, Usual] = field(default_factory=dict)
    nights: int = 0


def usual_times(files: Files, night: int, wanted: Collection[Name]) -> Times:
    """The usual times of these commands, by the nights before this one. A log that can't be read
    says nothing."""
    taken: dict[Name, dict[int, float]] = {}
    nights: set[int] = set()
    left = MOST
    with contextlib.suppress(OSError):
        for number in [it for it in reversed(files.old_logs()) if it < night][:NIGHTS]:
            with contextlib.suppress(OSError):
                left -= read(files, f"{files.name(Part.LOG)}.{number}", left, wanted, nights, taken)
    return Times({name: of_times([*its.values()]) for name, its in taken.items()}, len(nights))


def read(files: Files, name: str, most: int, wanted: Collection[Name], nights: set[int],
         taken: dict[Name, dict[int, float]]) -> int:
    """Takes in a log, from its end, and returns how many bytes of it were read."""
    file = files.folder.open(name)
    try:
        for line in backwards(file, most):
            found = ok_of(line)
            if found is None or found[0] not in wanted:
                continue
            command, night, seconds = found
            if night not in nights and len(nights) == NIGHTS:
                break
            nights.add(night)
            taken.setdefault(command, {}).setdefault(night, seconds)
        return min(most, os.fstat(file).st_size)
    finally:
        os.close(file)


def ok_of(line: bytes) -> tuple[Name, int, float] | None:
    """The command of a line of a log, its night and its seconds, if the try ended ok."""
    fields = line.split(b"\t", 6)
    if len(fields) < 7 or fields[5] != b"ok" or not SECONDS.fullmatch(fields[4]):
        return None
    group, night = named_in(fields[1])
    return (group, fields[2].decode("ascii", "replace")), night, float(fields[4])


@functools.lru_cache(1024)
def named_in(group: bytes) -> tuple[str, int]:
    """The group of the file of commands that a line is about, and its night."""
    name = group.decode("ascii", "replace")
    return base_of(name), round_of(name).number


def of_times(its: list[float]) -> Usual:
    its = sorted(its)
    middle = len(its) // 2
    median = its[middle] if len(its) % 2 else (its[middle - 1] + its[middle]) / 2
    return Usual(median, its[-1], len(its))
