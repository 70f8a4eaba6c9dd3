"""What is kept of earlier nights: the log of each, STORE.log.N, and the outputs of its tries. When
a night begins, the logs and outputs of nights that are older than the last N are removed, where N
is how many nights are kept.

Nothing else is removed. An output is a regular file in STORE.out whose name is GROUP.KEY.TRY. The
round of its group shows which night it belongs to, by the rounds with which the nights began
(`nights`). If that isn't known, the output stays. A report names only outputs of the last night,
and these are always kept.
"""

from __future__ import annotations

import contextlib
import re
import time
from collections.abc import Iterator

from . import Fault
from .beside import Folder, Part
from .files import OLD_LOG, Files
from .log import Log
from .nights import Night, Nights, read_nights, write_nights
from .rounds import round_of
from .telling import note_once

OUTPUT = re.compile(r"([a-z0-9_-]{1,32})\.[a-z0-9_-]{1,32}\.[0-9]{1,6}")


class Keeper:
    """Notes how nights begin and end, and removes the files that aren't kept any more."""

    def __init__(self, files: Files, log: Log, keep: int) -> None:
        self.files, self.log, self.keep = files, log, keep
        self.nights = read_nights(files)

    def look(self, night: int, has_one: bool) -> None:
        """Fault where the log of the store's last night, or a later one, was put aside already, as
        the next one began: the store is an older copy, or a new one that has no night yet, and what
        later nights left would be written over."""
        shown, later = self.files.shown, [it for it in self.files.old_logs() if it >= night]
        if later and has_one:
            raise Fault(f"{shown} ends with night {night}, and {shown}.log.{later[0]} is there:"
                        f" restore {shown}.log*, {shown}.nights and {shown}.out from the backup"
                        " that the store is from, or move them away")
        if later:
            raise Fault(f"{shown} is a new store, and {shown}.log.{later[0]} is of another one:"
                        f" move {shown}.log* away, and {shown}.out if you want to keep what is in"
                        " it")

    def knows(self, night: int) -> bool:
        return night in self.nights.begun

    def begin(self, night: int, first: int, is_new: bool) -> None:
        """A night has begun, whose names have at least this round. If it is new, the log so far is
        that of the night before."""
        last = self.log.last_end() or self.last_before(night)
        if is_new and night > 1:
            self.log.rotate(night - 1)
        self.nights.add(Night(night, first, time.time(), last), self.keep)
        write_nights(self.files, self.nights)
        self.tidy(night)

    def last_before(self, night: int) -> float | None:
        """When the last command before the last night ended, as far as it was known when that night
        began."""
        before = [it for it in self.nights.begun.values() if it.number < night]
        return max(before, key=lambda it: it.number).last if before else None

    def well(self, night: int, when: float | None) -> None:
        """Every command of this night is ok."""
        if self.nights.well and self.nights.well[0] == night and when is not None \
                and abs(self.nights.well[1] - when) < 1:
            return
        self.nights.well = night, time.time() if when is None else when
        write_nights(self.files, self.nights)

    def tidy(self, night: int) -> None:
        """Removes the files of nights before the first that is kept."""
        oldest = night - self.keep
        try:
            remove(self.files.folder, old_logs(self.files, oldest))
            with contextlib.closing(self.files.below(Part.OUT)) as folder:
                remove(folder, old_outputs(folder, first_kept(self.nights, night, self.keep)))
        except FileNotFoundError:
            pass
        except OSError as error:
            note_once(f"{error.filename}: {error.strerror}; nothing of earlier nights is removed")


def remove(folder: Folder, names: Iterator[str]) -> None:
    for name in list(names):
        try:
            folder.remove(name)
        except OSError as error:
            note_once(f"{error.filename}: {error.strerror}")


def first_kept(nights: Nights, night: int, keep: int) -> int:
    """The round with which the first night began that is kept; 0 if it isn't known. (Each night
    takes at least one round.)"""
    now, oldest = nights.begun[night], nights.begun.get(night - keep)
    return min(oldest.round, now.round - keep) if oldest else 0


def old_logs(files: Files, oldest: int) -> Iterator[str]:
    """The logs of nights before this one."""
    name = files.name(Part.STORE)
    for it in files.folder.files():
        number = OLD_LOG.fullmatch(it[len(name):]) if it.startswith(name) else None
        if number and int(number[1]) < oldest:
            yield it


def old_outputs(folder: Folder, first: int) -> Iterator[str]:
    """The outputs whose groups have a lower round."""
    for it in folder.files():
        name = OUTPUT.fullmatch(it)
        if name and round_of(name[1]).number < first:
            yield it
