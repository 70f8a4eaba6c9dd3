"""STORE.lock: locked by the one driver that may run, or by a cancel. It says which process that
is, whether it is a cancel, and how many bytes the store has.

Nobody else can open the file, so nobody else can hold its lock. But an older driver made it
readable for all, and a process that opened it then may hold its lock for ever. So such a file is
replaced by a copy once it can be locked, or if it can't be locked although none of the processes
that it names lives.
"""

from __future__ import annotations

import contextlib
import fcntl
import os
import re
import time
from typing import TYPE_CHECKING

from . import Fault
from .beside import Part, mode_of
from .processes import PID, START, Process, lives, this_process
from .telling import note

if TYPE_CHECKING:
    from .files import Files

# How many seconds the lock is waited for: while another driver has it, and while a cancel does, as
# that ends by itself.
PATIENCE, OF_CANCELS = 3.0, 60.0
SIZE = re.compile(r"^size ([0-9]{1,18})$", re.M)
HOLDER = re.compile(rf"^process (\S+) {PID} {START}$", re.M)
A_CANCEL = "a cancel"
# How the file begins, and its most bytes; zeros may be left by a crash.
OURS, MOST = re.compile(r"process |size |\0|\s*\Z"), 1 << 16
# What others may do with a file whose lock they can take.
OTHERS = 0o077


class Lock:
    """The lock of a store's driver."""

    def __init__(self, files: Files) -> None:
        self.files = files
        self.own = -1
        self.strange_since: float | None = None

    def text(self) -> str:
        with contextlib.suppress(OSError):
            return self.files.read(Part.LOCK).decode("ascii", "replace")
        return ""

    def size(self) -> int:
        """How many bytes the store had when a driver had it last, or 0 where nothing says it."""
        found = SIZE.search(self.text())
        return int(found[1]) if found else 0

    def named(self) -> Process | None:
        """The process that the file names, if it lives."""
        found = HOLDER.search(self.text())
        named = Process(found[1], int(found[2]), int(found[3])) if found else None
        return named if named and lives(named) else None

    def holder(self) -> Process | None:
        """The driver that runs, as far as its line and the system say."""
        return None if A_CANCEL in self.text().splitlines() else self.named()

    def take(self) -> bool:
        """Takes the store for this driver; False where another one has it."""
        began = time.monotonic()
        driver_since = began  # since when no cancel is seen to have it
        while not self.take_now():
            now = time.monotonic()
            if A_CANCEL in self.text().splitlines() or self.strange_since is not None:
                driver_since = now
            if now >= driver_since + PATIENCE or now >= began + OF_CANCELS:
                return False
            time.sleep(0.02)
        self.sign()
        return True

    def take_for_cancel(self) -> bool:
        """Takes the store for a cancel, if it is free at this moment."""
        if not self.take_now():
            return False
        self.sign(f"{A_CANCEL}\n")
        return True

    def take_now(self) -> bool:
        file = locked(self.files, Part.LOCK)
        if file is None:
            self.look_for_strangers()
            return False
        if os.fstat(file).st_size > MOST or not OURS.match(self.text()):
            os.close(file)
            raise Fault(f"{self.files.shown_of(Part.LOCK)} is not night-run's: move it away, or"
                        " choose another name for the store")
        self.own = file
        return True

    def look_for_strangers(self) -> None:
        """Puts a copy in the place of a lock which others can take, where it stays locked and
        nobody whom it names lives."""
        if not others_can_lock(self.files, Part.LOCK) or self.named():
            self.strange_since = None
        elif self.strange_since is None:
            self.strange_since = time.monotonic()
        elif time.monotonic() >= self.strange_since + PATIENCE:
            self.strange_since = None
            self.files.put(Part.LOCK, self.text().encode())

    def sign(self, as_what: str = "") -> None:
        """Writes who has the lock, and the store's size."""
        it = this_process()
        found = self.files.stat(Part.STORE)
        size = found.st_size if found else self.size()
        text = f"process {it.boot} {it.pid} {it.start}\nsize {size}\n{as_what}"
        try:
            os.pwrite(self.own, text.encode(), 0)
            os.ftruncate(self.own, len(text))
        except OSError as error:
            note(f"{self.files.shown_of(Part.LOCK)}: {error.strerror}")

    def release(self) -> None:
        os.close(self.own)


# --- locks of files beside a store

def try_lock(file: int) -> bool:
    try:
        fcntl.flock(file, fcntl.LOCK_EX | fcntl.LOCK_NB)
    except BlockingIOError:
        return False
    except OSError as error:
        raise Fault(f"no locks: {error.strerror}") from error
    return True


def locked(files: Files, part: Part, flags: int = 0) -> int | None:
    """A descriptor of a part, with its lock, which nobody else can take from now on; None where
    the lock isn't free at this moment."""
    is_new = False
    while True:
        file = files.open(part, os.O_RDWR | os.O_CREAT | flags, as_found=True)
        if not try_lock(file):
            os.close(file)
            return None
        found, named = os.fstat(file), files.stat(part)
        if named and named.st_ino == found.st_ino and named.st_dev == found.st_dev:
            if not found.st_mode & OTHERS:
                return file
            if is_new:
                os.close(file)
                raise Fault(f"{files.shown_of(part)}: it was made for its user alone, and has the"
                            f" mode {mode_of(found)}: its file system keeps no modes; take another"
                            " one for the store")
            files.put(part, files.read(part))
            is_new = True
        os.close(file)


def others_can_lock(files: Files, part: Part) -> bool:
    """Whether somebody else can have opened this part, and so can hold its lock."""
    found = files.stat(part)
    return found is not None and bool(found.st_mode & OTHERS)
