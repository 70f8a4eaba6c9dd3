"""Others who have the store open. An older driver, or a `format` by hand, let everybody read it:
whoever has it open can hold its lock for ever, and `night` waits for none. So such a store is
replaced by a copy, which nobody else has open; and so is one whose lock somebody keeps who can't
write it.

The copy is made under a read lease. The system gives one only while nobody has the file open for
writing, and whoever opens it for writing meanwhile waits until the lease ends. So no `night` writes
to a store that is being copied, and one that waited finds another file of its name, and reports
that the store is in use. Where the file system has no leases the store stays.
"""

from __future__ import annotations

import contextlib
import fcntl
import os
import re
import signal
import time
from collections.abc import Iterator
from typing import TYPE_CHECKING

from .beside import Part, name_of
from .escapes import plain
from .lock import OTHERS, PATIENCE, try_lock
from .telling import error_text, note_once

if TYPE_CHECKING:
    from .files import Files

# A lock in /proc/locks: its process, its device, its inode.
LOCK = re.compile(r"^[0-9]+: FLOCK +ADVISORY +[A-Z]+ +([0-9]+) ([0-9a-f]+):([0-9a-f]+):([0-9]+) ",
                  re.M)
BLOCK = 1 << 20


def keep_out(files: Files) -> None:
    """Has nobody else keep the lock of the store, who can have it open."""
    found = files.stat(Part.STORE)
    if found and found.st_uid == os.geteuid() and (found.st_mode & OTHERS or is_kept(files)):
        replace(files)


def is_kept(files: Files) -> bool:
    """Whether the lock of the store isn't free for a while. A reader has it for a moment."""
    try:
        # (NFS locks no file for one alone that isn't open for writing)
        file = files.open(Part.STORE, os.O_RDWR, as_found=True)
    except OSError:
        return False  # (`night` says why)
    end = time.monotonic() + PATIENCE
    try:
        while not (is_free := try_lock(file)) and time.monotonic() < end:
            time.sleep(0.05)
        return not is_free
    finally:
        os.close(file)


def replace(files: Files) -> None:
    """Puts a copy in the place of the store, if nobody has that open for writing. One that can't be
    made ends no night: `night` says whether the store is in use."""
    file = files.open(Part.STORE)
    try:
        with leased(file) as lease:
            if lease:
                files.forget_pages()  # (after a failed sync they may be more than the disk has)
                files.put(Part.STORE, whole(file), lambda: has_lease(file))
    except OSError as error:
        note_once(error_text(error))
    finally:
        os.close(file)


def whole(file: int) -> bytes:
    """All bytes of a file."""
    return b"".join(iter(lambda: os.read(file, BLOCK), b""))


# --- a lease

@contextlib.contextmanager
def leased(file: int) -> Iterator[bool]:
    """In it nobody opens this file for writing; whether the system lets it be so. Who wants to is
    said by a signal, which would end this process."""
    before = signal.signal(signal.SIGIO, signal.SIG_IGN)
    try:
        try:
            fcntl.fcntl(file, fcntl.F_SETLEASE, fcntl.F_RDLCK)
        except OSError:
            yield False
            return
        try:
            yield True
        finally:
            with contextlib.suppress(OSError):
                fcntl.fcntl(file, fcntl.F_SETLEASE, fcntl.F_UNLCK)
    finally:
        signal.signal(signal.SIGIO, before)


def has_lease(file: int) -> bool:
    """Whether nobody waits to open the file: the system ends a lease some 45 s after that."""
    return fcntl.fcntl(file, fcntl.F_GETLEASE) == fcntl.F_RDLCK


# --- who it is

def holders(files: Files) -> list[str]:
    """Who has the lock of the store, a line each, as far as the system shows it."""
    with contextlib.suppress(OSError):
        found = files.stat(Part.STORE)
        with open("/proc/locks", encoding="ascii") as locks:
            its = LOCK.findall(locks.read()) if found else []
        return [f"{files.shown} is locked by {shown(int(pid))}" for pid, *of in its
                if found and is_of(found, *of)]
    return []


def is_of(found: os.stat_result, major: str, minor: str, inode: str) -> bool:
    """Whether a lock is one of this file."""
    device = os.makedev(int(major, 16), int(minor, 16))
    return (device, int(inode)) == (found.st_dev, found.st_ino)


def shown(pid: int) -> str:
    """A process with its name and its user, if it still lives."""
    try:
        with open(f"/proc/{pid}/comm", encoding="utf-8", errors="replace") as file:
            return f"process {pid} ({plain(file.read().rstrip())}) of" \
                   f" {name_of(os.stat(f'/proc/{pid}').st_uid)}"
    except OSError:
        return f"process {pid}, which has ended, or what that began"
