"""Files that have the name of one beside a store and were never night-run's, as a Cargo.lock beside
a new store called Cargo: they are neither written over nor removed. What an earlier store left is
known by its first bytes.
"""

from __future__ import annotations

import os
import re
import stat

from . import Fault, Mistake
from .beside import Part, is_beside, way_to
from .files import SIZES, Files

# How such files begin; one of another part is looked at where it is read, or is never written over.
BEGINNINGS = {
    Part.PIDS: re.compile(rb"[a-z0-9_-]{1,32} [a-z0-9_-]{1,32} [0-9]|[0-9]+(?: |\Z)|stopped "
                          rb"|\n*\Z"),
    Part.NIGHTS: re.compile(rb"(night|well) [0-9]+ |\Z"),
    # (zeros are those of a store that was being made)
    Part.MAKING: re.compile(rb"\xa7\0{7}|\0*\Z"),
    Part.CANCEL: re.compile(rb"\Z"),
    Part.FAILED: re.compile(rb"\Z")}
ENOUGH = 512
# What a night makes for a moment, and removes if an earlier one left it.
MADE = (".making", ".renewing")


def look_for_stores(files: Files) -> None:
    """Fault where another night's store has a name that this one makes for a moment. Such a store
    is known by the lock beside it."""
    for it in MADE:
        name = f"{os.path.basename(files.path)}{it}"
        if files.folder.stat(name) and files.folder.stat(f"{name}{Part.LOCK.value}"):
            raise Fault(f"{files.shown}{it} is another night's store: move one of the two away, or"
                        " choose another name for it")


def look(files: Files) -> None:
    """Fault where something that isn't night-run's has a name which a new store's files get."""
    for part, begins in BEGINNINGS.items():
        found = files.stat(part)
        if found is None or not stat.S_ISREG(found.st_mode):
            continue
        file = files.open(part)
        try:
            first = os.pread(file, ENOUGH, 0)
        finally:
            os.close(file)
        if not begins.match(first) or found.st_size > max(SIZES):
            raise Fault(f"{files.shown_of(part)} is not night-run's: move it away, or choose"
                        " another name for the store")


def look_at_commands(files: Files, given: str) -> None:
    """Mistake where the file of commands, which was read, has the name of one beside the store."""
    try:
        path = way_to(given)
    except (OSError, Fault):
        return  # (which is reported where it is read)
    folder, store = os.path.split(files.path)
    first = os.path.relpath(path, folder).split("/")[0]
    if is_beside(first, store):
        raise Mistake(f"{given}: this is the name of a file that belongs to {files.shown}; choose"
                      " another one for the commands")
