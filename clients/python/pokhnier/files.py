"""The files of a store: here they are opened, locked, written and replaced."""

from __future__ import annotations

import contextlib
import fcntl
import os
import time


def lock(path: str, seconds: float) -> int | None:
    """Opens and locks a file, which is made if there is none. `None` if others keep the lock for
    this many seconds."""
    file = os.open(path, os.O_RDWR | os.O_CREAT | os.O_CLOEXEC, 0o644)
    until = time.monotonic() + seconds
    while True:
        try:
            fcntl.flock(file, fcntl.LOCK_EX | fcntl.LOCK_NB)
            return file
        except BlockingIOError:
            if time.monotonic() >= until:
                os.close(file)
                return None
            time.sleep(0.02)


def sync_folder(path: str) -> None:
    """Makes the name of a file durable."""
    folder = os.open(os.path.dirname(path) or ".", os.O_RDONLY | os.O_DIRECTORY | os.O_CLOEXEC)
    try:
        os.fsync(folder)
    finally:
        os.close(folder)


class Lines:
    """A file of lines, to which lines are appended."""

    def __init__(self, path: str) -> None:
        self.path = path
        is_new = not os.path.exists(path)
        self.file = os.open(path, os.O_RDWR | os.O_CREAT | os.O_APPEND | os.O_CLOEXEC, 0o644)
        if is_new:
            sync_folder(path)

    def read(self) -> list[str]:
        """The lines of the file. What stands after the last LF is cut off."""
        with open(self.path, "rb") as file:
            *lines, rest = file.read().split(b"\n")
        if rest:
            os.ftruncate(self.file, os.path.getsize(self.path) - len(rest))
        return [it.decode("ascii", "replace") for it in lines]

    def replace(self, lines: list[str]) -> None:
        """Replaces the file by one of these lines, as a whole or not at all."""
        beside = f"{self.path}.new"
        with contextlib.suppress(FileNotFoundError):
            os.remove(beside)
        fresh = Lines(beside)
        try:
            fresh.append(lines)
            fresh.sync()
            os.rename(beside, self.path)
        except OSError:
            fresh.close()
            os.remove(beside)
            raise
        sync_folder(self.path)
        os.close(self.file)
        self.file = fresh.file

    def append(self, lines: list[str]) -> None:
        """Appends lines. A crash may leave a prefix of them, until `sync` has returned."""
        left = memoryview("".join(f"{it}\n" for it in lines).encode("ascii"))
        while left:
            left = left[os.write(self.file, left):]

    def sync(self) -> None:
        """Makes durable what was appended."""
        os.fdatasync(self.file)

    def close(self) -> None:
        if self.file >= 0:
            os.close(self.file)
        self.file = -1
