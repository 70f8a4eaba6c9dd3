"""The store in its place. What takes its name away, or gives that to another file, ends no night:
nothing more is begun until the store is back, and nothing is made in its place.
"""

from __future__ import annotations

import os

from .telling import note, tell


class Sight:
    """Whether the store is still the file that was opened. `shown` is how it is called."""

    def __init__(self, path: str, shown: str) -> None:
        self.path, self.shown = path, shown
        self.seen: tuple[int, int] | None = None
        self.missing = ""  # why it isn't in its place, as was seen last; empty while it is

    def keep(self) -> None:
        """From now on the store is the file that has its name at this moment."""
        found = os.stat(self.path)
        self.seen = found.st_dev, found.st_ino

    def let_go(self) -> None:
        """Until it is kept again, the store may be any file that has its name: `night` may put
        another one there."""
        self.seen = None

    def why(self) -> str:
        """Why it isn't in its place now; empty while it is, and before it was kept in sight."""
        try:
            found = os.stat(self.path)
        except OSError as error:
            return error.strerror
        return "" if self.seen in (None, (found.st_dev, found.st_ino)) \
            else "another file has its name"

    def look(self) -> bool:
        """Sees whether it is in its place, and reports what changed. Whether it is back."""
        why = self.why()
        was_missing, self.missing = self.missing, ""
        if why:
            self.missing = f"{self.shown}: {why}: it was taken away during the night"
        if why and not was_missing:
            tell(f"{self.missing}; no more commands are started until it is back")
        elif was_missing and not why:
            note(f"{self.shown}: it is back")
            return True
        return False
