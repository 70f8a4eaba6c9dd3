"""STORE.out, a folder: what each task printed, in a file GROUP.KEY.TRY."""

from __future__ import annotations

import contextlib
import os
import stat
from typing import TYPE_CHECKING

from .beside import Part

if TYPE_CHECKING:
    from .files import Files


# Fewer free bytes are next to none: a command that writes anything fails.
NO_ROOM = 64 << 10


class Outputs:
    """The outputs of a store, each by its name in the folder."""

    def __init__(self, files: Files) -> None:
        self.files = files

    @staticmethod
    def name(group: str, key: str, tried: int) -> str:
        return f"{group}.{key}.{tried}"

    def shown(self, output: str) -> str:
        """An output's path, as the store's is shown; empty without an output."""
        return f"{self.files.shown_of(Part.OUT)}/{output}" if output else ""

    def has(self, output: str) -> bool:
        """Whether something has this name."""
        if not output:
            return False
        try:
            with contextlib.closing(self.files.below(Part.OUT)) as folder:
                return folder.stat(output) is not None
        except OSError:
            return False

    def size(self, output: str) -> int | None:
        """How many bytes an output has; None where it isn't there, or isn't a regular file."""
        if not output:
            return None
        try:
            with contextlib.closing(self.files.below(Part.OUT)) as folder:
                found = folder.stat(output)
        except OSError:
            return None
        return found.st_size if found and stat.S_ISREG(found.st_mode) else None

    def are_full(self) -> bool:
        """Whether their disk has next to no room. Of one that counts no blocks that isn't known."""
        try:
            with contextlib.closing(self.files.below(Part.OUT)) as folder:
                found = os.fstatvfs(folder.file)
        except OSError:
            return False
        free = found.f_bavail if os.geteuid() else found.f_bfree
        return found.f_blocks > 0 and free * found.f_frsize < NO_ROOM

    def open(self, output: str, flags: int = os.O_RDONLY) -> int:
        """A descriptor of an output. Where it is created, so is the folder if it is gone."""
        make = bool(flags & os.O_CREAT)
        with contextlib.closing(self.files.below(Part.OUT, make)) as folder:
            return folder.open(output, flags)

    def move(self, output: str, other: str) -> None:
        """Gives an output another name."""
        with contextlib.closing(self.files.below(Part.OUT)) as folder:
            folder.move(output, other)
