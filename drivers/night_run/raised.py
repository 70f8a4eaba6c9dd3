"""STORE.tries/told: of which night an alarm was given last, when the last command of that night had
ended, and whether a command of `--on-failure` was run for it. So a run that resumes a night, as
after a reboot, and has nothing to do, doesn't give the same alarm again. If the file can't be read
or written, the alarm is given again.
"""

from __future__ import annotations

import contextlib
from dataclasses import dataclass

from .beside import Part
from .files import Files

NAME = "told"


@dataclass(frozen=True)
class Alarm:
    """What an alarm is about: a night that has ended."""

    night: int
    last: float | None  # when its last command ended, as far as it is known

    def line(self, is_run: bool) -> str:
        return f"night {self.night} last {self.last or 0.0:.3f} {'run' if is_run else 'printed'}\n"


def is_given(files: Files, it: Alarm, is_run: bool) -> bool:
    """Whether this one was given, and a command run for it, if one is to be run now."""
    with contextlib.suppress(OSError), contextlib.closing(files.below(Part.TRIES)) as folder:
        found = folder.read(NAME).decode("ascii", "replace")
        return it.last is not None and found in (it.line(True), *(() if is_run else (
            it.line(False),)))
    return False


def write(files: Files, it: Alarm, is_run: bool) -> None:
    with contextlib.suppress(OSError), contextlib.closing(files.below(Part.TRIES)) as folder:
        folder.put(NAME, it.line(is_run).encode("ascii"))
