"""How many files this process may have open. A night begins only where there is room for all that
it opens at a time; else it is a fault that says so, before anything is made."""

from __future__ import annotations

import contextlib
import errno
import os
import resource

from . import Fault

# A night opens this many at a time, besides those of commands that an earlier driver left: folders
# and files beside its store, and pipes to a `night` that begins.
NEEDED = 16


def look() -> None:
    """Fault where this many can't be opened now."""
    with contextlib.ExitStack() as opened:
        for count in range(NEEDED):
            try:
                opened.callback(os.close, os.open(os.devnull, os.O_RDONLY | os.O_CLOEXEC))
            except OSError as error:
                raise Fault(f"a night opens {NEEDED} files at a time, and only {count} can be"
                            f" opened: {why(error)}") from None


def why(error: OSError) -> str:
    """The system's words; where it is this process that has too many files open, with the
    limit."""
    text = error.strerror or str(error)
    if error.errno != errno.EMFILE:
        return text
    return f"{text} (the limit is {resource.getrlimit(resource.RLIMIT_NOFILE)[0]}, ulimit -n)"
