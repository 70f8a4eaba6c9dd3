"""How a command stands in its night. A report shows the phases in this order."""

from __future__ import annotations

import enum

from .ends import Kind


class Phase(enum.StrEnum):
    """How a command stands, by the word that is printed for it."""

    OK = "ok"
    FAILED = "failed"
    CANCELED = "canceled"
    NOT_STARTED = "not started"  # it never will be
    INTERRUPTED = "interrupted"  # it was cut off, and runs again in the next run
    RUNNING = "running"
    WAITING = "waiting"  # it has yet to be started
    NOT_NEEDED = "not needed"  # it waited for a failure that didn't come
    NOT_DUE = "not due"  # it is for other days
    LEFT_OUT = "left out"  # by hand
    NOT_KNOWN = "not known"  # what says it can't be read; in a summary alone
    WITHDRAWN = "withdrawn"  # it never began; in the log of an older driver alone


# Those that a report counts.
PHASES = tuple(it for it in Phase if it not in (Phase.NOT_KNOWN, Phase.WITHDRAWN))
# Those of a night in which nothing was left out by hand, and those that are no failure.
WHOLE = (Phase.OK, Phase.NOT_NEEDED, Phase.NOT_DUE)
WELL = (*WHOLE, Phase.LEFT_OUT)
# Those that are counted only where they occur.
SELDOM = (Phase.NOT_NEEDED, Phase.NOT_DUE, Phase.LEFT_OUT)
# Those that nothing of this night changes any more.
FINAL = (Phase.OK, Phase.FAILED, Phase.CANCELED, Phase.NOT_STARTED, *SELDOM)


def phase_of(kind: Kind) -> Phase:
    """The phase that the end of a last try stands for."""
    return Phase(kind.value)
