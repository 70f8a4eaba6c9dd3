"""The rest of the last night, which `--nightly` does before tonight's, and what both came to."""

from __future__ import annotations

from dataclasses import replace

from .exits import Outcome


class Rest:
    """What a run did of the last night."""

    def __init__(self) -> None:
        self.is_due = False  # whether it is yet to be done
        self.came_to: Outcome | None = None

    def done(self, it: Outcome) -> None:
        self.is_due, self.came_to = False, it

    def before(self, it: Outcome, night: int = 0) -> Outcome:
        """What both nights came to, where there was such a rest; tonight has this number, if it is
        known."""
        rest = self.came_to
        if rest is None:
            return it
        lines = (f"night {night - 1}, the rest of it:" if night else "the rest of the last night:",
                 *rest.lines, *((f"night {night}:",) if night else ()), *it.lines)
        return replace(it, lines=lines, failed=rest.failed + it.failed,
                       mails=(*rest.mails, *it.mails),
                       missed=rest.failed + rest.left, is_silent=rest.is_silent and it.is_silent)
