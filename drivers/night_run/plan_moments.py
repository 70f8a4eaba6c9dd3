"""How moments are written to `night plan`: in milliseconds that never go back, whatever is done to
the machine's clock.
"""

from __future__ import annotations

import time

from . import Name

# Moments and waits are written in milliseconds: no wait is longer than `night plan` can say. The
# first moment is as long after 0 as the longest wait, since a number has 12 digits at most.
TICKS, LONGEST = 1000, (1 << 32) - 1


class PlanMoments:
    """The moments of one planner."""

    def __init__(self) -> None:
        self.offset: int | None = None  # from the machine's clock to the moments that are written
        self.moment = self.latest = LONGEST  # the last one that was written, and that of now
        self.failed_at: dict[Name, tuple[float, int]] = {}  # of the last failures, as written

    def look(self, now: float | None) -> bool:
        """Sees which moment it is; without a moment of the machine's clock any may come. Whether
        that clock was set."""
        if self.offset is None:
            self.offset = LONGEST - int((time.time() if now is None else now) * TICKS)
        before = self.offset
        self.latest = self.moment + LONGEST if now is None else self.moment_at(now)
        return self.offset != before

    def moment_at(self, now: float) -> int:
        """How a moment of the machine's clock is written, and from now on each later one. If the
        clock is set back, the moment stands still until the clock has caught up. If it is set
        ahead, as from 1970, the moment goes on by the longest wait at most, since it has 12
        digits."""
        found = int(now * TICKS) + (self.offset or 0)
        moment = min(max(found, self.moment), self.moment + LONGEST)
        if moment != found:
            self.offset = (self.offset or 0) + moment - found
        return moment

    def write(self) -> int:
        """The moment of now, which is written."""
        self.moment = self.latest
        return self.moment

    def moment_of(self, name: Name, when: float) -> int:
        """How the moment of a failure is written: always as it was written first, even if the
        machine's clock was set since then. A failure to come, by a clock that was set back, comes
        in a moment: it isn't waited for."""
        if name not in self.failed_at or self.failed_at[name][0] != when:
            found = int(when * TICKS) + (self.offset or 0)
            self.failed_at[name] = when, min(max(0, found), self.latest + 1)
        return self.failed_at[name][1]

    def read(self, moment: int) -> float:
        """A moment that `night plan` answered, by the machine's clock."""
        return (moment - (self.offset or 0)) / TICKS
