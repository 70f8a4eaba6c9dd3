"""The axis in time of a report's page: where a moment lies on it, and its ticks."""

from __future__ import annotations

import time

from .report_words import end_of
from .rows import Report

# Steps between two ticks, in seconds.
STEPS = (1, 2, 5, 10, 15, 30, 60, 120, 300, 600, 900, 1800, 3600, 7200, 10800, 21600, 43200,
         86400, 172800, 604800, 2592000, 31536000)
MOST_TICKS = 5
# A tick further right has no room for its words.
LAST_TICK = 85


class Axis:
    """From the first begin to the last end, or to now where something runs."""

    def __init__(self, report: Report) -> None:
        tries = [it for row in report.rows for it in row.tries if it.began is not None]
        begins = [it.began for it in tries if it.began is not None]
        ends = [end for it in tries if (end := end_of(it)) is not None]
        ends += [report.now for it in tries if not it.end]
        self.first = min(begins, default=report.now)
        self.last = max([*begins, *ends, self.first + 1])
        self.ticks = self.marked()

    def at(self, when: float) -> float:
        """Where a moment lies, in hundredths of the axis."""
        share = 100 * (when - self.first) / (self.last - self.first)
        return min(max(share, 0.0), 100.0)

    def has(self, when: float) -> bool:
        return self.first <= when <= self.last

    def style(self) -> str:
        """A fine line at each tick, through every line in time."""
        marks = ", ".join(
            f"linear-gradient(90deg, transparent {at:.2f}%, var(--line) {at:.2f}%,"
            f" var(--line) calc({at:.2f}% + 1px), transparent calc({at:.2f}% + 1px))"
            for at, _ in self.ticks)
        return f".track {{ background-image: {marks}; }}\n" if marks else ""

    def marked(self) -> list[tuple[float, str]]:
        """Ticks at round moments of this machine's zone, where each lies and what it says."""
        length = self.last - self.first
        step = next((it for it in STEPS if it * MOST_TICKS >= length), STEPS[-1])
        form = "%H:%M:%S" if step < 60 else "%H:%M" if step < 86400 else "%d %b"
        offset = time.localtime(self.first).tm_gmtoff
        when = -(-(self.first + offset) // step) * step - offset
        found: list[tuple[float, str]] = []
        while self.at(when) <= LAST_TICK and len(found) <= MOST_TICKS:
            found.append((self.at(when), time.strftime(form, time.localtime(when))))
            when += step
        return found
