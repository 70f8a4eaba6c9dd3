"""What has to end: commands whose timeout, deadline or group is over, and those that a signal asks
the driver to stop. Each is asked once, and killed after a grace.
"""

from __future__ import annotations

from .commands import Command, too_much
from .ends import End, canceled, failed
from .leftovers import Leftover
from .orders import Stop
from .running import Running
from .tries import Tries


class Stopper:
    """Stops commands, of this driver and of one that was killed."""

    def __init__(self, tries: Tries, grace: float) -> None:
        self.tries, self.grace = tries, grace

    def stop(self, it: Running, why: End | None) -> None:
        """Asks a command to end, once, and has a later driver know it."""
        if it.stopped is None and it.record:
            self.tries.stop(it.record, why)
        it.stop(why)

    def press(self, it: Command, order: Stop) -> None:
        """Ends one of this driver's if it has to."""
        if not it.has_begun or it.poll(self.grace) or not (it.is_here or it.is_asked_for):
            return
        if it.is_overdue():
            self.stop(it, failed(f"timeout {it.job.timeout_text}"))
        elif it.stopped is None and it.job.limits.is_passed_by(self.printed(it.output)):
            self.stop(it, too_much(it.job))
        self.press_one(it, order)

    def printed(self, output: str) -> int | None:
        return self.tries.files.outputs.size(output)

    def press_left(self, it: Leftover, order: Stop) -> None:
        """Ends what an earlier driver left, if it has to."""
        if it.is_overdue() and it.job:
            self.stop(it, failed(f"timeout {it.job.timeout_text}"))
        elif it.job and it.stopped is None and it.is_here \
                and it.job.limits.is_passed_by(self.printed(it.it.file)):
            self.stop(it, too_much(it.job))
        elif it.has_orphans():
            it.clear(self.grace)
        elif order.end and order.end.is_canceled:
            self.stop(it, order.end)
        self.press_one(it, order)

    def press_one(self, it: Running, order: Stop) -> None:
        if order.cause is not None:
            self.stop(it, canceled(order.cause))
        elif order.cuts_off:
            self.stop(it, None)
        it.press(self.grace)
