"""Functions that run in threads."""

from __future__ import annotations

import contextvars
import threading
from collections.abc import Callable
from typing import Any

from .calls import Call
from .current import Try, enter
from .errors import Interrupted
from .outcomes import Outcome, Stopped, good, wrong

Report = Callable[[Call, Outcome, BaseException | None], None]


def outcome_after(one: Try, error: BaseException) -> Outcome:
    """How a try ended whose function raised an error."""
    return Stopped(str(one.why)) if one.why and not one.is_cut() else wrong(error)


class ThreadRunner:
    """Calls a function in a thread of its own."""

    def __init__(self, function: Callable[[], Any], report: Report) -> None:
        self.function, self.report = function, report
        self.context = contextvars.copy_context()

    def begin(self, call: Call, one: Try) -> None:
        thread = threading.Thread(target=self.context.copy().run, args=(self.work, call, one),
                                  daemon=True, name=f"{call.group.name}/{call.key}")
        try:
            thread.start()
        except RuntimeError as error:
            one.stop(Interrupted(f"no thread can be started: {error}"))
            self.report(call, wrong(error), error)

    def work(self, call: Call, one: Try) -> None:
        enter(one)
        try:
            value = self.function()
        except BaseException as error:
            self.report(call, outcome_after(one, error), error)
        else:
            self.report(call, good(value), None)

    def stop(self) -> None:
        """The function asks `current()` whether it has to stop."""

    def is_lost(self) -> bool:
        return False

    def is_here(self) -> bool:
        return False
