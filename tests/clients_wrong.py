"""Mistakes that a client in Python could make. tests/clients has to find each of them."""
# ruff: noqa: B010 (mypy would refuse a plain assignment to a method)

from __future__ import annotations

import os
import threading
from collections.abc import Callable

from pokhnier import board, drive, ends, files, groups, names, outcomes, results, rounds
from pokhnier.calls import Call, Ended, GroupPlan, Settled, has_failed
from pokhnier.current import Try, enter
from pokhnier.errors import Error
from pokhnier.outcomes import Ok
from pokhnier.threads import ThreadRunner
from pokhnier.wishes import End


def early() -> None:
    """It reports a result before the end is durable."""
    end = rounds.Round.end

    def reporting(self: rounds.Round, wish: End) -> None:
        end(self, wish)
        if isinstance(wish.outcome, Ok):
            self.good.remove(wish.call)
            wish.call.state = Settled()
            wish.call.future.set_result(wish.outcome.value)
    setattr(rounds.Round, "end", reporting)


def unwritten() -> None:
    """It writes the results only at the end of the run."""
    close, flush = results.Results.close, results.Results.flush
    setattr(results.Results, "flush", lambda self: None)

    def closing(self: results.Results) -> None:
        flush(self)
        close(self)
    setattr(results.Results, "close", closing)


def unsynced() -> None:
    """It writes the results, and never syncs them."""
    setattr(files.Lines, "sync", lambda self: None)


def renames() -> None:
    """A key has another name in each run."""
    name = names.key_name
    setattr(groups, "key_name", lambda text: name(f"{text} {os.getpid()}"))


def halves() -> None:
    """It takes an answer whose end hasn't come."""
    answer = drive.Drive.answer

    def halving(self: drive.Drive) -> list[str]:
        try:
            return answer(self)
        except Exception:
            lines = self.rest.decode("ascii", "replace").split("\n")
            self.rest.clear()
            if lines == [""]:
                raise
            return [*lines, "durable"]
    setattr(drive.Drive, "answer", halving)


def called(call: Call) -> None:
    """Calls the function of a call once more."""
    enter(Try(*call.name, 0))
    if isinstance(call.runner, ThreadRunner):
        call.runner.function()


def repeats() -> None:
    """It calls functions whose tasks have ended well in an earlier run."""
    stand = board.Board.stand

    def again(self: board.Board, call: Call | None, standing: str) -> None:
        if call and standing == "ok" and not isinstance(call.state, Ended | Settled):
            threading.Thread(target=called, args=(call,)).start()
        stand(self, call, standing)
    setattr(board.Board, "stand", again)


def swallows() -> None:
    """The end of a group raises no error of a function."""
    setattr(groups, "may_have_failed", lambda *words: False)
    found = ends.end_of

    def swallowing(*words: object) -> BaseException | None:
        error = found(*words)  # type: ignore[arg-type]
        return error if isinstance(error, Error) else None
    setattr(groups, "end_of", swallowing)


def last() -> None:
    """The end of a group raises the error of the task that comes last in the group."""
    def ending(self: board.Board, group: GroupPlan, text: str) -> BaseException | None:
        errors = [it.future.exception() for it in self.plan.calls
                  if it and it.group is group and has_failed(it)]
        return errors[-1]
    setattr(board.Board, "error_with", ending)


def decides() -> None:
    """It takes the failure for the first one of a group that its results have first."""
    def deciding(self: board.Board, group: GroupPlan, text: str) -> BaseException | None:
        for name, outcome in self.results.failures(group.name):
            for it in self.plan.calls:
                if it and it.name == name and it.future.done():
                    return it.future.exception()
        return outcomes.raised(outcomes.Wrong(text))
    setattr(board.Board, "error_with", deciding)


def unlocked() -> None:
    """It takes no lock of its own, so functions may go on beside another run."""
    setattr(files, "lock", lambda path, seconds: os.open(path, os.O_RDWR | os.O_CREAT, 0o644))


WRONG: dict[str, Callable[[], None]] = {
    it.__name__: it for it in (early, unwritten, unsynced, renames, halves, repeats, swallows, last,
                               decides, unlocked)}


def make(wrong: str) -> None:
    """The client of this process makes this mistake."""
    if wrong:
        WRONG[wrong]()
