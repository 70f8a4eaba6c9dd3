"""The history as text for a terminal or a mail: 72 columns, flaky commands first."""

from __future__ import annotations

from collections.abc import Iterator

from .escapes import plain
from .history import Cell, Command, History
from .history_words import head, moment, night_said, period, said, used_said
from .phases import Phase
from .report_text import headed, wrapped

# A mark for each night of a command; one that was ok after a failure has its own.
MARKS = {Phase.OK: ".", Phase.FAILED: "x", Phase.CANCELED: "c", Phase.INTERRUPTED: "i",
         Phase.NOT_STARTED: "n", Phase.RUNNING: ">"}
AGAIN, NOT_RUN = "r", "-"
LEGEND = ("Each night is a mark, the latest last: . ok, x failed, r ok after a failure, c canceled,"
          " i interrupted, n not started, > running, - not run")


def text(its: History) -> str:
    """The whole history, with a line feed at its end."""
    return "".join(f"{it}\n" for it in lines(its))


def lines(its: History) -> Iterator[str]:
    yield from wrapped(plain(head(its)))
    if when := period(its):
        yield from wrapped(when)
    if any(it.cells for it in its.commands):
        yield from wrapped(LEGEND)
    for name, found in (("Flaky", its.flaky), ("Failing", its.failing), ("Commands", its.others),
                        ("No longer in the command file", its.gone)):
        if found:
            yield from headed(name)
            for it in found:
                yield from command(its, it)
    if its.nights:
        yield from headed("Nights")
        for night in reversed(its.nights):
            yield from wrapped(f"{night.number}: {moment(night.began)}, {night_said(night)}")


def command(its: History, it: Command) -> Iterator[str]:
    yield from wrapped(f"{it.group} {it.key}: {said(it)}")
    if it.cells:
        yield f"  {marks(its, it)}"
    if it.tonight and (figures := used_said(it.tonight)):
        yield from wrapped(f"  tonight: {figures}")


def marks(its: History, it: Command) -> str:
    cells = {cell.night: cell for cell in it.cells}
    return "".join(mark(cells.get(night.number)) for night in its.nights)


def mark(cell: Cell | None) -> str:
    if cell is None:
        return NOT_RUN
    return AGAIN if cell.phase is Phase.OK and cell.failures else MARKS.get(cell.phase, "?")
