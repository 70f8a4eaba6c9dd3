"""The words that the forms of a history share."""

from __future__ import annotations

import time

from .history import Cell, Command, History, Night
from .phases import Phase
from .report_words import commands, span
from .used import Used, amount, in_words


def head(its: History) -> str:
    """Which nights these are."""
    count = len(its.nights)
    if not count:
        return f"No night of {its.store} is known"
    return f"{'The last ' if count > 1 else ''}{nights(count)} of {its.store}"


def period(its: History) -> str:
    """From when to when they began; empty if that isn't known."""
    its_moments = [moment(it.began) for it in its.nights if it.began is not None]
    return " to ".join(dict.fromkeys((*its_moments[:1], *its_moments[-1:])))


def nights(count: int) -> str:
    return f"{count} night{'' if count == 1 else 's'}"


def day(when: float) -> str:
    return time.strftime("%Y-%m-%d", time.localtime(when))


def moment(when: float | None) -> str:
    return "-" if when is None else time.strftime("%Y-%m-%d %H:%M", time.localtime(when))


def said(it: Command) -> str:
    """How often it was ok, and its times: `ok in 27 of 30 nights, 33 tries; median 1h02m, tonight
    ok in 58m04s`."""
    if not it.cells:
        return "it hasn't run yet"
    tries = sum(cell.tries for cell in it.cells)
    ended = sum(cell.phase is not Phase.RUNNING for cell in it.cells)
    found = [f"ok in {it.well} of {nights(ended)}, {tries} {'try' if tries == 1 else 'tries'}"]
    times = [f"median {span(it.median)}"] if it.median is not None else []
    return "; ".join([*found, ", ".join([*times, *tonight(it)])]).removesuffix("; ")


def tonight(it: Command) -> list[str]:
    """How it stands tonight; nothing where it hasn't begun."""
    cell = it.tonight
    if cell is None:
        return []
    took = f" in {span(cell.seconds)}" if cell.seconds is not None else ""
    return [f"tonight {cell.phase}{took}"]


def cell_said(it: Cell, of: Night | None) -> str:
    """A night of a command: `night 3, 2026-11-24: ok in 1h02m, 2 tries`, and what they took."""
    when = f", {day(of.began)}" if of and of.began is not None else ""
    took = f" in {span(it.seconds)}" if it.seconds is not None else ""
    end = it.end if it.phase is Phase.FAILED and it.end else it.phase
    tries = f", {it.tries} tries" if it.tries > 1 else ""
    figures = used_said(it)
    return f"night {it.night}{when}: {end}{took}{tries}" + (f"; {figures}" if figures else "")


def used_said(it: Cell) -> str:
    """What the tries of a night took: `12s of processor time, 1.3G of memory, 4.2K printed`."""
    return ", ".join(in_words(Used(it.cpu, it.memory, it.output)))


def night_said(it: Night) -> str:
    """A night as a whole: `2 of 60 commands failed, 4h10m, 1.2G printed`."""
    found = [f"{it.failed} of {commands(it.commands)} failed" if it.failed else
             f"{commands(it.commands)}, none failed"]
    found += [f"{it.undone} not done"] if it.undone else []
    found += [] if it.seconds is None else [span(it.seconds)]
    return ", ".join([*found, *([] if it.output is None else [f"{amount(it.output)} printed"])])
