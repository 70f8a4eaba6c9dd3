"""What is printed at the end: the commands that didn't end well, and how many did."""

from __future__ import annotations

import collections
from collections.abc import Iterable, Mapping

from . import Name, rows
from .ends import End
from .jobs import Jobs
from .log import Line, Tried, text_of_line
from .phases import WELL, WHOLE, Phase
from .report_words import commands, line_shown
from .rounds import base_of

# The counts of the last line, in order.
KINDS = ("ok", "failed", "canceled", "not started", "left", "not known", "not needed", "not due",
         "left out")


def so_far(ends: Iterable[End], count: int, running: int) -> str:
    """How far a night is: how many commands have ended, out of how many, and how many run."""
    found = [it.is_ok for it in ends]
    return f"{len(found)} of {count} done, {running} running, {found.count(False)} failed"


def kind_of(phase: str) -> str:
    return phase if phase in KINDS else "left"


def how_it_stands(row: rows.Row) -> str:
    """How a command stands, in one line."""
    if row.phase in (Phase.NOT_STARTED, Phase.NOT_NEEDED):
        return f"{row.phase}, because {row.end}"
    if row.phase == Phase.LEFT_OUT:
        return f"{row.phase} {row.end}"
    if row.phase in (Phase.NOT_KNOWN, Phase.NOT_DUE):
        return f"{row.phase}: {row.end}"
    if row.phase == Phase.WAITING and row.end:
        return f"{row.phase}: {retry(row.end)}"
    return row.end or row.phase


def retry(end: str) -> str:
    """The line of a failed command that has a retry left."""
    return f"a retry after {end}"


def list_lines(report: rows.Report) -> list[str]:
    return [f"{it.group} {it.key}: {how_it_stands(it)}" for it in report.rows
            if it.phase != Phase.OK]


def failures(report: rows.Report) -> list[str]:
    """A line for each command that didn't end well, and the last lines that it printed."""
    lines = []
    for it in report.rows:
        if it.phase in WHOLE:
            continue
        is_shown = it.output and it.phase in (Phase.FAILED, Phase.CANCELED)
        where = f"; {it.output}" if is_shown else ""
        lines.append(f"{it.group} {it.key}: {how_it_stands(it)}{where}")
        lines += [f"    {line_shown(line)}" for line in (it.tail if is_shown else ())]
    return lines


def changed(jobs: Jobs, report: rows.Report, lines: Mapping[Tried, Line]) -> list[str]:
    """The commands whose text differs from the one that ended ok."""
    had = {(base_of(group), key): line.command
           for (group, key, _), line in lines.items() if line.end.is_ok and line.command != "-"}
    return [f"{it.group} {it.key}: its command has changed since it ended; --redo"
            f" {it.group}/{it.key} runs it again"
            for it in report.rows if it.phase == Phase.OK
            and had.get((it.group, it.key), None) not in (None, text_of_line(it.command))]


def total(report: rows.Report, ran_now: int) -> str:
    found = collections.Counter(kind_of(it.phase) for it in report.rows)
    shown = ", ".join(f"{found[it]} {it}" for it in KINDS if found[it])
    return f"{commands(len(report.rows))}: {shown or 'none'}; {ran_now} run this time"


def nothing_to_do(report: rows.Report, when: str) -> str:
    found = collections.Counter(kind_of(it.phase) for it in report.rows)
    ended = sum(count for kind, count in found.items() if kind != "left")
    bad = [f"{found[it]} {it}" for it in KINDS[1:] if found[it] and it not in WELL]
    failed = f"; --failed repeats only those that are not ok ({', '.join(bad)})" if bad else ""
    moment = f" by {when}" if when else ""
    return f"nothing to do: {commands(ended)} ended{moment}; --again starts the next night{failed}"


def is_well(report: rows.Report) -> bool:
    return all(it.phase in WELL for it in report.rows)


def is_whole(report: rows.Report) -> bool:
    """Whether it is well, and nothing was left out by hand."""
    return all(it.phase in WHOLE for it in report.rows)


def failed_count(report: rows.Report) -> int:
    return sum(it.phase in (Phase.FAILED, Phase.CANCELED, Phase.NOT_STARTED) for it in report.rows)


def left_count(report: rows.Report) -> int:
    return sum(it.phase not in WELL for it in report.rows) - failed_count(report)


def names_not_there(jobs: Jobs, left: set[Name]) -> list[Name]:
    """Commands that are left in a store, and aren't in the file."""
    return sorted(it for it in left if it not in jobs.all)
