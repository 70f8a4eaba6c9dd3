"""The report as a text for a mail: 72 columns, what didn't end well first.

Only a path may be longer, so that it can be copied whole.
"""

from __future__ import annotations

import collections
import textwrap
from collections.abc import Iterator

from .escapes import one_line, plain
from .phases import Phase
from .report_words import (by_group, counts, facts, in_words, in_words_why, line_shown, of_all,
                           period, tries_in_words, used_in_words, verdict, why_done)
from .rows import Report, Row

COLUMNS = 72
# How many failures are shown with their last lines, and how many names that share a reason.
MOST_SHOWN, MOST_NAMED = 20, 12
# What didn't end well, besides failures, or was left out.
OTHERS = (Phase.CANCELED, Phase.NOT_STARTED, Phase.INTERRUPTED, Phase.LEFT_OUT)


def text(report: Report) -> str:
    """The whole report, with a line feed at its end."""
    return "".join(f"{it}\n" for it in lines(report))


def lines(report: Report) -> Iterator[str]:
    yield from wrapped(verdict(report)[1])
    yield from wrapped(f"{plain(report.store)}, night {report.night}, {period(report)}")
    yield from wrapped(in_words(counts(report.rows)))
    failed = [it for it in report.rows if it.phase is Phase.FAILED]
    if failed:
        yield from headed("Failed")
        for at, row in enumerate(failed):
            yield from failure(row) if at < MOST_SHOWN else wrapped(named(row))
    others = list(unlucky(report))
    if others:
        yield from headed("Not done")
        for it in others:
            yield from wrapped(it)
    if report.rows:
        yield from headed("Groups")
        yield from groups(report)


def headed(head: str) -> Iterator[str]:
    yield from ("", head.upper(), "")


def named(row: Row) -> str:
    return f"{row.group} {row.key}: {plain(row.end) or row.phase}"


def failure(row: Row) -> Iterator[str]:
    """A failure: its end, its tries, its command, its last lines, and the path of all of them."""
    yield from wrapped(f"{named(row)} ({tries_in_words(row)})")
    yield from wrapped(line_shown(one_line(row.command)), "  $ ", "    ")
    if figures := used_in_words(row):
        yield from wrapped(figures, "  ", "  ")
    for it in row.tail:
        yield from wrapped(line_shown(it).expandtabs(), "  | ", "  | ")
    if row.output:
        yield f"  {plain(row.output)}"


def unlucky(report: Report) -> Iterator[str]:
    """The other commands that didn't end well; those that share a reason stand together."""
    found = collections.defaultdict(list)
    for row in report.rows:
        if row.phase in OTHERS:
            found[row.phase, plain(row.end)].append(f"{row.group} {row.key}")
    for (phase, end), names in found.items():
        why = in_words_why(phase, end)
        more = len(names) - MOST_NAMED
        shown = ", ".join(names[:MOST_NAMED]) + (f" and {more} more" if more > 0 else "")
        yield f"{len(names)} {why} ({shown})"


def groups(report: Report) -> Iterator[str]:
    whole = of_all(report)
    its = [*facts(whole), *why_done(whole)] if whole else []
    if its:
        yield from wrapped(f"all groups: {'; '.join(its)}")
    for group, rows in by_group(report):
        its = [in_words(counts(rows)), *facts(group, whole), *why_done(group)]
        yield from wrapped(f"{group.name}: {'; '.join(its)}")


def wrapped(line: str, first: str = "", later: str = "  ") -> list[str]:
    """A line, broken into lines of 72 columns. The first begins with `first`, each other one with
    `later`."""
    return textwrap.wrap(line, COLUMNS, initial_indent=first, subsequent_indent=later,
                         expand_tabs=False, replace_whitespace=False, drop_whitespace=True,
                         break_on_hyphens=False) or [first.rstrip()]
