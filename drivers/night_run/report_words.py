"""The words that the forms of a report share: counts, a verdict, moments and texts of others.

Moments are shown in this machine's time zone.
"""

from __future__ import annotations

import collections
import re
import time
from collections.abc import Iterable

from .ends import read_end
from .escapes import plain
from .phases import PHASES, WELL, Phase, phase_of
from .rows import OF_ALL, Group, Report, Row, Try
from .used import in_words as used

# The phases of what has yet to end.
OPEN = (Phase.RUNNING, Phase.WAITING, Phase.INTERRUPTED)
# A line of somebody else's that is longer is cut.
MOST_SHOWN = 400
# The cause of a scope that its deadline cancelled.
DEADLINE = re.compile(r"(until|within) \S+$")
# Its cause if the words of its deadline aren't known any more.
PASSED = "its deadline has passed"


def line_shown(line: str) -> str:
    """A line of output as a terminal shows it in the end: the part after its last carriage
    return."""
    shown = plain(line.rstrip("\r\n").rpartition("\r")[2])
    return shown if len(shown) <= MOST_SHOWN else f"{shown[:MOST_SHOWN]} .."


def counts(rows: Iterable[Row]) -> dict[Phase, int]:
    """How many of the rows are in each phase, in the order of PHASES; phases without any are left
    out."""
    found = collections.Counter(it.phase for it in rows)
    return {phase: found[phase] for phase in PHASES if found[phase]}


def in_words(found: dict[Phase, int]) -> str:
    """Counts in words, such as `2 ok, 1 failed`."""
    return ", ".join(f"{count} {phase}" for phase, count in found.items()) or "none"


def in_words_why(phase: Phase, end: str) -> str:
    """A phase, and why it is so."""
    if end.startswith(phase):
        return end
    between = " " if phase == Phase.LEFT_OUT else ": "
    return f"{phase}{between}{end}" if end else phase


def commands(number: int) -> str:
    return f"{number} command{'' if number == 1 else 's'}"


def verdict(report: Report) -> tuple[str, str]:
    """The night in a word, `good`, `bad`, `open` or `busy`, and in a few."""
    found, total = counts(report.rows), len(report.rows)
    lost = total - sum(found.get(it, 0) for it in (*WELL, *OPEN))
    well = sum(found.get(it, 0) for it in WELL)
    if found.get(Phase.FAILED):
        return "bad", f"{found[Phase.FAILED]} of {total} failed"
    if lost:
        return "bad", f"{lost} of {total} not done"
    if found.get(Phase.RUNNING):
        return "busy", f"Running: {well} of {total} done"
    if well < total:
        return "open", f"Unfinished: {total - well} of {total} are left"
    shown = f"{commands(total)} ok" if found.get(Phase.OK, 0) == total else in_words(found)
    return ("good", f"All is well: {shown}") if total else ("open", "No commands")


def by_group(report: Report) -> list[tuple[Group, list[Row]]]:
    """Each group with its rows. A group of which only rows are known comes last."""
    rows: dict[str, list[Row]] = {it.name: [] for it in report.groups}
    for it in report.rows:
        rows.setdefault(it.group, []).append(it)
    known = {it.name: it for it in report.groups}
    return [(known.get(name) or Group(name, False, "", None, None), found)
            for name, found in rows.items() if name != OF_ALL]


def of_all(report: Report) -> Group | None:
    """The facts about all groups together."""
    return next((it for it in report.groups if it.name == OF_ALL), None)


def facts(group: Group, whole: Group | None = None) -> list[str]:
    """What was set for a group: its limit, and its deadline unless that is the whole night's."""
    found = [f"limit {group.limit}"] if group.limit is not None else []
    if group.deadline is not None and (whole is None or group.deadline != whole.deadline):
        found.append(f"deadline {moment(group.deadline)}")
    return found


def why_done(group: Group) -> list[str]:
    """Why a group is done: the words of its deadline, or of its cancel; nothing if it isn't
    done."""
    if not group.is_done:
        return []
    if group.cause == PASSED:
        return [PASSED]
    word = "deadline passed" if DEADLINE.match(group.cause) else "canceled"
    return [f"{word}: {plain(group.cause)}" if group.cause else word]


def kind_of(it: Try) -> Phase:
    """The phase that a try's end stands for."""
    return phase_of(read_end(it.end).kind) if it.end else Phase.RUNNING


def end_of(it: Try) -> float | None:
    """When a try ended; None if it runs, or if its times are unknown."""
    return None if it.began is None or it.took is None else it.began + it.took


def last_end(rows: Iterable[Row]) -> float | None:
    ends = [end for row in rows for end in map(end_of, row.tries) if end is not None]
    return max(ends, default=None)


def tries_in_words(row: Row) -> str:
    """A command's tries in words, such as `3 tries, the last at 03:12:04 for 1h02m`."""
    if not row.tries:
        return "not tried"
    last = row.tries[-1]
    number = len(row.tries)
    found = "1 try, at" if number == 1 else f"{number} tries, the last at"
    if last.began is None:
        return f"{found} a time that isn't known"
    took = "" if last.took is None else f" for {span(last.took)}"
    return f"{found} {clock(last.began)}{took}"


def used_in_words(row: Row) -> str:
    """What the last try of a command took, as far as it is known."""
    return ", ".join(used(row.tries[-1].used)) if row.tries else ""


def moment(when: float) -> str:
    return time.strftime("%Y-%m-%d %H:%M", time.localtime(when))


def clock(when: float) -> str:
    return time.strftime("%H:%M:%S", time.localtime(when))


def span(seconds: float) -> str:
    """A length of time, such as `0.4s`, `12s`, `1m05s` or `2h07m`."""
    if seconds < 9.95:
        return f"{max(seconds, 0):.1f}s"
    whole = round(seconds)
    if whole < 60:
        return f"{whole}s"
    if whole < 3600:
        return f"{whole // 60}m{whole % 60:02}s"
    return f"{whole // 3600}h{whole % 3600 // 60:02}m"


def period(report: Report) -> str:
    """From when to when: up to the last end, or up to now if something hasn't ended."""
    is_over = verdict(report)[0] != "busy"
    end = (last_end(report.rows) if is_over else None) or report.now
    if report.began is None:
        return f"as of {moment(report.now)}"
    return f"{moment(report.began)} to {moment(end)} ({span(end - report.began)})"
