"""A night as rows, for a list and a report: nothing is written, locked or begun."""

from __future__ import annotations

import os
import time
from collections.abc import Iterable, Mapping
from dataclasses import dataclass, field, replace

from . import Fault, Name, rows
from .beside import Part
from .ends import INTERRUPTED
from .facts import Book, Facts, book_of, facts_of, is_late, logged_groups, numbered
from .files import Files
from .jobs import Jobs
from .log import Line, Tried, read_log
from .nights import know_day, read_nights
from .opening import check, inspected
from .past import Past, read_past
from .phases import Phase
from .planner import Planner
from .processes import Process, this_process
from .rounds import base_of
from .settings import OF_ALL
from .standing import Standing
from .state import State
from .tries import Named, running_now

# How many of the last lines of an output are shown, out of how many of its last bytes.
LINES, BYTES = 3, 4096
# How often two files are read again because one of them has changed meanwhile; so is a night.
MOMENTS = 20
EMPTY = State(0, 0, {}, (), (), ())


@dataclass(frozen=True)
class View:
    """What is so at one moment."""

    state: State
    past: Past
    lines: Mapping[Tried, Line]
    book: Book
    facts: Facts
    standings: Mapping[Name, Standing]
    running: Mapping[Named, float] = field(default_factory=dict)  # and when each of them began
    holder: Process | None = None  # the driver that runs it


def look(files: Files, planner: Planner, past: Past | None = None) -> View:
    """Reads a night. A store that isn't there has nothing. A driver knows the ends of a renewed
    store itself. If the night's driver ends meanwhile, the night is read again: what the store says
    of the commands that ran is of the moment before."""
    for _ in range(MOMENTS):
        holder = files.lock.holder()
        found = read(files, planner, past, holder)
        if holder is None or holder == files.lock.holder():
            break
    return found


def read(files: Files, planner: Planner, past: Past | None, holder: Process | None) -> View:
    """Reads a night, which this driver runs."""
    if past is None:
        past, state = moment(files)
    else:
        state = inspected(files)
    check(files, state, past.events if files.exists() else 0)
    lines = read_log(files, logged_groups(state, past))
    night = max(state.night() if state.scopes else 1, past.night)
    book = book_of(state, past, night)
    know_day(files, book, planner.jobs)
    planner.jobs.limits = book.tonight.limits
    facts = facts_of(state, past, lines, book, time.time(), {})
    running = running_now(files)
    facts.busy = busy_in(book, running, holder)
    return View(state, past, lines, book, facts, planner.standings(facts), running, holder)


def moment(files: Files) -> tuple[Past, State]:
    """What the store and the ends of a renewed one say at one moment."""
    for _ in range(MOMENTS):
        past = read_past(files)
        state = inspected(files) if files.exists() else EMPTY
        if read_past(files) == past:
            return past, state
    raise Fault(f"{files.shown_of(Part.ENDED)} changes again and again")


def busy_in(book: Book, running: Iterable[Named], holder: Process | None) -> set[Name]:
    """What runs: tasks that have a driver, and commands that a killed one left."""
    found = {name for name in (it.name for it in running)
             if name not in book.last or book.last[name].phase in ("running", "interrupted")}
    if holder and holder != this_process():
        found |= {name for name, task in book.last.items() if task.phase == "running"}
    return found


def report(files: Files, jobs: Jobs, view: View) -> rows.Report:
    """A night as rows."""
    tries = tries_of(view)
    made = tuple(row(files, view, jobs.all[name].command, name, tries.get(name, []))
                 for name in jobs.all)
    moments = [it.began for one in made for it in one.tries if it.began is not None]
    nights, number = read_nights(files), view.book.night
    begun = nights.begun.get(number)
    before = nights.well if nights.well and nights.well[0] <= number else None
    return rows.Report(files.shown, number, time.time(), min(moments, default=None),
                       groups(jobs, view), made, begun.begun if begun else None,
                       begun.last if begun else None, before[1] if before else None)


def remembered(files: Files, jobs: Jobs, night: int, known: Mapping[Name, Standing],
               outputs: Mapping[Name, str]) -> rows.Report:
    """A night as its driver knows it, with no look at the store."""
    made = []
    for name, it in known.items():
        output = outputs.get(name, "")
        is_there = not files.sight.why() and files.outputs.has(output)
        shown = files.outputs.shown(output) if is_there else ""
        made.append(rows.Row(*name, jobs.all[name].command, it.phase, it.why, (), shown,
                             tail(files, output)))
    return rows.Report(files.shown, night, time.time(), None, (), tuple(made))


def without_past(files: Files, planner: Planner, why: str) -> rows.Report:
    """A night as the store alone has it: of what it says nothing of, nothing is known."""
    view = look(files, planner, Past())
    known = {*view.facts.ends, *view.facts.interrupted, *view.facts.busy}
    made = report(files, planner.jobs, view)
    return replace(made, rows=tuple(
        it if (it.group, it.key) in known else replace(it, phase=Phase.NOT_KNOWN, end=why)
        for it in made.rows))


def row(files: Files, view: View, command: str, name: Name,
        tries: list[tuple[str, rows.Try]]) -> rows.Row:
    standing = view.standings[name]
    named = (files.outputs.name(group, name[1], it.number) for group, it in reversed(tries))
    output = next(filter(files.outputs.has, named), "")
    return rows.Row(*name, command, standing.phase, standing.why, tuple(it for _, it in tries),
                    files.outputs.shown(output), tail(files, output))


def tries_of(view: View) -> dict[Name, list[tuple[str, rows.Try]]]:
    """The tries of each command in this night, with the store's group of each."""
    found: dict[Name, list[tuple[str, rows.Try]]] = {}
    seen: set[Tried] = set()
    ours = view.state.groups_of(view.book.night)
    gone = set()
    if view.past.night == view.book.night:
        gone = {group for group, _, _ in view.past.ends} | set(view.past.had)
    for tried, line in view.lines.items():
        if tried[0] in gone or tried[0] in ours:
            seen.add(tried)
            add_try(found, tried, rows.Try(tried[2], line.began_at(), line.took(),
                                           line.end.text, line.used))
    for task, tried in numbered(view.state):
        if task.group in ours and not task.is_withdrawn and tried not in seen:
            is_running = task.phase == "running" and task.name in view.facts.busy
            end = "" if is_running else (task.end or INTERRUPTED).text
            add_try(found, tried, rows.Try(tried[2], view.running.get(Named(*tried)), None, end))
    return {name: as_one(its, name in view.facts.busy) for name, its in found.items()}


def as_one(its: list[tuple[str, rows.Try]], is_busy: bool) -> list[tuple[str, rows.Try]]:
    """The tries of a command, in which one that outlived its driver or its `night` counts once. The
    store has it as an interrupted one and as the one after it, which began at the same moment."""
    made: list[tuple[str, rows.Try]] = []
    for group, it in reversed(its):
        later = made[-1][1] if made else None
        if it.end != INTERRUPTED.text or it.began is None:
            made.append((group, it))
        elif later is None:
            made.append((group, replace(it, end="") if is_busy else it))
        elif not later.end and later.began is None:
            made[-1] = made[-1][0], replace(later, began=it.began)
        elif later.began != it.began:
            made.append((group, it))
    return made[::-1]


def add_try(found: dict[Name, list[tuple[str, rows.Try]]], tried: Tried, it: rows.Try) -> None:
    group, key, _ = tried
    found.setdefault((base_of(group), key), []).append((group, it))


def groups(jobs: Jobs, view: View) -> tuple[rows.Group, ...]:
    """All groups together, and each group of the file. A deadline that passed after the night's end
    isn't shown as passed."""
    top = view.book.top
    done = {name: why for name, why in view.facts.done.items() if name not in view.facts.late}
    is_done = bool(top and top.done and not is_late(top, top.cause or "", view.book))
    made = [rows.Group(OF_ALL, is_done, top.cause or "" if top and is_done else "",
                       top.deadline if top else None, None)]
    for name in jobs.members:
        scope = view.book.scopes.get(name)
        made.append(rows.Group(name, name in done, done.get(name, ""),
                               scope.deadline if scope else None, jobs.limit(name)))
    return tuple(made)


def tail(files: Files, output: str) -> tuple[str, ...]:
    """The last lines of an output; none where it can't be read, or isn't to be trusted."""
    if not output:
        return ()
    try:
        file = files.outputs.open(output)
        try:
            text = os.pread(file, BYTES, max(0, os.fstat(file).st_size - BYTES))
        finally:
            os.close(file)
    except OSError:
        return ()
    lines = text.decode("utf-8", "surrogateescape").rstrip("\n").split("\n")
    return tuple(it.rstrip("\r") for it in lines[-LINES:] if it.strip())
