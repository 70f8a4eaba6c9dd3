"""STORE.tries/plan: the commands of the last run, for whoever looks at a night without the file of
commands, or after somebody has edited that file. It is a file of commands itself, with only those
settings that decide when a command is started. Its first line is a comment:

    # night-run -j N PATH      how many commands the run starts at a time, and what it read

A plan that can't be read says nothing, and one that can't be written ends no night.
"""

from __future__ import annotations

import contextlib
import os
import re
from collections.abc import Iterator
from dataclasses import dataclass

from . import Mistake, Name
from .beside import Part
from .files import Files
from .jobs import Job, Jobs, Need
from .settings import OF_ALL
from .telling import error_text, note_once
from .tries import Tries

PLAN = "plan"
MOST_MINUTES = 999_999
# What no plan has: it is read without a command, and without another file.
LOOKS_ELSEWHERE = re.compile(r"^[ \t]*(?:each[ \t]+\S+:[ \t]+(?:command|file)\b|"
                             r"include[ \t]+\S+[ \t]*$)", re.M)
HEAD = re.compile(r"# night-run -j ([1-9][0-9]{0,3}) (.*)")
# What a plan begins with that says nothing.
SPOILED = b"-"


@dataclass(frozen=True)
class Plan:
    """What a run was to do: its commands, how many of them at a time, and where it read them. The
    number is None if no run has written it."""

    jobs: Jobs
    most: int | None
    path: str


def write_plan(tries: Tries, jobs: Jobs, most: int) -> None:
    """Keeps the plan of a run that begins. One that is kept already isn't written again."""
    data = "".join(f"{it}\n" for it in lines(jobs, most)).encode("utf-8", "surrogateescape")
    try:
        with contextlib.suppress(OSError):
            if tries.folder.read(PLAN) == data:
                return
        tries.folder.put(PLAN, data)
    except OSError as error:
        note_once(error_text(error))
        spoil(tries)


def spoil(tries: Tries) -> None:
    """Leaves no plan of another run, which would mislead. Its file stays, and says nothing: if a
    full disk got its room back, a command would begin in that, with none for its output."""
    with contextlib.suppress(OSError):
        try:
            file = tries.folder.open(PLAN, os.O_RDWR)
            try:
                os.pwrite(file, SPOILED, 0)
            finally:
                os.close(file)
        except OSError:
            tries.folder.remove(PLAN)


def plan_text(files: Files) -> str:
    """The text of the plan of the last run; empty if it can't be read."""
    try:
        with contextlib.closing(files.below(Part.TRIES)) as folder:
            return folder.read(PLAN).decode("utf-8", "surrogateescape")
    except OSError:
        return ""


def parsed_plan(files: Files, text: str) -> Plan | None:
    """The plan with this text; None if it is none. No command of it is run."""
    head = HEAD.match(text) if not LOOKS_ELSEWHERE.search(text) else None
    with contextlib.suppress(Mistake):
        return Plan(Jobs(f"{files.shown_of(Part.TRIES)}/{PLAN}", text.split("\n")),
                    int(head[1]), head[2]) if head else None
    return None


def names_of_plan(files: Files) -> set[Name]:
    """The commands of the last run. (To read their file now may run commands.)"""
    plan = parsed_plan(files, plan_text(files))
    return set(plan.jobs.all) if plan else set()


# --- its lines

def lines(jobs: Jobs, most: int) -> Iterator[str]:
    yield f"# night-run -j {most} {one_line(os.path.abspath(jobs.path))}"
    pools = " ".join(f"pool {name} {size}" for name, size in jobs.pools.items())
    if pools:
        yield f"{OF_ALL}: {pools}"
    for group in jobs.members:
        if words := " ".join(words_of_group(jobs, group)):
            yield f"{group}: {words}"
    for job in jobs.all.values():
        yield f"{job.group} {job.key} {one_line(job.command)}"
        if words := " ".join(words_of_job(job)):
            yield f"{job.group} {job.key}: {words}"


def one_line(text: str) -> str:
    """A text that makes no other line, and isn't taken for a line that goes on."""
    return re.sub(r"[\0\r\n]", " ", text).rstrip("\\") or "-"


def words_of_group(jobs: Jobs, group: str) -> Iterator[str]:
    if limit := jobs.limit(group):
        yield f"limit {limit}"
    if priority := jobs.priority(group):
        yield f"priority {priority}"
    if jobs.stops(group):
        yield "stop on failure"
    if jobs.cancels(group):
        yield "failure cancel"


def words_of_job(job: Job) -> Iterator[str]:
    for it in job.after:
        yield f"after {named(it)}"
    if job.retries:
        growth = f" x{job.factor}" if job.factor > 1 else ""
        most = f" up to {time_of(job.most_wait)}" if job.most_wait is not None else ""
        yield f"retries {job.retries} wait {time_of(job.wait)}{growth}{most}"
    if job.priority:
        yield f"priority {job.priority}"
    yield from (f"uses {pool} {amount}" for pool, amount in job.uses)
    if job.days:
        yield f"on {job.days.text}"
    if job.timeout:
        yield f"timeout {time_of(job.timeout)}"


def time_of(seconds: int) -> str:
    """A time as a file of commands has it."""
    minutes, rest = divmod(seconds, 60)
    return f"{min(minutes, MOST_MINUTES)}m{rest}s" if minutes else f"{rest}s"


def named(need: Need) -> str:
    of = need.of if isinstance(need.of, str) else "/".join(need.of)
    return of if need.when == "well" else f"{need.when} {of}"


def known_alone(path: str, commands: dict[Name, str]) -> Jobs:
    """A plan of commands that are known without any settings."""
    return Jobs(path, [f"{group} {key} {one_line(it)}" for (group, key), it in commands.items()])
