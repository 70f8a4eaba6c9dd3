"""The night on the picture of a screen: what `--status` shows of it, by the driver's own functions.

It is played by hand: its phases, times and processes stand here. What the commands wait for, when
the night will end and how all that is shown is left to the driver. docs/pictures/screen.txt is what
docs/pictures/draw draws, and has to be the same, line by line.
"""

from __future__ import annotations

import contextlib
import os
import sys
import time
from collections.abc import Iterator
from types import SimpleNamespace
from typing import cast

TOP = os.path.dirname(os.path.dirname(os.path.realpath(__file__)))
sys.path.insert(0, f"{TOP}/drivers")
from night_run.ends import failed  # noqa: E402
from night_run.facts import Facts  # noqa: E402
from night_run.jobs import Jobs  # noqa: E402
from night_run.phases import Phase  # noqa: E402
from night_run.rows import Row, Try  # noqa: E402
from night_run.standing import Standing  # noqa: E402
from night_run.status import (Running, Status, counted, forecast_of,  # noqa: E402
                              waits_of)
from night_run.status_plan import Plan  # noqa: E402
from night_run.status_screen import Size, screen  # noqa: E402
from night_run.status_times import Times, Usual  # noqa: E402
from night_run.tonight import Tonight  # noqa: E402
from night_run.views import View  # noqa: E402

SCREEN = f"{TOP}/docs/pictures/screen.txt"
# A terminal of 80 by 24, with two lines left for what was typed and for what follows.
SIZE = Size(80, 22)
NIGHT = 41
# 2026-11-26T22:00:00Z, and seven minutes past three.
EVENING, NOW = 1_795_730_400.0, 1_795_748_832.0
MINUTES = 60.0
FILE = """\
disks: limit 2
disks {0}
dumps: retries 1 wait 2m
dumps shop true
dumps crm true
dumps wiki true
tape: after disks
tape copy true
tape offsite true
tape offsite: after copy
"""
DISKS = (*(f"host{at}" for at in range(1, 29)), "home", "mail", "www")
# Of those that have to end: how long they have run, or None; how long they usually take; a process.
LEFT = {"disks/home": (127.5, 118, 5120), "disks/mail": (41.2, 52, 5377),
        "disks/www": (None, 38, 0), "dumps/shop": (12.4, 21, 5502), "dumps/wiki": (None, 2, 0),
        "tape/copy": (None, 45, 0), "tape/offsite": (None, 30, 0)}
RUNNING = ("disks/home", "disks/mail", "dumps/shop")
WHY = "pg_dump: error: connection to server failed: timeout expired"


def name_of(text: str) -> tuple[str, str]:
    group, _, key = text.partition("/")
    return group, key


def status() -> Status:
    """The night of the picture at seven minutes past three."""
    lines = [f"disks {it} true" if line == "disks {0}" else line
             for line in FILE.splitlines() for it in (DISKS if line == "disks {0}" else ("",))]
    jobs = Jobs("JOBS", lines)
    facts = Facts()
    facts.ended(("dumps", "wiki"), failed("exit 7"), NOW - 12)
    standings = {name: Standing(Phase.OK) for name in jobs.all}
    standings |= {name_of(it): Standing(Phase.RUNNING if it in RUNNING else Phase.WAITING)
                  for it in LEFT}
    standings["dumps", "wiki"] = Standing(Phase.WAITING, "exit 7")
    standings["dumps", "crm"] = Standing(Phase.FAILED, "exit 1")
    times = Times({name_of(it): Usual(usual * MINUTES, 1.2 * usual * MINUTES, 7)
                   for it, (_, usual, _) in LEFT.items()}, 7)
    running = tuple(Running(
        *name_of(it), "true", NOW - minutes * MINUTES, minutes * MINUTES, times.usual[name_of(it)],
        1, process, f"backups.store.out/{it.replace('/', f'--{NIGHT}.')}.0")
        for it, (minutes, _, process) in LEFT.items() if minutes is not None)
    tries = (Try(0, EVENING, 9.0, "exit 1"),) * 2
    unwell = Row("dumps", "crm", "true", Phase.FAILED, "exit 1", tries,
                 f"backups.store.out/dumps--{NIGHT}.crm.1", (WHY,))
    plan = Plan(jobs, 4, "/etc/night/backups")
    view = cast(View, SimpleNamespace(facts=facts, standings=standings,
                                      book=SimpleNamespace(scopes={}, tonight=Tonight())))
    waits = waits_of(plan, view, True, NOW)
    return Status("backups.store", NIGHT, NOW, EVENING, None, 4711, EVENING, plan.most, plan.path,
                  counted(standings), running, (unwell,), tuple(waits.all()),
                  forecast_of(plan, view, times, running, waits, NOW), times.nights)


@contextlib.contextmanager
def in_utc() -> Iterator[None]:
    """The time zone of the pictures, whatever that of the machine is."""
    kept = os.environ.get("TZ")
    os.environ["TZ"] = "UTC"
    time.tzset()
    try:
        yield
    finally:
        if kept is None:
            del os.environ["TZ"]
        else:
            os.environ["TZ"] = kept
        time.tzset()


def shown() -> list[str]:
    """The screen, as a terminal of the picture's size shows it."""
    with in_utc():
        return screen(status(), SIZE)
