"""The nights on the picture of a history: thirty of them, made up here, as the page shows them.

Their logs are written by hand, in the form of docs/options.md, and the driver's own functions make
the page of them. docs/pictures/photograph photographs it, and keeps its digest in
docs/pictures/history.sha256, so that tests/pictures notices when the page isn't the one on the
pictures any more.
"""

from __future__ import annotations

import hashlib
import os
import random
import sys
import tempfile
import time
from collections.abc import Iterator

from pictured import in_utc

TOP = os.path.dirname(os.path.dirname(os.path.realpath(__file__)))
sys.path.insert(0, f"{TOP}/drivers")
from night_run import report  # noqa: E402
from night_run.files import Files  # noqa: E402
from night_run.history import history  # noqa: E402
from night_run.phases import Phase  # noqa: E402
from night_run.rows import Report, Row, Try  # noqa: E402
from night_run.used import Used  # noqa: E402

DIGEST = f"{TOP}/docs/pictures/history.sha256"
# 2026-10-28T22:00:00Z, and a day.
EVENING, DAY = 1_793_224_800.0, 86_400.0
NIGHTS = 30
STORE = "backups.store"
HEAD = "Try\tGroup\tKey\tBegan\tSeconds\tEnd\tCommand\tCPU\tMemory\tOutput\tLimits\n"
# Each command: how many minutes it takes in the first night and in the last one, the nights in
# which it is ok after a failure, those in which it fails, and how much it prints.
COMMANDS: dict[tuple[str, str], tuple[float, float, tuple[int, ...], tuple[int, ...], int]] = {
    ("disks", "home"): (82, 121, (), (), 900_000),
    ("disks", "mail"): (48, 52, (), (), 400_000),
    ("disks", "www"): (31, 36, (4, 9, 17, 22, 23), (11,), 120_000),
    ("dumps", "shop"): (19, 21, (), (), 4_000),
    ("dumps", "crm"): (7, 8, (14,), (27, 28, 29), 2_000),
    ("tape", "copy"): (44, 47, (), (), 10_000)}
# What the file of commands had until this night.
GONE, UNTIL = ("dumps", "wiki"), 12


def tries_of(name: tuple[str, str], night: int) -> list[Try]:
    """The tries of a command in a night."""
    by = random.Random(f"{name} {night}")
    first, last, again, bad, printed = COMMANDS.get(name, (3.0, 3.0, (), (), 900))
    took = (first + (last - first) * night / NIGHTS) * by.uniform(0.94, 1.06) * 60
    used = Used(took / 20, int(by.uniform(80, 120)) << 20, int(printed * by.uniform(0.9, 1.1)))
    began = EVENING + DAY * (night - 1) + (3600 if name[0] == "tape" else 5)
    failure = Try(0, began, round(took / 4, 3), "exit 1", used)
    if night in bad:
        return [failure]
    begins = began + took / 4 + 120 if night in again else began
    return [*([failure] if night in again else []),
            Try(int(night in again), begins, round(took, 3), "ok", used)]


def lines(night: int) -> Iterator[str]:
    """The log of a night."""
    yield HEAD
    for group, key in (*COMMANDS, *([GONE] if night <= UNTIL else [])):
        for it in tries_of((group, key), night):
            when = time.strftime("%Y-%m-%dT%H:%M:%S.000+0000", time.gmtime(it.began))
            yield (f"{it.number}\t{group}{f'--{night}' if night > 1 else ''}\t{key}\t{when}"
                   f"\t{it.took or 0:.3f}\t{it.end}\ttrue\t{it.used.cpu:.3f}\t{it.used.memory}"
                   f"\t{it.used.output}\t-\n")


def row(name: tuple[str, str]) -> Row:
    """A command in the last night."""
    its = tries_of(name, NIGHTS)
    phase = Phase.OK if its[-1].end == "ok" else Phase.FAILED
    return Row(*name, "true", phase, "" if phase is Phase.OK else its[-1].end, tuple(its), "", ())


def page() -> str:
    """The page of the last night, as it is printed in the morning."""
    with in_utc(), tempfile.TemporaryDirectory(prefix="pictured-") as folder:
        for night in range(1, NIGHTS):
            with open(os.open(f"{folder}/s.log.{night}", os.O_WRONLY | os.O_CREAT, 0o600), "w",
                      encoding="ascii") as file:
                file.writelines(lines(night))
        began = EVENING + DAY * (NIGHTS - 1)
        return report.HISTORIES["history-html"](history(Files(f"{folder}/s"), Report(
            STORE, NIGHTS, began + 9 * 3600, began, (), tuple(map(row, COMMANDS)))))


def digest() -> str:
    return hashlib.sha256(page().encode()).hexdigest()
