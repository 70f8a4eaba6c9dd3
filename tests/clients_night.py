"""A night of tasks in Python, which tests/clients kills: each task notes what happens.

    clients_night.py STORE NOTES WAY TASKS LIMIT [WRONG]

WAY is `threads` or `asyncio`. A line of NOTES is `WORD NAME VALUE ATTEMPT PID`, and is
written whole. WRONG is a mistake of clients_wrong.py.
"""

from __future__ import annotations

import asyncio
import functools
import os
import random
import sys
import time
from collections.abc import Callable
from concurrent.futures import Future
from typing import Any

sys.dont_write_bytecode = True
HERE = os.path.dirname(os.path.realpath(__file__))
sys.path[:0] = [f"{HERE}/../clients/python", HERE]
import clients_wrong  # noqa: E402
import pokhnier  # noqa: E402

# Every third of these tasks fails, and its last failures are the quickest.
CHECKS = 12


class Notes:
    def __init__(self, path: str) -> None:
        self.file = os.open(path, os.O_APPEND | os.O_CREAT | os.O_WRONLY)

    def add(self, word: str, name: str = "-", value: object = "-", attempt: int = 0) -> None:
        text = f"{word} {name} {str(value).replace(' ', '_')} {attempt} {os.getpid()}\n"
        os.write(self.file, text.encode())


def seconds(number: int) -> float:
    """How long a task takes: it is another time in each run."""
    return random.Random(number + os.getpid()).randint(1, 6) / 1000


def is_bad(name: str) -> bool:
    return name.startswith("c") and int(name[1:]) % 3 == 1


def begins(notes: Notes, name: str) -> None:
    notes.add("begin", name, attempt=pokhnier.current().attempt)


def ends(notes: Notes, name: str, number: int) -> int:
    notes.add("end", name, attempt=pokhnier.current().attempt)
    if is_bad(name):
        raise ValueError(f"{name} is bad")
    return number * number


def work(notes: Notes, name: str, number: int) -> int:
    begins(notes, name)
    time.sleep(seconds(number))
    return ends(notes, name, number)


async def work_later(notes: Notes, name: str, number: int) -> int:
    begins(notes, name)
    try:
        await asyncio.sleep(seconds(number))
    except asyncio.CancelledError:
        notes.add("stopped", name)
        raise
    return ends(notes, name, number)


def noted(notes: Notes, name: str, future: Future[Any]) -> None:
    """Somebody has the result, or the error."""
    error = future.exception()
    if error is None:
        notes.add("acked", name, future.result())
    else:
        notes.add("lost" if isinstance(error, pokhnier.Error) else "failed", name, error)


def called(notes: Notes, call: Callable[..., pokhnier.Task[int]], function: Callable[..., Any],
           letter: str, count: int) -> list[pokhnier.Task[int]]:
    tasks = []
    for number in range(count):
        name = f"{letter}{number:03}"
        tasks.append(call(name, function, notes, name, number))
        tasks[-1].add_done_callback(functools.partial(noted, notes, name))
    return tasks


def in_threads(store: pokhnier.Store, notes: Notes, count: int, limit: int) -> None:
    try:
        with store.group("checks", limit=limit, on_error="go-on") as checks:
            called(notes, checks.run, work, "c", CHECKS)
    except ValueError as error:
        notes.add("first", value=error)
    with store.group("work", limit=limit) as group:
        tasks = called(notes, group.run, work, "t", count)
    notes.add("sum", value=sum(it.result() for it in tasks))


async def in_asyncio(store: pokhnier.Store, notes: Notes, count: int, limit: int) -> None:
    try:
        async with store.group("checks", limit=limit, on_error="go-on") as checks:
            called(notes, checks.start, work_later, "c", CHECKS)
    except ValueError as error:
        notes.add("first", value=error)
    async with store.group("work", limit=limit) as group:
        tasks = called(notes, group.start, work_later, "t", count)
    notes.add("sum", value=sum([await it for it in tasks]))


def note_syncs(path: str) -> None:
    """Notes in a file how much of the results is synced, so that a test can drop the rest."""
    sync = os.fdatasync

    def synced(file: int) -> None:
        size = os.fstat(file).st_size
        sync(file)
        with open(f"{path}.synced-new", "w", encoding="ascii") as note:
            note.write(str(size))
        os.rename(f"{path}.synced-new", f"{path}.synced")
    setattr(os, "fdatasync", synced)  # noqa: B010 (mypy would refuse an assignment)


def main(path: str, notes_path: str, way: str, count: str, limit: str, wrong: str = "") -> int:
    clients_wrong.make(wrong)
    note_syncs(path)
    notes = Notes(notes_path)
    try:
        # (A run whose program was killed may take long to end on a busy machine.)
        with pokhnier.open(path, patience=100) as store:
            notes.add("open", value=store.value("seed", random.getrandbits(60)),
                      attempt=store.night)
            if way == "threads":
                in_threads(store, notes, int(count), int(limit))
            else:
                asyncio.run(in_asyncio(store, notes, int(count), int(limit)))
    except KeyboardInterrupt:
        return 130
    except (pokhnier.Lost, pokhnier.Interrupted) as error:
        notes.add("ended", value=type(error).__name__)
        return 3
    notes.add("over")
    return 0


if __name__ == "__main__":
    sys.exit(main(*sys.argv[1:]))
