"""Looks for files that a test or a bench of the clients has left behind."""

from __future__ import annotations

import os
import signal
import subprocess
import sys
import time
from collections.abc import Iterator

TOP = os.path.dirname(os.path.dirname(os.path.realpath(__file__)))
FOLDERS = ("clients", "bench/clients")
SECONDS = 120


def files() -> set[str]:
    """The files of the clients and of their benches, by their paths from the top."""
    return {os.path.relpath(f"{where}/{name}", TOP) for folder in FOLDERS
            for where, _, names in os.walk(f"{TOP}/{folder}") if not where.endswith("__pycache__")
            for name in names}


def is_text(path: str) -> bool:
    with open(f"{TOP}/{path}", "rb") as file:
        return b"\0" not in file.read()


def faults(before: set[str], bench: list[str], env: dict[str, str], folder: str) -> Iterator[str]:
    """What is left in the checkout since these files were all, which of its files were built, and
    what a bench leaves that is ended. BENCH is the bench and its program."""
    yield from (f"{it} was left in the checkout" for it in sorted(files() - before))
    yield from (f"{it} is no text" for it in sorted(files()) if not is_text(it))
    os.makedirs(folder)
    inside = begun([*bench, "--folder", f"{TOP}/clients"], env)
    if inside.wait(SECONDS) != 2:
        yield "a bench puts its files into the checkout"
    running = begun([*bench, "--folder", folder, "--resumed", "0"], env)
    until = time.monotonic() + SECONDS
    while running.poll() is None and not os.listdir(folder) and time.monotonic() < until:
        time.sleep(0.01)
    running.send_signal(signal.SIGTERM)
    running.wait(SECONDS)
    yield from (f"a bench that is ended leaves {it}" for it in os.listdir(folder))


def begun(words: list[str], env: dict[str, str]) -> subprocess.Popen[bytes]:
    return subprocess.Popen([sys.executable, *words], env=env, stdin=subprocess.DEVNULL,
                            stdout=subprocess.DEVNULL, stderr=subprocess.DEVNULL)
