"""The program `night`: where it is, and what it does apart from driving a night."""

from __future__ import annotations

import contextlib
import os
import shutil
import subprocess

from .errors import Error, Lost, Refused


def program() -> str:
    """The path of `night`: the variable NIGHT, a file next to this package, or one on the path."""
    beside = os.path.join(os.path.dirname(__file__), "night")
    for named in (os.environ.get("NIGHT"), beside, "night"):
        if named and (found := shutil.which(named)):
            return found
        if named and named == os.environ.get("NIGHT"):
            raise Error(f"NIGHT names no program: {named}")
    raise Error("there is no program `night`: set NIGHT or PATH")


def make_store(path: str) -> None:
    """Makes a store, if there is none. It is there as a whole or not at all. Results that an
    earlier store has left are removed."""
    if os.path.exists(path):
        return
    with contextlib.suppress(FileNotFoundError):
        os.remove(f"{path}.results")
    beside = f"{path}.new"
    with contextlib.suppress(FileNotFoundError):
        os.remove(beside)
    try:
        done = subprocess.run([program(), "format", "--new", beside], stdin=subprocess.DEVNULL,
                              capture_output=True, text=True, errors="replace", check=False,
                              start_new_session=True)
        if done.returncode < 0:
            raise Lost(f"{path}: night format was killed by signal {-done.returncode}")
        if done.returncode:
            raise Refused(f"{path}: no store can be made: {done.stderr.strip()}")
        with contextlib.suppress(FileExistsError):
            os.link(beside, path)
    finally:
        with contextlib.suppress(FileNotFoundError):
            os.remove(beside)
