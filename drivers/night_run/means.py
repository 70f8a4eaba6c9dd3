"""How the limits of a command are put on its processes (`limits`): by words before those that run
it.

`nice` and `ionice` are the programs of these names. Memory and processors are limited by a scope of
systemd, if this user may make one; it counts all processes of the command together. Otherwise each
process is limited for itself: its own memory (RLIMIT_DATA), and the processors on which it may run
(`taskset`), whose number is rounded up. Which of the two it was stands in the log, and is said once
where it isn't a scope.
"""

from __future__ import annotations

import functools
import itertools
import os
import shutil
import subprocess
from collections.abc import Iterator, Sequence
from dataclasses import dataclass, field

from .limits import Limits
from .telling import note_once

# How many seconds systemd has to make a scope.
PATIENCE = 10.0
IONICE = {"realtime": "1", "best-effort": "2", "idle": "3"}
SCOPE, PROCESS, NOTHING = "scope", "process", "-"


@dataclass(frozen=True)
class Put:
    """How limits are put on a command: the words that run it, the kilobytes of memory that each of
    its processes may have, if that is how it is limited, and the word for that."""

    words: list[str]
    kilobytes: str = ""
    how: str = NOTHING


@dataclass
class Means:
    """What this machine has for that."""

    scope: Sequence[str] = ()  # what begins the words of a scope; nothing where none can be made
    why: str = ""  # why none can be made
    processors: Sequence[int] = ()  # on which this driver may run
    turns: Iterator[int] = field(default_factory=itertools.count)

    def put(self, words: list[str], its: Limits) -> Put:
        """How a command that these words run is limited."""
        kilobytes, how = "", NOTHING
        if its.ionice is not None:
            name, level = its.ionice
            levels = [] if name == "idle" else ["-n", str(level)]
            words = [*tool("ionice", "-c", IONICE[name], *levels), *words]
        if its.nice is not None:
            words = [*tool("nice", "-n", str(its.nice)), *words]
        if its.memory is None and its.cpu is None:
            return Put(words)
        if self.scope:
            return Put([*self.scope, *properties(its), "--", *words], "", SCOPE)
        note_once(f"memory and cpu are limited process by process: {self.why}")
        if its.cpu is not None:
            its_own = self.some(its.cpu)
            words = [*(tool("taskset", "-c", its_own) if its_own else ()), *words]
        if its.memory is not None:
            kilobytes = str(its.memory >> 10)
        how = PROCESS
        return Put(words, kilobytes, how)

    def some(self, share: int) -> str:
        """As many processors as make this share, rounded up, as `taskset` takes them; nothing where
        these are all. Commands that begin one after the other get others."""
        count, wanted = len(self.processors), -(-share // 100)
        if wanted >= count:
            return ""
        first = next(self.turns) * wanted
        return ",".join(str(self.processors[(first + it) % count]) for it in range(wanted))


def tool(name: str, *words: str) -> list[str]:
    """The words of a program, by its path; nothing where it isn't installed, which is said."""
    path = shutil.which(name)
    if path:
        return [path, *words]
    note_once(f"{name} isn't installed here, so commands run without it")
    return []


def properties(its: Limits) -> list[str]:
    """The limits of a scope. Memory on the disk isn't more memory."""
    found = []
    if its.memory is not None:
        found += ["-p", f"MemoryMax={its.memory}", "-p", "MemorySwapMax=0"]
    if its.cpu is not None:
        found += ["-p", f"CPUQuota={its.cpu}%"]
    return found


@functools.cache
def means() -> Means:
    """What this machine has. It is looked for once, by a scope that is made."""
    processors = sorted(os.sched_getaffinity(0))
    path = shutil.which("systemd-run")
    if not path:
        return Means((), "there is no systemd-run here", processors)
    has_manager = {"XDG_RUNTIME_DIR", "DBUS_SESSION_BUS_ADDRESS"} & set(os.environ)
    if os.geteuid() and not has_manager:
        return Means((), "this user has no systemd here (XDG_RUNTIME_DIR isn't set)", processors)
    scope = [path, "--scope", "--quiet", "--collect", *(["--user"] if os.geteuid() else [])]
    why = why_no_scope([*scope, *properties(Limits(memory=64 << 20, cpu=100)), "--", "true"])
    return Means(() if why else scope, why, processors)


def why_no_scope(words: list[str]) -> str:
    """Tries to make a scope. Why it can't be made; nothing where it can."""
    try:
        done = subprocess.run(words, stdin=subprocess.DEVNULL, stdout=subprocess.DEVNULL,
                              stderr=subprocess.PIPE, timeout=PATIENCE, check=False)
    except subprocess.TimeoutExpired:
        return f"systemd makes no scope within {PATIENCE:.0f} s"
    except OSError as error:
        return f"systemd-run: {error.strerror}"
    said = done.stderr.decode("utf-8", "replace").splitlines()
    return f"no scope of systemd can be made ({said[0] if said else done.returncode})" \
        if done.returncode else ""
