"""The folder of thirty nights: the store on a disk of its own, the clock that the test sets, the
drivers that run there, and what the commands wrote."""

from __future__ import annotations

import contextlib
import json
import os
import shutil
import signal
import subprocess
import time
from collections.abc import Callable
from dataclasses import dataclass, field
from typing import Any

from nights_folder import processes, size_of
from nights_hits import hit
from nights_oracle import Trace, trace_in
from nights_pace import Pace
from nights_room import SECONDS, TRACEBACK, Tools
from thirty_plan import ACT, GRACE, MOST, PAIRS, Act, Name, Plan

# The size of the store's disk. A small one is filled sooner.
DISK = "96m"
STORE, JOBS = "disk/s", "JOBS"
# How much later than it should something is seen on a machine that counts as slow, in seconds.
SLOW_FROM = 3.0


@dataclass(frozen=True)
class Step:
    """That the clock was set: between these moments of the monotonic clock, to be this many seconds
    ahead of the machine's."""

    at: float
    done: float
    ahead: int


class Clock:
    """The time of day in the room: the machine's, and some seconds more."""

    def __init__(self, path: str) -> None:
        self.path, self.steps = path, list[Step]()

    @property
    def ahead(self) -> int:
        return self.steps[-1].ahead if self.steps else 0

    def now(self) -> float:
        return time.time() + self.ahead

    def set_ahead(self, seconds: int) -> None:
        at = time.monotonic()
        with open(f"{self.path}.new", "w", encoding="ascii") as file:
            file.write(f"{seconds}\n")
        os.rename(f"{self.path}.new", self.path)
        self.steps.append(Step(at, time.monotonic(), seconds))

    def set(self, moment: float) -> None:
        self.set_ahead(round(moment - time.time()))

    def shown(self, at: float) -> float:
        """What it showed at this moment of the monotonic clock."""
        ahead = next((it.ahead for it in reversed(self.steps) if it.at <= at), 0)
        return at + ahead + time.time() - time.monotonic()

    def was_set(self, one: float, other: float) -> bool:
        """Whether it was set between these moments."""
        return any(it.done > one and it.at < other for it in self.steps)

    def passes(self, moment: float, since: float) -> Step | None:
        """The step of the clock by which it shows this moment, or a later one, for the first time
        since that moment of the monotonic clock; None if it hasn't yet."""
        return next((it for it in self.steps
                     if it.at >= since and self.shown(it.done) >= moment), None)


@dataclass
class Run:
    """A driver, from its start to its end."""

    words: tuple[str, ...]
    began: float
    process: subprocess.Popen[bytes]
    errors_path: str
    output_path: str
    ended: float | None = None
    must_say: list[str] = field(default_factory=list)  # patterns of standard error
    may_say: list[str] = field(default_factory=list)

    @property
    def is_active(self) -> bool:
        return self.process.poll() is None

    @property
    def status(self) -> int | None:
        return self.process.returncode

    @property
    def errors(self) -> str:
        return text_of(self.errors_path)

    @property
    def output(self) -> str:
        return text_of(self.output_path)


def text_of(path: str) -> str:
    try:
        with open(path, encoding="utf-8", errors="replace") as file:
            return file.read()
    except FileNotFoundError:
        return ""


class Unreadable(Exception):
    """What a run should have printed as JSON is none."""


class Disk:
    """A disk of the store's own, where this machine gives one; else the folder alone."""

    def __init__(self, path: str) -> None:
        self.path = path
        os.mkdir(path)
        words = ["mount", "-t", "tmpfs", "-o", f"size={DISK}", "none", path]
        self.is_own = not os.getuid() and not subprocess.run(words, capture_output=True).returncode

    def give_back(self, keeps: bool) -> None:
        """Gives the disk back; what is on it is kept, if that is to be looked at."""
        if self.is_own and keeps:
            shutil.copytree(self.path, f"{self.path}.was", symlinks=True)
        if self.is_own:
            subprocess.run(["umount", "-l", self.path], check=True)


class Room:
    """A folder with a file of commands, and a store on a disk."""

    def __init__(self, tools: Tools, path: str, pace: Pace, keep: int) -> None:
        self.tools, self.path, self.pace, self.keep = tools, path, pace, keep
        self.bad: list[str] = []
        self.notes: list[str] = []
        self.checks = 0
        self.runs: list[Run] = []
        self.disk = Disk(f"{path}/disk")
        for it in ("locks", "tries", "acts", "mails", "runs"):
            os.mkdir(f"{path}/{it}")
        shutil.copy(tools.job, f"{path}/job")
        self.write("act", ACT, 0o755)
        self.write("pairs", PAIRS)
        self.write("bounds", f"{MOST} hosts 4 steps 1\n")
        self.clock = Clock(f"{path}/clock")
        self.environment = {**os.environ, "NIGHT": f"{tools.folder}/night.real", "TZ": "UTC",
                            "LD_PRELOAD": f"{tools.folder}/clock.so",
                            "NIGHTS_CLOCK": self.clock.path}

    # --- files

    def write(self, name: str, text: str, mode: int = 0o644) -> None:
        with open(f"{self.path}/{name}.new", "w", encoding="utf-8") as file:
            file.write(text)
        os.chmod(f"{self.path}/{name}.new", mode)
        os.rename(f"{self.path}/{name}.new", f"{self.path}/{name}")

    def write_plan(self, plan: Plan) -> None:
        self.write(JOBS, plan.text)

    def prepare(self, night: int, acts: dict[Name, Act]) -> None:
        """Writes what the commands of a night do, whose tries are counted from 0."""
        self.write("tonight", f"{night}\n")
        self.write("hold", "")
        for it in os.listdir(f"{self.path}/tries"):
            os.remove(f"{self.path}/tries/{it}")
        for (group, key), act in acts.items():
            self.write(f"acts/{group}.{key}", act.text)

    def release(self) -> None:
        """Has those commands go on that waited for the accidents."""
        with contextlib.suppress(FileNotFoundError):
            os.remove(f"{self.path}/hold")

    def trace(self) -> Trace:
        return trace_in(f"{self.path}/trace")

    def trace_size(self) -> int:
        return size_of(f"{self.path}/trace")

    def begins(self) -> int:
        """How many tries have begun."""
        return sum(it.startswith("B ") for it in text_of(f"{self.path}/trace").splitlines())

    def is_there(self, name: str) -> bool:
        return os.path.lexists(f"{self.path}/{name}")

    def kill_all(self) -> None:
        """Kills whatever runs in the room; a command with all that it began, at a stroke."""
        for it in processes():
            with contextlib.suppress(OSError):
                if os.readlink(f"/proc/{it}/cwd") == self.path and it != os.getpid():
                    os.killpg(os.getpgid(it), signal.SIGKILL)

    # --- drivers

    def note(self, what: str) -> None:
        self.notes.append(f"{time.monotonic():.3f} {what}")

    def holds(self, is_so: bool, complaint: str) -> bool:
        self.checks += 1
        if not is_so:
            self.bad.append(complaint)
            self.note(f"FAILED {complaint}")
        return is_so

    def spawn(self, *words: str) -> Run:
        path = f"{self.path}/runs/{len(self.runs)}"
        began = time.monotonic()
        with open(f"{path}.errors", "wb") as errors, open(f"{path}.output", "wb") as output:
            process = subprocess.Popen([self.tools.driver, *words], cwd=self.path, stdout=output,
                                       stdin=subprocess.DEVNULL, stderr=errors,
                                       start_new_session=True, env=self.environment)
        run = Run(words, began, process, f"{path}.errors", f"{path}.output")
        self.runs.append(run)
        self.note(f"run {len(self.runs) - 1}: {' '.join(words)}")
        return run

    def start(self, *more: str) -> Run:
        """A driver that runs the night."""
        return self.spawn(STORE, JOBS, "-j", str(MOST), "--grace", str(GRACE), "--keep",
                          str(self.keep), "--mail", 'cat > "mails/$NIGHT_OWNER.$$"', *more)

    def end(self, run: Run, seconds: float = SECONDS) -> int | None:
        """The status of a run once it has ended; None if it hangs."""
        began = time.monotonic()
        while run.is_active and time.monotonic() - began < seconds * (
                0.5 + self.pace.slack(began, time.monotonic())):
            time.sleep(0.01)
        if run.is_active:
            hit(run.process, "all")
            self.holds(False, f"night-run {' '.join(run.words)} didn't end: {run.errors[-300:]}")
        run.process.wait()
        run.ended = run.ended or time.monotonic()
        self.holds(TRACEBACK not in run.errors, f"a traceback: {run.errors[-600:]}")
        self.note(f"ended with status {run.status}; {run.output.splitlines()[-1:]}"
                  f" {run.errors.splitlines()[:3]}")
        return run.status

    def is_slow(self, run: Run) -> bool:
        """Whether the machine was slow during a run."""
        return self.pace.slack(run.began, run.ended or time.monotonic()) > SLOW_FROM

    def ask(self, *words: str) -> tuple[int | None, str, Run]:
        """The status of a run that ends by itself, and what it printed, wherever it did."""
        run = self.spawn(*words)
        status = self.end(run)
        return status, (run.output + run.errors).strip(), run

    def look(self, *words: str) -> str:
        """What a run that only looks prints."""
        status, _, run = self.ask(*words)
        self.holds(status == 0 and not run.errors,
                   f"night-run {' '.join(words)}: status {status}, {run.errors[-300:]}")
        return run.output

    def look_at(self, *words: str) -> Any:
        """The same as JSON."""
        text = self.look(*words)
        try:
            return json.loads(text)
        except ValueError:
            raise Unreadable(f"night-run {' '.join(words)} printed {text[:200]!r}") from None

    def until(self, is_so: Callable[[], object], seconds: float = 20.0) -> bool:
        """Waits until this is so; longer where the machine is slow."""
        began = time.monotonic()
        while not (found := is_so()) and time.monotonic() - began < seconds + self.pace.slack(
                began, time.monotonic()):
            time.sleep(0.005)
        return bool(found)
