"""A room whose group runs by an engine: a stand-in for it (`far_engines`), or what this machine has
(`far_daemons`)."""

from __future__ import annotations

import os
import re
import shutil
import signal
import subprocess
import sys
import tempfile
import time
from collections.abc import Iterator, Sequence
from contextlib import contextmanager

from driver_room import Room, Shared, children, kill, nights_in
from far_daemons import Engine
from running import HERE, bytes_of

PAGE = f"{HERE}/../docs/far.md"
ENGINES = {"systemd-run": "", "ssh": "sshd", "sbatch": "slurmctld"}
# What the page hands a command to, where that isn't the engine's program.
VIA = {"sbatch": "./batch"}
PROGRAMS = ("systemd-run", "systemctl", "ssh", "sbatch", "squeue", "scancel")
# By their ways those of this machine that stand in no stand-in's place.
REAL: dict[str, Engine] = {}
# A command: KEY SECONDS STATUS. It ends once there is a file `go`, or after so many seconds. (With
# a connection that has gone what it prints would end it before its trap.)
JOB = """#!/bin/sh
exec 7>>"lock.$1" 2>/dev/null
flock -n 7 || echo "$1" >> beside
trap 'echo "$1" >> stopped; exit 143' TERM
echo "$1" >> begun
n=0
while [ $n -lt $(($2 * 20)) ] && [ ! -e go ]; do n=$((n + 1)); sleep 0.05 7>&-; done
echo "$1" >> done
exit $3
"""
OVERLAP = "no try ran beside another"


def settings(program: str) -> list[str]:
    """The settings of the page for this engine, of the group `g`."""
    with open(PAGE, encoding="utf-8") as file:
        blocks = re.findall(r"(?:^    disks: (?:via|ask|stop) .*\n)+", file.read(), re.M)
    via = f"    disks: via {VIA.get(program, program)} "
    block = next(it for it in blocks if it.startswith(via))
    return [it.strip().replace("disks:", "g:", 1) for it in block.splitlines()]


def store_name(room: Room) -> str:
    """What `{store}` is for the store `s` of a room."""
    path = f"{os.path.realpath(room.path)}/s"[1:]
    return "".join(it if it.isalnum() or it == "." else "-" if it == "/" else f"_{ord(it):02x}"
                   for it in path)


class FarRoom(Room):
    """A room whose group `g` runs by an engine."""

    def __init__(self, tries: Shared, program: str, jobs: list[str]) -> None:
        super().__init__(tries, [*settings(program), *jobs])
        self.engine = tempfile.mkdtemp(dir=tries.folder)
        self.real = REAL.get(program)
        os.mkdir(f"{self.engine}/jobs")
        os.mkdir(f"{self.path}/bin")
        stands_in = {} if self.real else {
            it: f'#!/bin/sh\nexec "{sys.executable}" -S -B "{HERE}/far_engines.py" {it} "$@"\n'
            for it in PROGRAMS}
        for it, text in (self.real.programs if self.real else stands_in).items():
            self.program(f"bin/{it}", text)
        scripts = f"{os.path.dirname(tries.driver)}/far"
        for name in os.listdir(scripts):
            shutil.copy(f"{scripts}/{name}", self.engine if name == "guard" else self.path)
        self.program("job", JOB)
        self.given = {"ENGINE": self.engine, "PATH": f"{self.path}/bin:{os.environ['PATH']}",
                      "JOBS": f"{self.engine}/jobs.txt", **(self.real.given if self.real else {})}
        if self.real and self.real.jobs:
            self.given["JOBS"] = self.real.jobs
        self.before = ["env", *(f"{name}={value}" for name, value in self.given.items())]

    def set(self, jobs: Sequence[str]) -> None:
        super().set([it.replace("$ROOM", self.path) for it in jobs])

    def down(self, is_so: bool) -> None:
        """Whether the engine can't be heard."""
        if self.real:
            self.real.is_down(is_so)
        with open(f"{self.engine}/down", "w", encoding="utf-8") as file:
            file.write("1" if is_so else "")

    def forgets(self, how: str) -> None:
        """Lets the stand-in for Slurm forget what it runs."""
        self.write("forget", how)
        os.rename(f"{self.path}/forget", f"{self.engine}/forget")
        self.until(lambda: not os.path.exists(f"{self.engine}/forget"))

    def lag(self, seconds: float) -> None:
        with open(f"{self.engine}/lag", "w", encoding="utf-8") as file:
            file.write(str(seconds))

    def slow_cancels(self, seconds: float) -> None:
        """How long the stand-in's scancel takes for each job."""
        with open(f"{self.engine}/gap", "w", encoding="utf-8") as file:
            file.write(str(seconds))

    def record(self) -> list[str]:
        """What Slurm's record of ended jobs has of this room."""
        path = self.given["JOBS"]
        lines = bytes_of(path).decode().splitlines() if os.path.exists(path) else []
        return [it for it in lines if f" Name={store_name(self)}." in it]

    def runs(self, key: str) -> bool:
        """Whether a try of a key runs: its lock is held."""
        return bool(subprocess.run(["flock", "-n", f"{self.path}/lock.{key}", "true"]).returncode)

    def waits_for(self, name: str, count: int, seconds: float = 60) -> bool:
        return self.until(lambda: len(self.lines(name)) >= count, seconds)

    def hit(self, run: subprocess.Popen[str], who: str) -> None:
        """Kills the driver, or all of this machine: then the clients, too."""
        if self.real and who == "all":
            self.real.cut(True)
        kill([run.pid], which=signal.SIGSTOP)
        below = children(run.pid)
        kill([run.pid])
        if who == "all":
            kill([it for it in below if it not in nights_in(below)], in_groups=True)
        kill(nights_in(below))
        run.wait()
        if self.real and who == "all":
            self.real.cut(False)

    def apart(self, kind: str) -> None:
        self.tries.is_same(f"{kind}: {OVERLAP}", self.path, self.lines("beside"), [])


@contextmanager
def room_of(tries: Shared, program: str, *jobs: str) -> Iterator[FarRoom]:
    """A room with its engine, which ends with it, and so does what it runs."""
    room = FarRoom(tries, program, list(jobs))
    server = "" if room.real else ENGINES[program]
    words = [sys.executable, "-S", "-B", f"{HERE}/far_engines.py", server]
    it = subprocess.Popen(words, env={**os.environ, **room.given}) if server else None
    if server == "sshd":
        room.until(lambda: os.path.exists(f"{room.engine}/sshd"))
    try:
        yield room
    finally:
        if it:
            it.kill()
            it.wait()
        for pid in filter(str.isdigit, os.listdir("/proc")):
            try:
                with open(f"/proc/{pid}/environ", "rb") as file:
                    is_its = f"ENGINE={room.engine}".encode() in file.read().split(b"\0")
            except OSError:
                continue
            if is_its:
                kill([int(pid)])
