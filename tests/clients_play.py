"""Plays a night of clients_night.py: kills it at random moments, until it is over."""

from __future__ import annotations

import contextlib
import os
import random
import signal
import subprocess
import sys
import time
from collections import Counter
from dataclasses import dataclass, field

from clients_judge import Judge, Note, note_of
from clients_night import CHECKS

HERE = os.path.dirname(os.path.realpath(__file__))
VICTIMS = ("client", "program", "both", "power", "break")
SECONDS = 120
# A run may still find the program of the last one, or be interrupted, but not more often.
MOST_RUNS = 4


@dataclass
class Night:
    """A night, and what it notes."""
    folder: str
    program: str
    way: str
    tasks: int
    limit: int
    wrong: str
    chance: random.Random
    victims: tuple[str, ...] = VICTIMS
    kills: Counter[str] = field(default_factory=Counter)
    runs: int = 0
    bad: list[str] = field(default_factory=list)

    def __post_init__(self) -> None:
        self.store, self.notes = f"{self.folder}/store", f"{self.folder}/notes"
        self.pid_file = f"{self.folder}/pid"
        self.wrapper = f"{self.folder}/night"
        with open(self.wrapper, "w", encoding="ascii") as file:
            file.write(f'#!/bin/sh\n[ "$1" = drive ] && echo $$ > {self.pid_file}\n'
                       f'exec {self.program} "$@"\n')
        os.chmod(self.wrapper, 0o755)

    def begin(self) -> subprocess.Popen[bytes]:
        self.runs += 1
        words = [self.store, self.notes, self.way, str(self.tasks), str(self.limit), self.wrong]
        return subprocess.Popen([sys.executable, f"{HERE}/clients_night.py", *words],
                                stdin=subprocess.DEVNULL, stdout=subprocess.PIPE,
                                stderr=subprocess.STDOUT, start_new_session=True,
                                env={**os.environ, "NIGHT": self.wrapper})

    def begun(self) -> int:
        """How many functions have begun."""
        with contextlib.suppress(FileNotFoundError), open(self.notes, "rb") as file:
            return file.read().count(b"begin ")
        return 0

    def wait(self, client: subprocess.Popen[bytes], more: int) -> bool:
        """Waits until this many more functions have begun. Returns whether the client runs then."""
        until, wanted = time.monotonic() + SECONDS, self.begun() + more
        while client.poll() is None and self.begun() < wanted:
            if time.monotonic() > until:
                self.bad.append(f"run {self.runs} doesn't go on")
                client.kill()
            time.sleep(0.001)
        return client.poll() is None

    def kill(self, client: subprocess.Popen[bytes]) -> None:
        """Kills somebody, and waits for the client's end, if it is to be killed."""
        victim = self.chance.choice(self.victims)
        time.sleep(self.chance.random() * 0.01)
        self.kills[victim] += 1
        if victim in ("program", "both", "power"):
            with contextlib.suppress(OSError, ValueError), open(self.pid_file) as file:
                os.kill(int(file.read()), signal.SIGKILL)
        if victim == "break":
            client.send_signal(signal.SIGINT)
        if victim in ("client", "both", "power"):
            client.kill()
        if victim != "program":
            self.ended(client)
        if victim == "power":
            self.drop_unsynced()

    def ended(self, client: subprocess.Popen[bytes]) -> int:
        """Waits for the end of a client."""
        try:
            said, _ = client.communicate(timeout=SECONDS)
        except subprocess.TimeoutExpired:
            client.kill()
            said, _ = client.communicate()
            self.bad.append(f"run {self.runs} doesn't end")
        # (-2: a break before or after `main`)
        if client.returncode not in (0, 3, 130, -2, -9):
            text = said.decode(errors="replace").strip().splitlines()
            self.bad.append(f"run {self.runs} ended with status {client.returncode}: {text[-3:]}")
        with open(self.notes, "a", encoding="ascii") as file:
            file.write(f"killed - - 0 {client.pid}\n")
        return client.returncode

    def drop_unsynced(self) -> None:
        """Drops what a power failure may drop of the results."""
        size = 0
        with contextlib.suppress(FileNotFoundError), open(f"{self.store}.synced") as file:
            size = int(file.read())
        with contextlib.suppress(FileNotFoundError):
            if os.path.getsize(f"{self.store}.results") > size:
                os.truncate(f"{self.store}.results", size)

    def play(self, most: int, each: int) -> None:
        """Kills at most this often, every `each` functions or so. Then the night has to end."""
        left: list[subprocess.Popen[bytes]] = []
        while not self.bad and sum(self.kills.values()) < most:
            client = self.begin()
            if not self.wait(client, self.chance.randint(0, 2 * each)):
                left.append(client)
                break
            self.kill(client)
            left.append(client)
        for _ in range(MOST_RUNS):
            if self.bad or self.is_over():
                break
            self.ended(self.begin())
        for client in left:
            if client.returncode is None or not client.stdout or not client.stdout.closed:
                self.ended(client)
        if not self.bad and not self.is_over():
            self.bad.append(f"the night isn't over after {MOST_RUNS} runs that nobody killed")
        self.judge()

    def is_over(self) -> bool:
        return any(it.word == "over" for it in self.all_notes())

    def all_notes(self) -> list[Note]:
        with contextlib.suppress(FileNotFoundError), open(self.notes, encoding="ascii") as file:
            return [note_of(it) for it in file.read().splitlines()]
        return []

    def judge(self) -> None:
        judge = Judge(self.tasks, CHECKS)
        for note in self.all_notes():
            judge.take(note)
        if not self.bad:
            judge.end_night()
        self.bad += judge.bad
        self.counts = judge.counts
