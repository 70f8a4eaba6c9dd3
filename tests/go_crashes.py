"""Kills a program that uses the client for Go, `night` or both at random moments, starts it again
until it is done, and compares what all its runs wrote into its log."""

from __future__ import annotations

import contextlib
import os
import random
import re
import signal
import subprocess
import time
from collections import Counter
from dataclasses import dataclass, field

VICTIMS = ("client", "night", "both")
TASKS, SECONDS, MOST_RUNS = 200, 120, 60
FAILING = {f"{group}{number}" for group in ("all", "first") for number in range(12)}


def children(pid: int) -> list[int]:
    """The processes that a process has started."""
    found: list[int] = []
    with contextlib.suppress(OSError):
        for thread in os.listdir(f"/proc/{pid}/task"):
            with open(f"/proc/{pid}/task/{thread}/children", encoding="ascii") as file:
                found += [int(it) for it in file.read().split()]
    return found


def kill(pids: list[int]) -> int:
    """Kills processes, and returns how many there were."""
    killed = 0
    for pid in pids:
        with contextlib.suppress(ProcessLookupError):
            os.kill(pid, signal.SIGKILL)
            killed += 1
    return killed


@dataclass
class Night:
    """A store, the runs over it, and what was wrong."""
    program: str
    folder: str
    env: dict[str, str]
    dice: random.Random
    seconds: float = SECONDS
    again: float = 0.5  # how likely it is that `night` is killed once more
    kills: Counter[str] = field(default_factory=Counter)
    counts: Counter[str] = field(default_factory=Counter)
    bad: list[str] = field(default_factory=list)

    def lines(self) -> list[list[str]]:
        with contextlib.suppress(FileNotFoundError), \
                open(f"{self.folder}/log", encoding="utf-8", errors="replace") as file:
            return [it.split(" ") for it in file.read().splitlines()]
        return []

    def await_line(self, before: int, word: str, program: subprocess.Popen[bytes]) -> None:
        end = time.monotonic() + self.seconds
        while program.poll() is None and time.monotonic() < end:
            if any(it[0] == word for it in self.lines()[before:]):
                return
            time.sleep(0.002)

    def run(self, victim: str) -> int:
        """Runs the program to its end, or until it is killed."""
        before = len(self.lines())
        words = [self.program, f"{self.folder}/store", f"{self.folder}/log", str(TASKS)]
        with open(f"{self.folder}/printed", "ab") as printed:
            program = subprocess.Popen(words, env=self.env, stdin=subprocess.DEVNULL,
                                       stdout=printed, stderr=printed)
        if victim:
            if self.dice.random() < 0.85:
                self.await_line(before, self.dice.choice(("open", "seed", "acked")), program)
            time.sleep(self.dice.random() * 0.15)
            self.strike(victim, program)
        try:
            return program.wait(self.seconds)
        except subprocess.TimeoutExpired:
            self.bad.append(f"a run doesn't end; {victim or 'nobody'} was killed; "
                            f"{self.goroutines(program)}")
            return program.returncode

    def goroutines(self, program: subprocess.Popen[bytes]) -> str:
        """Ends a program that hangs. Returns where its goroutines are."""
        program.send_signal(signal.SIGQUIT)
        with contextlib.suppress(subprocess.TimeoutExpired):
            program.wait(20)
        program.kill()
        program.wait()
        with open(f"{self.folder}/printed", encoding="utf-8", errors="replace") as printed:
            its = printed.read().rpartition("SIGQUIT")[2].split("\n\n")
        found = [re.findall(r"^(?:goroutine \d+|(?:pokhnier|main)\..*?(?=\([^(]*$))", it, re.M)
                 for it in its]
        return "; ".join(" ".join(it) for it in found if len(it) > 1)

    def strike(self, victim: str, program: subprocess.Popen[bytes]) -> None:
        nights = children(program.pid) if victim != "client" else []
        if victim != "night" and program.poll() is None:
            program.kill()
            self.kills[victim] += 1
        killed = kill(nights)
        if victim == "night":
            self.kills[victim] += killed
            while killed and self.dice.random() < self.again:
                time.sleep(self.dice.random() * 0.1)
                killed = kill(children(program.pid))
                self.kills[victim] += killed

    def play(self, kills: int) -> None:
        for _ in range(kills):
            if self.run(self.dice.choice(VICTIMS)) == 0:
                break
            self.counts["runs"] += 1
        for _ in range(MOST_RUNS):
            if self.run("") == 0 or self.bad:
                break
        if not self.bad:
            self.run("")  # everything is there
        self.judge()

    def judge(self) -> None:
        """Compares what the runs wrote."""
        begun, ended, acked = Counter[str](), Counter[str](), dict[str, str]()
        firsts: dict[str, set[str]] = {"all": set(), "first": set()}
        seeds, sums = set[str](), list[str]()
        for word, *rest in self.lines():
            match word, rest:
                case "begin", [key, attempt]:
                    begun[key] += 1
                    self.holds(f"{key} runs again, though its result was given", key not in acked)
                    self.holds(f"{key}: attempt {attempt} is its {begun[key]}. one",
                               int(attempt) + 1 >= begun[key])
                case "end", [key]:
                    ended[key] += 1
                case "acked", [key, value]:
                    self.holds(f"{key} has {value}", value == str(int(key[1:]) ** 2))
                    acked[key] = value
                case "beside", [key]:
                    self.bad.append(f"{key} runs beside itself")
                case "lost", [key, *why]:
                    self.holds(f"{key} has no result: {' '.join(why)}", "lost" in " ".join(why))
                case "first", [group, *why]:
                    firsts[group].add(" ".join(why))
                case "seed", [seed]:
                    seeds.add(seed)
                case "sum", _:
                    sums.append(" ".join(rest))
        wanted = f"{sum(it * it for it in range(TASKS))} <nil>"
        self.holds(f"the sum is {sums[-1:]}", sums[-1:] == [wanted])
        self.holds(f"{len(acked)} tasks have a result", len(acked) == TASKS)
        self.holds(f"{len(ended.keys() - FAILING)} tasks ended",
                   len(ended.keys() - FAILING) == TASKS)
        self.holds(f"the seeds are {seeds}", len(seeds) == 1)
        for group, errors in firsts.items():
            self.holds(f"the first errors of {group} are {errors}", len(errors) == 1)
        self.counts["tasks"] += TASKS + len(FAILING)
        self.counts["begun twice"] += sum(it > 1 for it in begun.values())
        self.counts["ended twice"] += sum(it > 1 for it in ended.values())

    def holds(self, what: str, fact: bool) -> None:
        if not fact:
            self.bad.append(what)
