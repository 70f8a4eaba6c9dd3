"""Takes steps that wait for one another, as many at a time as processors and memory allow.

A step gets as many processors as help it if it begins a chain that is nearly the longest of what is
left, since nothing else shortens a run; another step gets one.
"""
import time
from collections.abc import Callable, Mapping, Set
from concurrent.futures import FIRST_COMPLETED, Future, ThreadPoolExecutor, wait
from dataclasses import dataclass
from typing import NamedTuple

from schedule import chains

# So much of the longest chain is nearly the longest.
NEARLY = 0.8
# What each further job adds to the memory of a proof.
FOR_A_JOB = 0.6


@dataclass(frozen=True)
class Step:
    waits: Set[str]
    seconds: float
    memory: float
    most: int  # as many processors help it
    take: Callable[[int], bool]  # gets how many processors it may use, returns whether all is well

    def needs(self, jobs: int) -> float:
        return self.memory * (1 + FOR_A_JOB * (jobs - 1))


class Running(NamedTuple):
    name: str
    jobs: int
    began: float


class Lanes:
    """The steps that are left, those that run, and what these use."""

    def __init__(self, steps: Mapping[str, Step], lanes: int, memory: float) -> None:
        self.steps, self.lanes, self.memory = steps, lanes, memory
        self.left, self.well = set(steps), dict[str, bool]()
        self.running: dict[Future[bool], Running] = {}
        self.long = chains({name: it.waits for name, it in steps.items()},
                           {name: it.seconds for name, it in steps.items()})

    def run(self) -> dict[str, bool]:
        """Returns of each step that was taken whether it went well. One above a step that didn't go
        well isn't taken."""
        with ThreadPoolExecutor(self.lanes) as pool:
            while self.begin_all(pool) or self.running:
                for done in wait(self.running, return_when=FIRST_COMPLETED).done:
                    self.well[self.running.pop(done).name] = done.result()
        return self.well

    def begin_all(self, pool: ThreadPoolExecutor) -> bool:
        """Begins what can begin now, and returns whether anything did."""
        ready = sorted(filter(self.is_ready, self.left), key=lambda it: (-self.long[it], it))
        has_begun = False
        for at, name in enumerate(ready):
            jobs = self.jobs_for(name, others=len(ready) - at - 1)
            if jobs:
                self.left.remove(name)
                future = pool.submit(self.steps[name].take, jobs)
                self.running[future] = Running(name, jobs, time.monotonic())
                has_begun = True
        return has_begun

    def is_ready(self, name: str) -> bool:
        return all(self.well.get(it, False) for it in self.steps[name].waits & self.steps.keys())

    def jobs_for(self, name: str, others: int) -> int:
        """Returns how many processors a step that is ready gets now, so many others being ready
        beside it: 0 where it has to wait for one, or for memory."""
        step, running = self.steps[name], self.running.values()
        idle = self.lanes - sum(it.jobs for it in running)
        room = self.memory - sum(self.steps[it.name].needs(it.jobs) for it in running)
        is_long = self.long[name] >= NEARLY * self.longest()
        jobs = idle - (others > 0) if is_long else 1 if self.left - {name} else idle
        jobs = min(max(jobs, 1), step.most, idle)
        while jobs > 1 and step.needs(jobs) > room:
            jobs -= 1
        # (what doesn't fit alone is tried alone)
        return jobs if jobs < 1 or step.needs(jobs) <= room or not self.running else 0

    def longest(self) -> float:
        """Returns how long the longest chain of what is left takes."""
        now = time.monotonic()
        begun = [self.long[it.name] - min(now - it.began, self.steps[it.name].seconds)
                 for it in self.running.values()]
        return max([*begun, *(self.long[it] for it in self.left)], default=0.0)
