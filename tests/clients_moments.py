"""Kills a small night in Python at each moment at which a part or an answer has come, and plays it
to its end. Then what it has noted is judged as in other nights.

    clients_moments.py [all|short]

There are four moments for each part (clients_killer.py), and three victims: the client, `night` and
both. Each moment has one of them, by turns, or with `all` each of them. With `short` each part has
one moment.
"""

from __future__ import annotations

import os
import random
import subprocess
import sys
import tempfile
from collections.abc import Iterator
from concurrent.futures import ThreadPoolExecutor

sys.dont_write_bytecode = True
HERE = os.path.dirname(os.path.realpath(__file__))
sys.path[:0] = [f"{HERE}/../clients/python", HERE]
from clients_killer import PLACES, VICTIMS  # noqa: E402
from clients_play import Night  # noqa: E402
from pokhnier.program import program  # noqa: E402

TASKS, LIMIT, MOST, RUNS = 6, 4, 60, 6


class Killed(Night):
    """A night that is killed at one moment."""

    def __init__(self, folder: str, night: str, way: str, moment: str) -> None:
        super().__init__(folder, night, way, TASKS, LIMIT, "", random.Random(0))
        self.moment = moment
        with open(self.wrapper, "w", encoding="ascii") as file:
            file.write(f'#!/bin/sh\nexec {sys.executable} {HERE}/clients_killer.py "$@"\n')

    def begin(self) -> subprocess.Popen[bytes]:
        self.runs += 1
        words = [self.store, self.notes, self.way, str(self.tasks), str(self.limit)]
        return subprocess.Popen([sys.executable, f"{HERE}/clients_night.py", *words],
                                stdin=subprocess.DEVNULL, stdout=subprocess.PIPE,
                                stderr=subprocess.STDOUT, start_new_session=True,
                                env={**os.environ, "NIGHT": self.wrapper,
                                     "WHOLE_NIGHT": self.program, "MOMENTS": self.moment})

    def end(self) -> int:
        """Plays the night to its end. Returns how many runs it took."""
        while self.runs < RUNS and not self.bad and self.ended(self.begin()):
            pass
        if self.runs == RUNS:
            self.bad.append(f"it isn't over after {RUNS} runs")
        self.judge()
        return self.runs


def played(night: str, moment: str) -> tuple[int, list[str]]:
    """How many runs a night takes that is killed at this moment, and what was wrong."""
    part, place, victim = moment.split(" ")
    way = ("threads", "asyncio")[(int(part) + int(place)) % 2]
    with tempfile.TemporaryDirectory(prefix="clients-") as folder:
        killed = Killed(folder, night, way, moment)
        return killed.end(), [f"{victim} at part {part}, place {place}, {way}: {it}"
                              for it in killed.bad[:3]]


def moments(form: str) -> Iterator[list[str]]:
    """The moments of each part."""
    for part in range(1, MOST):
        yield [f"{part} {place} {victim}" for place in PLACES for number, victim
               in enumerate(VICTIMS) if form == "all" or (part + place) % len(VICTIMS) == number
               and (form != "short" or place == part % len(PLACES))]


def main(form: str = "") -> int:
    night, count, bad = os.path.abspath(program()), 0, list[str]()
    with ThreadPoolExecutor(3) as pool:
        for its in moments(form):
            ends = list(pool.map(lambda it: played(night, it), its))
            count += len(ends)
            bad += [it for _, faults in ends for it in faults]
            # (No run was killed any more: the night has fewer parts.)
            if all(runs == 1 for runs, _ in ends) or bad:
                break
        else:
            bad.append(f"a night has more than {MOST} parts")
    print("".join(f"FAILED {it}\n" for it in bad), end="")
    print(f"{count} moments of a night, {len(bad)} failed")
    return 1 if bad else 0


if __name__ == "__main__":
    sys.exit(main(*sys.argv[1:]))
