#!/usr/bin/env python3
"""Makes the inputs of the measurements: lines for `night demo`, the same at every run.

    inputs.py FOLDER [--deadlines]

writes for each input FOLDER/NAME.in, and FOLDER/NAME.last, the last line that a right program
prints. With --deadlines half of the scopes of a shape have a deadline, and one `advance` passes
them all.
"""

import random
import sys
from pathlib import Path

SEED = 20240101


class Night:
    """The lines so far, and how many of them are events: found by a plain search of ancestors."""

    def __init__(self):
        self.lines = []
        self.parents = {"root": None}
        self.takes_cause = {}
        self.deadlines = {}
        self.cancelled = set()
        self.clock = 0
        self.events = 1

    def is_done(self, scope):
        while scope is not None:
            if scope in self.cancelled or self.deadlines.get(scope, self.clock + 1) <= self.clock:
                return True
            scope = self.parents[scope]
        return False

    def derive(self, scope, parent, kind):
        self.lines.append(f"derive {scope} {parent} {kind}")
        self.parents[scope] = parent
        self.takes_cause[scope] = kind == "cause"
        if kind.startswith("deadline "):
            self.deadlines[scope] = int(kind.split()[1])
        self.events += 1

    def cancel(self, scope, cause):
        self.lines.append(f"cancel {scope} {cause}" if cause else f"cancel {scope}")
        if not self.is_done(scope) and (self.takes_cause[scope] or not cause):
            self.cancelled.add(scope)
            self.events += 1

    def scope(self, scope):
        self.lines.append(f"scope {scope}")

    def advance(self, moment):
        self.lines.append(f"advance {moment}")
        self.clock = moment
        self.events += 1

    def write(self, folder, name):
        (folder / f"{name}.in").write_text("".join(line + "\n" for line in self.lines))
        (folder / f"{name}.last").write_text(f"acked {self.events}\n")


def parents_of(shape, names, rng):
    """For each name its parent: the one before it, root, or any one before it."""
    for i, name in enumerate(names):
        before = names[i - 1] if i else "root"
        if shape == "tree" and i:
            before = rng.choice(names[:i])
        yield name, "root" if shape == "star" else before


def mixed(folder, lines):
    """A chain, a star and a random tree of 100 scopes each, between cancels and questions."""
    rng = random.Random(SEED)
    night = Night()
    derives = []
    for shape in ("chain", "star", "tree"):
        names = [f"{shape}-{i}" for i in range(100)]
        derives += list(parents_of(shape, names, rng))
    made = []
    for i in range(lines):
        if derives and i % 100 < 2:
            name, parent = derives.pop(0)
            night.derive(name, parent, rng.choice(("cancel", "cause")))
            made.append(name)
        elif i % 100 < 30 and i > lines // 2:
            night.cancel(rng.choice(made), rng.choice(("", "", "disk", "out of time")))
        else:
            night.scope(rng.choice(made))
    night.write(folder, "mixed")


def shaped(folder, shape, with_deadlines):
    """1,000 scopes of one shape, questions on each, cancels near the root, and questions again."""
    rng = random.Random(SEED)
    night = Night()
    names = [f"s{i}" for i in range(1000)]
    for i, (name, parent) in enumerate(parents_of(shape, names, rng)):
        kind = "deadline 100" if with_deadlines and i % 2 else "cause"
        night.derive(name, parent, kind)
    for _ in range(5):
        for name in names:
            night.scope(name)
    if with_deadlines:
        night.advance(200)
    else:
        for name in names[:20:2]:
            night.cancel(name, "stop")
    for _ in range(5):
        for name in names:
            night.scope(name)
    if with_deadlines:
        for name in names[:20:2]:
            night.cancel(name, "stop")
    night.write(folder, shape)


def main():
    folder = Path(sys.argv[1])
    with_deadlines = "--deadlines" in sys.argv[2:]
    mixed(folder, 100_000)
    for shape in ("chain", "star", "tree"):
        shaped(folder, shape, with_deadlines)


main()
