"""The rules of `night plan` by plain search: what the definitions of crates/night_plan/specs say of
each command, over the lines of a plan and its rounds."""

from __future__ import annotations

import re
from dataclasses import dataclass, field

NUMBER = re.compile(r"0|[1-9][0-9]*")


class Bad(Exception):
    """A line that isn't one of a plan or a round."""


def number(word: str) -> int:
    if not NUMBER.fullmatch(word):
        raise Bad(f"no number: {word}")
    return int(word)


@dataclass
class Group:
    priority: int
    way: str


@dataclass
class Need:
    when: str
    kind: str
    of: int


@dataclass
class Command:
    group: int
    priority: int
    retries: int
    wait: int
    factor: int
    cap: int
    needs: list[Need] = field(default_factory=list)
    takes: list[tuple[int, int]] = field(default_factory=list)

    def cleans_up(self) -> bool:
        return bool(self.needs) and all(it.when == "ended" for it in self.needs)


@dataclass
class Known:
    phase: str = "fresh"
    at: int = 0
    failures: int = 0
    canceled: bool = False


@dataclass
class Night:
    pools: list[int] = field(default_factory=list)
    groups: list[Group] = field(default_factory=list)
    commands: list[Command] = field(default_factory=list)
    known: list[Known] = field(default_factory=list)
    done: list[bool] = field(default_factory=list)
    first: int = 0
    now: int = 0

    # --- words of the plan

    def named(self, c: int, need: Need) -> list[int]:
        if need.kind == "command":
            return [need.of]
        below = max(self.first, c)
        return [d for d in self.members[need.of] if d < below]

    def index(self) -> None:
        self.members: list[list[int]] = [[] for _ in self.groups]
        for c, it in enumerate(self.commands):
            self.members[it.group].append(c)

    # --- facts

    def canceled(self, c: int) -> bool:
        it, known = self.commands[c], self.known[c]
        return (known.canceled or known.phase == "cut"
                or not it.cleans_up() and self.done[it.group])

    def spent(self, c: int) -> bool:
        known = self.known[c]
        return known.phase == "failed" and (
            known.failures > self.commands[c].retries or self.canceled(c))

    def idle(self, c: int) -> bool:
        return self.known[c].phase not in ("busy", "ok")

    def until(self, c: int) -> int | None:
        it, known = self.commands[c], self.known[c]
        if known.phase != "failed":
            return None
        due = known.at + min(it.wait * it.factor ** max(0, known.failures - 1), it.cap)
        return due if known.at <= self.now < due else None

    def look(self) -> None:
        """Finds all that the definitions say of each command."""
        count = range(len(self.commands))
        self.index()
        stopped = {self.commands[c].group for c in count if self.spent(c)
                   and self.groups[self.commands[c].group].way != "go-on"}
        self.stopped = stopped
        lost = [self.idle(c) and (self.spent(c) or self.canceled(c)
                or self.commands[c].group in stopped and not self.commands[c].cleans_up())
                for c in count]
        self.lost = lost
        self.failed = [lost[c] and self.known[c].phase == "failed" for c in count]
        never = list(lost)
        self.never = never
        is_new = True
        while is_new:
            is_new = False
            for order in count, reversed(count):
                for c in order:
                    if not never[c] and self.idle(c) and any(
                            self.in_vain(c, it) for it in self.commands[c].needs):
                        never[c] = is_new = True
        self.final = [never[c] or self.known[c].phase == "ok" for c in count]

    def in_vain(self, c: int, need: Need) -> bool:
        of = self.named(c, need)
        if need.when == "well":
            return any(self.never[d] for d in of)
        if need.when == "failed":
            return (all(self.known[d].phase == "ok" or self.never[d] for d in of)
                    and not any(self.failed[d] for d in of))
        return False

    def met(self, c: int, need: Need) -> bool:
        of = self.named(c, need)
        if need.when == "well":
            return all(self.known[d].phase == "ok" for d in of)
        if need.when == "failed":
            return any(self.failed[d] for d in of)
        return all(self.final[d] for d in of)

    def may_begin(self, c: int) -> bool:
        return (self.idle(c) and not self.lost[c]
                and all(self.met(c, it) for it in self.commands[c].needs))

    # --- answers

    def answer(self, asked: bool) -> list[str]:
        self.look()
        count = range(len(self.commands))
        used = [0] * len(self.pools)
        for c in count:
            if self.known[c].phase == "busy":
                for pool, amount in self.commands[c].takes:
                    used[pool] += amount
        lines: list[str] = []
        later: int | None = None
        stands: dict[int, str] = {}
        order = sorted(count, key=lambda c: (-self.groups[self.commands[c].group].priority,
                                             -self.commands[c].priority, c))
        for c in order:
            if not self.may_begin(c):
                continue
            due = self.until(c)
            if due is not None:
                later = due if later is None else min(later, due)
                stands[c] = f"waiting {due}"
                continue
            stands[c] = "ready"
            wanted: dict[int, int] = {}
            for pool, amount in self.commands[c].takes:
                wanted[pool] = wanted.get(pool, 0) + amount
            if all(not amount or used[pool] + amount <= self.pools[pool]
                   for pool, amount in wanted.items()):
                lines.append(f"begin {c}")
                for pool, amount in wanted.items():
                    used[pool] += amount
        for c in count:
            it, group = self.commands[c], self.commands[c].group
            if self.known[c].phase == "busy" and (self.canceled(c) or (
                    group in self.stopped and self.groups[group].way == "cancel"
                    and not it.cleans_up())):
                lines.append(f"stop {c}")
        if later is not None:
            lines.append(f"later {later}")
        if asked:
            lines += [f"stands {c} {stands.get(c) or self.stands(c)}" for c in count]
        return lines

    def stands(self, c: int) -> str:
        known = self.known[c]
        if known.phase in ("ok", "busy"):
            return known.phase
        if self.failed[c]:
            return "failed"
        if self.canceled(c) and known.phase != "failed":
            return "canceled"
        if self.never[c]:
            return "given-up"
        return "pending"


class Model:
    """A plan and its rounds. Each part is given as its lines, with the number of the first."""

    def __init__(self) -> None:
        self.night = Night()

    def grow(self, words: list[str]) -> None:
        night = self.night
        match words:
            case ["group", priority, ("go-on" | "stop" | "cancel") as way]:
                night.groups.append(Group(number(priority), way))
                night.done.append(False)
            case ["command", *rest] if len(rest) == 6:
                of, order, retries, wait, factor, cap = map(number, rest)
                night.commands.append(Command(of, order, retries, wait, factor, cap))
                night.known.append(Known())
            case ["need", ("well" | "failed" | "ended") as when, ("command" | "group") as kind, of]:
                night.commands[-1].needs.append(Need(when, kind, number(of)))
            case ["take", pool, amount]:
                night.commands[-1].takes.append((number(pool), number(amount)))
            case _:
                raise Bad(f"no such line: {' '.join(words)}")

    def plan(self, lines: list[str], first: int = 1) -> list[str]:
        """The answer to a plan."""
        night = self.night
        for line, words in enumerate(map(str.split, lines), first):
            try:
                match words:
                    case ["pool", size]:
                        night.pools.append(number(size))
                    case _:
                        self.grow(words)
            except (Bad, IndexError):
                raise Bad(f"bad {line}") from None
        night.first = len(night.commands)
        for c, it in enumerate(night.commands):
            below = {"command": len(night.commands), "group": len(night.groups)}
            if not (it.group < len(night.groups)
                    and all(pool < len(night.pools) for pool, _ in it.takes)
                    and all(need.of < below[need.kind] for need in it.needs)):
                return [f"unknown {c}"]
        for c, it in enumerate(night.commands):
            for pool in {pool for pool, _ in it.takes}:
                if sum(a for p, a in it.takes if p == pool) > night.pools[pool]:
                    return [f"too-much {c}"]
        circle = self.circle()
        if circle:
            return ["circle", *(f"member {c}" for c in circle)]
        return [f"plan {len(night.commands)}"]

    def circle(self) -> list[int]:
        night = self.night
        night.index()
        after: list[set[int]] = [{d for need in it.needs for d in night.named(c, need)}
                 for c, it in enumerate(night.commands)]
        left = {c: len(its) for c, its in enumerate(after)}
        wants: dict[int, list[int]] = {c: [] for c in left}
        for c, its in enumerate(after):
            for d in its:
                wants[d].append(c)
        ready = [c for c, many in left.items() if not many]
        for c in ready:
            for d in wants[c]:
                left[d] -= 1
                if not left[d]:
                    ready.append(d)
        rest = set(left) - set(ready)
        if not rest:
            return []
        path: list[int] = []
        at = min(rest)
        while at not in path:
            path.append(at)
            at = next(d for d in sorted(after[at]) if d in rest)
        return path[path.index(at):]

    def round(self, lines: list[str], first: int = 1) -> list[str]:
        """The answer to a round."""
        night, asked = self.night, False
        for line, words in enumerate(map(str.split, lines), first):
            try:
                match words:
                    case ["standings"]:
                        asked = True
                    case ["now", moment]:
                        night.now = max(night.now, number(moment))
                    case ["size", pool, size]:
                        night.pools[number(pool)] = number(size)
                    case ["done", group]:
                        night.done[number(group)] = True
                    case ["cancel", c]:
                        night.known[number(c)].canceled = True
                    case [("fresh" | "busy" | "ok" | "interrupted" | "cut") as phase, c]:
                        night.known[number(c)].phase = phase
                    case ["failed", c, moment, failures]:
                        known = night.known[number(c)]
                        known.phase = "failed"
                        known.at, known.failures = number(moment), number(failures)
                    case _:
                        self.grow(words)
            except (Bad, IndexError):
                raise Bad(f"bad {line}") from None
        return night.answer(asked)
