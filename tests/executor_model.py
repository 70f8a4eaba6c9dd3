"""Stands in for `night drive` in trials of executors: the lines of docs/formats/drive.md that
examples/executor.py writes and reads, and the questions about errors, over a file that has a line
for each event.

    executor_model.py format STORE
    executor_model.py drive STORE [WRONG]

WRONG is what it does wrong: `halves` also takes a part whose empty line hasn't come, and a line
without its LF; `early` answers before it has written, and writes a moment later;
`forgets` loses the last good end of an earlier session; `heals` takes a try that was interrupted
for one that ended well; `crowds` has no pools; `hastes` has no needs; `renames` counts the tries of
a command from 0 in each session; `repeats` writes each `begin` twice; `gives-up` doesn't begin
again what was interrupted.
"""

from __future__ import annotations

import fcntl
import os
import sys
import time
from collections.abc import Iterator
from dataclasses import dataclass, field

FINAL = ("ok", "failed", "given-up")
DELAY = 0.15


@dataclass
class Command:
    group: int
    key: str
    retries: int
    wait: int
    needs: list[int] = field(default_factory=list)
    takes: int = 0


@dataclass
class Try:
    """A task of the store: of a night, a group and a key; how it ended, and when."""
    night: int
    group: str
    key: str
    how: str = "running"
    moment: int = 0
    why: str = ""


class Store:
    """The events of a file."""

    def __init__(self, path: str) -> None:
        self.file = open(path, "r+", encoding="ascii")  # noqa: SIM115 (it is locked while it runs)
        fcntl.flock(self.file, fcntl.LOCK_EX | fcntl.LOCK_NB)
        self.tries: list[Try] = []
        self.night, self.over = 1, False
        self.fresh: list[str] = []
        self.firsts: dict[str, str] = {}  # the first error of each group, and what else ended there
        for line in self.file.read().split("\n")[:-1]:
            self.take(line)

    def take(self, line: str) -> None:
        match line.split(" "):
            case ["begin", night, group, key]:
                self.tries.append(Try(int(night), group, key))
                self.night, self.over = int(night), False
            case ["end", task, how, moment, *why]:
                it = self.tries[int(task)]
                it.how, it.moment, it.why = how, int(moment), " ".join(why)
                if how != "ok":
                    self.firsts.setdefault(it.group, it.why or how)
            case ["over"]:
                self.over = True

    def add(self, line: str) -> None:
        self.take(line)
        self.fresh.append(line)

    def flush(self) -> None:
        self.file.write("".join(f"{it}\n" for it in self.fresh))
        self.file.flush()
        os.fsync(self.file.fileno())
        self.fresh.clear()


class Drive:
    """A night over a store."""

    def __init__(self, store: Store, plan: list[str], wrong: str) -> None:
        self.store, self.wrong = store, wrong
        self.pool, self.now = 0, 0
        self.groups: list[str] = []
        self.commands: list[Command] = []
        for line in plan:
            self.plan(line.split(" "))
        how = {"heals": "ok", "gives-up": "failed"}.get(wrong, "interrupted")
        good = [number for number, it in enumerate(store.tries) if it.how == "ok"]
        for number, it in enumerate(store.tries):
            if it.how == "running":
                store.add(f"end {number} {how} 0")
        if wrong == "forgets" and good:
            store.add(f"end {good[-1]} interrupted 0")
        self.night = store.night + store.over
        self.before = len(store.tries)

    def plan(self, words: list[str]) -> None:
        match words:
            case ["pool", size]:
                self.pool = int(size)
            case ["group", _, _, name]:
                self.groups.append(name)
            case ["command", group, _, retries, wait, _, _, key]:
                self.commands.append(Command(int(group), key, int(retries), int(wait)))
            case ["need", "well", "command", number]:
                self.commands[-1].needs.append(int(number))
            case ["take", "0", amount]:
                self.commands[-1].takes += int(amount)
            case _:
                raise ValueError(words)

    def group(self, command: Command) -> str:
        return self.group_named(command.group)

    def group_named(self, number: int) -> str:
        name = self.groups[number]
        return name if self.night == 1 else f"{name}--{self.night}"

    def tries(self, command: Command) -> list[Try]:
        wanted = (self.night, self.group(command), command.key)
        return [it for it in self.store.tries if (it.night, it.group, it.key) == wanted]

    def standing(self, command: Command) -> str:
        """How a command stands, as `night plan` says it, or `waiting MOMENT`."""
        tries = self.tries(command)
        last = tries[-1].how if tries else "none"
        failures = sum(it.how == "failed" for it in tries)
        if last in ("ok", "running"):
            return {"ok": "ok", "running": "busy"}[last]
        if last == "failed" and (failures > command.retries or self.wrong == "gives-up"):
            return "failed"
        needs = [self.standing(self.commands[it]) for it in command.needs]
        if any(it in ("failed", "given-up") for it in needs):
            return "given-up"
        if any(it != "ok" for it in needs) and self.wrong != "hastes":
            return "pending"
        if last == "failed" and self.now < tries[-1].moment + command.wait:
            return f"waiting {tries[-1].moment + command.wait}"
        return "ready"

    def hear(self, words: list[str]) -> None:
        match words:
            case ["ended", task, "ok"]:
                self.store.add(f"end {task} ok {self.now}")
            case ["ended", task, "error", *why]:
                self.store.add(f"end {task} failed {self.now} {' '.join(why)}")
            case ["now", moment]:
                self.now = max(self.now, int(moment))
            case ["standings"] | ["ask" | "first", _]:
                pass
            case _:
                raise ValueError(words)

    def errors(self, lines: list[str]) -> Iterator[str]:
        """The answers to questions about errors."""
        for line in lines:
            match line.split(" "):
                case ["ask", number]:
                    tries = self.tries(self.commands[int(number)])
                    if tries and tries[-1].how == "failed":
                        yield f"error {number} {tries[-1].why}"
        for line in lines:
            match line.split(" "):
                case ["first", number]:
                    name = self.group_named(int(number))
                    last = {it.key: it for it in self.store.tries if it.group == name}
                    failed = [it.why for it in self.store.tries
                              if it.how == "failed" and last.get(it.key) is it]
                    first = self.store.firsts.get(name, "")
                    if failed:
                        yield f"first {number} {first if first in failed else failed[0]}"

    def begins(self) -> Iterator[str]:
        """Begins what may begin: a line for each."""
        free = self.pool - sum(it.takes for it in self.commands if self.standing(it) == "busy")
        for number, it in enumerate(self.commands):
            if self.standing(it) == "ready" and (it.takes <= free or self.wrong == "crowds"):
                free -= it.takes
                named = len(self.tries(it))
                if self.wrong == "renames":
                    named = sum(its.key == it.key for its in self.store.tries[self.before:])
                self.store.add(f"begin {self.night} {self.group(it)} {it.key}")
                task = len(self.store.tries) - 1
                line = f"begin {number} {task} {self.group(it)} {it.key} {named}"
                yield from [line] * (2 if self.wrong == "repeats" else 1)

    def round(self, lines: list[str]) -> list[str]:
        for line in sorted(lines, key=lambda it: not it.startswith("now ")):
            self.hear(line.split(" "))
        answer = [*self.begins()]
        stands = [self.standing(it) for it in self.commands]
        waits = [int(it.split(" ")[1]) for it in stands if it.startswith("waiting ")]
        answer += [f"later {min(waits)}"] if waits else []
        answer += [f"stands {number} {it}" for number, it in enumerate(stands)]
        answer += self.errors(lines)
        answer.append("durable")
        if all(it in FINAL for it in stands):
            self.store.add("over")
            answer.append("over")
        return answer


def parts(halves: bool) -> Iterator[list[str]]:
    """The parts of the input. What stands after the last empty line is dropped."""
    lines: list[str] = []
    for line in sys.stdin:
        if line == "\n":
            yield lines
            lines = []
        elif line.endswith("\n") or halves:
            lines.append(line.rstrip("\n"))
    if lines and halves:
        yield lines


def main(word: str, path: str, wrong: str = "") -> int:
    if word == "format":
        with open(path, "w", encoding="ascii"):
            return 0
    store, given = Store(path), parts(wrong == "halves")
    drive = Drive(store, next(given, []), wrong)
    print(f"plan {len(drive.commands)}", f"night {drive.night}", "", sep="\n", flush=True)
    for lines in given:
        answer = drive.round(lines)
        if wrong != "early":
            store.flush()
        print(*answer, "", sep="\n", flush=True)
        if wrong == "early":
            time.sleep(DELAY)
            store.flush()
        if answer[-1] == "over":
            break
    return 0


if __name__ == "__main__":
    sys.exit(main(*sys.argv[1:]))
