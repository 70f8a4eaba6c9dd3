"""A night of `night drive` whose store or program is hurt, and what its executor knows of it."""

from __future__ import annotations

import subprocess
from dataclasses import dataclass, field

SECONDS = 60
PLAN = """\
pool 1
group 0 go-on a
command 0 0 1 0 1 0 k
take 0 1
command 0 0 0 0 1 0 l
need well command 0
take 0 1
group 0 go-on b
until 900 at nine hundred
command 1 0 0 0 1 0 m
take 0 1
command 1 0 0 0 1 0 n
take 0 1
"""
# The commands that end well at last, by their numbers; the other one is canceled.
WELL, CANCELED = ("0", "1", "2"), "3"
# What its first session reports of a try: the first one of `k` fails, and nobody knows of the first
# one of `m`.
REPORTS = {("0", "0"): "ended {} error exit 1", ("2", "0"): "gone {}"}


@dataclass
class Sitting:
    """What the executor knows of one run: its begins, the commands whose good ends are recorded,
    those whose good ends were reported, and how the run ended."""
    begun: list[tuple[str, str]] = field(default_factory=list)  # a command, and the try's name
    recorded: set[str] = field(default_factory=set)
    reported: set[str] = field(default_factory=set)
    is_canceled: bool = False
    night: str = ""
    is_over: bool = False
    standings: dict[str, str] = field(default_factory=dict)
    status: int = 0
    printed: str = ""
    errors: str = ""


class Executor:
    """Reports a good end for each try, but for those of REPORTS, one in each round."""

    def __init__(self, words: list[str], env: dict[str, str]) -> None:
        self.night = subprocess.Popen(words, env=env, text=True, stdin=subprocess.PIPE,
                                      stdout=subprocess.PIPE, stderr=subprocess.PIPE)
        self.seen = Sitting()
        self.living: dict[str, tuple[str, str]] = {}  # by command: the task, and TRY

    def ask(self, lines: list[str]) -> list[str]:
        """The answer to a part; what there is of one if the program ends."""
        assert self.night.stdin and self.night.stdout
        try:
            self.night.stdin.write("".join(f"{it}\n" for it in (*lines, "")))
            self.night.stdin.flush()
        except BrokenPipeError:
            pass
        found = []
        while (line := self.night.stdout.readline()) not in ("", "\n"):
            self.seen.printed += line
            found.append(line.rstrip("\n"))
        return found if line else []

    def report(self) -> list[str]:
        """The lines of the next round, and the commands whose good ends they report."""
        lines = ["standings"]
        for command, (task, number) in list(self.living.items())[:1]:
            line = REPORTS.get((command, number), "ended {} ok").format(task)
            if line.endswith(" ok"):
                self.seen.reported.add(command)
            del self.living[command]
            lines.insert(0, line)
        return lines

    def take(self, answer: list[str]) -> None:
        for line in answer:
            match line.split(" "):
                case ["night", number]:
                    self.seen.night = number
                case ["begin", command, task, group, key, number]:
                    self.seen.begun.append((command, f"{group} {key} {number}"))
                    self.living[command] = task, number
                case ["rebound", command, task, _, _, number]:
                    self.living[command] = task, number
                case ["stands", command, *standing]:
                    self.seen.standings[command] = " ".join(standing)
                case ["over"]:
                    self.seen.is_over = True
                case ["durable"]:
                    self.seen.recorded |= self.seen.reported

    def play(self) -> Sitting:
        """Drives the night until it is over, or the program ends."""
        self.take(self.ask(PLAN.splitlines()))
        lines = ["now 100", f"cancel {CANCELED} by hand"]
        for _ in range(100):
            answer = self.ask(lines)
            self.take(answer)
            if not answer or self.seen.is_over:
                break
            self.seen.is_canceled = True
            lines = self.report()
        self.seen.errors = self.night.communicate(timeout=SECONDS)[1]
        self.seen.status = self.night.returncode
        return self.seen


def mistakes(sittings: list[Sitting]) -> list[str]:
    """What is wrong with the runs of a night, one after another, of which the last one wasn't
    hurt."""
    bad, names = list[str](), set[str]()
    reported, recorded = set[str](), set[str]()
    for number, it in enumerate(sittings):
        is_new = it.night not in ("", "1")
        if is_new and not reported.issuperset(WELL):
            bad.append(f"run {number}: night {it.night} begins before the one before is over")
        for command, name in it.begun:
            if name in names:
                bad.append(f"run {number}: {name} has begun before")
            if command in recorded and not is_new:
                bad.append(f"run {number}: {name} begins though its command has ended well")
            if command == CANCELED:
                bad.append(f"run {number}: {name} begins though it was canceled")
            names.add(name)
        reported |= it.reported
        recorded |= it.recorded
    last = sittings[-1]
    if not last.is_over or last.status or last.errors:
        bad.append(f"the last run: {last}")
    return bad
