"""Judges the notes of a night that was killed: what has to hold for each client.

A line is `WORD NAME VALUE ATTEMPT PID`. The words are `open` (with the seed of the night, and its
number as ATTEMPT), `begin` and `end` or `stopped` (of a function), `acked` (somebody has the
result), `failed` (somebody has the error), `first` (the error that the end of a group raised),
`sum`, `over`, and `killed`, which is the test's own.
"""

from __future__ import annotations

from collections import Counter, defaultdict
from dataclasses import dataclass, field


@dataclass(frozen=True)
class Note:
    word: str
    name: str
    value: str
    attempt: int
    pid: int


def note_of(line: str) -> Note:
    word, name, value, attempt, pid = line.split(" ")
    return Note(word, name, value, int(attempt), int(pid))


@dataclass
class Night:
    """What was noted of a night up to here."""
    number: int = 0
    notes: list[Note] = field(default_factory=list)
    acked: dict[str, str] = field(default_factory=dict)
    attempts: dict[str, list[int]] = field(default_factory=lambda: defaultdict(list))
    failed: set[str] = field(default_factory=set)
    has_first: set[int] = field(default_factory=set)

    def values(self, word: str) -> set[str]:
        return {it.value for it in self.notes if it.word == word}

    def is_first(self, text: str) -> bool:
        """Whether a function has failed with this error, and no run has reported another one before
        that function had ended for the last time. If a run was killed before the first failure, the
        store doesn't know their order, and takes the one that began first."""
        name = text.partition("_")[0]
        if name not in self.failed:
            return False
        if next((it.word for it in self.notes if it.word in ("failed", "killed"))) == "killed":
            return True
        ended = max(place for place, it in enumerate(self.notes)
                    if (it.word, it.name) == ("end", name))
        others = [place for place, it in enumerate(self.notes)
                  if it.word == "failed" and it.name != name]
        return not others or ended < min(others)


@dataclass
class Judge:
    """Judges the nights of a store: each of them has this many tasks that end well, and this many
    others. A night may only begin when the last one had nothing left to do."""
    tasks: int
    checks: int
    bad: list[str] = field(default_factory=list)
    running: dict[str, Note] = field(default_factory=dict)
    night: Night = field(default_factory=Night)
    counts: Counter[str] = field(default_factory=Counter)

    def fault(self, text: str, note: Note) -> None:
        self.bad.append(f"{text}: {note}")

    def take(self, note: Note) -> None:
        self.counts[note.word] += 1
        if note.word == "open" and note.attempt != self.night.number:
            self.end_night()
            self.night = Night(note.attempt)
        self.night.notes.append(note)
        match note.word:
            case "begin":
                self.begin(note)
            case "end" | "stopped":
                self.running.pop(note.name, None)
            case "acked" | "failed":
                self.ack(note)
            case "killed":
                for name in [name for name, it in self.running.items() if it.pid == note.pid]:
                    del self.running[name]
            case "first":
                self.night.has_first.add(note.pid)

    def begin(self, note: Note) -> None:
        if note.name in self.night.acked:
            self.fault("it was acknowledged, and began again", note)
        if note.name in self.running:
            self.fault("it began while it was running", note)
        if note.attempt in self.night.attempts[note.name]:
            self.fault("two tries have one number", note)
        if note.name.startswith("t") and note.pid not in self.night.has_first:
            self.fault("a first error was swallowed", note)
        self.night.attempts[note.name].append(note.attempt)
        self.running[note.name] = note

    def ack(self, note: Note) -> None:
        number = int(note.name[1:])
        right = str(number * number) if note.word == "acked" else f"{note.name}_is_bad"
        if note.value != right:
            self.fault(f"it isn't {right}", note)
        if self.night.acked.setdefault(note.name, note.value) != note.value:
            self.fault("it has another result now", note)
        if note.word == "failed":
            self.night.failed.add(note.name)

    def end_night(self) -> None:
        """The night is over, if there was one."""
        night = self.night
        if not night.number:
            return
        if len(night.values("open")) != 1:
            self.bad.append(f"a value changed: {night.values('open')}")
        if len(firsts := night.values("first")) != 1:
            self.bad.append(f"the first errors are {firsts}")
        elif not night.is_first(first := firsts.pop()):
            self.bad.append(f"another error came before {first}")
        if len(night.acked) != self.tasks + self.checks:
            self.bad.append(f"{len(night.acked)} of {self.tasks + self.checks} were acknowledged")
        if (sums := night.values("sum")) != {str(sum(it * it for it in range(self.tasks)))}:
            self.bad.append(f"the sums are {sums}")
