"""The file of results: how the tries of a night ended."""

from __future__ import annotations

import json
from collections.abc import Iterator
from dataclasses import dataclass, field
from typing import Any

from .files import Lines
from .outcomes import Ok, Outcome, Stopped, Wrong, outcome_of


@dataclass
class Kept:
    """What the file has of a task: its last try, and the end with the greatest try."""
    last: int = -1
    ended: int = -1
    outcome: Outcome | None = None
    line: int = 0


DECODER = json.JSONDecoder()


def members_of(line: str) -> Any:
    """The object of a line. (`json.loads` takes twice as long, and a night may have thousands.)"""
    members, end = DECODER.raw_decode(line)
    if line[end:].strip():
        raise ValueError(line)
    return members


@dataclass
class Results:
    """The lines of one night. Other nights are over, and their lines are dropped."""
    file: Lines
    night: int
    # (The thread of the store adds to it. So the others look at a copy.)
    kept: dict[tuple[str, str], Kept] = field(default_factory=dict)
    count: int = 0
    fresh: list[str] = field(default_factory=list)
    needs_sync: bool = False

    def load(self) -> None:
        lines = self.file.read()
        of_night = []
        for line in lines:
            try:
                members = members_of(line)
                if members["night"] != self.night:
                    continue
                self.note((members["group"], members["key"]), members["try"], members)
            except (ValueError, TypeError, KeyError):
                continue
            of_night.append(line)
        if len(of_night) < len(lines):
            self.file.replace(of_night)

    def note(self, name: tuple[str, str], attempt: int, members: dict[str, Any]) -> None:
        kept = self.kept.get(name)
        if kept is None:
            kept = self.kept[name] = Kept()
        self.count += 1
        kept.last = max(kept.last, attempt)
        outcome = outcome_of(members)
        if outcome and attempt >= kept.ended:
            kept.ended, kept.outcome, kept.line = attempt, outcome, self.count

    def add(self, name: tuple[str, str], attempt: int, outcome: Outcome | None) -> None:
        """A try has begun, or has ended. `flush` writes that."""
        members = outcome.members() if outcome else {"is": "begun"}
        self.note(name, attempt, members)
        self.fresh.append(json.dumps({"night": self.night, "group": name[0], "key": name[1],
                                      "try": attempt, **members}))
        is_plain = outcome is None or isinstance(outcome, Ok) and outcome.value is None
        self.needs_sync = self.needs_sync or not is_plain

    def flush(self) -> None:
        """Writes what was added, and syncs it if it has an error or a value."""
        if self.fresh:
            self.file.append(self.fresh)
            self.fresh.clear()
        if self.needs_sync:
            self.file.sync()
            self.needs_sync = False

    def outcome(self, name: tuple[str, str]) -> Outcome | None:
        """How the last try of a task ended that has ended."""
        kept = self.kept.get(name)
        return kept.outcome if kept else None

    def failures(self, group: str) -> list[tuple[tuple[str, str], Wrong]]:
        """The tasks of a group whose last end was an error, in the order of the lines."""
        found = [(it.line, name, it.outcome) for name, it in self.kept.copy().items()
                 if name[0] == group and isinstance(it.outcome, Wrong)]
        return [(name, outcome) for _, name, outcome in sorted(found, key=lambda it: it[0])]

    def reason(self, name: tuple[str, str]) -> str | None:
        """Why a task was canceled: the reason of its last try, or the first one of its group."""
        if isinstance(outcome := self.outcome(name), Stopped):
            return outcome.text
        found = [(it.line, it.outcome.text) for (group, _), it in self.kept.copy().items()
                 if group == name[0] and isinstance(it.outcome, Stopped)]
        return min(found)[1] if found else None

    def unended(self) -> Iterator[tuple[str, str]]:
        """The tasks that have begun, and of which the file has no good end of the last try."""
        for name, it in self.kept.copy().items():
            if it.ended < it.last or isinstance(it.outcome, Wrong):
                yield name

    def close(self) -> None:
        self.file.close()
