"""What a store may hold over which only the clock was moved, as the acknowledgements say, and at
which calls a program is stopped; for the scripts that then ask what is left."""

import re
from dataclasses import dataclass

from running import Ended

SHOWN = re.compile(r"events (\d+); clock (\d+)\nscope 0 root live; deadline none\n")


@dataclass(frozen=True)
class Moment:
    """A state of a store over which only the clock was moved: its events, and its clock."""

    events: int
    clock: int


class Lines:
    """A script's lines: the clock is moved to these moments, with a save after each."""

    def __init__(self, *clocks: int, saves: str = "flush") -> None:
        self.clocks = clocks
        self.typed = tuple(it for clock in clocks for it in (f"advance {clock}", saves))

    def moments(self, before: Moment) -> list[Moment]:
        """What may be stored once this script began at that moment: an opening is an event."""
        opened = [Moment(before.events + 1, before.clock)]
        moved = [Moment(before.events + 2 + at, clock) for at, clock in enumerate(self.clocks)]
        return [before, *opened, *moved]


class Known:
    """What may be stored, as the acknowledgements say."""

    def __init__(self, moments: set[Moment]) -> None:
        self.moments = moments

    def after(self, lines: Lines, ended: Ended) -> "Known":
        """After a script of these lines that printed this many acknowledgements."""
        acked = [int(it[6:]) for it in ended.output.splitlines() if it.startswith("acked ")]
        found = set()
        for before in self.moments:
            all_of_it = lines.moments(before)
            # (the last flush, at the end of the input, acknowledges what the one before did)
            last = all_of_it[min(1 + len(acked), len(all_of_it) - 1)]
            if not acked:
                found |= set(all_of_it)
            elif last.events == acked[-1]:
                found |= set(all_of_it[all_of_it.index(last):])
        return Known(found)


def moment_of(ended: Ended) -> Moment | None:
    """The moment that an inspection shows, if it shows one."""
    found = SHOWN.fullmatch(ended.output) if ended.status == 0 else None
    return Moment(int(found[1]), int(found[2])) if found else None


def telling(calls: list[str]) -> list[int]:
    """The places of the calls, from 1, before which a stop may leave something of its own: no read
    and no close, and of a row of writes its ends, and few within."""
    kinds, found = [it.split()[0] for it in calls], []
    for at, kind in enumerate(kinds):
        around = kinds[max(at - 2, 0):at] + kinds[at + 1:at + 3]
        is_within = kind == "write" and not set(around) - {"read", "write"} and at % 150
        if kind not in ("read", "close") and not is_within:
            found.append(at + 1)
    return found
