"""What is done between two drivers of a night: somebody looks, cancels, wants something, or takes
files away."""

from __future__ import annotations

import os
import shutil
import time

from nights_disturb import Disturber
from nights_folder import processes
from nights_requests import Asker, read_wants
from nights_room import Room
from nights_wants import Want


class Rests:
    """The times of a night in which no driver runs."""

    def __init__(self, room: Room, asker: Asker, disturber: Disturber) -> None:
        self.room, self.plan, self.dice, self.tools = room, room.plan, room.dice, room.tools
        self.asker, self.disturber = asker, disturber

    def rest(self) -> None:
        """What is done while no driver runs."""
        dice, room = self.dice, self.room
        kinds = {"": 13, "look": 4, "cancel": 1, "gone": 2 if self.plan.shape == "names" else 0,
                 "damage": 8 if self.plan.shape == "damage" else 0,
                 "want": 5 if self.tools.knows_wants and self.asker.has_store() else 0}
        what, _, of = (dice.choice(self.plan.rests) if self.plan.rests else "" if self.plan.is_brief
                       else dice.choices(list(kinds), list(kinds.values()))[0]).partition(" ")
        room.note(f"rest: {what} {of}")
        if what == "look" and self.is_quiet():
            self.look_only()
        elif what == "gone" and os.path.isdir(f"{room.path}/s.out"):
            shutil.rmtree(f"{room.path}/s.out")
        elif what == "cancel" and self.room.has_begun():
            room.cancel(dice.choice(list(self.plan.groups)), lambda: False)
        elif what == "damage":
            self.disturber.spoil(dice.choice(("s.cancel", "s.log")), dice.choice(("bytes", "cut", "gone")))
        elif what == "want":
            is_pause = not of and dice.random() < 0.15
            self.asker.ask([Want("pause")] if is_pause else read_wants(of) or self.asker.any())
        if dice.random() < 0.3:
            time.sleep(dice.uniform(0, 0.8))

    def is_quiet(self) -> bool:
        """Waits until nothing of the room runs but what commands left."""
        left = {it.pid for it in self.room.look().left}
        end = time.monotonic() + 4
        while time.monotonic() < end:
            if not any(self.is_here(it) for it in processes() if it not in left):
                return True
            time.sleep(0.05)
        return False

    def is_here(self, pid: int) -> bool:
        try:
            # (a command's shell is in its folder until it has become the command)
            return f"{os.readlink(f'/proc/{pid}/cwd')}/".startswith(f"{self.room.path}/")
        except OSError:
            return False

    def look_only(self) -> None:
        """What only looks changes nothing, and says that nothing runs."""
        room = self.room
        before = room.snapshot()
        kinds: list[tuple[str, ...]] = [("--list",)]
        if self.tools.knows:
            kinds += [("--list", "--json"), ("--dry-run",), ("--report", "text")]
        for it in kinds:
            status, output, errors = room.run("s", "JOBS", *it)
            room.holds(status == 0,
                       f"9: {' '.join(it)} ended with status {status}: {errors[-300:]}")
            room.holds(": running" not in output or it != ("--list",),
                       f"9: {' '.join(it)} says that one runs: {output[-300:]}")
        if not self.is_near_deadline():
            self.look_at_once()
        changed = {it for it in before.items() ^ room.snapshot().items()}
        room.holds(not changed, f"9: what only looks has changed {sorted(it[0] for it in changed)}")

    def is_near_deadline(self) -> bool:
        """Whether one passes about now, so that two looks may differ."""
        return any(it.until is not None and -2 < it.until - time.time() < 5
                   or it.within is not None for it in self.plan.groups.values())

    def look_at_once(self) -> None:
        """Several that look at a time see the same."""
        room = self.room
        at_once = [room.spawn([self.tools.driver, "s", "JOBS", "--list"], f"errors.{it}")
                   for it in range(3)]
        found = {(it.communicate()[0], it.returncode) for it in at_once}
        room.holds(len(found) == 1, f"9: three lists at a time differ: {sorted(found)}")
