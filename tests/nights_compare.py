"""How a night ended, compared with what its commands wrote down."""

from __future__ import annotations

import json
import time
from collections.abc import Iterable

from nights_folder import command_line
from nights_oracle import Seen, end_between, epoch_of, night_of
from nights_plan import SECRET
from nights_room import Room
from nights_wants import World, with_needs

ENDED = ("ok", "failed", "canceled", "not started", "left out")
WELL = ("ok", "not due", "left out")
# How a cleanup may stand at the end of a night.
CLEANED = (*WELL, "failed")


class Comparer:
    """Compares the ends of a room's nights."""

    def __init__(self, room: Room) -> None:
        self.room, self.plan, self.tools = room, room.plan, room.tools

    def compare(self, status: int | None, output: str) -> None:
        """Compares how a night ended with what its commands wrote down."""
        room, seen = self.room, self.room.look()
        if not room.holds(status in (0, 1), f"8: a night ended with status {status}:"
                          f" {room.text('errors')[-400:]}"):
            return
        phases = self.phases()
        for key in self.plan.commands:
            self.compare_key(seen, key, phases.get(key, "nothing"), phases)
        is_ok = all(phases.get(it) in WELL for it in self.plan.commands)
        for key, command in self.plan.commands.items():
            owner = self.plan.owners.get(command.group)
            if owner and phases.get(key) in ("failed", "canceled", "not started"):
                room.holds(f"{command.group} {key}: " in room.text(f"mail.{owner}"),
                           f"owner: {owner} has no mail about {key}, which is {phases[key]}")
        for name in ("s.log", "errors"):
            room.holds(SECRET not in room.text(name), f"env file: its value stands in {name}")
        room.holds(SECRET not in output, "env file: its value is printed")
        room.holds((status == 0) == is_ok, f"10: status {status}, and the commands are {phases}")
        count = sum(it == "ok" for it in phases.values())
        total = len(self.plan.commands)
        wanted = f"{total} command{'' if total == 1 else 's'}: "
        last = (output.splitlines() or [""])[-1]
        room.holds(last.startswith(wanted) and (f"{count} ok" in last or not count)
                   or "nothing to do" in output,
                   f"10: the summary is {last!r}, and {count} are ok")
        self.look_for_left(seen)

    def phases(self) -> dict[str, str]:
        """How each command is, by `--list`."""
        words = ("s", "JOBS", "--list", *(("--json",) if self.tools.knows else ()))
        status, output, errors = self.room.run(*words)
        self.room.holds(status == 0, f"9: --list ended with status {status}: {errors[-300:]}")
        if self.tools.knows:
            return {it["key"]: it["phase"] for it in json.loads(output)}
        found = {it: "ok" for it in self.plan.commands}
        for line in output.splitlines():
            name, _, phase = line.partition(": ")
            found[name.split()[1]] = phase_of(phase)
        return found

    def compare_key(self, seen: Seen, key: str, phase: str, phases: dict[str, str]) -> None:
        now = time.monotonic()
        night, worlds = night_of(seen, now), seen.wanted.at(now)
        since = seen.wanted.since(key, night)
        tries = [it for it in seen.tries[key] if it.began > since]
        last = tries[-1] if tries else None
        end = end_between(seen, key, since, now)
        holds = self.room.holds
        is_due = key not in self.plan.not_due or all(key in it.named for it in worlds)
        may_be_due = is_due or any(key in it.named for it in worlds)
        holds(phase in ENDED if is_due else may_be_due or phase == "not due" and not tries,
              f"10: {key} is {phase} at the end, and its last try was {last}")
        # (an end may be durable that a stop, or a kill of `night` alone, kept from being acked)
        kills = [*(it.at for it in seen.stops), *seen.hits]
        is_ok = last and last.is_whole() and (end == "ok" or end is None and last.status == 0
                                              and any(last.began < it for it in kills))
        holds(phase != "ok" or bool(is_ok),
              f"{'redo' if since > night else '10'}: {key} is ok, and since {since:.3f} its last"
              f" try was {last}, its end {end}")
        is_again = seen.wanted.redone(key, since, now)
        holds(end != "ok" or phase == "ok" or is_again, f"10: {key} had ended ok, and is {phase}")
        if phase == "failed" and last and end and end.startswith("exit "):
            holds(end == f"exit {last.status}", f"10: {key} is `{end}`, and ended as {last}")
        may = self.may_be_canceled(seen, key, since)
        holds(phase != "canceled" or may, f"6: {key} is canceled, and nobody did that")
        holds(not self.plan.cleans_up(key) or phase in CLEANED, f"cleanup: {key} is {phase}")
        if not may and phase not in ("ok", "left out") and last:
            timeout = self.plan.timeout_of(key)
            # (one whose end a kill took isn't begun again where its group has stopped since, and
            # one that is to run again isn't where what it comes after has failed since)
            is_lost = phase == "not started" and (end is None or is_again)
            holds(not last.is_whole() or timeout is not None or is_lost,
                  f"10: {key} is {phase}, and its last try was {last}")
        if phase == "not started" or not last and phase == "canceled":
            holds(may or self.has_reason(key, phases), f"10: {key} is {phase}, without a reason")
        self.compare_left_out(key, phase, phases, worlds)

    def compare_left_out(self, key: str, phase: str, phases: dict[str, str],
                         worlds: Iterable[World]) -> None:
        """What is left out is so because somebody wanted that, or what it comes after is."""
        is_its = any(it.leaves_out(key) for it in worlds)
        is_behind = any(phases.get(it) == "left out" for it in self.plan.before(key))
        has_only = any(it.only is not None for it in worlds)
        self.room.holds(phase != "left out" or is_its or is_behind
                        or has_only and self.is_passed_over(key, phases),
                        f"{'only' if has_only else 'skip'}: {key} is left out, and nobody wanted"
                        " that")
        must = all(it.leaves_out(key) for it in worlds) and key not in self.plan.not_due
        self.room.holds(not must or phase in ENDED, f"skip: {key} is {phase}, and was left out")

    def is_passed_over(self, key: str, phases: dict[str, str]) -> bool:
        """Whether something that comes after a command is ok. What that came after isn't brought by
        an `--only`."""
        return any(phases.get(it) == "ok" and it != key
                   and key in with_needs(self.plan, [it], self.plan.not_due)
                   for it in self.plan.commands)

    def may_be_canceled(self, seen: Seen, key: str, since: float) -> bool:
        """Whether a command may have been canceled with its group, as no cleanup is."""
        group = self.plan.commands[key].group
        return not self.plan.cleans_up(key) and (self.plan.has_deadline(group) or any(
            it.group in (group, "night") and it.done > max(since, epoch_of(seen, it.done))
            for it in seen.cancels))

    def has_reason(self, key: str, phases: dict[str, str]) -> bool:
        """Whether this one may not be begun: what it comes after, or its group, has failed."""
        group = self.plan.commands[key].group
        # (what isn't due may be wanted all the same)
        return any(phases.get(it) not in ("ok", "not due") for it in self.plan.all_before(key)) or (
            self.plan.groups[group].stops
            and any(phases.get(it.key) in ("failed", "canceled")
                    for it in self.plan.commands.values() if it.group == group))

    def look_for_left(self, seen: Seen) -> None:
        """No process is left in the group of a command, unless its group keeps it."""
        now = time.monotonic()
        end = now + 1.5 + seen.slack(now, now)
        must_go = [it for it in seen.left if it.flag != "d"
                   and not self.plan.groups[self.plan.commands[it.key].group].keeps]
        while time.monotonic() < end and any(self.is_there(it.pid) for it in must_go):
            time.sleep(0.05)
        for it in must_go:
            self.room.holds(not self.is_there(it.pid),
                            f"7: {it.key} has left the process {it.pid} ({it.flag})")
        if any(it.how == "all" for it in seen.stops):
            return
        for it in seen.left:
            tries = [one for one in seen.tries[it.key] if one.is_whole()]
            kept = self.plan.groups[self.plan.commands[it.key].group].keeps
            if it.flag in "bh" and kept and tries and len(seen.tries[it.key]) == 1:
                self.room.holds(self.is_there(it.pid) or self.may_be_canceled(seen, it.key, 0.0),
                                f"7: {it.key} had left {it.pid}, to keep, and it was ended")

    def is_there(self, pid: int) -> bool:
        return f"{self.room.path}\0" in command_line(pid)


def phase_of(line: str) -> str:
    """The phase that a line of `--list` says."""
    if line.startswith("canceled: "):
        return "canceled"
    if line in ("not submitted", "held", "ready"):
        return "waiting"
    return line if line in ("running", "interrupted") else "failed"
