"""The plan of a run: which numbers its groups and commands have, and their lines."""

from __future__ import annotations

from .calls import HUGE, Call, GroupPlan
from .clock import Until
from .names import text_of

# A pool of the size that the largest limit has. A command may not take more of a pool than its line
# says, whatever size it has by then.
POOL = f"pool {HUGE}"
STAY, STAY_KEY = "_", "stay"


class Plan:
    """The first group has a command that never begins, so that the night isn't over before
    `finish`. Its pool is the first one. Each group with a limit brings another one."""

    def __init__(self) -> None:
        self.groups: list[GroupPlan | None] = [None]
        self.calls: list[Call | None] = [None]
        self.pools = 1

    def first_part(self, until: Until | None, is_fresh: bool) -> list[str]:
        """The plan, as the first part of the input has it."""
        lines = [POOL, f"group 0 go-on {STAY}", f"command 0 0 0 0 1 0 {STAY_KEY}", "take 0 1"]
        lines += [f"all {until.moment} {text_of(until.words)}"] if until else []
        return [*lines, *(["next"] if is_fresh else [])]

    def first_round(self) -> list[str]:
        return ["size 0 0"]

    def add_group(self, group: GroupPlan) -> list[str]:
        group.number = len(self.groups)
        self.groups.append(group)
        lines = [f"group 0 {group.way} {group.name}"]
        if group.until:
            lines.append(f"until {group.until.moment} {text_of(group.until.words)}")
        if group.limit is not None:
            group.pool, self.pools = self.pools, self.pools + 1
            lines += [POOL, f"size {group.pool} {group.limit}"]
        return lines

    def add_call(self, call: Call) -> list[str]:
        call.number = len(self.calls)
        self.calls.append(call)
        it = call.group.retries
        lines = [f"command {call.group.number} 0 {it.count} {it.wait} {it.factor} {it.longest} "
                 f"{call.key}"]
        return lines + ([f"take {call.group.pool} 1"] if call.group.pool is not None else [])

    def call(self, number: int) -> Call | None:
        """The call that is a command, or `None` for the one that never begins."""
        return self.calls[number]
