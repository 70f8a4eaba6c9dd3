"""Which tries of earlier drivers count in a night: whether the end of one is to be recorded, or is
already. It decides, and executes nothing (`orders`).
"""

from __future__ import annotations

from collections.abc import Container, Mapping

from . import Name
from .past import Past
from .rounds import base_of, round_of
from .state import ENDED, State
from .tonight import Again
from .tries import Named


class Counted:
    """The tries that count by the store and the ends of a renewed one: those in groups of the
    night, whose commands aren't to run again since then."""

    def __init__(self, state: State, past: Past, groups: Container[str],
                 again: Mapping[Name, Again]) -> None:
        self.state, self.past, self.groups, self.again = state, past, groups, again

    def is_of_tonight(self, it: Named) -> bool:
        """Whether the end of a try says something of its command in this night."""
        is_again = it.name in self.again and round_of(it.group) < self.again[it.name].since
        return it.group in self.groups and not is_again

    def is_of_store(self, events: int) -> bool:
        """Whether a try is of this store, in which it began after this many events."""
        return events <= self.state.count or self.past.is_of_a_replaced_store

    def is_recorded(self, it: Named) -> bool:
        """Whether the end of a try is recorded: its own, under whatever number, or that of a later
        try. (A command that outlived its `night` has the number of a later task.)"""
        least, counts = round_of(it.group), -1
        for task in self.state.tasks:
            if task.name == it.name and round_of(task.group) >= least:
                counts += task.group == it.group
                is_later = task.group != it.group or counts >= it.number
                if is_later and task.phase in ENDED and not task.is_withdrawn:
                    return True
        # (of a group that it still has the store says all)
        there = {group.name for group in self.state.groups}
        return any((base_of(group), key) == it.name and round_of(group) >= least
                   and group not in there for group, key, _ in self.past.ends)
