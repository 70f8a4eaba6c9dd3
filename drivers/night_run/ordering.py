"""The order in which commands and groups can be found: each after all that it waits for."""

from __future__ import annotations

import collections
from collections.abc import Callable, Mapping, Sequence

from . import Name

Node = Name | str


def in_order(needs: Mapping[Node, Sequence[Node]],
             is_cycle: Callable[[list[Node]], None]) -> list[Node]:
    """Commands and groups, each after those that it needs. The members of a cycle come in some
    order, and are reported, with the first of them at the end once more."""
    wants: dict[Node, list[Node]] = collections.defaultdict(list)
    for it, its in needs.items():
        for other in set(its):
            wants[other].append(it)
    count = {it: len(set(its)) for it, its in needs.items()}
    left = dict.fromkeys(it for it in needs if count[it])
    ready = [it for it in needs if not count[it]]
    at = 0
    while left or at < len(ready):
        if at == len(ready):
            ring = cycle(needs, left)
            is_cycle([*ring, ring[0]])
            ready += ring
            for it in ring:
                del left[it]
        for other in wants[ready[at]]:
            count[other] -= 1
            if not count[other] and other in left:
                del left[other]
                ready.append(other)
        at += 1
    return ready


def cycle(needs: Mapping[Node, Sequence[Node]], left: Mapping[Node, None]) -> list[Node]:
    """The members of a cycle, each of which waits for the next one."""
    at = next(iter(left))
    seen: dict[Node, int] = {}
    while at not in seen:
        seen[at] = len(seen)
        at = next(it for it in needs[at] if it in left)
    return list(seen)[seen[at]:]
