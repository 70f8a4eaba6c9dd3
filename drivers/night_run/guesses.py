"""What is said of a group or a command that there isn't, and which one may be meant."""

from __future__ import annotations

import difflib
from collections.abc import Collection, Iterable

from . import Name


def no_group(shown: str, group: str, names: Collection[Name], how: str = "") -> str:
    """That this has no such group. The key of one command alone may mean that command."""
    its = [f"{one}/{key}" for one, key in names if key == group]
    return f"{shown} has no group {group}{how}" + (
        meant(its) if len(its) == 1 else like(group, {one for one, _ in names}))


def no_command(group: str, key: str, names: Collection[Name], how: str = "") -> str:
    """That a group has no such command. If another one alone has it, that may be meant."""
    its = [f"{one}/{other}" for one, other in names if other == key]
    return f"{group} has no command {key}{how}" + (
        meant(its) if len(its) == 1 else
        like(key, [other for one, other in names if one == group], f"{group}/"))


def like(word: str, names: Iterable[str], before: str = "") -> str:
    """A question after the name that is most like this word, if there is one."""
    return meant([before + it for it in difflib.get_close_matches(word, sorted(names), 1)])


def meant(its: list[str]) -> str:
    return f"; did you mean {its[0]}?" if its else ""
