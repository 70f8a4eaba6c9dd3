"""Moments, in seconds since 1970, and deadlines."""

from __future__ import annotations

import math
import time
from dataclasses import dataclass


# The latest moment of a store.
LAST = 253_000_000_000


@dataclass(frozen=True)
class Until:
    """A deadline, and the words by which a later run finds it again."""
    moment: int
    words: str


def now() -> int:
    return int(time.time())


def until_of(timeout: float | None, deadline: float | None) -> Until | None:
    """The deadline after this many seconds, or at a moment, if there is one."""
    if timeout is not None and deadline is not None:
        raise ValueError("give a timeout or a deadline, not both")
    if timeout is not None:
        return Until(moment_of(time.time() + timeout), f"within {timeout:g} s")
    if deadline is not None:
        return Until(moment_of(deadline), f"at {moment_of(deadline)}")
    return None


def moment_of(seconds: float) -> int:
    """The moment with which a deadline comes."""
    return LAST if seconds > LAST else max(0, math.ceil(seconds))
