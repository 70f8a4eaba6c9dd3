"""Whether the machine's clock can be right. A machine without a clock of its own, or with an empty
battery, starts in 1970 or 2000, and is set once there is a network.
"""

from __future__ import annotations

import time

# A moment before this version was written: a clock that is earlier isn't set. 1 November 2026.
WRITTEN = 1_793_491_200


def is_set() -> bool:
    return time.time() >= WRITTEN


def shown() -> str:
    return time.strftime("%Y-%m-%d %H:%M", time.localtime())
