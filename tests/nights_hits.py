"""Who is killed of a driver and of what it has begun."""

from __future__ import annotations

import os
import signal
import subprocess
from typing import Any

from driver_room import children
from nights_folder import kill


def kill_group(pid: int) -> None:
    try:
        os.killpg(pid, signal.SIGKILL)
    except ProcessLookupError:
        pass


def hit(driver: subprocess.Popen[Any], who: str) -> int:
    """Kills the driver, its `night`, both, all but the commands, or all. How many `night`s."""
    if who in ("rest", "all"):
        # (so that it begins no other)
        kill(driver.pid, signal.SIGSTOP)
    below = children(driver.pid) if who != "driver" else {}
    nights = [it for it, name in below.items() if name in ("night", "night.real")]
    if who != "night":
        kill(driver.pid)
    for it, name in below.items():
        if it in nights or who in ("rest", "all") and name.startswith("python"):
            kill(it)
        elif who == "all":
            kill_group(it)
    return len(nights)
