"""How slow the machine is: what must happen within some seconds may come that much later."""

import subprocess
import sys
import threading
import time

# What a process that does nothing takes on a free machine is about a fiftieth of LEAST, and less
# than USUAL.
LEAST, TIMES, USUAL = 0.5, 12.0, 0.1


def start_nothing() -> tuple[float, float]:
    """When a process that does nothing was begun, and when it had ended."""
    began = time.monotonic()
    subprocess.run([sys.executable, "-ISc", "pass"], stdin=subprocess.DEVNULL, check=False)
    return began, time.monotonic()


def slowness() -> float:
    """How many times as long as usual something may take at this moment; at least 1."""
    began, ended = start_nothing()
    return max(1.0, (ended - began) / USUAL)


class Pace(threading.Thread):
    """Begins a process that does nothing, each second, and keeps how long each took."""

    def __init__(self) -> None:
        super().__init__(daemon=True)
        self.samples: list[tuple[float, float]] = []
        self.is_over = threading.Event()

    def run(self) -> None:
        while not self.is_over.wait(1.0):
            self.samples.append(start_nothing())

    def slack(self, one: float, other: float) -> float:
        """How much later than it should something may be seen between these moments."""
        took = [end - began for began, end in self.samples if end > one - 3 and began < other + 3]
        return LEAST + TIMES * max(took, default=0.0)
