"""How far a run of many steps is: a line that is drawn anew on a terminal, and else a line for each
step that ends."""
import os
import sys
import threading
import time
from typing import Callable, TextIO

PERIOD = 1.0
CLEAR = "\r\x1b[K"
# Of what runs, as many names as fit into a line.
SHOWN = 3


def minutes(seconds: float) -> str:
    """Returns a length of time for a reader: `40 s`, `12 min`."""
    return f"{seconds:.0f} s" if seconds < 90 else f"{seconds / 60:.0f} min"


class Progress:
    """The steps that run and those that ended, of so many."""

    def __init__(self, total: int, left: Callable[[dict[str, float]], float],
                 out: TextIO = sys.stdout) -> None:
        self.total, self.left, self.out = total, left, out
        self.running: dict[str, float] = {}
        self.ended: list[str] = []
        self.is_terminal = out.isatty()
        self.lock, self.stopped = threading.RLock(), threading.Event()
        self.drawing = threading.Thread(target=self.redraw, daemon=True)

    def start(self) -> None:
        if self.is_terminal:
            self.drawing.start()

    def stop(self) -> None:
        self.stopped.set()
        with self.lock:
            self.clear()

    def begin(self, name: str) -> None:
        with self.lock:
            self.running[name] = time.monotonic()

    def end(self, name: str, how: str) -> None:
        """Ends a step, and prints how it ended."""
        with self.lock:
            self.running.pop(name, None)
            self.ended.append(name)
            self.say(f"{name}: {how}; {len(self.ended)} of {self.total}")

    def say(self, text: str) -> None:
        with self.lock:
            self.clear()
            print(text, file=self.out, flush=True)

    def clear(self) -> None:
        if self.is_terminal:
            print(CLEAR, end="", file=self.out, flush=True)

    def line(self) -> str:
        """Returns the line of progress: how many are done, what runs, how long it may take."""
        now = time.monotonic()
        ran = {name: now - began for name, began in self.running.items()}
        names = [f"{name} {seconds:.0f} s" for name, seconds in ran.items()]
        more = f" and {len(names) - SHOWN} more" if len(names) > SHOWN else ""
        return (f"{len(self.ended)} of {self.total} done; {', '.join(names[:SHOWN])}{more};"
                f" about {minutes(self.left(ran))} left")

    def redraw(self) -> None:
        while not self.stopped.wait(PERIOD):
            with self.lock:
                if self.running and not self.stopped.is_set():
                    width = os.get_terminal_size(self.out.fileno()).columns or 80
                    print(f"{CLEAR}{self.line()[:width - 1]}", end="", file=self.out, flush=True)
