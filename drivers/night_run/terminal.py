"""Standard error, written to without ever waiting for it. Otherwise a terminal that takes nothing
more, after Ctrl-S or over a line that stalls, would keep the whole night waiting, its deadlines,
too.
"""

from __future__ import annotations

import contextlib
import os
import queue
import signal
import sys
import threading

# Goes to the begin of a line, and clears it.
CLEAR_LINE = "\r\x1b[K"
# Takes away the line of progress, which only a terminal gets.
CLEAR = CLEAR_LINE if sys.stderr is not None and sys.stderr.isatty() else ""
# How many texts wait at most; what comes then is lost.
MOST = 10_000
# How many seconds are given to the last ones.
LAST = 5.0


class Writer:
    """A file to which a thread of its own writes, in the order of the requests."""

    def __init__(self, file: int) -> None:
        self.file = file
        # (its `put` may be interrupted by a signal whose handler puts, too)
        self.texts: queue.SimpleQueue[str | threading.Event | None] = queue.SimpleQueue()
        self.asked = self.done = 0
        self.line = ""  # the line of progress
        self.is_line_due = False
        self.thread: threading.Thread | None = None

    def write(self, text: str) -> None:
        if not self.put(text) and self.thread is None:
            self.write_all(text)

    def show(self, line: str) -> None:
        """Writes this, instead of a text that was to be shown before and isn't written yet."""
        self.line = line
        if not self.is_line_due:
            self.is_line_due = True
            self.put(None)

    def put(self, it: str | threading.Event | None) -> bool:
        if self.asked - self.done >= MOST or not self.is_begun():
            return False
        self.asked += 1
        self.texts.put(it)
        return True

    def is_begun(self) -> bool:
        """Whether there is a thread; the system may have had no room for one."""
        if self.thread is None:
            thread = threading.Thread(target=self.run, daemon=True)
            try:
                thread.start()
            except (RuntimeError, MemoryError):
                return False
            self.thread = thread
        return True

    def run(self) -> None:
        # (signals are for the thread that waits for them)
        signal.pthread_sigmask(signal.SIG_BLOCK, signal.valid_signals())
        while True:
            it = self.texts.get()
            if isinstance(it, threading.Event):
                it.set()
            elif it is None:
                self.is_line_due = False
                self.write_all(self.line)
            else:
                self.write_all(it)
            self.done += 1

    def write_all(self, text: str) -> None:
        left = text.encode("utf-8", "backslashreplace")
        # (a standard error that is closed or full ends no night)
        with contextlib.suppress(OSError):
            while left:
                left = left[os.write(self.file, left):]

    def flush(self, seconds: float = LAST) -> bool:
        """Waits until all is written, but at most this long. Returns whether it is."""
        if self.thread is None:
            return True
        is_written = threading.Event()
        return self.put(is_written) and is_written.wait(seconds)


class Progress:
    """A line of progress, shown only on a terminal, and no wider than that."""

    def __init__(self, writer: Writer) -> None:
        self.writer, self.shown = writer, ""
        self.is_on = bool(CLEAR)

    def show(self, text: str) -> None:
        with contextlib.suppress(OSError):
            columns = os.get_terminal_size(self.writer.file).columns
            text = text[:columns - 1] if columns > 1 else text
        if text != self.shown:
            self.shown = text
            self.writer.show(f"{CLEAR}{text}")

    def clear(self) -> None:
        if self.is_on:
            self.writer.write(CLEAR)
