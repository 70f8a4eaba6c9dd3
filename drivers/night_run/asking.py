"""A process `night plan`, which gets a plan and then what has changed in it, and answers."""

from __future__ import annotations

import contextlib
import os
import select
import signal
import subprocess
import time
from collections.abc import Callable, Iterable

from . import Fault
from .night import KILLED_SECONDS, OFTEN, SECONDS, NightEnded, program, starting
from .reading import short

# How many bytes of its answer are read at a time.
PART = 1 << 16


class Asking:
    """A run of `night plan`, of which no answer has more than `most` bytes. It ends by itself once
    its input does, however this driver ends. What goes on while it is waited for is `meanwhile`,
    which says how many seconds may pass in all."""

    def __init__(self, meanwhile: Callable[[], float], most: int) -> None:
        self.meanwhile, self.most = meanwhile, most
        with starting():
            self.it = subprocess.Popen([program(), "plan"], stdin=subprocess.PIPE, bufsize=0,
                                       stdout=subprocess.PIPE, stderr=subprocess.PIPE,
                                       start_new_session=True)
        assert self.it.stdin and self.it.stdout and self.it.stderr
        self.lines, self.replies, self.errors = self.it.stdin, self.it.stdout, self.it.stderr
        for file in (self.lines, self.replies, self.errors):
            os.set_blocking(file.fileno(), False)

    def ask(self, lines: Iterable[str]) -> list[str]:
        """The answer to a plan or a round. NightEnded if it has none, or a line is bad."""
        answer = self.answer(lines)
        if answer[:1] and answer[0].startswith("bad "):
            raise self.lost()
        return answer

    def answer(self, lines: Iterable[str]) -> list[str]:
        left = memoryview("".join(f"{it}\n" for it in (*lines, "")).encode("ascii"))
        found = bytearray()
        self.read(found)
        if found:
            raise self.refused("what nobody asked for", found)
        began = looked = time.monotonic()
        while left or not (found == b"\n" or found.endswith(b"\n\n")):
            poll = select.poll()
            poll.register(self.replies, select.POLLIN)
            if left:
                poll.register(self.lines, select.POLLOUT)
            poll.poll(OFTEN * 1000)
            if time.monotonic() > looked + OFTEN:
                looked = time.monotonic()
                self.go_on(began)
            left = self.write(left)
            self.read(found)
            if len(found) > self.most:
                raise self.refused("more than it has to say", found)
        return found.decode("ascii", "replace").split("\n")[:-2]

    def refused(self, what: str, found: bytearray) -> Fault:
        """Kills it, since it answers as no `night plan` does."""
        self.it.kill()
        return Fault(f"`night plan`: it answered {what}: "
                     + short(found[:PART].decode("ascii", "replace")))

    def go_on(self, began: float) -> None:
        """Goes on with what else is to do; one that is late is killed."""
        limit = min(SECONDS, self.meanwhile())
        if time.monotonic() > began + limit:
            self.it.kill()
            self.close()
            raise NightEnded(-signal.SIGKILL, f"no answer within {limit:.0f} s")

    def write(self, left: memoryview) -> memoryview:
        """What is left once as much as its input takes was written."""
        try:
            return left[os.write(self.lines.fileno(), left):] if left else left
        except BlockingIOError:
            return left
        except BrokenPipeError:
            raise self.lost() from None

    def read(self, found: bytearray) -> None:
        """Takes in what it has answered so far."""
        try:
            part = os.read(self.replies.fileno(), PART)
        except BlockingIOError:
            return
        if not part:
            raise self.lost()
        found += part

    def lost(self) -> NightEnded:
        """How it has ended, and why."""
        status = self.close()
        why = self.error_text if self.error_text or status else "it ended too early"
        return NightEnded(status, why)

    def close(self) -> int:
        """Ends it; the status with which it does."""
        with contextlib.suppress(OSError):
            self.lines.close()
        try:
            status = self.it.wait(KILLED_SECONDS)
        except subprocess.TimeoutExpired:
            self.it.kill()
            with contextlib.suppress(subprocess.TimeoutExpired):
                self.it.wait(KILLED_SECONDS)
            status = -signal.SIGKILL
        with contextlib.suppress(OSError, ValueError):
            self.error_text = (self.errors.read() or b"").decode("utf-8", "replace")
        for file in (self.replies, self.errors):
            file.close()
        return status

    error_text = ""
