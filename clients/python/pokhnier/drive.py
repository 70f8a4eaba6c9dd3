"""A run of `night drive`: a part is written, and its answer is read as a whole."""

from __future__ import annotations

import contextlib
import os
import subprocess

from .errors import Error, InUse, Lost, Refused
from .orders import Order, order_of
from .program import program

MOST = 1 << 16
WRONG_WORDS, FAULTY = 2, 3


class Drive:
    """The program, from the start of its run to its end."""

    def __init__(self, store: str) -> None:
        self.store, self.path = store, program()
        # (A session of its own, so that Ctrl-C at a terminal doesn't end it.)
        self.process = subprocess.Popen(
            [self.path, "drive", store], stdin=subprocess.PIPE, stdout=subprocess.PIPE,
            stderr=subprocess.PIPE, bufsize=0, start_new_session=True)
        self.rest = bytearray()
        self.has_answered = False

    def ask(self, lines: list[str]) -> list[Order]:
        """Writes a part, and returns the answer to it once its empty line has come."""
        self.write("".join(f"{it}\n" for it in lines) + "\n")
        answer = [order_of(it) for it in self.answer()]
        self.has_answered = True
        return answer

    def write(self, part: str) -> None:
        assert self.process.stdin
        left = memoryview(part.encode("ascii"))
        try:
            while left:
                left = left[self.process.stdin.write(left) or 0:]
        except BrokenPipeError:
            pass  # (its last answer may still say why it ended)

    def answer(self) -> list[str]:
        """The lines of the next answer. What comes without its empty line is no answer."""
        assert self.process.stdout
        seen = 0
        while (end := self.rest.find(b"\n\n", max(0, seen - 1))) < 0:
            seen = len(self.rest)
            part = os.read(self.process.stdout.fileno(), MOST)
            if not part:
                raise self.ended()
            self.rest += part
        whole = self.rest[:end].decode("ascii", "replace")
        del self.rest[:end + 2]
        return whole.split("\n")

    def is_dead(self) -> bool:
        """Whether the program has ended, which nobody has seen in an answer."""
        return self.process.poll() is not None

    def ended(self) -> Error:
        """Why the program has ended in the middle of an answer."""
        said, status = self.end()
        if "in use by another program" in said:
            return InUse(f"{self.store}: in use by another program")
        if status == WRONG_WORDS:
            return Refused(f"{self.path} is no `night` that has `drive`: {said}")
        if status == FAULTY and not self.has_answered:
            return Refused(said.replace("\n", " "))
        if status < 0:
            return Lost(f"night drive was killed by signal {-status}; start this program again")
        return Lost(f"night drive ended with status {status}: {said or 'it said nothing'}")

    def end(self) -> tuple[str, int]:
        """Ends the input, waits for the end of the program, and returns what it said."""
        assert self.process.stdin and self.process.stdout and self.process.stderr
        if self.process.stderr.closed:
            return "", self.process.wait()
        with contextlib.suppress(OSError):
            self.process.stdin.close()
        said = self.process.stderr.read().decode(errors="replace").strip()
        self.process.stderr.close()
        status = self.process.wait()
        self.process.stdout.close()
        return said, status

    def leave(self) -> None:
        """Closes the files of this process, which was forked, and waits for nothing."""
        for file in (self.process.stdin, self.process.stdout, self.process.stderr):
            if file:
                file.close()
