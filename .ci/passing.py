"""Runs a command of the gate, passes on what it prints as it comes, but for its last line."""
import io
import re
import subprocess
import sys
from collections.abc import Sequence
from dataclasses import dataclass

LAST = re.compile(r"(\d+) passed, (\d+) failed\n")


@dataclass(frozen=True)
class Count:
    """The last line: how many passed, and how many failed."""

    passed: int
    failed: int

    def with_failed(self, more: int) -> "Count":
        return Count(self.passed, self.failed + more)

    def __str__(self) -> str:
        return f"{self.passed} passed, {self.failed} failed"


@dataclass(frozen=True)
class Passed:
    """What a command printed, its last line, if it came to one, and its status."""

    text: str
    last: Count | None
    status: int


def write_every_sign() -> None:
    """Has this script print any sign, as those of rt's lines, which a locale may lack."""
    for out in (sys.stdout, sys.stderr):
        if isinstance(out, io.TextIOWrapper):
            out.reconfigure(encoding="utf-8", errors="surrogateescape")


def passed_on(command: Sequence[str]) -> Passed:
    """Runs a command, and ends it if this script is to end."""
    text, last = "", ""
    with subprocess.Popen(command, stdout=subprocess.PIPE, encoding="utf-8",
                          errors="surrogateescape") as run:
        assert run.stdout
        try:
            for line in run.stdout:
                text += line
                if LAST.fullmatch(line):
                    line, last = last, line
                print(line, end="", flush=True)
        except BaseException:
            run.terminate()
            raise
    found = LAST.fullmatch(last)
    return Passed(text, Count(int(found[1]), int(found[2])) if found else None, run.returncode)
