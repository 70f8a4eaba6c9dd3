"""What a try took of the machine: processor seconds, memory and output.

The system knows the first two of processes that have ended and were waited for. The shell that
begins a command waits for it, and no shell can ask for its memory. So a shell whose command took a
second or more, or whose driver has gone, becomes Python at its end (`ASKING`), which asks, and
writes a line into the file of the try (`tries`). Of a shorter one the driver learns what the system
says of the shell; there a driver's own memory counts, so less than that isn't known. (That of the
program that began the driver doesn't, though the system counts it as the driver's.)
"""

from __future__ import annotations

import re
import resource
import sys
from dataclasses import dataclass, replace

from .processes import most_memory

# What a shell becomes. It is given the status of the command and how that was limited. Its line has
# its place in the file, or isn't written.
ASKING = """
import os, resource, stat, sys
it = resource.getrusage(resource.RUSAGE_CHILDREN)
out = os.fstat(1)
text = "used %.3f %d %s %s .\\n" % (it.ru_utime + it.ru_stime, it.ru_maxrss << 10,
    out.st_size if stat.S_ISREG(out.st_mode) else "-", sys.argv[2])
if os.lseek(8, 0, os.SEEK_CUR) + len(text) <= 1024:
    os.write(8, text.encode())
os._exit(int(sys.argv[1]))
"""
# The program that runs this, which runs the driver, too; nothing where it isn't known.
PYTHON = sys.executable or ""
HOWS = ("-", "scope", "process")
IN_TRY = re.compile(r"used ([0-9]{1,9}\.[0-9]{3}) ([0-9]{1,18}) ([0-9]{1,18}|-) "
                    rf"({'|'.join(HOWS)}) \.")
# The same in a line of the log, and what its first line calls them.
IN_LOG = (r"([0-9]{1,9}\.[0-9]{3}|-)\t([0-9]{1,18}|-)\t([0-9]{1,18}|-)\t"
          rf"({'|'.join(HOWS)})")
HEAD = "CPU\tMemory\tOutput\tLimits"


@dataclass(frozen=True)
class Used:
    """What a try took, as far as it is known, and how its processes were limited: not at all, by a
    scope of systemd, or each for itself."""

    cpu: float | None = None  # seconds
    memory: int | None = None  # bytes that its largest process had at most
    output: int | None = None  # bytes that it printed
    limits: str = "-"

    @property
    def fields(self) -> str:
        """The fields of a line of the log."""
        cpu = "-" if self.cpu is None else f"{self.cpu:.3f}"
        return "\t".join([cpu, *("-" if it is None else str(it)
                                 for it in (self.memory, self.output)), self.limits])


def of_fields(cpu: str, memory: str, output: str, limits: str) -> Used:
    """What the fields of a line say."""
    return Used(None if cpu == "-" else float(cpu), number(memory), number(output), limits)


def number(text: str) -> int | None:
    return None if text == "-" else int(text)


def of_line(line: str) -> Used | None:
    """What a line of the file of a try says; None where it is another one."""
    found = IN_TRY.fullmatch(line)
    return of_fields(*found.groups()) if found else None


def of_shell(its: resource.struct_rusage, limits: str) -> Used:
    """What the system says of a shell that has ended by itself, and of all that it waited for. The
    memory that the driver had itself can't be distinguished from that of the shell."""
    memory = its.ru_maxrss << 10 if its.ru_maxrss > most_memory() else None
    return Used(its.ru_utime + its.ru_stime, memory, None, limits)


def printed(its: Used, output: int | None) -> Used:
    """The same, of a try that has printed so much, unless that is known."""
    return its if its.output is not None else replace(its, output=output)


# --- in words

def size(count: float) -> str:
    """A number of bytes as a file of commands has it, such as `512`, `4.2K` or `1.3G`."""
    units = iter("KMGT")
    unit = ""
    while count >= 1023.5 and (more := next(units, "")):
        count, unit = count / 1024, more
    return f"{count:.0f}{unit}" if not unit or count >= 99.95 else f"{count:.1f}{unit}"


def amount(count: float) -> str:
    """A number of bytes as a sentence has it: `1 byte`, `512 bytes`, or with a unit, as above."""
    words = size(count)
    return words if not words.isdigit() else f"{words} byte{'' if words == '1' else 's'}"


def in_words(its: Used) -> list[str]:
    """What is known of it, such as `12s of processor time`, `1.3G of memory` and `4.2K printed`."""
    found = [] if its.cpu is None else [f"{seconds(its.cpu)} of processor time"]
    found += [] if its.memory is None else [f"{amount(its.memory)} of memory"]
    return found + ([] if its.output is None else [f"{amount(its.output)} printed"])


def seconds(count: float) -> str:
    """Processor seconds, such as `0.05s`, `12s` or `1h02m`."""
    if count < 9.95:
        return f"{count:.2f}s" if count < 1 else f"{count:.1f}s"
    whole = round(count)
    if whole < 60:
        return f"{whole}s"
    return f"{whole // 60}m{whole % 60:02}s" if whole < 3600 else \
        f"{whole // 3600}h{whole % 3600 // 60:02}m"
