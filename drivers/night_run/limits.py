"""What a command may take of the machine, by the settings of the command file:

    nice N              how far it steps back for other programs, as `nice -n N`: -20 to 19
    ionice CLASS [N]    the same for the disk: idle, best-effort 0 to 7, or realtime 0 to 7
    memory 2G           how much memory it may have
    cpu 200%            how much of the processors it may use: 200% is as much as two of them do
    output 100M         how much a try may print; then it is ended, and has failed

A size is a number with K, M, G or T behind it, in powers of 1024. `means` puts these limits on a
command, but for that of its output, which the driver watches.
"""

from __future__ import annotations

import re
from collections.abc import Callable
from dataclasses import dataclass, fields, replace

from .reading import Words, Wrong, short

UNITS = "KMGT"
SIZE = re.compile(rf"([0-9]{{1,6}})([{UNITS}])")
PERCENT = re.compile("([0-9]{1,6})%")
NICE = re.compile("-?[0-9]{1,2}")
LEAST_NICE, MOST_NICE = -20, 19
CLASSES, LEVEL, DEFAULT_LEVEL = ("idle", "best-effort", "realtime"), re.compile("[0-7]"), 4
# A shell has no room in less memory, and systemd takes no less of a processor.
LEAST_MEMORY, LEAST_CPU = 1 << 20, 1
# How each of these settings begins its value, where it may stand after the names of an `after`.
FORMS = {"nice": NICE, "ionice": re.compile("|".join(CLASSES)), "memory": SIZE, "cpu": PERCENT,
         "output": SIZE}


@dataclass(frozen=True)
class Limits:
    """The limits of a command or a group. None is no limit."""

    nice: int | None = None
    ionice: tuple[str, int] | None = None
    memory: int | None = None  # in bytes
    cpu: int | None = None  # in hundredths of a processor
    output: int | None = None  # in bytes
    output_text: str = ""

    def over(self, others: Limits) -> Limits:
        """These limits; where one isn't set, that of the others."""
        own = {it.name: getattr(self, it.name) for it in fields(self)
               if getattr(self, it.name) is not None}
        if self.output is None:
            del own["output_text"]
        return replace(others, **own)

    @property
    def is_of_processes(self) -> bool:
        """Whether one of them is put on the processes of a command."""
        return replace(self, output=None, output_text="") != Limits()

    def is_passed_by(self, printed: int | None) -> bool:
        """Whether a try that has printed so many bytes has printed too much."""
        return self.output is not None and printed is not None and printed > self.output


# --- how they are read

def read_nice(words: Words, its: Limits) -> Limits:
    value = words.value("the number after `nice`")
    words.once("niceness", its.nice is not None)
    if not NICE.fullmatch(value) or not LEAST_NICE <= int(value) <= MOST_NICE:
        raise Wrong(f"nice {short(value)} is not {LEAST_NICE} to {MOST_NICE}")
    return replace(its, nice=int(value))


def read_ionice(words: Words, its: Limits) -> Limits:
    value = words.value("the class after `ionice`")
    words.once("class of ionice", its.ionice is not None)
    if value not in CLASSES:
        raise Wrong(f"the class {short(value)} is not idle, best-effort or realtime")
    level = DEFAULT_LEVEL
    if value != "idle" and (found := words.take_like(LEVEL)):
        level = int(found[0])
    return replace(its, ionice=(value, level))


def read_memory(words: Words, its: Limits) -> Limits:
    value = words.value("the size after `memory`")
    words.once("limit of memory", its.memory is not None)
    size = size_of("memory", value)
    if size < LEAST_MEMORY:
        raise Wrong(f"memory {value}: no shell can run in less than {LEAST_MEMORY >> 20}M")
    return replace(its, memory=size)


def read_cpu(words: Words, its: Limits) -> Limits:
    value = words.value("the share after `cpu`")
    words.once("limit of cpu", its.cpu is not None)
    found = PERCENT.fullmatch(value)
    if not found or int(found[1]) < LEAST_CPU:
        raise Wrong(f"cpu {short(value)} is not written like 50% or 200%")
    return replace(its, cpu=int(found[1]))


def read_output(words: Words, its: Limits) -> Limits:
    value = words.value("the size after `output`")
    words.once("limit of output", its.output is not None)
    size = size_of("output", value)
    if not size:
        raise Wrong(f"output {value}: a try that may print nothing has its output elsewhere, as in"
                    " `COMMAND > /dev/null`")
    return replace(its, output=size, output_text=value)


READ: dict[str, Callable[[Words, Limits], Limits]] = {
    "nice": read_nice, "ionice": read_ionice, "memory": read_memory, "cpu": read_cpu,
    "output": read_output}


def size_of(what: str, text: str) -> int:
    found = SIZE.fullmatch(text)
    if not found:
        raise Wrong(f"{what} {short(text)} is not written like 512K, 100M or 2G")
    return int(found[1]) << 10 * (UNITS.index(found[2]) + 1)
