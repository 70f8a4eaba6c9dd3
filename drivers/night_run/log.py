"""STORE.log: a line for each task that has ended, written once the store has recorded its end.

    Try  Group  Key  Began  Seconds  End  Command  CPU  Memory  Output  Limits

Tabs separate the fields, as in a job log of GNU parallel. Try is the number of the try of this key
in its group, from 0, as in the name of its output. End is the text of an end (`ends`). Began and
Seconds are - for a task whose line was lost with a driver, and for one that never began. Began is
known of an interrupted one whose command lived on; a later try with the same Began is that very
command. The last four fields are what it took (`used`), - where that isn't known; a line of an
older driver ends with Command. A line of another form is passed over.
"""

from __future__ import annotations

import datetime
import errno
import functools
import os
import re
import time
from collections.abc import Collection, Iterator
from dataclasses import dataclass

from .beside import NotOurs, Part
from .ends import End, read_end
from .escapes import one_line
from .files import Files
from .rounds import round_of
from .telling import note_once
from .used import HEAD as FIGURES
from .used import IN_LOG, Used, of_fields

HEAD = f"Try\tGroup\tKey\tBegan\tSeconds\tEnd\tCommand\t{FIGURES}\n"
LINE = re.compile(r"([0-9]{1,6})\t([a-z0-9_-]{1,32})\t([a-z0-9_-]{1,32})\t([^\t]*)\t([^\t]*)"
                  rf"\t([^\t]*)\t(.*?)(?:\t{IN_LOG})?")

# The log is read from its end in blocks of this many bytes. A longer line is none of its own.
BLOCK, MOST_LINE = 1 << 16, 1 << 20
# No more of its end than this is read: a file with holes may have any size.
MOST_READ = 1 << 29
# After this many lines in a row of earlier nights all that stands before is of these, too.
MOST_OLDER = 10_000
# How many bytes wait at most while the log can't be written.
MOST_LEFT = 1 << 20

# A task: its group, its key, and which try of the key it is.
Tried = tuple[str, str, int]


@dataclass(frozen=True)
class Line:
    began: str
    seconds: str
    end: End
    command: str
    used: Used = Used()

    @property
    def is_exact(self) -> bool:
        """Whether its moments have parts of a second; those of an older driver don't."""
        return "." in self.began

    def began_at(self) -> float | None:
        try:
            when = datetime.datetime.fromisoformat(self.began)
            return when.timestamp() if when.tzinfo else None
        except (ValueError, OverflowError):
            return None

    def took(self) -> float | None:
        return float(self.seconds) if re.fullmatch(r"[0-9]{1,9}\.[0-9]{1,6}", self.seconds) \
            else None

    def ended_at(self) -> float | None:
        began, took = self.began_at(), self.took()
        return None if began is None or took is None else began + took


def read_log(files: Files, groups: Collection[str]) -> dict[Tried, Line]:
    """The lines of these groups in the log, in their order; none if it can't be read. Other lines
    take no memory."""
    found: list[tuple[Tried, Line]] = []
    try:
        file = files.open(Part.LOG)
        try:
            for line in lines_of(file, groups):
                if it := read_line(line):
                    found.append(it)
        finally:
            os.close(file)
    except FileNotFoundError:
        pass
    except OSError as error:
        note_once(f"{files.shown_of(Part.LOG)}: {error.strerror}")
    made: dict[Tried, Line] = {}
    for tried, read in reversed(found):
        made.setdefault(tried, read)
    return made


def read_line(line: bytes) -> tuple[Tried, Line] | None:
    """A line as it is read; None where it has another form."""
    it = LINE.fullmatch(line.decode("utf-8", "surrogateescape"))
    if it is None:
        return None
    used = of_fields(it[8], it[9], it[10], it[11]) if it[8] else Used()
    return (it[2], it[3], int(it[1])), Line(it[4], it[5], read_end(it[6]), it[7], used)


def lines_of(file: int, groups: Collection[str]) -> Iterator[bytes]:
    """The lines of these groups, the last one first. The names of a later night have a higher
    round, so lines before many lines of lower rounds belong to earlier nights."""
    wanted = {it.encode() for it in groups}
    least, older = min((round_of(it).number for it in groups), default=1), 0
    for line in backwards(file) if wanted else ():
        words = line.split(b"\t", 2)
        if len(words) < 3:
            continue
        if words[1] in wanted:
            older = 0
            yield line
        else:
            older = older + 1 if round_in(words[1]) < least else 0
            if older > MOST_OLDER:
                return


@functools.lru_cache(1024)
def round_in(group: bytes) -> int:
    return round_of(group.decode("ascii", "replace")).number


def backwards(file: int, most: int = MOST_READ) -> Iterator[bytes]:
    """The lines of a file, the last one first. A line that is too long is skipped, and so is what
    stands before this many bytes at its end."""
    at, tail, is_cut = os.fstat(file).st_size, b"", False
    first_read = max(0, at - most)
    while at > first_read:
        size = min(BLOCK, at)
        at -= size
        first, *lines = os.pread(file, size, at).split(b"\n")
        if not lines:
            tail = b"" if is_cut else first + tail
            if len(tail) > MOST_LINE:
                tail, is_cut = b"", True
            continue
        last = lines.pop()
        if not is_cut:
            yield last + tail
        yield from reversed(lines)
        tail, is_cut = first, False
    if not (at or is_cut):
        yield tail


def text_of_line(command: str) -> str:
    """A command as a line has it."""
    return one_line(command.replace("\t", " "))


class Log:
    """The log of the running driver. If it can't be written, the night goes on: the missing lines
    are written once there is room."""

    def __init__(self, files: Files, groups: Collection[str]) -> None:
        self.files, self.shown = files, files.shown_of(Part.LOG)
        self.lines = read_log(files, groups)
        self.file, self.left = -1, b""
        self.open()

    def open(self) -> None:
        try:
            self.file = self.files.open(Part.LOG, os.O_RDWR | os.O_APPEND | os.O_CREAT)
            size = os.fstat(self.file).st_size
            is_cut = size and os.pread(self.file, 1, size - 1) != b"\n"
            self.write("\n" if is_cut else "" if size else HEAD)
        except NotOurs:
            raise
        except OSError as error:
            self.failed(error)

    def rotate(self, night: int) -> None:
        """Puts all lines so far aside, as those of this night, and begins an empty log."""
        self.lines.clear()
        name = self.files.name(Part.LOG)
        try:
            self.files.folder.move(name, f"{name}.{night}")
        except FileNotFoundError:
            pass
        except OSError as error:
            self.failed(error)
            return
        if self.file >= 0:
            os.close(self.file)
            self.file = -1
        self.open()

    def failed(self, error: OSError) -> None:
        note_once(f"{self.shown}: {error.strerror}")

    def write(self, text: str) -> None:
        """Writes whole lines. If a line doesn't fit on the disk, it waits, and so do the lines
        after it."""
        if self.file < 0:
            return
        self.left += text.encode("utf-8", "surrogateescape")
        try:
            while self.left:
                self.write_some()
        except OSError as error:
            self.failed(error)
            if len(self.left) > MOST_LEFT:
                self.left = self.left[self.left.find(b"\n", -MOST_LEFT) + 1:]

    def write_some(self) -> None:
        size = os.fstat(self.file).st_size
        count = os.write(self.file, self.left)
        whole = count if count == len(self.left) else self.left.rfind(b"\n", 0, count) + 1
        if whole < count:
            os.ftruncate(self.file, size + whole)
        self.left = self.left[whole:]
        if not whole:
            raise OSError(errno.ENOSPC, os.strerror(errno.ENOSPC))

    def began(self, tried: Tried) -> float | None:
        """When a try began, as far as its line says it."""
        return self.lines[tried].began_at() if tried in self.lines else None

    def last_end(self) -> float | None:
        """When the last command ended, of those that the log has lines of."""
        ends = (it.ended_at() for it in self.lines.values())
        return max((it for it in ends if it is not None), default=None)

    def sync(self) -> None:
        if self.file >= 0:
            try:
                os.fsync(self.file)
            except OSError as error:
                self.failed(error)

    def add(self, ends: Iterator[tuple[Tried, Line]]) -> None:
        """Notes the ends of tasks that the log lacks, all in one write."""
        made = []
        for tried, line in ends:
            if tried not in self.lines:
                self.lines[tried] = line
                group, key, number = tried
                made.append("\t".join([str(number), group, key, line.began, line.seconds,
                                       line.end.text, line.command, line.used.fields]) + "\n")
        self.write("".join(made))


def moment(when: float) -> str:
    """A moment in this machine's zone, to the millisecond."""
    whole, part = divmod(round(when * 1000), 1000)
    return time.strftime(f"%Y-%m-%dT%H:%M:%S.{part:03}%z", time.localtime(whole))


def line_of(began: float | None, took: float | None, end: End, command: str,
            used: Used = Used()) -> Line:
    when = "-" if began is None else moment(began)
    return Line(when, "-" if took is None else f"{took:.3f}", end, text_of_line(command), used)
