"""STORE.tries: a file for each try that was begun and whose end isn't recorded, with the name of
its output, GROUP.KEY.TRY. The driver writes its first lines, and the shell that begins the command
writes the others (`commands`):

    try GROUP KEY TRY since N       before the shell begins: the store had N events then. With - in
                                    place of N its end counts for nothing: it is of another night
    stopped WHY                     before it is stopped: its end is WHY, or none at all with -

    process BOOT PID START          the shell, just before its command begins
    ended STATUS SECONDS .          how the command ended, and how many seconds after the boot
    used CPU MEMORY OUTPUT LIMITS . what it took (`used`), if that was asked for

Then comes the command, as the file of commands had it. Everything that is written later has its
place from the first moment on, as empty lines, so a full disk can't prevent it. A command without a
line of its process never began.

The driver takes the file's lock for the shell, which holds it until it ends; the command doesn't
have it. Once the lock is free the shell is gone, and what the file says is final.
"""

from __future__ import annotations

import contextlib
import os
import re
import time
from collections.abc import Iterator
from dataclasses import dataclass

from . import Name
from .beside import Folder, NotOurs, Part, write_all
from .ends import End, read_end
from .files import Files
from .lock import try_lock
from .processes import PID, START, Process, age, lives, this_process
from .rounds import base_of
from .telling import error_text, note_once
from .used import Used, of_line

# How many bytes the lines of the driver and of the shell have.
HALF = 512
NAME = re.compile(r"([a-z0-9_-]{1,32})\.([a-z0-9_-]{1,32})\.([0-9]{1,6})")
HEAD = re.compile(r"try ([a-z0-9_-]{1,32}) ([a-z0-9_-]{1,32}) ([0-9]{1,6}) since ([0-9]{1,20}|-)")
STOPPED = re.compile(r"stopped ([ -~]{1,64})")
PROCESS = re.compile(rf"process (\S{{1,64}}) {PID} {START}")
ENDED = re.compile(r"ended ([0-9]{1,3}) ([0-9]{1,12}\.[0-9]{1,6})? \.")
CUT_OFF = NOT_COUNTED = "-"
# The file of the process of `night`; `raised` has another one.
NIGHT = "night"


@dataclass(frozen=True)
class Named:
    """A try, by the three parts of its output's name."""

    group: str
    key: str
    number: int

    @property
    def name(self) -> Name:
        return base_of(self.group), self.key

    @property
    def file(self) -> str:
        return f"{self.group}.{self.key}.{self.number}"

    def __str__(self) -> str:
        return f"{self.group} {self.key} {self.number}"


@dataclass(frozen=True)
class Ended:
    """How a command ended by itself: its status, below 0 by a signal, and when."""

    status: int
    at: float  # in seconds since 1970
    took: float | None
    used: Used | None = None


@dataclass(frozen=True)
class Contents:
    """The contents of the file of a try. One that can't be read says nothing."""

    since: int | None = None  # how many events the store had; None where its end doesn't count
    is_stopped: bool = False
    why: End | None = None  # the end that it was stopped for; None where it was cut off
    process: Process | None = None
    ended: Ended | None = None
    command: str = ""
    excuse: str = ""  # what the shell said before it began the command


# --- the lines

def head_of(it: Named, since: int | None, stopped: str = "") -> bytes:
    """The driver's lines, in their place."""
    text = f"try {it} since {NOT_COUNTED if since is None else since}\n"
    text += f"stopped {stopped}\n" if stopped else ""
    return text.encode("ascii", "replace").ljust(HALF, b"\n")


def parsed(it: Named, data: bytes, changed: float) -> Contents:
    """What these bytes say of a try, in a file that was last changed at this moment."""
    ours = lines_of(data[:HALF])
    head = next((found for found in map(HEAD.fullmatch, ours) if found), None)
    if head is None or Named(head[1], head[2], int(head[3])) != it:
        return Contents()
    stopped = next((found[1] for found in map(STOPPED.fullmatch, ours) if found), None)
    before, process, after = parted(lines_of(data[HALF:2 * HALF]))
    return Contents(int(head[4]) if head[4] != NOT_COUNTED else None, stopped is not None,
                read_end(stopped) if stopped and stopped != CUT_OFF else None, process,
                ended_by(process, after, changed) if process else None,
                data[2 * HALF:].decode("utf-8", "surrogateescape"), " ".join(before)[:200])


def lines_of(data: bytes) -> list[str]:
    return [it for it in data.decode("utf-8", "replace").split("\n") if it]


def parted(lines: list[str]) -> tuple[list[str], Process | None, list[str]]:
    """The shell's lines before that of its process, the process, and those after it."""
    for at, line in enumerate(lines):
        if found := PROCESS.fullmatch(line):
            return lines[:at], Process(found[1], int(found[2]), int(found[3])), lines[at + 1:]
    return lines, None, []


def ended_by(process: Process, lines: list[str], changed: float) -> Ended | None:
    """How a command ended. A status above 128 is that of a signal if its shell has printed so
    before, in its own words; otherwise the command ended with it. (Of SIGINT and SIGPIPE the shell
    prints nothing.)"""
    used = of_line(lines[-1]) if lines else None
    lines = lines[:-1] if used else lines
    found = ENDED.fullmatch(lines[-1]) if lines else None
    if not found:
        return None
    status = int(found[1])
    began = process.start / os.sysconf("SC_CLK_TCK")
    took = max(0.0, float(found[2]) - began) if found[2] and process.start else None
    return Ended(128 - status if lines[1:] and status > 128 else status, changed, took, used)


# --- the files

class Tries:
    """The folder of the files, for the driver that has the store."""

    def __init__(self, files: Files) -> None:
        self.files = files
        self.folder = files.below(Part.TRIES, make=True)
        self.night = -1
        self.night_of: Process | None = None

    def all(self) -> list[Named]:
        found = map(NAME.fullmatch, self.folder.names())
        return [Named(it[1], it[2], int(it[3])) for it in found if it]

    def make(self, it: Named, events: int, command: str) -> int:
        """Makes the file of a try that is about to begin, whole. Its descriptor has the lock, and
        writes the shell's lines in their place. OSError, which names the folder, where it can't be
        made: then nothing of it is there."""
        data = head_of(it, events) + b"\n" * HALF + command.encode("utf-8", "surrogateescape")
        with naming(self.folder.shown):
            file = self.made(it.file)
            try:
                try_lock(file)
                write_all(file, data)
                os.lseek(file, HALF, os.SEEK_SET)
            except OSError:
                os.close(file)
                self.forget(it)
                raise
            return file

    def made(self, name: str) -> int:
        """A new file of this name; in a new folder, if the old one was removed meanwhile."""
        flags = os.O_RDWR | os.O_CREAT | os.O_EXCL
        self.folder.remove(name)
        try:
            return self.folder.open(name, flags)
        except FileNotFoundError:
            self.folder.close()
            self.folder = self.files.below(Part.TRIES, make=True)
            return self.folder.open(name, flags)

    def open(self, it: Named) -> int:
        return self.folder.open(it.file, os.O_RDWR)

    def contents(self, it: Named) -> Contents | None:
        """What the file says now; None where it can't be read."""
        try:
            file = self.open(it)
        except OSError as error:
            note_once(error_text(error))
            return None
        try:
            return contents_of(it, file)
        finally:
            os.close(file)

    def stop(self, it: Named, why: End | None) -> None:
        """Writes that a try is stopped, before that is done."""
        self.rewrite(it, why.text if why else CUT_OFF)

    def disown(self, it: Named) -> None:
        """Writes that the end of a try doesn't count, whatever it will be."""
        self.rewrite(it, "", counts=False)

    def rewrite(self, it: Named, stopped: str, counts: bool = True) -> None:
        """Writes the driver's lines again. Their bytes are there already, so a full disk doesn't
        matter."""
        try:
            file = self.open(it)
            try:
                since = contents_of(it, file).since if counts else None
                with self.folder.named(it.file):
                    os.pwrite(file, head_of(it, since, stopped), 0)
            finally:
                os.close(file)
        except OSError as error:
            note_once(error_text(error))

    def forget(self, it: Named) -> None:
        """Removes the file of a try whose end is recorded, or doesn't count."""
        with contextlib.suppress(OSError):
            self.folder.remove(it.file)

    # --- the process of `night`

    def last_night(self) -> tuple[Process | None, Process | None]:
        """The `night` of the last driver, and that driver, as far as it wrote which they are."""
        try:
            lines = lines_of(self.folder.read(NIGHT))
        except FileNotFoundError:
            return None, None
        found = [Process(it[1], int(it[2]), int(it[3]))
                 for it in map(PROCESS.fullmatch, lines) if it]
        return found[0] if found else None, found[1] if found[1:] else None

    def sign_night(self, process: Process) -> None:
        """Writes which process the `night` of this driver is, and which process this driver is,
        over those of the last one. So a full disk keeps no night from beginning."""
        self.night_of = process
        self.write_night(process, this_process())

    def sign_off(self) -> None:
        """Writes that this driver lets the store go. Its `night` may live on, as where the disk
        holds it; the next driver waits for that."""
        if self.night_of and self.night >= 0:
            self.write_night(self.night_of)

    def write_night(self, *its: Process) -> None:
        text = "".join(f"process {it.boot} {it.pid} {it.start}\n" for it in its)
        try:
            with self.folder.named(NIGHT):
                if self.night < 0:
                    self.night = self.folder.open(NIGHT, os.O_RDWR | os.O_CREAT)
                os.pwrite(self.night, text.encode("ascii").ljust(HALF, b"\n"), 0)
        except NotOurs:
            raise
        except OSError as error:
            note_once(error_text(error))


def contents_of(it: Named, file: int) -> Contents:
    found = os.fstat(file)
    return parsed(it, os.pread(file, found.st_size, 0), found.st_mtime)


def running_now(files: Files) -> dict[Named, float]:
    """The tries whose commands run at this moment, and when each began. Nothing is locked or made,
    and files that can't be read are skipped."""
    found = {}
    with contextlib.suppress(OSError), contextlib.closing(files.below(Part.TRIES)) as folder:
        for it in map(NAME.fullmatch, folder.names()):
            tried = Named(it[1], it[2], int(it[3])) if it else None
            process = process_in(folder, tried) if tried else None
            if tried and process and lives(process):
                found[tried] = time.time() - age(process)
    return found


def process_in(folder: Folder, it: Named) -> Process | None:
    """The process that the file of a try names, if it can be read."""
    with contextlib.suppress(OSError):
        return parsed(it, folder.read(it.file), 0.0).process
    return None


@contextlib.contextmanager
def naming(shown: str) -> Iterator[None]:
    """Errors name this, and no file in it, so that they are reported only once."""
    try:
        yield
    except NotOurs:
        raise
    except OSError as error:
        raise type(error)(error.errno, error.strerror, shown) from None
