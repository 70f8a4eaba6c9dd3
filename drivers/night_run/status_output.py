"""What a command has printed: `--output` prints all of its last try, and `--tail` follows it, from
one try to the next, until the command ends.

The text is somebody else's, so it is shown as it can't control a terminal: an escape as `\\x1b`. Of
a line that was written over, as a bar of progress is, only its last form is shown.
"""

from __future__ import annotations

import contextlib
import os
import time

from . import Mistake
from .beside import write_all
from .canceling import target_of
from .escapes import plain
from .files import Files
from .guesses import no_command
from .jobs import Jobs
from .phases import FINAL, Phase
from .processes import lives
from .rows import Row
from .status import Watcher, processes
from .status_command import interrupted
from .status_screen import cut
from .summary import how_it_stands
from .telling import tell
from .terminal import CLEAR_LINE
from .views import look, row, tries_of

# How much is read at a time, and how long a line may be before it is shown in pieces.
BLOCK, MOST_LINE = 1 << 16, 1 << 16
# A follower begins with this many lines at most, out of as many bytes.
LINES, BYTES = 10, 4096
# Seconds between two looks at an output, and at a night.
OFTEN, SELDOM = 0.25, 2.0


class Asked:
    """A command that somebody wants to see the output of."""

    def __init__(self, files: Files, jobs: Jobs | None, flag: str, word: str) -> None:
        target = target_of(word, flag)
        if not target.key:
            raise Mistake(f"{flag} {word}: name a command, as GROUP/KEY")
        self.files, self.name = files, target.name
        self.watcher = Watcher(files, jobs)

    def look(self) -> Row:
        """How the command stands now."""
        plan = self.watcher.plan()
        if plan is None or self.name not in plan.jobs.all:
            its = plan.jobs.all if plan else ()
            raise Mistake(no_command(*self.name, its))
        view = look(self.files, self.watcher.planner_of(plan.jobs))
        return row(self.files, view, plan.jobs.all[self.name].command, self.name,
                   tries_of(view).get(self.name, []))


def print_output(files: Files, jobs: Jobs | None, word: str) -> None:
    """Prints the output of a command's last try."""
    asked = Asked(files, jobs, "--output", word)
    with contextlib.closing(asked.watcher), interrupted(), contextlib.suppress(BrokenPipeError):
        it = asked.look()
        if not it.output:
            raise Mistake(f"{word}: {how_it_stands(it)}; it has no output")
        file = files.outputs.open(os.path.basename(it.output))
        try:
            shower = Shower(is_whole=True)
            while data := os.read(file, BLOCK):
                shower.add(data)
            shower.end()
        finally:
            os.close(file)


def follow(files: Files, jobs: Jobs | None, word: str) -> None:
    """Follows the output of a command until it has ended, or until Ctrl-C."""
    asked = Asked(files, jobs, "--tail", word)
    with contextlib.closing(asked.watcher), interrupted(), contextlib.suppress(BrokenPipeError):
        Follower(asked).run()


class Follower:
    """Follows the outputs of a command's tries, one after another."""

    def __init__(self, asked: Asked) -> None:
        self.asked, self.files = asked, asked.files
        self.shown = ""  # the output that is followed
        self.file = -1
        self.shower = Shower(is_whole=False)
        self.is_said = False  # whether it was said that the command hasn't begun

    def run(self) -> None:
        try:
            while True:
                it = self.asked.look()
                self.begin(it)
                if it.phase == Phase.RUNNING:
                    self.go_on()
                    continue
                self.take()
                if it.phase in FINAL or not self.files.lock.holder():
                    self.shower.end()
                    tell(f"{'/'.join(self.asked.name)}: {how_it_stands(it)}")
                    return
                self.say_waiting(it)
                time.sleep(SELDOM)
        finally:
            if self.file >= 0:
                os.close(self.file)

    def begin(self, it: Row) -> None:
        """Opens the output of another try, if there is one."""
        if not it.output or it.output == self.shown:
            return
        with contextlib.suppress(FileNotFoundError):
            file = self.files.outputs.open(os.path.basename(it.output))
            self.take()
            self.shower.end()
            if self.file >= 0:
                os.close(self.file)
                tell(f"{'/'.join(self.asked.name)}: the next try, {it.output}")
            else:
                seek_last(file)
            self.shown, self.file = it.output, file

    def go_on(self) -> None:
        """Shows what comes as long as the command runs."""
        end = time.monotonic() + SELDOM
        while True:
            self.take()
            time.sleep(OFTEN)
            if time.monotonic() > end:
                process = processes(self.files).get(self.asked.name)
                if not process or not lives(process) or self.file < 0:
                    return
                end = time.monotonic() + SELDOM

    def take(self) -> None:
        """Shows what has come since."""
        while self.file >= 0 and (data := os.read(self.file, BLOCK)):
            self.shower.add(data)
        self.shower.show_rest()

    def say_waiting(self, it: Row) -> None:
        if not self.is_said:
            self.is_said = True
            tell(f"{'/'.join(self.asked.name)}: {how_it_stands(it)}; it is followed once it runs")


def seek_last(file: int) -> None:
    """Goes to the last lines of a file."""
    size = os.fstat(file).st_size
    at = max(0, size - BYTES)
    lines = os.pread(file, BYTES, at).split(b"\n")
    last = lines[-LINES - 1:] if not lines[-1] else lines[-LINES:]
    os.lseek(file, size - len(b"\n".join(last)), os.SEEK_SET)


class Shower:
    """Shows a text on standard output. On a terminal, a line that isn't complete yet is shown,
    too, and is written over by what it becomes."""

    def __init__(self, is_whole: bool) -> None:
        self.rest = b""
        self.is_terminal = os.isatty(1) and not is_whole
        self.is_shown = False  # whether a part of a line is shown

    def add(self, data: bytes) -> None:
        *lines, self.rest = (self.rest + data).split(b"\n")
        while len(self.rest) > MOST_LINE:
            lines.append(self.rest[:MOST_LINE])
            self.rest = self.rest[MOST_LINE:]
        self.write("".join(f"{shown_of(it)}\n" for it in lines))

    def show_rest(self) -> None:
        if self.rest and self.is_terminal:
            columns = os.get_terminal_size(1).columns
            self.write(cut(shown_of(self.rest), max(1, columns - 1)))
            self.is_shown = True

    def end(self) -> None:
        if self.rest:
            self.write(f"{shown_of(self.rest)}\n")
        self.rest = b""

    def write(self, text: str) -> None:
        if text:
            before = CLEAR_LINE if self.is_shown else ""
            self.is_shown = False
            write_all(1, f"{before}{text}".encode("utf-8", "backslashreplace"))


def shown_of(line: bytes) -> str:
    """A line as a terminal shows it in the end."""
    text = line.decode("utf-8", "surrogateescape")
    return plain(text.rstrip("\r").rpartition("\r")[2])
