"""The lines of a file of commands, and of the files that it includes:

    include FILE     the lines of FILE stand here; FILE is looked for in the folder of this file
    + ..             a command goes on with this line of it; it stands directly below the line of
                     GROUP and KEY, or below another one with +
    # ..             a comment; it is ignored, and so is an empty line

A file may begin with a mark of its byte order, as some editors put it there. A line ends with a
line feed, before which a carriage return may stand. A line that an editor would show otherwise than
it is read is a mistake: one with a carriage return in its middle, or with a backslash at its end.
(In a command of several lines the shell reads a backslash at the end of a line, but for the last.)

An included file is a regular one, and is to be trusted as the file of commands itself is. No file
is read twice, so none includes itself.
"""

from __future__ import annotations

import codecs
import errno
import os
import re
from collections.abc import Callable, Iterable
from dataclasses import dataclass, replace

from . import Fault, Mistake, descriptors
from .beside import is_passed_on, open_commands, open_trusted, read_all, way_to
from .mounts import NoAnswer, answered
from .reading import At, Wrong, split

RETURN = "a carriage return stands within it; write a line feed where the line is to end"
BACKSLASH = ("it ends with a backslash, which doesn't join it to the next line; put a longer"
             " command into a script")
NO_COMMAND_ABOVE = "a line that begins with + stands directly below the command that it belongs to"
NO_SPACE = "a space stands after the +, as in + cd /srv"
# How many seconds a file may take to be read.
SECONDS = 60.0
# How many mistakes of a file are printed, and how many files are read.
MOST_MISTAKES, MOST_FILES = 20, 100


@dataclass(frozen=True)
class Line:
    """A line that isn't empty, without the blanks around it; `more` is what goes on with it."""

    at: At
    text: str
    more: tuple[str, ...] = ()

    @property
    def words(self) -> list[str]:
        """The first two words, and the rest of it. (What else is white, as a form feed, is part of
        a word, and so is printed.)"""
        return re.split("[ \t]+", self.text, maxsplit=2)

    @property
    def is_settings(self) -> bool:
        return any(it.endswith(":") for it in self.words[:2])

    def check(self) -> None:
        """Wrong where it can't be a line of commands or settings."""
        last = [self.text, *self.more][-1]
        if any("\0" in it for it in (self.text, *self.more)):
            raise Wrong("it has a byte 0, as no text does")
        if (len(last) - len(last.rstrip("\\"))) % 2:
            raise Wrong(BACKSLASH)


class Mistakes:
    """The mistakes of a file of commands, which are reported together."""

    def __init__(self, path: str) -> None:
        self.path = path
        self.found: set[tuple[At, str]] = set()

    def add(self, at: At, why: object) -> None:
        self.found.add((at, str(why)))

    def refuse(self) -> None:
        """Reports them, if there are any."""
        if self.found:
            lines = [f"{at}: {why}" for at, why in sorted(self.found)]
            left = len(lines) - MOST_MISTAKES
            more = [f"{self.path}: {left} more mistakes"] if left > 0 else []
            raise Mistake("\n".join(lines[:MOST_MISTAKES] + more))


class Source:
    """The lines of a file of commands, and those of the files that it includes, in one order."""

    def __init__(self, path: str, mistakes: Mistakes,
                 lines: Iterable[str] | None = None) -> None:
        """Reads the file of this path; or these lines, which are called by the path."""
        self.mistakes = mistakes
        self.lines: list[Line] = []
        self.spoilt: list[Line] = []  # those with a mistake
        self.files: dict[str, str] = {}  # by their real paths, as they were named
        self.included: dict[str, At] = {}  # and by which line
        self.last: Line | None = None  # the line above, if a command may go on after it
        self.count = 0
        self.read(path, lines_of(path) if lines is None else lines, ())

    def read(self, path: str, lines: Iterable[str], above: tuple[str, ...]) -> None:
        """Takes the lines of a file, which these files have led to."""
        real = real_path(path)
        self.files[real] = path
        for number, text in enumerate(lines, 1):
            self.count += 1
            line = Line(At(self.count, path, number), text.rstrip("\r").strip(" \t"))
            try:
                if "\r" in line.text:
                    raise Wrong(RETURN)
                self.take(line, text.rstrip("\r"), (*above, real))
            except Wrong as wrong:
                self.mistakes.add(line.at, wrong)
                self.spoilt.append(line)
                self.last = None
        self.last = None

    def take(self, line: Line, whole: str, files: tuple[str, ...]) -> None:
        if line.text.startswith("+"):
            self.go_on(whole.lstrip(" \t")[1:])
            return
        self.last = None
        if name := included_by(line.text):
            self.include(line, name, files)
        elif line.text and not line.text.startswith("#"):
            self.lines.append(line)
            self.last = None if line.is_settings else line

    def go_on(self, rest: str) -> None:
        """Takes one more line of the command above."""
        if self.last is None:
            raise Wrong(NO_COMMAND_ABOVE)
        if rest[:1] not in ("", " ", "\t"):
            raise Wrong(NO_SPACE)
        self.last = self.lines[-1] = replace(self.last, more=(*self.last.more, rest[1:]))

    def include(self, line: Line, name: str, files: tuple[str, ...]) -> None:
        """Takes the lines of the file of this name."""
        path = beside(line.at.path, name)
        lines = text_beside(line.at.path, name, f"include {name}").split("\n")
        real = real_path(path)
        if real in files:
            ring = [self.files[it] for it in files[files.index(real):]]
            raise Wrong(f"these files include each other: {', '.join([*ring, ring[0]])}")
        if real in self.included:
            raise Wrong(f"include {name}: {self.included[real]} includes it already")
        if len(self.files) >= MOST_FILES:
            raise Wrong(f"include {name}: no more than {MOST_FILES} files are read")
        self.included[real] = line.at
        self.read(path, lines, files)


def included_by(text: str) -> str:
    """The file that a line includes, or nothing. A line of a group called `include` has three
    words."""
    words = text.split(None, 1)
    if words[:1] != ["include"] or not words[1:]:
        return ""
    try:
        found = split(words[1])
    except Wrong:
        return ""
    return found[0] if len(found) == 1 and not found[0].endswith(":") else ""


# --- files

def beside(path: str, name: str) -> str:
    """A file that this file names, in the folder of that file, whichever link has led there. What
    the caller has open, as /dev/stdin, is in no folder."""
    if is_passed_on(path):
        return name
    folder, real = os.path.dirname(path), os.path.dirname(real_path(path))
    return os.path.join(folder if os.path.abspath(folder) == real else real, name)


def real_path(path: str) -> str:
    """The real path of a file that was read."""
    try:
        return way_to(path)
    except (OSError, Fault):
        return path


def text_beside(path: str, name: str, shown: str,
                opening: Callable[[str], int] = open_trusted) -> str:
    """The text of a file that this file names, as Latin letters and others; Wrong where it can't be
    read or isn't to be trusted."""
    given = beside(path, name)
    try:
        return decoded(answered(lambda: bytes_of(given, opening), SECONDS) or b"")
    except OSError as error:
        raise Wrong(f"{shown}: {descriptors.why(error)}") from None
    except NoAnswer:
        raise Wrong(f"{shown}: it can't be read within {SECONDS:.0f} s: does its mount answer?") \
            from None


def lines_of(path: str) -> list[str]:
    """The lines of the file at this path. A regular file has to be read within a time, since its
    mount may be dead; a pipe is waited for."""
    try:
        if answered(lambda: os.path.isfile(path), SECONDS):
            text = answered(lambda: bytes_of(path), SECONDS) or b""
        else:
            text = bytes_of(path)
    except OSError as error:
        if error.errno in (errno.EMFILE, errno.ENFILE):
            raise Fault(f"{path}: {descriptors.why(error)}") from None
        raise Mistake(f"{path}: {error.strerror}") from error
    except NoAnswer:
        raise Fault(f"{path}: it can't be read within {SECONDS:.0f} s: does its mount answer?") \
            from None
    return decoded(text).split("\n")


def bytes_of(path: str, opening: Callable[[str], int] = open_commands) -> bytes:
    with open(opening(path), "rb") as file:
        return read_all(file)


def decoded(data: bytes) -> str:
    return data.removeprefix(codecs.BOM_UTF8).decode("utf-8", "surrogateescape")
