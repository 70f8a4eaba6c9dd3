"""Commands that run elsewhere. Three settings of their group name programs: `via` takes a command
over, `ask` reports how a try of it ended, and `stop` asks for its end. The driver knows nothing
else about such a place.

In these settings `{store}`, `{group}`, `{key}` and `{try}` are replaced by the parts of the try's
name: the store's path, with - for each /, and `_` with two hexadecimal digits for each byte that is
no letter, digit or dot; and the three parts of its output's name. So no two tries have the same
name, be they of one store or of two.

The first line that `ask` prints, with status 0, is one of

    running                       the try runs there, or waits there
    ok, exit N, signal N          it has ended in this way
    error TEXT                    it has failed, for this reason
    none                          no try of this name has begun

After anything else nothing is known of the try, and `ask` is run again.

STORE.far has a line for each try that is asked for: `GROUP KEY TRY begun` before it begins, `..
stopped` before it is stopped, so that its end doesn't count, and `.. over` once a stopped one has
ended. The first two lines are durable before the try is begun, or stopped.
"""

from __future__ import annotations

import contextlib
import os
import re
import signal
import subprocess
import tempfile
import time
from collections.abc import Iterable, Mapping
from typing import IO

from . import Fault, Name
from .beside import Part, Umask, write_all
from .ends import OK, End, failed
from .files import Files
from .orders import Counting
from .settings import Way
from .telling import note_once
from .tries import Named, naming

BEGUN, STOPPED, OVER = "begun", "stopped", "over"
FIELD = re.compile(r"\{(?:store|group|key|try)\}")
LINE = re.compile(r"([a-z0-9_-]{1,32}) ([a-z0-9_-]{1,32}) ([0-9]{1,6}) (begun|stopped|over)")
ANSWER = re.compile(r"running|none|ok|exit [1-9][0-9]{0,2}|signal [1-9][0-9]?|error ([ -~]{1,64})")
RUNNING, NONE = "running", "none"
UNPLAIN = re.compile(r"[^A-Za-z0-9.]")
# How many seconds lie between two questions (more each time), and how many one may take.
FIRST, LAST, MOST = 1.0, 30.0, 60.0
# How many seconds after its client was killed one that was stopped is asked for; then it is left.
PATIENCE = 60.0


class Far:
    """The file STORE.far, and the programs that are run beside the loop."""

    def __init__(self, files: Files) -> None:
        self.files, self.shown = files, files.shown_of(Part.FAR)
        self.store = store_name(files.path)
        self.file = -1

    def filled(self, words: Iterable[str], it: Named) -> list[str]:
        """The words of a setting, with the parts of this try's name put in."""
        given = {"{store}": self.store, "{group}": it.group, "{key}": it.key,
                 "{try}": str(it.number)}
        return [FIELD.sub(lambda found: given[found.group()], word) for word in words]

    def read(self) -> dict[Name, tuple[Named, str]]:
        """The last line of each command. A line that was cut off says nothing: its try hadn't
        begun, or wasn't stopped."""
        found: dict[Name, tuple[Named, str]] = {}
        try:
            *lines, _ = self.files.read(Part.FAR).decode("ascii", "replace").split("\n")
        except FileNotFoundError:
            return found
        except OSError as error:
            raise Fault(f"{self.shown}: {error.strerror}") from None
        for number, line in enumerate(lines, 1):
            it = LINE.fullmatch(line)
            if not it:
                raise Fault(f"{self.shown}: line {number} is not GROUP KEY TRY and its state:"
                            " repair it, since the file lists what may run elsewhere; or move the"
                            " file away if nothing does")
            named = Named(it[1], it[2], int(it[3]))
            found[named.name] = named, it[4]
        return found

    def clear(self) -> None:
        """Empties the file: no try is left to ask for."""
        with contextlib.suppress(FileNotFoundError):
            os.close(self.files.open(Part.FAR, os.O_WRONLY | os.O_TRUNC))

    def note(self, it: Named, how: str) -> None:
        """Adds a line, durably; OSError, which names the file, where that can't be."""
        with naming(self.shown):
            self.add(f"{it} {how}\n")

    def add(self, line: str) -> None:
        if self.file < 0:
            self.file = self.files.open(Part.FAR, os.O_RDWR | os.O_APPEND | os.O_CREAT)
            size = os.fstat(self.file).st_size
            end = os.pread(self.file, 100, max(0, size - 100)).rpartition(b"\n")[2]
            os.ftruncate(self.file, size - len(end))
            self.files.folder.sync()
        size = os.fstat(self.file).st_size
        try:
            write_all(self.file, line.encode())
            os.fsync(self.file)
        except OSError:
            # (a line that a full disk has cut off would be glued to the next one)
            os.ftruncate(self.file, size)
            raise


def store_name(path: str) -> str:
    """The text that `{store}` stands for, for a store of this path. No two paths have the same."""
    rest = path.lstrip("/").encode("utf-8", "surrogateescape").decode("latin-1")
    return UNPLAIN.sub(lambda it: "-" if it[0] == "/" else f"_{ord(it[0]):02x}", rest)


def end_of(answer: str) -> End | None:
    """The end that an answer of `ask` reports; None if it reports none."""
    if answer in ("", NONE, RUNNING):
        return None
    return OK if answer == "ok" else failed(answer.removeprefix("error "))


class Call:
    """A program that runs beside the loop. It is ended if it takes too long."""

    def __init__(self, words: list[str], folder: str, environment: Mapping[str, str]) -> None:
        self.began = time.monotonic()
        self.output: IO[bytes] | None = None
        self.it: subprocess.Popen[bytes] | None = None
        try:
            self.output = tempfile.TemporaryFile()
            self.it = subprocess.Popen(words, stdin=subprocess.DEVNULL, stdout=self.output,
                                       stderr=subprocess.DEVNULL, cwd=folder or None,
                                       env=environment, start_new_session=True,
                                       umask=Umask.of_caller)
        except (OSError, ValueError) as error:
            note_once(f"{words[0]}: {error}")

    def has_ended(self) -> bool:
        if self.it is None:
            return True
        if self.it.poll() is None and time.monotonic() < self.began + MOST:
            return False
        with contextlib.suppress(ProcessLookupError, PermissionError):
            if self.it.poll() is None:
                os.killpg(self.it.pid, signal.SIGKILL)
                self.it.wait()
        return True

    def answer(self) -> str:
        """The first line that it printed, if that is an answer."""
        line = ""
        if self.output:
            self.output.seek(0)
            line = self.output.readline(200).decode("ascii", "replace").rstrip("\n")
            self.output.close()
        if self.it is None or self.it.returncode or not ANSWER.fullmatch(line):
            return ""
        return line


class Elsewhere:
    """A try that runs elsewhere. It is asked for again and again, and can be stopped."""

    def __init__(self, far: Far, way: Way, it: Named, folder: str,
                 environment: Mapping[str, str]) -> None:
        self.far, self.way, self.it = far, way, it
        self.folder, self.environment = folder, environment
        self.calls: list[Call] = []  # of `stop`
        self.call: Call | None = None
        self.next, self.pause = 0.0, FIRST
        self.is_stopped = False
        self.answer = ""  # how it ended, or `none`

    def is_over(self) -> bool:
        """Whether it is known to have ended, or never to have begun."""
        self.calls = [it for it in self.calls if not it.has_ended()]
        if self.answer or not self.way.ask:
            return True
        if self.call is None and time.monotonic() >= self.next:
            words = self.far.filled(self.way.ask, self.it)
            self.call = Call(words, self.folder, self.environment)
        if self.call is not None and self.call.has_ended():
            found, self.call = self.call.answer(), None
            self.next, self.pause = time.monotonic() + self.pause, min(LAST, 2 * self.pause)
            if not found:
                note_once(f"{self.it}: `ask` printed no valid answer; it is asked again")
            elif found == RUNNING and self.is_stopped:
                self.call_stop()
            self.answer = "" if found == RUNNING else found
        return bool(self.answer)

    def end(self) -> End | None:
        """How it ended; None where it never began, or that isn't known yet."""
        return end_of(self.answer)

    def stop(self) -> None:
        """Asks for its end, after it has noted that this end doesn't count."""
        self.is_stopped = True
        if self.way.ask:
            try:
                self.far.note(self.it, STOPPED)
            except OSError as error:
                note_once(f"{self.far.shown}: {error.strerror}")
        self.call_stop()
        self.next, self.pause = time.monotonic() + FIRST, FIRST

    def call_stop(self) -> None:
        if self.way.stop:
            words = self.far.filled(self.way.stop, self.it)
            self.calls.append(Call(words, self.folder, self.environment))

    def over(self) -> None:
        """Notes that a stopped try has ended."""
        if self.way.ask:
            with contextlib.suppress(OSError):
                self.far.note(self.it, OVER)


def outstanding(far: Far, counting: Counting) -> dict[Name, tuple[Named, bool]]:
    """The tries that may still run elsewhere, each with whether its end counts. These are the tries
    that have begun and whose end isn't recorded, and the stopped ones that aren't known to be
    over."""
    found = {}
    for name, (it, how) in far.read().items():
        if how == STOPPED or how == BEGUN and not counting.is_recorded(it):
            found[name] = it, how == BEGUN
    return found
