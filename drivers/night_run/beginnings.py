"""How a command is begun.

A shell that leads a session of its own begins the command. Just before the command begins, it
writes its process into the file of the try (`tries`). Then it waits for the command, and writes how
that ended. So the file shows what runs and how it ended, even if the driver was killed meanwhile.
The shell outlives what stops its session, except for SIGKILL. The command inherits nothing from the
driver.
"""

from __future__ import annotations

import contextlib
import errno
import os
import signal
import time
from collections.abc import Mapping

from .beside import NotOurs, Part, Umask
from .commands import Command
from .far import BEGUN, Elsewhere, Far
from .jobs import Job
from .means import Put, means
from .mounts import Folders, NoAnswer
from .processes import boot
from .telling import error_text, note_once
from .tries import Named, Tries, naming
from .used import ASKING, PYTHON

SHELL = "/bin/sh"
# Writes `process $1 PID START` into the file 8, runs the words after $6 in the folder $2, with $3
# KB of memory for each process if there is a $3, and writes how they ended. If they took a second,
# or the driver has gone, it becomes the program $4, which is given the text $5 and $6 (`used`).
# What the shell itself prints stands in that file, too. (SIGINT isn't ignored by a command in the
# foreground, as it would be in the background. A variable that is set before the command begins has
# a name that no command's environment has: one that is there would be changed.)
BEGINNING = """\
exec 2>&8; trap : HUP INT QUIT USR1 USR2 PIPE ALRM TERM
set -f; read -r NIGHT_STAT </proc/self/stat
process() { echo "process $1 $$ ${23:-0}" >&8; }
is_brief() { [ $((${up%.*}${up#*.} - ${22:-0})) -lt 100 ]; }
(process "$1" $NIGHT_STAT || exit; exec 2>&1 8>&-
[ -z "$2" ] || cd -- "$2" || exit 127
[ -z "$3" ] || ulimit -d "$3"; shift 6; exec "$@")
it=$?; read -r up _ </proc/uptime; echo "ended $it $up ." >&8
read -r _ _ _ by _ </proc/self/stat
[ -z "$4" ] || { is_brief $NIGHT_STAT && [ "$by" = $PPID ]; } ||
exec "$4" -ISc "$5" $it "$6" 2>/dev/null
exit $it"""
# What the system lacks for a while: a command that can't be begun by it is begun later.
LATER = (errno.EAGAIN, errno.ENOMEM, errno.EMFILE, errno.ENFILE, errno.ENOSPC, errno.EDQUOT,
         errno.EROFS)
# How many characters of a folder's path are printed, the last ones.
MOST_OF_PATH = 32


class NotNow(Exception):
    """The system has no room to begin it now."""


class Beginning:
    """The beginning of a command, as the try that it is bound to."""

    def __init__(self, command: Command, tries: Tries, far: Far) -> None:
        self.command, self.tries, self.far = command, tries, far
        self.it = Named(command.group, command.job.key, command.tried)

    def begin(self, events: int, inherited: Mapping[str, str]) -> None:
        """Begins it, in a store that has this many events; NotNow where the system has no room for
        it."""
        command = self.command
        command.began, command.since = time.time(), time.monotonic()
        given = command.environment(self.far.files.path, inherited)
        try:
            self.begin_now(events, given)
        except NotOurs as error:
            note_once(error_text(error))
            command.failure = "a file of it isn't to be trusted"
        except OSError as error:
            if error.errno in LATER:
                raise NotNow(error_text(error)) from None
            where = f"{end_of_path(str(error.filename))}: " if error.filename else ""
            command.failure = f"{where}{error.strerror or error}"
        except ValueError as error:
            command.failure = str(error)

    def begin_now(self, events: int, given: Mapping[str, str]) -> None:
        command, way = self.command, self.command.job.way
        folder = from_here(command.job.folder or "")
        look_for(folder)
        if way.via:
            put = Put([*self.far.filled(way.via, self.it), command.job.command])
            command.elsewhere = Elsewhere(self.far, way, self.it, folder, given)
        else:
            put = limited(command.job)
        file = self.noted(events)
        try:
            self.spawn(file, folder, put, given)
            command.record, command.tries = self.it, self.tries
        finally:
            os.close(file)
            if command.record is None:
                self.tries.forget(self.it)

    def noted(self, events: int) -> int:
        """Notes that a try is about to begin; the file of it. NotNow where that can't be: nothing
        begins without it. (What isn't to be trusted isn't waited for.)"""
        command = self.command
        try:
            file = self.tries.make(self.it, events, command.job.command)
            try:
                if command.elsewhere and command.job.way.ask and not command.is_noted:
                    self.far.note(self.it, BEGUN)
                command.is_noted = True
                return file
            except OSError:
                os.close(file)
                self.tries.forget(self.it)
                raise
        except NotOurs:
            raise
        except OSError as error:
            raise NotNow(error_text(error)) from None

    def spawn(self, file: int, folder: str, put: Put, given: Mapping[str, str]) -> None:
        """Begins the shell that runs it, to which a file of its try is given."""
        command, files = self.command, self.far.files
        command.how = put.how
        asking = PYTHON if command.elsewhere is None else ""
        words = [boot(), folder, put.kilobytes, asking, ASKING, put.how, *put.words]
        with contextlib.ExitStack() as left:
            with naming(files.shown_of(Part.OUT)):
                out = files.outputs.open(command.output, os.O_WRONLY | os.O_CREAT | os.O_TRUNC)
            left.callback(os.close, out)
            left.enter_context(Umask.restored())
            command.pid = os.posix_spawn(
                SHELL, [SHELL, "-c", BEGINNING, SHELL, *words], given,
                setsid=True, setsigdef=[signal.SIGPIPE, signal.SIGXFSZ],
                file_actions=[(os.POSIX_SPAWN_OPEN, 0, os.devnull, os.O_RDONLY, 0),
                              (os.POSIX_SPAWN_DUP2, out, 1), (os.POSIX_SPAWN_DUP2, out, 2),
                              (os.POSIX_SPAWN_DUP2, file, 8)])


def limited(job: Job) -> Put:
    """The words that run a command, and how its limits are put on them."""
    words = [*(job.shell or (SHELL,)), "-c", job.command]
    if job.user:
        words = [*job.user.words(), *words]
    if not job.limits.is_of_processes:
        return Put(words)
    return means().put(words, job.limits)


# Those that commands run in.
FOLDERS = Folders()


def from_here(folder: str) -> str:
    """A folder as `cd` takes it whatever CDPATH has."""
    return folder if not folder or folder.startswith("/") else f"./{folder}"


def end_of_path(path: str) -> str:
    """As much of a path's end as an error's text has room for."""
    path = path.removeprefix("./")
    return path if len(path) <= MOST_OF_PATH else f"..{path[-MOST_OF_PATH:]}"


def look_for(folder: str) -> None:
    """OSError where there is no such folder, or where its mount doesn't answer."""
    try:
        if folder and not (has := FOLDERS.has(folder)):
            if has is None:
                raise NotNow(f"{folder} doesn't answer")
            raise OSError(errno.ENOENT, f"no folder {end_of_path(folder)}")
    except NoAnswer:
        raise OSError(errno.ETIMEDOUT, f"it hangs: {end_of_path(folder)}") from None
