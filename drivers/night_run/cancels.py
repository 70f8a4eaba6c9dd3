"""STORE.cancel, a folder with the cancels that are asked for from other terminals. Each process
that waits for a cancel has a file in it, named after the process,

    BOOT.PID.START             GROUP WHY, or GROUP/KEY WHY

Once the cancel is durable, the driver puts the answer beside it, and the process removes both:

    BOOT.PID.START.answer      GROUP ANSWER

ANSWER is the state of the group's scope afterwards, or how the command ended; `-` if there is no
such group, and `- ` with the reason if nothing is canceled. Each file is put in place whole, by a
rename. A request counts while its process lives: requests from the time of an earlier driver are
removed, so that they don't cancel another night. Nobody else can open the folder, so nobody else
can cancel, or forge an answer. (An older driver had a file of this name, which is removed.)
"""

from __future__ import annotations

import contextlib
import re
import stat
from collections.abc import Iterator, Mapping
from dataclasses import dataclass

from .beside import Folder, Part, is_trusted
from .files import Files
from .processes import PID, START, Process, lives, this_process
from .rounds import base_of
from .telling import note_once

NAMED = re.compile(rf"([0-9a-f-]{{36}}|-)\.{PID}\.{START}")
ASKED = re.compile(r"([a-z0-9_-]{1,32})(?:/([a-z0-9_-]{1,32}))? ([ -~]{1,64})\n")
ANSWERED = re.compile(r"[a-z0-9_/-]{1,65} (.{1,400})\n")
ANSWER = ".answer"
NO_GROUP, REFUSED = "-", "- "


@dataclass(frozen=True)
class Request:
    process: Process
    group: str
    key: str  # of a command; empty where the whole group is meant
    why: str

    @property
    def what(self) -> str:
        return f"{self.group}/{self.key}" if self.key else self.group

    @property
    def name(self) -> str:
        return f"{self.process.boot}.{self.process.pid}.{self.process.start}"


def process_of(name: str) -> Process | None:
    """The process whose file has this name."""
    found = NAMED.fullmatch(name.removesuffix(ANSWER))
    return Process(found[1], int(found[2]), int(found[3])) if found else None


@contextlib.contextmanager
def opened(files: Files) -> Iterator[Folder]:
    """The folder, which is made if it isn't there, or if an older driver's file has its name."""
    found = files.stat(Part.CANCEL)
    if found and stat.S_ISREG(found.st_mode) and is_trusted(found.st_uid):
        files.remove(Part.CANCEL)
    with contextlib.closing(files.below(Part.CANCEL, make=True)) as folder:
        yield folder


def read_request(folder: Folder, name: str, process: Process) -> Request | None:
    """What a file asks for, if it is still there and whole."""
    with contextlib.suppress(FileNotFoundError):
        if found := ASKED.fullmatch(folder.read(name).decode("ascii", "replace")):
            return Request(process, base_of(found[1]), found[2] or "", found[3])
    return None


# --- why nothing is canceled

def is_key(group: str, key: str) -> str:
    """Why a reason that begins with a key of its group isn't taken as a reason."""
    return (f"{key} is a key of {group}: --cancel {group}/{key} cancels that command alone; to"
            f" cancel all of {group}, begin the reason with another word")


# --- the driver

class Desk:
    """The driver's side of the folder. If something can't be read or written, that is reported
    once."""

    def __init__(self, files: Files) -> None:
        self.files = files

    def failed(self, error: OSError) -> None:
        note_once(f"{error.filename or self.files.shown_of(Part.CANCEL)}: {error.strerror};"
                  " no cancel can be read")

    def pass_over(self) -> None:
        """Removes requests and answers that nobody waits for any more, and makes the folder."""
        try:
            with opened(self.files) as folder:
                for name in folder.names():
                    self.sweep(folder, name)
        except OSError as error:
            self.failed(error)

    def sweep(self, folder: Folder, name: str) -> None:
        process = process_of(name)
        if process and lives(process):
            return
        request = read_request(folder, name, process) if process else None
        folder.remove(name)
        if request:
            note_once(f"a cancel of {request.what} is ignored: the process that asked for it has"
                      " ended")

    def requests(self) -> list[Request]:
        """What is asked for now, and not answered yet."""
        try:
            with contextlib.closing(self.files.below(Part.CANCEL)) as folder:
                return list(self.asked_in(folder))
        except FileNotFoundError:
            return []
        except OSError as error:
            self.failed(error)
            return []

    def asked_in(self, folder: Folder) -> Iterator[Request]:
        names = folder.names()
        for name in names:
            process = process_of(name)
            if process is None or name.endswith(ANSWER) or f"{name}{ANSWER}" in names:
                continue
            request = read_request(folder, name, process) if lives(process) else None
            if request:
                yield request

    def answer(self, done: Mapping[Request, str]) -> None:
        """Answers requests, whose effects are durable. Nothing is left of one that was
        withdrawn."""
        try:
            with contextlib.closing(self.files.below(Part.CANCEL)) as folder:
                for request, answer in done.items():
                    if folder.stat(request.name) is not None:
                        folder.put(f"{request.name}{ANSWER}", f"{request.what} {answer}\n".encode())
        except OSError as error:
            self.failed(error)


# --- who asks

def ask(files: Files, group: str, key: str, why: str) -> Request:
    """Writes a request of this process."""
    made = Request(this_process(), group, key, why)
    with opened(files) as folder:
        folder.put(made.name, f"{made.what} {why}\n".encode())
    return made


def answered(files: Files, name: str, form: re.Pattern[str] = ANSWERED) -> str:
    """The answer to the request of this name, by the form of its file; empty if there is none
    yet."""
    try:
        with contextlib.closing(files.below(Part.CANCEL)) as folder:
            text = folder.read(f"{name}{ANSWER}").decode("ascii", "replace")
    except FileNotFoundError:
        return ""
    found = form.fullmatch(text)
    return found[1] if found else ""


def withdraw(files: Files, name: str) -> None:
    """Removes the request of this name, and its answer."""
    with contextlib.suppress(FileNotFoundError), \
            contextlib.closing(files.below(Part.CANCEL)) as folder:
        folder.remove(name)
        folder.remove(f"{name}{ANSWER}")
