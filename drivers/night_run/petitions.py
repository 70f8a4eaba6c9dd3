"""Requests for what is wanted of a night (`wants`). They lie in the folder of the cancels
(`cancels`), a file for each process that asks, and go the same way: the driver puts the answer
beside the file, and whoever asked removes both.

    BOOT.PID.START             ask: by WHO at MOMENT, and a line for each want
    BOOT.PID.START.answer      ANSWER; `- ` and the reason if it isn't taken; `! ` and the
                               reason if it couldn't be written down

All wants of a request are taken, or none is.
"""

from __future__ import annotations

import contextlib
import re
from collections.abc import Iterator
from dataclasses import dataclass

from . import cancels
from .beside import Folder, Part
from .cancels import ANSWER, opened, process_of
from .files import Files
from .processes import Process, lives, this_process
from .telling import note_once
from .wants import By, Want, read_want

HEAD = re.compile(r"ask: by ([!-~]{1,32}) at ([0-9]{1,12})")
ANSWERED = re.compile(r"([ -~]{1,400})\n")
REFUSED, FAILED = "- ", "! "
MOST_ANSWERED = 400


@dataclass(frozen=True)
class Petition:
    """What a process wants, and whether the driver has it."""

    process: Process
    wants: tuple[Want, ...]
    by: By

    @property
    def name(self) -> str:
        return f"{self.process.boot}.{self.process.pid}.{self.process.start}"

    @property
    def text(self) -> str:
        return "".join(f"{it}\n" for it in (f"ask: {self.by.text}",
                                            *(it.text for it in self.wants)))


def read_petition(text: str, process: Process) -> Petition | None:
    """A request by its text; None where it has another form."""
    head, *lines = text.split("\n")
    found = HEAD.fullmatch(head)
    if not found or not lines or lines.pop():
        return None
    wants = [read_want(it) for it in lines]
    its = tuple(it for it in wants if it)
    return Petition(process, its, By(found[1], int(found[2]))) \
        if its and len(its) == len(wants) else None


class Petitions:
    """The driver's side of the folder."""

    def __init__(self, files: Files) -> None:
        self.files = files

    def failed(self, error: OSError) -> None:
        note_once(f"{error.filename or self.files.shown_of(Part.CANCEL)}: {error.strerror};"
                  " no request can be read")

    def requests(self) -> list[Petition]:
        """What is asked for now, and not answered yet."""
        try:
            with contextlib.closing(self.files.below(Part.CANCEL)) as folder:
                return list(asked_in(folder))
        except FileNotFoundError:
            return []
        except OSError as error:
            self.failed(error)
            return []

    def answer(self, it: Petition, answer: str) -> None:
        """Answers a request. Nothing is left of one that was withdrawn."""
        try:
            with contextlib.closing(self.files.below(Part.CANCEL)) as folder:
                if folder.stat(it.name) is not None:
                    shown = re.sub("[^ -~]", "?", answer)[:MOST_ANSWERED]
                    folder.put(f"{it.name}{ANSWER}", f"{shown}\n".encode())
        except OSError as error:
            self.failed(error)


def asked_in(folder: Folder) -> Iterator[Petition]:
    names = folder.names()
    for name in names:
        process = process_of(name)
        if process is None or name.endswith(ANSWER) or f"{name}{ANSWER}" in names:
            continue
        with contextlib.suppress(FileNotFoundError):
            found = read_petition(folder.read(name).decode("ascii", "replace"), process)
            if found and lives(process):
                yield found


# --- who asks

def ask(files: Files, wants: tuple[Want, ...], by: By) -> Petition:
    """Writes a request of this process."""
    made = Petition(this_process(), wants, by)
    with opened(files) as folder:
        folder.put(made.name, made.text.encode("ascii"))
    return made


def answered(files: Files, it: Petition) -> str:
    """The answer to a request; empty if there is none yet."""
    return cancels.answered(files, it.name, ANSWERED)
