"""What an operator wants of a night besides what its file of commands says. A want is a word of the
command line, and one line where it is written down:

    only WHAT      begin only these, and what they come after
    redo WHAT      begin these again, and what comes after them
    skip WHAT      don't begin these any more
    pause          begin nothing
    resume         go on after a pause
    set NAME=N     the limit of a group (disks.limit), or how many commands run at a time (j)

WHAT is GROUP/KEY, GROUP, or `night` for all groups.
"""

from __future__ import annotations

import argparse
import enum
import os
import re
import time
from collections.abc import Iterator
from dataclasses import dataclass

from . import Mistake
from .beside import name_of
from .reading import short

MOST_LIMIT, MOST_AT_A_TIME = 64, 9999
WHAT = re.compile(r"[a-z0-9_-]{1,20}(?:/[a-z0-9_-]{1,32})?")
SETTING = re.compile(r"(j|[a-z0-9_-]{1,20}\.limit)=(0|[1-9][0-9]{0,8})")
WHO = re.compile(r"[!-~]{1,32}")


class Verb(enum.Enum):
    """What is wanted."""

    ONLY = "only"
    REDO = "redo"
    SKIP = "skip"
    PAUSE = "pause"
    RESUME = "resume"
    SET = "set"


# The answer to a `resume` of a night that isn't paused.
NOT_PAUSED = "the night isn't paused"
# Those that stand alone, and those that name commands.
ALONE, NAMING = (Verb.PAUSE, Verb.RESUME), (Verb.ONLY, Verb.REDO, Verb.SKIP)


@dataclass(frozen=True)
class By:
    """Who wanted it, and when, in seconds since 1970."""

    who: str
    at: int

    @property
    def text(self) -> str:
        return f"by {self.who} at {self.at}"


@dataclass(frozen=True)
class Want:
    """One thing that is wanted."""

    verb: Verb
    word: str = ""

    @property
    def text(self) -> str:
        return f"{self.verb.value} {self.word}".rstrip()

    @property
    def setting(self) -> tuple[str, int]:
        """The name and the value of a `set`."""
        name, _, value = self.word.partition("=")
        return name, int(value)


def read_want(text: str) -> Want | None:
    """The want of this text; None where it has another form."""
    verb, _, word = text.partition(" ")
    found = next((it for it in Verb if it.value == verb), None)
    if found is None or found in ALONE and word:
        return None
    made = Want(found, word)
    return made if found in ALONE or not wrong(made) else None


def wrong(it: Want) -> str:
    """Why a want can't be one; empty where it can."""
    if it.verb in NAMING:
        return "" if WHAT.fullmatch(it.word) else "it is no GROUP/KEY, and no GROUP"
    found = SETTING.fullmatch(it.word)
    if not found:
        return "a setting is j=N or GROUP.limit=N"
    most = MOST_AT_A_TIME if found[1] == "j" else MOST_LIMIT
    return "" if 1 <= int(found[2]) <= most else f"{found[1]} is 1 to {most}"


def given(words: argparse.Namespace) -> Iterator[tuple[Verb, list[str]]]:
    """The verbs that the command line has, each with its words."""
    for verb in (*NAMING, Verb.SET):
        its: list[list[str]] | None = getattr(words, verb.value)
        if its:
            yield verb, [it for one in its for it in one]
    if words.pause:
        yield Verb.PAUSE, [""]
    if words.resume and words.jobs is None:
        yield Verb.RESUME, [""]


def wants_of(words: argparse.Namespace) -> tuple[Want, ...]:
    """What the command line wants of a night."""
    made = [Want(verb, word) for verb, its in given(words) for word in its]
    for it in made:
        if it.verb not in ALONE and (why := wrong(it)):
            raise Mistake(f"--{it.verb.value} {short(it.word)}: {why}")
    return tuple(made)


def by_me() -> By:
    """This user, now."""
    found = re.sub(r"[^!-~]", "-", name_of(os.getuid()))[:32]
    return By(found, int(time.time()))


def add_wants(reader: argparse.ArgumentParser) -> None:
    """The options for what is wanted."""
    for verb, what in ((Verb.ONLY, "start only these commands and groups, what they come after,"
                        " and their cleanups"),
                       (Verb.REDO, "start these again, even if they are ok, and what comes after"
                        " them"),
                       (Verb.SKIP, "don't start these any more in this night")):
        reader.add_argument(f"--{verb.value}", nargs="+", action="append", metavar="GROUP[/KEY]",
                            help=f"{what}; without JOBS, the active night-run does so, or else the"
                            " next one")
    reader.add_argument("--set", nargs=1, action="append", metavar="NAME=N",
                        help="change GROUP.limit, or j, for the rest of the night")
    reader.add_argument("--pause", action="store_true",
                        help="(without JOBS) start nothing until --resume; what runs goes on")
