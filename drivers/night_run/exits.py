"""The one way out of a run. The result of a run is an Outcome. If it isn't all well, the command
of `--on-failure` gets it first, once, and then it is printed. So the alarm is raised even if
standard output is full or stalls. By then the run has released its locks.
"""

from __future__ import annotations

import contextlib
import os
import time
import traceback
from collections.abc import Mapping
from dataclasses import dataclass, field, replace

from . import Fault, Mistake, descriptors, raised, telling
from .alarms import Alarm
from .beside import write_all
from .escapes import plain_lines
from .night import NightEnded
from .owners import OWNER, SEND, Mail, sendmail
from .signals import Signals
from .telling import tell

WELL, NOT_WELL, MISTAKE, FAULT = range(4)
# How many seconds the mails to owners may take together.
MOST_MAILING = 120.0
# With this variable the place of an error that nobody foresaw is shown.
DEBUG = "NIGHT_DEBUG"


@dataclass(frozen=True)
class Outcome:
    """The result of a run."""

    status: int
    errors: tuple[str, ...] = ()  # for standard error
    lines: tuple[str, ...] = ()  # for standard output
    failed: int = 0  # commands that failed, were canceled, or are never begun
    left: int = 0  # those that are left
    has_run: bool = False  # whether there was something to do
    is_silent: bool = False  # whether nothing is printed
    missed: int = 0  # commands of the night before that didn't end well, and are reported first now
    mails: tuple[Mail, ...] = ()  # to the owners of what didn't end well
    alarm: raised.Alarm | None = None  # what an alarm would be about, if it is of a whole night
    is_given: bool = False  # whether an earlier run gave it

    @property
    def is_well(self) -> bool:
        return not self.status and not self.missed

    def text(self) -> str:
        """All that is known."""
        return "".join(f"{it}\n" for it in (*(f"night-run: {it}" for it in self.errors),
                                            *self.lines))

    def environment(self) -> dict[str, str]:
        return {"NIGHT_STATUS": str(self.status), "NIGHT_FAILED": str(self.failed),
                "NIGHT_LEFT": str(self.left)}


def outcome_of(error: BaseException) -> Outcome:
    """The result of a run that this ended."""
    if isinstance(error, Mistake):
        return Outcome(MISTAKE, tuple(str(error).split("\n")))
    return Outcome(FAULT, (why_ended(error),))


def why_ended(error: BaseException) -> str:
    """Why a run ended, in a line; for an error that nobody foresaw with its place, if that is asked
    for."""
    if isinstance(error, (Fault, NightEnded)):
        return str(error)
    if isinstance(error, KeyboardInterrupt):
        return "ended before it began"
    if isinstance(error, OSError) and not os.environ.get(DEBUG):
        return f"{error.filename}: {descriptors.why(error)}" if error.filename else \
            descriptors.why(error)
    line = " ".join(f"{type(error).__name__}: {error}".split())
    if not os.environ.get(DEBUG):
        return f"an error that nobody foresaw: {line}; {DEBUG}=1 shows its place"
    return f"{line}\n{''.join(traceback.format_exception(error))}".rstrip("\n")


@dataclass
class Hooks:
    """The commands that are run when a night begins and when it ends."""

    store: str = ""
    signals: Signals | None = None
    alarms: Mapping[str, Alarm] = field(default_factory=dict)
    has_failed: bool = False  # whether what is run at the end didn't end well
    mail: str | None = None  # the command that sends a mail; None where sendmail does

    def run(self, word: str, text: str, environment: Mapping[str, str]) -> bool:
        return word not in self.alarms or self.alarms[word].run(
            text, {"NIGHT_STORE": self.store, **environment})

    @property
    def has_alarm(self) -> bool:
        return "--on-failure" in self.alarms

    def begin(self) -> None:
        self.run("--on-begin", "", {})

    def end(self, it: Outcome) -> None:
        word = "--on-success" if it.is_well else "--on-failure"
        self.has_failed |= not self.run(word, it.text(), it.environment())
        if not it.is_well:
            self.has_failed |= not self.send(it.mails)

    def send(self, mails: tuple[Mail, ...]) -> bool:
        """Sends the mails to owners, as long as there is time; whether all were sent."""
        late, count = time.monotonic() + MOST_MAILING, 0
        for it in mails if self.signals else ():
            if time.monotonic() >= late:
                tell(f"no time is left for {len(mails) - count} more mails to owners")
                return False
            count += self.send_one(it, self.signals) if self.signals else 0
        return count == len(mails)

    def send_one(self, it: Mail, signals: Signals) -> bool:
        program = "" if self.mail else sendmail()
        if not self.mail and not program:
            tell(f"the mail to {it.owner}: there is no sendmail; --mail COMMAND names another"
                 " program")
            return False
        return Alarm(f"the mail to {it.owner}", self.mail or SEND, signals).run(
            it.text(not self.mail), {"NIGHT_STORE": self.store, OWNER: it.owner,
                                     **({"SENDMAIL": program} if program else {})})


def hooks_of(commands: Mapping[str, str | None], store: str, signals: Signals,
             mail: str | None = None) -> Hooks:
    return Hooks(store, signals, {word: Alarm(word, command, signals)
                                  for word, command in commands.items() if command}, mail=mail)


def leave(it: Outcome, hooks: Hooks) -> int:
    """Ends a run: raises the alarm, prints, and returns the status."""
    if not it.is_well and not it.is_given:
        hooks.end(it)
    if not it.is_silent:
        telling.let_go()
        telling.flush()  # (on a terminal, earlier messages come first)
        why = unprinted(it.lines, hooks.signals)
        if why:
            errors = (*it.errors, f"standard output: {why}")
            before, it = it, replace(it, status=FAULT, errors=errors)
            if before.is_well:
                hooks.end(it)
    if it.is_well and it.has_run:
        hooks.end(it)
    for line in it.errors:
        tell(line)
    telling.flush()
    return it.status


def unprinted(lines: tuple[str, ...], signals: Signals | None) -> str:
    """Prints lines, with escapes for the texts of others. Returns why that can't be done, or
    nothing."""
    text = "".join(f"{plain_lines(it)}\n" for it in lines).encode("utf-8", "backslashreplace")
    try:
        with signals.raising() if signals else contextlib.nullcontext():
            write_all(1, text)
    except OSError as error:
        return error.strerror or str(error)
    except KeyboardInterrupt:
        return "a signal came"
    return ""
