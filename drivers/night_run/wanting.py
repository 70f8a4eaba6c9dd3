"""What `--only`, `--redo`, `--skip`, `--pause`, `--resume` and `--set` do without a file of
commands: the active driver is asked (`petitions`), or else the next run takes it (`tonight`)."""

from __future__ import annotations

import errno
import os
import time

from . import Fault, Mistake, Name, cancels, petitions
from .files import Files
from .guesses import no_command, no_group
from .opening import inspected
from .past import read_past
from .report_words import moment
from .settings import OF_ALL
from .status_plan import names_of_plan
from .tonight import Notes, Tonight, write_notes
from .wants import NAMING, NOT_PAUSED, By, Verb, Want

# How many seconds a driver has to answer, and how often that is looked for.
SECONDS, LOOK = 60.0, 0.05


def want(files: Files, wants: tuple[Want, ...], by: By) -> str:
    """Asks for it; the answer."""
    if not files.exists():
        raise Mistake(f"{files.shown}: {os.strerror(errno.ENOENT)}")
    if files.lock.take_for_cancel():
        return Alone(files, by).leave(wants)
    it = petitions.ask(files, wants, by)
    end = time.monotonic() + SECONDS
    try:
        while time.monotonic() < end:
            if answer := petitions.answered(files, it):
                return checked(answer)
            if files.lock.take_for_cancel():
                # (its driver has ended, with the answer or without one)
                answer = petitions.answered(files, it)
                return checked(answer) if answer else Alone(files, by).leave(wants)
            time.sleep(LOOK)
    finally:
        cancels.withdraw(files, it.name)
    raise Fault(f"the active night-run hasn't read {files.shown}.cancel within {SECONDS:.0f} s:"
                " nothing is changed")


def checked(answer: str) -> str:
    if answer.startswith(petitions.REFUSED):
        raise Mistake(answer.removeprefix(petitions.REFUSED))
    if answer.startswith(petitions.FAILED):
        raise Fault(answer.removeprefix(petitions.FAILED))
    return answer


class Alone:
    """A request where no driver runs."""

    def __init__(self, files: Files, by: By) -> None:
        self.files = files
        past = read_past(files)
        self.night = max(inspected(files).night(), past.night)
        self.notes: Notes = past.notes.copied()
        # (what has one moment in the file was asked for in one line)
        last = max((it.at for _, it in self.notes.next), default=-1)
        self.by = By(by.who, max(by.at, last + 1))

    def leave(self, wants: tuple[Want, ...]) -> str:
        """Leaves it for the next run."""
        is_named = any(it.verb in (*NAMING, Verb.SET) for it in wants)
        names = names_of_plan(self.files) if is_named else set()
        for it in wants:
            self.check(it, names)
        if any(it.verb is Verb.ONLY for it in wants):
            self.drop(Verb.ONLY)
        answers = [self.add(it) for it in wants]
        write_notes(self.files, self.notes, self.night)
        return "\n".join(answers)

    def check(self, it: Want, names: set[Name]) -> None:
        """Refuses what isn't known: a slip would leave nothing out."""
        group, slash, key = it.word.partition("/")
        group = it.setting[0].partition(".")[0] if it.verb is Verb.SET else group
        if it.verb not in (*NAMING, Verb.SET) or group == OF_ALL or it.verb is Verb.SET \
                and it.setting[0] == "j":
            return
        is_known = (group, key) in names if slash else any(group == one for one, _ in names)
        if not is_known:
            how = ", as far as the last run shows"
            raise Mistake(no_command(group, key, names, how) if slash else
                          no_group(self.files.shown, group, names, how))

    def drop(self, verb: Verb, word: str = "") -> None:
        """Drops what was left for the next run, of this verb."""
        self.notes.next = [(it, by) for it, by in self.notes.next if it.verb is not verb
                           or word and it.word.partition("=")[0] != word.partition("=")[0]]

    def add(self, it: Want) -> str:
        if it.verb is Verb.RESUME:
            return self.resume()
        if it.verb is Verb.SET:
            self.drop(Verb.SET, it.word)
        if all(one != it for one, _ in self.notes.next):
            self.notes.next.append((it, self.by))
        return f"{it.text}: no night-run is active, so the next run does it"

    def resume(self) -> str:
        its = self.notes.of(self.night)
        was = its.paused or any(it.verb is Verb.PAUSE for it, _ in self.notes.next)
        self.drop(Verb.PAUSE)
        its.paused = None
        return "the next run isn't paused" if was else NOT_PAUSED


# --- what a list shows of it

def lines_of(notes: Notes, night: int) -> list[str]:
    """What is wanted of a night beside commands that are left out, and of the next run."""
    its: Tonight = notes.of(night)
    made = [f"night: paused by {its.paused.who}, {moment(its.paused.at)}"] if its.paused else []
    for name, (value, by) in its.sets.items():
        group, _, what = name.rpartition(".")
        made.append(f"{group or OF_ALL}: {what} {value}, set by {by.who}")
    return made + [f"next run: {it.text}, by {by.who}" for it, by in notes.next]
