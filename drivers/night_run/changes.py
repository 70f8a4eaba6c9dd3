"""What wants change in what is wanted of a night (`tonight`). All wants of one line are taken, or
none is."""

from __future__ import annotations

import copy
from collections.abc import Callable, Collection, Iterable, Mapping, Sequence
from dataclasses import dataclass

from . import Mistake, Name
from .facts import Book, Facts
from .guesses import no_command, no_group
from .jobs import Jobs, Need
from .phases import Phase
from .repeating import facts_to_come, is_forgotten, refusal
from .settings import OF_ALL
from .standing import Standing
from .tonight import Again, Tonight
from .wants import NOT_PAUSED, By, Verb, Want

# How many names an answer has at most.
MOST_NAMED = 3
# What becomes of a command that is left out while it runs.
RUNS = "still running, and won't be tried again"


class Refused(Mistake):
    """Why a want isn't taken."""


@dataclass
class Night:
    """A night that something is wanted of: its commands, and how they stand."""

    jobs: Jobs
    book: Book
    facts: Facts
    standings: Mapping[Name, Standing]
    has_ended: bool = False  # whether the store has the mark of that
    stand: Callable[[Facts], Mapping[Name, Standing]] | None = None  # how they would by other facts


class Change:
    """What is wanted of a night, as wants change it."""

    def __init__(self, night: Night, its: Tonight, by: By) -> None:
        self.night, self.its, self.by = night, copy.deepcopy(its), by
        self.jobs = night.jobs

    def take(self, wants: Iterable[Want]) -> str:
        """Takes wants; the answer to them. Refused where one can't be taken."""
        wants = tuple(wants)
        words = [it.word for it in wants if it.verb is Verb.ONLY]
        only = [self.only(words)] if words else []
        answers = [self.take_one(it) for it in wants if it.verb is not Verb.ONLY]
        why = refusal(self.night, self.its, {
            it.word: self.named(it.word) for it in wants if it.verb is Verb.REDO})
        if why:
            raise Refused(why)
        return "; ".join([*only, *answers])

    def take_one(self, it: Want) -> str:
        if it.verb is Verb.SKIP:
            return self.skip(it.word)
        if it.verb is Verb.REDO:
            return self.redo(it.word)
        if it.verb is Verb.SET:
            return self.set(*it.setting)
        return self.pause() if it.verb is Verb.PAUSE else self.resume()

    # --- which commands

    def named(self, word: str) -> list[Name]:
        """The commands that a word stands for."""
        group, slash, key = word.partition("/")
        if slash:
            if (group, key) not in self.jobs.all:
                raise Refused(no_command(group, key, self.jobs.all))
            return [(group, key)]
        if group == OF_ALL:
            return list(self.jobs.all)
        if group not in self.jobs.members:
            raise Refused(no_group(self.jobs.path, group, self.jobs.all))
        return list(self.jobs.members[group])

    def of_need(self, need: Need) -> list[Name]:
        return [need.of] if isinstance(need.of, tuple) else list(self.jobs.members[need.of])

    def is_due(self, name: Name) -> bool:
        """Whether a command is one of this night: what isn't due counts as if it weren't there."""
        return self.night.standings[name].phase != Phase.NOT_DUE

    def is_ok(self, name: Name) -> bool:
        return self.night.facts.is_ok(name) and not is_forgotten(self.night.facts, self.its, name)

    def after(self, names: Collection[Name]) -> set[Name]:
        """The commands that come after these, directly or through others that are due."""
        found: set[Name] = set()
        for it in self.jobs.order:
            if isinstance(it, tuple) and self.is_due(it) and any(
                    one in found or one in names
                    for need in self.jobs.all[it].after for one in self.of_need(need)):
                found.add(it)
        return found - {*names}

    def with_needs(self, names: Iterable[Name]) -> set[Name]:
        """These, what they come after unless it is ok or isn't due, and the cleanups of them
        all."""
        found, left = set[Name](), list(names)
        while left:
            name = left.pop()
            if name not in found:
                found.add(name)
                left += [it for need in self.jobs.all[name].after for it in self.of_need(need)
                         if self.is_due(it) and not self.is_ok(it)]
        for it in self.jobs.order:
            job = self.jobs.all[it] if isinstance(it, tuple) else None
            if job and job.cleans_up and any(one in found for need in job.after
                                             for one in self.of_need(need)):
                found.add(job.name)
        return found

    # --- what each verb does

    def skip(self, word: str) -> str:
        """Leaves commands out. What runs goes on, and isn't tried again."""
        names = self.named(word)
        if "/" in word and not self.is_due(names[0]):
            return f"{word}: {Phase.NOT_DUE}"
        if "/" in word:
            self.look_at_end(names[0])
        open_ones = [it for it in names if self.is_open(it)]
        for it in open_ones:
            self.its.skip.setdefault(it, self.by)
        begun = [it for it in open_ones if it in self.night.facts.busy]
        left = [it for it in open_ones if it not in begun]
        later = lost_with(self, left)
        lost = f", and with {'it' if '/' in word else 'them'} {shown(later)}" if later else ""
        if "/" in word:
            return f"{word}: {RUNS if begun else 'left out'}{lost}"
        more = f"; {len(begun)} {RUNS}" if begun else ""
        return f"{word}: {len(left)} of {len(names)} left out{lost}{more}"

    def look_at_end(self, name: Name) -> None:
        """Refuses to leave out what has ended."""
        found = self.night.standings[name]
        if not self.is_open(name):
            raise Refused(found.at_its_end(name))

    def is_open(self, name: Name) -> bool:
        """Whether a command may still be left out, or is."""
        found = self.night.standings[name]
        return not found.is_final or found.phase == Phase.LEFT_OUT \
            or is_forgotten(self.night.facts, self.its, name)

    def only(self, words: list[str]) -> str:
        """Leaves out all others."""
        if OF_ALL in words:
            self.its.only = {}
            return "nothing is left out by --only"
        targets = [it for word in words for it in self.named(word)]
        for it in targets:
            self.its.skip.pop(it, None)
        late = [it for it in targets if not self.is_due(it)]
        names = self.with_needs([it for it in targets if it not in late]) | {*late}
        self.its.only = {it: self.by for it in self.jobs.all if it in names}
        left = sum(self.is_open(it) and it not in names and it not in self.night.facts.busy
                   for it in self.jobs.all)
        more = f"; {shown(late)}: {Phase.NOT_DUE}, which --redo changes" if late else ""
        return f"only {' '.join(words)}: {left} other{'' if left == 1 else 's'} left out{more}"

    def redo(self, word: str) -> str:
        """Has commands run again, and what comes after them."""
        targets = self.named(word)
        if "/" not in word:
            # (what isn't due runs only if it is named itself)
            targets = [it for it in targets if self.is_due(it)]
        for it in targets:
            self.its.skip.pop(it, None)
        its = repeated(self, targets)
        busy = [it for it in its if it in self.night.facts.busy]
        if busy:
            raise Refused(f"{word} can't run again while {shown(busy)} runs: cancel that, or wait"
                          " until it has ended")
        self.run_again(its)
        more = [it for it in its if it not in targets]
        return f"{word}: runs again" + (f", and after it {shown(more)}" if more else "")

    def run_again(self, names: Sequence[Name]) -> None:
        """Forgets what has become of these commands."""
        if self.its.only:
            self.its.only.update({it: self.by for it in self.with_needs(names)})
        again = [it for it in names if self.is_to_be_made_again(it)]
        reopened = self.keep_canceled(again) | self.night.facts.reopened
        for it in again:
            self.its.canceled.pop(it, None)
            self.its.redo[it] = Again(self.night.book.next_round(it[0]), self.by, it[0] in reopened)
        self.its.is_open |= self.night.has_ended and bool(again)

    def is_to_be_made_again(self, name: Name) -> bool:
        """Whether something of a command is to be forgotten, so that it runs."""
        # (one that was interrupted may have ended since, and nobody has recorded that)
        facts = self.night.facts
        return name in facts.ends or name in facts.interrupted \
            or self.night.standings[name].is_final

    def keep_canceled(self, again: Collection[Name]) -> set[str]:
        """The groups of these that were done, and begin again. What else was canceled with such a
        group stays so."""
        done = self.night.facts.done
        groups = {name[0] for name in again if not self.jobs.cleans_up(name)} & done.keys()
        for group in groups:
            for it in self.jobs.members[group]:
                if it not in again \
                and self.night.standings[it].phase in (Phase.CANCELED, Phase.FAILED) \
                        and not self.jobs.cleans_up(it) and not self.its.left_out(it):
                    self.its.canceled[it] = done[group] or "canceled"
        return groups

    def set(self, name: str, value: int) -> str:
        group = name.partition(".")[0]
        if name != "j" and group not in self.jobs.members:
            raise Refused(no_group(self.jobs.path, group, self.jobs.all))
        self.its.sets[name] = value, self.by
        return f"{name}={value}"

    def pause(self) -> str:
        self.its.paused = self.its.paused or self.by
        count = len(self.night.facts.busy)
        return "paused" + (f"; {count} still running" if count else "")

    def resume(self) -> str:
        was_paused, self.its.paused = self.its.paused, None
        return "the night goes on" if was_paused else NOT_PAUSED


def repeated(change: Change, targets: Collection[Name]) -> list[Name]:
    """What runs again with these commands: what comes after them, and after the commands that may
    begin now because their group had stopped on a failure of one of these. It ran, or was decided,
    in their absence."""
    found = {*targets} | change.after(targets)
    while more := change.after(released(change, found)) - found:
        found |= more
    return [it for it in change.jobs.all if it in found]


def released(change: Change, names: Collection[Name]) -> set[Name]:
    """The commands that weren't to begin any more, and may if these run again."""
    night, jobs = change.night, change.jobs
    if night.stand is None or not any(jobs.stops(group) for group, _ in names):
        return set()
    trial = Change(night, change.its, change.by)
    trial.run_again([it for it in jobs.all if it in names])
    found = night.stand(facts_to_come(night, trial.its))
    return {name for name, it in night.standings.items()
            if it.phase == Phase.NOT_STARTED and not found[name].is_final}


def lost_with(change: Change, names: Collection[Name]) -> list[Name]:
    """The commands that aren't begun because they come after these, directly or through others."""
    found = list[Name]()
    for it in change.jobs.order:
        if isinstance(it, tuple) and it not in names and change.is_open(it) and any(
                one in found or one in names for need in change.jobs.all[it].after
                if need.when == "well" for one in change.of_need(need)):
            found.append(it)
    return found


def shown(names: list[Name]) -> str:
    """Some names, for an answer."""
    more = f" and {len(names) - MOST_NAMED} more" if len(names) > MOST_NAMED else ""
    return " ".join("/".join(it) for it in names[:MOST_NAMED]) + more
