"""What is wanted of a random night besides its file of commands, and what may begin then and what
must, by the words of docs/options.md alone.

A request takes a while: between the moment at which it was made and its answer the night may be as
it was before, or as the request has it. So at each moment a night has one or several `World`s, and
a command that begins is wrong if no world lets it. One that was made while no driver ran is for the
next run, and so for the next night if that run begins it.
"""

from __future__ import annotations

import time
from collections.abc import Collection, Iterable, Iterator
from dataclasses import dataclass, field, replace
from typing import TYPE_CHECKING

if TYPE_CHECKING:
    from nights_oracle import Seen, Try
    from nights_plan import Plan

# In which order the wants of one line are taken.
VERBS = ("only", "redo", "skip", "set", "pause", "resume")
EVER = float("inf")
# Stops that leave the commands alone: the driver, with its `night`, is killed, or is asked to begin
# no more.
LEAVE = ("driver", "both", "rest", "int")


@dataclass(frozen=True)
class Want:
    """One thing that is wanted: a verb, and GROUP/KEY, GROUP, `night` or NAME=N."""

    verb: str
    word: str = ""

    @property
    def words(self) -> list[str]:
        return [f"--{self.verb}", *([self.word] if self.word else [])]


@dataclass(frozen=True)
class Asked:
    """A request: when it was made and answered, and how. One that stands in the line of a run is
    answered once that has begun something; of another run nobody knows whether it was taken."""

    wants: tuple[Want, ...]
    asked: float
    done: float
    status: int
    output: str = ""
    is_own: bool = False

    @property
    def is_taken(self) -> bool:
        return self.status == 0

    @property
    def is_for_next(self) -> bool:
        """Whether no driver ran."""
        return "the next run" in self.output


@dataclass(frozen=True)
class World:
    """What holds of a night at a moment."""

    skip: frozenset[str] = frozenset()
    only: frozenset[str] | None = None
    is_paused: bool = False
    limits: tuple[tuple[str, int], ...] = ()
    named: frozenset[str] = frozenset()  # what runs though it isn't due

    def leaves_out(self, key: str) -> bool:
        return key in self.skip or self.only is not None and key not in self.only


@dataclass(frozen=True)
class Again:
    """A `--redo`: these are to run again since then."""

    keys: frozenset[str]
    asked: float
    done: float
    is_sure: bool


@dataclass
class Wanted:
    """What is wanted at each moment."""

    moments: list[tuple[float, frozenset[World]]] = field(default_factory=list)
    again: list[Again] = field(default_factory=list)

    def at(self, moment: float) -> frozenset[World]:
        found = frozenset((World(),))
        for since, worlds in self.moments:
            if since > moment:
                break
            found = worlds
        return found

    def redone(self, key: str, one: float, other: float) -> bool:
        """Whether a command may be begun again between these moments though it is ok."""
        return any(key in it.keys and it.done > one and it.asked < other for it in self.again)

    def since(self, key: str, night: float) -> float:
        """Since when this night's tries of a command count."""
        return max([night, *(it.asked for it in self.again if key in it.keys and it.is_sure)])

    def since_at_most(self, key: str, moment: float) -> float:
        """Since when they may count, at a moment."""
        return max((it.asked for it in self.again if key in it.keys and it.asked < moment),
                   default=0.0)


# --- which commands a word stands for

def keys_of(plan: Plan, word: str) -> set[str] | None:
    """The commands of a word; None if there is no such thing."""
    group, slash, key = word.partition("/")
    if slash:
        is_there = key in plan.commands and plan.commands[key].group == group
        return {key} if is_there else None
    if group == "night":
        return set(plan.commands)
    found = {it.key for it in plan.commands.values() if it.group == group}
    return found or None


def later_ones(plan: Plan, targets: Iterable[str], named: Collection[str]) -> set[str]:
    """These, and what comes after them, directly or through others that are due."""
    found, size = {*targets}, -1
    due = plan.commands.keys() - plan.not_due | {*named}
    while size != len(found):
        size = len(found)
        found |= {key for key in due if (plan.all_before(key) | plan.cleaned_by(key)) & found}
    return found


def with_needs(plan: Plan, targets: Iterable[str], named: Collection[str]) -> set[str]:
    """These, and what they come after, directly or through others that are due."""
    found, left = set[str](), [*targets]
    while left:
        key = left.pop()
        if key not in found:
            found.add(key)
            left += (plan.all_before(key) | plan.cleaned_by(key)) - (plan.not_due - {*named})
    return found


def with_cleanups(plan: Plan, targets: Iterable[str]) -> set[str]:
    """These, their cleanups, and the cleanups of those."""
    found, size = {*targets}, -1
    while size != len(found):
        size = len(found)
        found |= {key for key in plan.commands if plan.cleaned_by(key) & found}
    return found


def redone_by(plan: Plan, word: str, named: Collection[str] = ()) -> set[str]:
    """What a `--redo` of a word runs again. What isn't due runs only if it is named itself, or was
    before."""
    found = keys_of(plan, word) or set()
    return later_ones(plan, found if "/" in word else found - (plan.not_due - {*named}), named)


def all_redone_by(plan: Plan, word: str) -> set[str]:
    """All that a `--redo` of a word may run again."""
    found = redone_by(plan, word)
    return found | released_by(plan, found)


def released_by(plan: Plan, keys: Collection[str], named: Collection[str] = ()) -> set[str]:
    """What may run again with these as well: what comes after the other commands of their groups,
    where one of these had stopped its group. Those commands may begin now. Nobody knows here
    whether it had."""
    found, size, due = set[str](), -1, plan.commands.keys() - plan.not_due | {*named}
    while size != len(found):
        size = len(found)
        groups = {plan.commands[key].group for key in {*keys} | found}
        free = {it.key for it in plan.commands.values()
                if it.group in groups and plan.groups[it.group].stops}
        found |= {key for key in due
                  if (plan.all_before(key) | plan.cleaned_by(key)) & (free | found)}
    return found - {*keys}


def is_wrong(plan: Plan, it: Want) -> bool:
    """Whether a want is of what isn't there."""
    if it.verb in ("pause", "resume"):
        return False
    if it.verb == "set":
        group = it.word.partition(".")[0]
        return not it.word.startswith("j=") and not keys_of(plan, group)
    return keys_of(plan, it.word) is None


# --- what wants make of a world

def changed(plan: Plan, world: World, wants: Iterable[Want]) -> set[World]:
    """The worlds that may be once these wants hold."""
    wants, found = tuple(wants), {world}
    only = [it.word for it in wants if it.verb == "only"]
    if only:
        found = only_of(plan, world, only)
    for verb in VERBS[1:]:
        for it in wants:
            if it.verb == verb:
                found = {made for one in found for made in change(plan, one, it)}
    return found


def only_of(plan: Plan, world: World, words: list[str]) -> set[World]:
    if "night" in words:
        return {replace(world, only=None)}
    targets = set[str]().union(*(keys_of(plan, it) or () for it in words))
    due = targets - (plan.not_due - world.named)
    return {replace(world, skip=world.skip - targets, only=frozenset(targets | its))
            for its in brought(plan, due, world.named)}


def brought(plan: Plan, targets: Collection[str], named: Collection[str]) -> list[set[str]]:
    """What an `--only` of these commands may bring: them, what they come after, and the cleanups.
    A command that they come after isn't brought if it is ok already. Nobody knows that here, so its
    cleanups may be brought, or left out."""
    its = with_needs(plan, targets, named)
    return [its | with_cleanups(plan, targets), with_cleanups(plan, its)]


def change(plan: Plan, world: World, it: Want) -> set[World]:
    if it.verb in ("pause", "resume"):
        return {replace(world, is_paused=it.verb == "pause")}
    if it.verb == "set":
        name, _, value = it.word.partition("=")
        its = {**dict(world.limits), name.removesuffix(".limit"): int(value)}
        return {replace(world, limits=tuple(sorted(its.items())))}
    keys = keys_of(plan, it.word) or set()
    if it.verb == "skip":
        return {replace(world, skip=world.skip | (keys - (plan.not_due - world.named)))}
    its_own = keys if "/" in it.word else keys - (plan.not_due - world.named)
    made = replace(world, skip=world.skip - its_own, named=world.named | (its_own & plan.not_due))
    if made.only is None:
        return {made}
    again = redone_by(plan, it.word, world.named)
    return {replace(made, only=made.only | more) for its in (
        again, again | released_by(plan, again, world.named))
        for more in brought(plan, its, world.named)}


# --- a night

def wanted_of(seen: Seen) -> Wanted:
    """What is wanted at each moment, by all requests, in the order in which they were answered."""
    made = Wanted()
    worlds = frozenset((World(),))
    for at, what in sorted(events(seen), key=lambda it: it[0]):
        worlds = what.of(seen, worlds)
        made.moments.append((at, worlds))
    for it in seen.asked:
        if it.is_taken:
            made.again += again_of(seen, it, made.at(it.asked))
    return made


# How a request may be understood, each as wants.
Readings = list[tuple[Want, ...]]


@dataclass(frozen=True)
class Event:
    """Requests that hold from a moment on, or may hold; or a night that begins with them."""

    its: tuple[tuple[Readings, bool], ...]  # and whether each surely holds
    is_new: bool = False

    def of(self, seen: Seen, worlds: frozenset[World]) -> frozenset[World]:
        found = frozenset((World(),)) if self.is_new else worlds
        for its, is_sure in self.its:
            new = {made for world in found for wants in its
                   for made in changed(seen.plan, world, wants)}
            found = frozenset(new if is_sure else new | found)
        return found


def readings(seen: Seen, it: Asked) -> Readings:
    """How a request may be understood: what has ended isn't left out, and what can't begin isn't
    run again, and nobody knows that of each command. So all of it is taken, or what surely is."""
    plan, sure, moment = seen.plan, list[Want](), Moment(seen, it)
    for one in it.wants:
        keys = keys_of(plan, one.word) or set()
        if one.verb == "redo":
            sure += [one] if is_surely_taken(seen, one, it, all_redone_by(plan, one.word)) else []
        elif one.verb != "skip" or all(map(moment.is_open, keys)):
            sure.append(one)
        else:
            sure += [Want("skip", f"{plan.commands[key].group}/{key}")
                     for key in filter(moment.is_open, keys)]
    return [it.wants] if tuple(sure) == it.wants else [it.wants, tuple(sure)]


class Moment:
    """What is known of commands as a request was answered."""

    def __init__(self, seen: Seen, it: Asked) -> None:
        self.seen, self.plan, self.it = seen, seen.plan, it
        self.night = seen.night_of(min(it.done, time.monotonic()))
        self.known: dict[str, bool] = {}

    def is_open(self, key: str) -> bool:
        """Whether a command surely hadn't ended, and may begin or go on."""
        if key not in self.known:
            self.known[key] = self.found(key)
        return self.known[key]

    def found(self, key: str) -> bool:
        plan, group = self.plan, self.plan.groups[self.plan.commands[key].group]
        is_stopped = plan.has_deadline(group.name) or group.stops or any(
            one.done > self.night and one.asked < self.it.done for one in self.seen.cancels)
        ends = self.ends(key)
        return not is_stopped and len(ends) <= plan.retries_of(key) and "ok" not in ends and all(
            self.is_open(one) or "ok" in self.ends(one) for one in plan.before(key))

    def ends(self, key: str) -> list[str]:
        return [one.end for one in self.seen.acked[key]
                if one.end and self.night < one.at < self.it.done]


def events(seen: Seen) -> Iterator[tuple[float, Event]]:
    for run in seen.runs:
        if run.is_first_of == "night":
            yield run.began, Event(tuple(pending(seen, run.began)), is_new=True)
    for it in seen.asked:
        if it.is_taken:
            its = readings(seen, it)
            yield it.asked, Event(((its, False),))
            if it.done < EVER:
                yield it.done, Event(((its, True),))


def pending(seen: Seen, began: float) -> Iterator[tuple[Readings, bool]]:
    """The requests that the first run of a night takes. One that was made before an earlier run was
    taken by that, unless that run had nothing to do."""
    for it in seen.asked:
        if it.is_taken and it.is_for_next and it.done < began:
            runs = [run for run in seen.runs if it.done < run.began < began]
            has_begun = any(run.began < one.at < run.ended for run in runs
                            for acks in seen.acked.values() for one in acks)
            if not has_begun:
                yield readings(seen, it), not runs


def again_of(seen: Seen, it: Asked, worlds: Collection[World]) -> Iterator[Again]:
    """The commands that a request has run again."""
    named = set[str]().union(*(world.named for world in worlds))
    for one in it.wants:
        if one.verb == "redo" and (keys := redone_by(seen.plan, one.word, named)):
            more = released_by(seen.plan, keys, named)
            is_sure = it.done < EVER and is_surely_taken(seen, one, it, keys | more)
            is_sure &= all(world.named >= named for world in worlds)
            yield Again(frozenset(keys), it.asked, it.done, is_sure)
            if more:
                yield Again(frozenset(more), it.asked, it.done, is_sure=False)


def is_surely_taken(seen: Seen, want: Want, it: Asked, keys: set[str]) -> bool:
    """Whether a `--redo` is taken that was answered. One that is left for the next run is passed
    over while one of the commands runs, or if the command couldn't begin, or its group's deadline
    has passed for good. A later request may leave out the command before that run."""
    if not it.is_for_next and not it.is_own:
        return True
    if any(one.is_for_next and one.asked > it.asked
           and any(other.verb in ("only", "skip") for other in one.wants) for one in seen.asked):
        return False
    moment, plan = Moment(seen, it), seen.plan
    if any(plan.groups[plan.commands[key].group].until is not None
           for key in keys_of(plan, want.word) or ()):
        return False
    key = want.word.rpartition("/")[2]
    is_free = "/" not in want.word or not plan.groups[plan.commands[key].group].stops \
        and all("ok" in moment.ends(other) for other in plan.before(key))
    return is_free and not any(is_unrecorded(seen, key, it.done) for key in keys)


def is_unrecorded(seen: Seen, key: str, moment: float) -> bool:
    """Whether a command had begun by a moment, and its end wasn't durable then."""
    acks = [it for it in seen.acked[key] if it.at < moment]
    return bool(acks) and acks[-1].end is None


# --- what must hold

def requests_kept(seen: Seen) -> Iterator[str]:
    """Nothing begins that is left out, in a pause, or before what it comes after has run again."""
    wanted = seen.wanted
    for it in seen.all_tries():
        at = seen.started(it)
        worlds = wanted.at(at)
        if all(one.is_paused for one in worlds):
            yield f"pause: {it.key} began at {at:.3f}"
        if all(it.key in one.skip for one in worlds):
            yield f"skip: {it.key} began at {at:.3f}"
        elif all(one.leaves_out(it.key) for one in worlds):
            yield f"only: {it.key} began at {at:.3f}"
        yield from early(seen, it, at)


def early(seen: Seen, it: Try, at: float) -> Iterator[str]:
    """What a command comes after, and what hasn't run again by then."""
    for other in seen.plan.before(it.key):
        for again in seen.wanted.again:
            if again.is_sure and other in again.keys and night_is(seen, again.done, at) \
                    and again.done < at and not any(again.asked < one.began < at
                                                    for one in seen.tries[other]):
                yield f"redo: {it.key} began at {at:.3f}, and {other} hadn't run again"


def beside_later_ones(seen: Seen) -> Iterator[str]:
    """Nothing begins while a command runs that comes after it: that one needs its results. Nobody
    wrote down until when a killed command ran, so nothing is said of those. (A cleanup needs no
    results, so nothing has to be ok before it.)"""
    for key in seen.plan.commands:
        before = needed_by(seen.plan, key)
        for one in seen.tries[key] if before else ():
            if one.ended is None:
                continue
            end = min([one.ended,
                       *(stop.at for stop in seen.stops
                         if stop.at > one.began and stop.how not in LEAVE)])
            for other in (it for name in before for it in seen.tries[name]):
                if one.began < seen.started(other) < end:
                    yield (f"redo: {other.key} began at {other.began:.3f} beside {key}, which comes"
                           " after it")


def needed_by(plan: Plan, key: str) -> set[str]:
    """What has to be ok before this command, directly or through others."""
    found, left = set[str](), [*plan.before(key)]
    while left:
        one = left.pop()
        if one not in found:
            found.add(one)
            left += plan.before(one)
    return found


def night_is(seen: Seen, one: float, other: float) -> bool:
    return seen.night_of(one) == seen.night_of(other)


def redo_refused(seen: Seen) -> Iterator[str]:
    """A `--redo` is refused while one of its commands runs, and only then."""
    for it in seen.asked:
        for one in it.wants:
            keys = redone_by(seen.plan, one.word) if one.verb == "redo" else ()
            may = all_redone_by(seen.plan, one.word) if one.verb == "redo" else ()
            if "can't run again while" in it.output and len(it.wants) == 1 and not any(
                    was_unrecorded(seen, key, it) for key in may):
                yield f"redo: {one.word} was refused at {it.done:.3f}, and none of it ran"
            for key in keys if it.is_taken and not it.is_for_next and not it.is_own else ():
                ran = next((a for a in seen.tries[key] if ran_through(seen, a, it)), None)
                if ran:
                    yield f"redo: {one.word} was taken at {it.done:.3f}, and {ran} ran"


def was_unrecorded(seen: Seen, key: str, it: Asked) -> bool:
    """Whether a command ran, or its end wasn't durable, at some moment of a request."""
    begun = [one.at for one in seen.acked[key] if one.end is None and one.at < it.done]
    return bool(begun) and (is_unrecorded(seen, key, it.asked) or is_unrecorded(seen, key, it.done)
                            or begun[-1] > it.asked)


def ran_through(seen: Seen, one: Try, it: Asked) -> bool:
    """Whether a try ran from before a request until after its answer."""
    end = min([EVER if one.ended is None else one.ended,
               *(stop.at for stop in seen.stops if stop.at > one.began)])
    return one.began < it.asked and it.done < end


def refused_wrongly(seen: Seen) -> Iterator[str]:
    """A request is refused if it is of what isn't there, and otherwise only for a reason."""
    for it in seen.asked:
        wrong = any(is_wrong(seen.plan, one) for one in it.wants)
        if wrong and it.is_taken and not it.is_own:
            yield f"wanted: {it.wants} was taken, and isn't there: {it.output}"
        # (before the first run has begun no plan is kept, by which a name could be known)
        may = any(one.verb in ("skip", "redo") for one in it.wants) \
            or "as far as the last run shows" in it.output and not has_begun(seen, it.asked)
        if not wrong and it.status == 2 and not may:
            yield f"wanted: {it.wants} was refused: {it.output}"
        if it.status not in (0, 2):
            yield f"wanted: {it.wants} ended with status {it.status}: {it.output}"


def has_begun(seen: Seen, moment: float) -> bool:
    return any(it.at < moment for acks in seen.acked.values() for it in acks)


def skipped_again(seen: Seen) -> Iterator[str]:
    """What can't be left out because it has ended doesn't begin any more."""
    for it in seen.asked:
        if it.status == 2 and len(it.wants) == 1 and "has ended" in it.output:
            key = it.wants[0].word.rpartition("/")[2]
            until = min([run.began for run in seen.runs if run.is_first_of and run.began > it.done]
                        + [one.asked for one in seen.wanted.again if one.done > it.asked],
                        default=EVER)
            for one in seen.tries[key]:
                if it.done < seen.started(one) < until:
                    yield f"skip: {key} had ended, it was said, and began at {one.began:.3f}"
