"""What the commands of a night wrote down about themselves, what `night` acked meanwhile, what was
done to them, and whether all of it is as a driver's invariants say. Times are those of the
monotonic clock, in seconds."""

import bisect
import functools
import os
import re
import time
from collections import Counter, defaultdict
from collections.abc import Callable, Iterator
from dataclasses import dataclass, field

from nights_plan import KILOBYTES, MEMORY, NICE, SECRET, Group, Plan
from nights_wants import (LEAVE, Asked, Wanted, beside_later_ones, redo_refused, refused_wrongly,
                          requests_kept, skipped_again, wanted_of, with_needs)

# A cancel is obeyed, and a deadline is, within this many seconds.
PROMPT = 2.0
# Meanwhile at most this many rounds begin commands: the one that is under way, and the next.
ROUNDS = 2
# What a command may say that it sees beside it as it begins.
BESIDE = {"key": "4: {key} began at {at:.3f} beside another try of it",
          "left": "4: {key} began at {at:.3f} beside what a try of it had left",
          "group": "2: {key} began at {at:.3f}, and {group} was at its limit",
          "all": "2: {key} began at {at:.3f}, and so many as may were alive"}
# Stops before which a driver was asked to end, and to stop what runs.
ASKED_TO_STOP = ("asked", "it hung")
# What is as nice as can be gets no nicer.
MOST_NICE = 19
# The end of a task that was submitted and is not to begin.
WITHDRAWN = "withdrawn"


@dataclass
class Try:
    """A command that began: its place, its leader, and what became of it."""

    group: str
    key: str
    pid: int
    process_group: int
    began: float
    count: int
    number: str
    folder: str
    word: str
    output: str
    nice: int = 0
    kilobytes: int = 0  # of memory, at most; 0 for any
    ended: float | None = None
    status: int | None = None
    terms: list[float] = field(default_factory=list)

    def is_whole(self) -> bool:
        """Whether it ran to its end, and that was a good one."""
        return self.status == 0 and not self.terms


@dataclass(frozen=True)
class Acked:
    """What became durable of a key: its start, where there is no end, or how it ended."""

    at: float
    key: str
    end: str | None = None


@dataclass(frozen=True)
class Stop:
    """A moment at which a driver lost its commands, or let go of them."""

    at: float
    how: str
    most: int


@dataclass(frozen=True)
class Run:
    """A driver from its start to its end, and how it ended of itself, if it did."""

    began: float
    ended: float
    status: int | None
    is_first_of: str = ""


@dataclass(frozen=True)
class Cancel:
    """A cancel from a second process, of these groups; `written` is when its request was seen
    beside the store. It was late if the deadline of its group had passed."""

    group: str
    groups: tuple[str, ...]
    asked: float
    done: float
    status: int
    had_driver: bool
    was_late: bool
    written: float | None = None


@dataclass(frozen=True)
class Left:
    """A process that a command left."""

    key: str
    pid: int
    flag: str


@dataclass(frozen=True)
class Beside:
    """Something that a command found when it began, and that may not exist then: one of BESIDE."""

    what: str
    group: str
    key: str
    at: float

    def __str__(self) -> str:
        return BESIDE[self.what].format(group=self.group, key=self.key, at=self.at)


@dataclass
class Trace:
    """What commands wrote: their tries, what they left, and what they saw beside them."""

    tries: list[Try] = field(default_factory=list)
    left: list[Left] = field(default_factory=list)
    beside: list[Beside] = field(default_factory=list)


@dataclass
class Seen:
    """All that is known of a night."""

    plan: Plan
    tries: dict[str, list[Try]] = field(default_factory=lambda: defaultdict(list))
    acked: dict[str, list[Acked]] = field(default_factory=lambda: defaultdict(list))
    left: list[Left] = field(default_factory=list)
    beside: list[str] = field(default_factory=list)
    stops: list[Stop] = field(default_factory=list)
    hits: list[float] = field(default_factory=list)  # after which only a `night` was killed
    runs: list[Run] = field(default_factory=list)
    cancels: list[Cancel] = field(default_factory=list)
    canceled: list[tuple[float, str]] = field(default_factory=list)
    asked: list[Asked] = field(default_factory=list)
    slack: Callable[[float, float], float] = lambda one, other: 0.0

    def all_tries(self) -> list[Try]:
        return sorted((it for tries in self.tries.values() for it in tries),
                      key=lambda it: it.began)

    @functools.cached_property
    def wanted(self) -> Wanted:
        """What was wanted at each moment; once all is read."""
        return wanted_of(self)

    @property
    def most(self) -> int:
        """How many commands may run at a time at most."""
        return max([self.plan.most, *(int(one.word[2:]) for it in self.asked for one in it.wants
                                      if one.word.startswith("j="))])

    def started(self, it: Try) -> float:
        return started(self, it)

    def night_of(self, at: float) -> float:
        return night_of(self, at)


def lines_of(path: str) -> Iterator[list[str]]:
    if os.path.exists(path):
        with open(path, encoding="utf-8", errors="replace") as file:
            for line in file:
                yield line.rstrip("\n").split(" ")


def trace_in(path: str) -> Trace:
    """Reads what commands wrote to this file."""
    trace, by_pid = Trace(), dict[tuple[str, int], Try]()
    for what, group, key, pid, moment, *rest in lines_of(path):
        at, name = int(moment) / 1e6, (key, int(pid))
        if what == "B":
            by_pid[name] = Try(group, key, int(pid), int(rest[0]), at, int(rest[1]), rest[2],
                               rest[3], rest[4], rest[5], int(rest[6]), int(rest[7]))
            trace.tries.append(by_pid[name])
        elif what == "E":
            by_pid[name].ended, by_pid[name].status = at, int(rest[0])
        elif what == "T" and name in by_pid:
            by_pid[name].terms.append(at)
        elif what == "G":
            trace.left.append(Left(key, int(pid), rest[0]))
        elif what == "V":
            trace.beside.append(Beside(rest[0], group, key, at))
    return trace


def read_trace(seen: Seen, path: str) -> None:
    """Reads what the commands of a night wrote. What a command leaves may live where its group
    keeps it."""
    trace = trace_in(path)
    for it in trace.tries:
        seen.tries[it.key].append(it)
    seen.left += trace.left
    seen.beside += [str(it) for it in trace.beside
                    if it.what != "left" or not seen.plan.groups[it.group].keeps]


def read_acked(seen: Seen, path: str) -> None:
    """Reads what became durable. A task that is started and withdrawn at once was no try."""
    starts: dict[str, Acked] = {}
    for what, moment, *rest in lines_of(path):
        at = int(moment) / 1e6
        if what == "A":
            starts[rest[0]] = Acked(at, rest[1])
            seen.acked[rest[1]].append(starts[rest[0]])
        elif what == "F" and rest[0] in starts:
            start, end = starts[rest[0]], "ok" if rest[1] == "ok" else " ".join(rest[2:])
            if end == WITHDRAWN:
                seen.acked[start.key].remove(start)
            else:
                seen.acked[start.key].append(Acked(at, start.key, end))
        elif what == "C":
            # (a group may end with one dash)
            seen.canceled.append((at, re.split("--(?!-)", rest[0])[0]))


def complaints(seen: Seen) -> list[str]:
    """What is not as it must be: the number of the invariant, and what was seen."""
    found = [*starts_acked(seen), *seen.beside]
    for check in (places, group_places, pool_places, cancels_obeyed, deadlines_kept, timeouts_kept,
                  ended_once, stopped_not_ok, run_twice, ordered, stopped_on_failure, cleaned_up,
                  cleanups_go_on, outputs_own, in_places, limited, requests_kept, redo_refused,
                  refused_wrongly, skipped_again, beside_later_ones):
        found += check(seen)
    return found


# --- 1: a command begins only when its start is acked

def starts_acked(seen: Seen) -> Iterator[str]:
    for key, tries in seen.tries.items():
        acks = [it.at for it in seen.acked[key] if it.end is None]
        for number, it in enumerate(tries, 1):
            if bisect.bisect(acks, it.began) < number:
                yield f"1: {key} began at {it.began:.3f}, and its start wasn't acked"


# --- 2: a place is free only when its command's end is acked

def places(seen: Seen) -> Iterator[str]:
    """In each stretch between two stops the commands that began and whose end isn't acked. Where
    only a `night` was killed, an end from before that may be durable, and nobody has learned it."""
    for at, live, _ in begins_of(seen):
        most, is_set = limit_at(seen, at, "j", seen.plan.most)
        if most is not None and live > most:
            yield (f"{'set' if is_set else '2'}: {live} commands live or are unrecorded at"
                   f" {at:.3f}, and not {most} at most")
            return


def group_places(seen: Seen) -> Iterator[str]:
    """The same of each group."""
    for group in seen.plan.groups.values():
        for at, live, _ in begins_of(seen, group.name):
            most, is_set = limit_at(seen, at, group.name, group.limit)
            if most is not None and live > most:
                yield (f"{'set' if is_set else '2'}: {live} commands of {group.name} live or are"
                       f" unrecorded at {at:.3f}, and not {most} at most")
                break


def pool_places(seen: Seen) -> Iterator[str]:
    """The same of the pool: no more of it is taken than there is."""
    uses = seen.plan.uses
    for at, live, _ in lives_of(seen, [it for it in seen.all_tries() if it.key in uses]):
        taken = sum(uses[key] for key in live)
        if taken > seen.plan.tape:
            yield (f"pool: {sorted(live)} live or are unrecorded at {at:.3f}, and take {taken} of"
                   f" {seen.plan.tape}")
            break


def begins_of(seen: Seen, group: str = "") -> Iterator[tuple[float, int, str]]:
    """Each begin of a command, of a group or of all, with how many of them live then."""
    its = [it for it in seen.all_tries() if not group or seen.plan.commands[it.key].group == group]
    for at, live, key in lives_of(seen, its):
        yield at, len(live), key


def lives_of(seen: Seen, its: list[Try]) -> Iterator[tuple[float, set[str], str]]:
    """Each begin of these tries, with the commands that live then."""
    keys = {it.key for it in its}
    events: list[tuple[float, int, str]] = [(it.at, 0, "") for it in seen.stops]
    events += [(at, 1, it.key) for at in seen.hits for it in its
               if it.ended is not None and it.ended < at]
    events += [(started(seen, it), 2, it.key) for it in its]
    events += [(it.at, 1, key) for key in keys for it in seen.acked[key] if it.end]
    live: set[str] = set()
    for at, what, key in sorted(events):
        if what == 0:
            live.clear()
        elif what == 1:
            live.discard(key)
        else:
            live.add(key)
            yield at, live, key


def limit_at(seen: Seen, at: float, name: str, usual: int | None) -> tuple[int | None, bool]:
    """A limit at a moment, and whether it was set; None where there may be none."""
    found = [dict(it.limits).get(name, usual) for it in seen.wanted.at(at)]
    known = [it for it in found if it is not None]
    return max(known) if len(known) == len(found) else None, found != [usual] * len(found)


# --- 3: a round takes a bounded time

def cancels_obeyed(seen: Seen) -> Iterator[str]:
    for it in seen.cancels:
        obeyed = obeyed_at(seen, it)
        if it.written is not None and obeyed is not None:
            begun = starts_in(seen, seen.all_tries(), it.written, obeyed)
            is_slow = obeyed - it.written > PROMPT + seen.slack(it.written, obeyed)
            # (a driver that ends meanwhile has let it wait, too)
            if is_slow and it.had_driver or begun > ROUNDS * seen.most:
                yield (f"3: the cancel of {it.group} was obeyed {obeyed - it.written:.2f} s later,"
                       f" after {begun} commands had been begun")
        if it.status:
            continue
        end = next((run.began for run in seen.runs if run.is_first_of and run.began > it.done),
                   float("inf"))
        # (a start is acked before the cancel or never, so this holds however slow the machine is)
        late = [one for one in seen.all_tries() if it.done < started(seen, one) < end
                and seen.plan.commands[one.key].group in it.groups
                and not seen.plan.cleans_up(one.key)
                and not seen.wanted.redone(one.key, it.asked, started(seen, one))]
        if late:
            yield (f"3: {len(late)} commands of {it.group} began after its cancel, {late[-1].key}"
                   f" {late[-1].began - it.done:.2f} s later")


def obeyed_at(seen: Seen, it: Cancel) -> float | None:
    """When a cancel was obeyed, at the latest as it was answered; None where its group was done
    already. (That it was written may be seen late, after it was obeyed.)"""
    at = next((at for at, group in seen.canceled
               if group == it.group and it.asked < at < it.done), None)
    night = epoch_of(seen, it.asked)
    was_done = it.was_late or any(group in (it.group, "night") and night < one <= it.asked
                                  for one, group in seen.canceled)
    return at if at is not None else None if was_done else it.done


def starts_in(seen: Seen, its: list[Try], one: float, other: float) -> int:
    """How many of these tries had their starts acked between these moments. (A start that is acked
    with its end, of a try that outlived its driver, begins nothing.)"""
    return sum(one < started(seen, it) < other for it in its)


def deadlines_kept(seen: Seen) -> Iterator[str]:
    for group in seen.plan.groups.values():
        for moment, until in deadlines_of(seen, group):
            its = [it for it in tries_of(seen, group.name) if not seen.plan.cleans_up(it.key)]
            begun = starts_in(seen, its, moment + 1, until)
            if begun > ROUNDS * seen.most:
                yield f"3: {begun} commands of {group.name} began after its deadline"
            for it in its:
                began = started(seen, it)
                if began > until:
                    continue
                if began > moment + PROMPT + seen.slack(moment, began):
                    yield (f"3: {it.key} began {began - moment:.2f} s after the deadline of"
                           f" {group.name}")
                    break
                if it.ended is None or not has_driver(seen, it.began, it.ended):
                    continue
                if it.ended > moment + seen.plan.grace + PROMPT + seen.slack(moment, it.ended):
                    yield f"3: {it.key} ran {it.ended - moment:.2f} s on after its deadline"


def deadlines_of(seen: Seen, group: Group) -> Iterator[tuple[float, float]]:
    """When a group's deadline has surely passed, and until when it holds."""
    if group.until is not None:
        yield group.until - offset_of_clock(), float("inf")
    if group.within is None:
        return
    starts = [it.began for it in seen.runs if it.is_first_of] + [float("inf")]
    for one, other in zip(starts, starts[1:]):
        first = min((it.at for key, acks in seen.acked.items() for it in acks
                     if seen.plan.commands[key].group == group.name and one < it.at < other),
                    default=None)
        if first is not None:
            # (a group of which something is to run again gets another one)
            again = [it.asked for it in seen.wanted.again if one < it.asked < other
                     and any(seen.plan.commands[key].group == group.name for key in it.keys)]
            yield first + group.within + 1, min([other, *again])


def timeouts_kept(seen: Seen) -> Iterator[str]:
    for it in seen.all_tries():
        timeout = seen.plan.timeout_of(it.key)
        if timeout is None or it.ended is None:
            continue
        most = timeout + seen.plan.grace + PROMPT + seen.slack(it.began, it.ended)
        if it.ended - it.began > most and has_driver(seen, it.began, it.ended):
            yield f"3: {it.key} ran {it.ended - it.began:.2f} s, with a timeout of {timeout} s"


# --- 5: an end counts once, and a try that was stopped never as ok

def ended_once(seen: Seen) -> Iterator[str]:
    """Between two tries of a key in a night its end isn't acked, or it may be tried again."""
    for key, tries in seen.tries.items():
        used = 0
        for one, other in zip(tries, tries[1:]):
            opened = next((run.is_first_of for run in reversed(seen.runs)
                           if run.is_first_of and one.began < run.began < other.began), "")
            end = end_between(seen, key, one.began, other.began)
            if opened == "night" or seen.wanted.redone(key, one.began, started(seen, other)):
                used = 0
            elif end == "ok":
                yield f"5: {key} began again at {other.began:.3f}, and it had ended ok"
            elif opened == "failed":
                used = 0
            elif end is not None:
                used += 1
                if used > seen.plan.retries_of(key):
                    yield f"5: {key} began again at {other.began:.3f}, after `{end}`"


def stopped_not_ok(seen: Seen) -> Iterator[str]:
    for key, tries in seen.tries.items():
        for at, it in enumerate(tries):
            later = tries[at + 1].began if at + 1 < len(tries) else float("inf")
            if it.terms and end_between(seen, key, it.began, later) == "ok":
                yield f"5: {key} was stopped at {it.terms[0]:.3f}, and counts as ok"


def end_between(seen: Seen, key: str, one: float, other: float) -> str | None:
    """The last end of a key that was acked between these moments."""
    return next((it.end for it in reversed(seen.acked[key])
                 if it.end is not None and one < it.at < other), None)


# --- 6: this many commands run twice after a stop that ends them, and none after another one

def run_twice(seen: Seen) -> Iterator[str]:
    again: Counter[int] = Counter()
    for key, tries in seen.tries.items():
        for one, other in zip(tries, tries[1:]):
            is_again = seen.wanted.redone(key, one.began, started(seen, other))
            if is_again or end_between(seen, key, one.began, other.began) is not None:
                continue
            between = [(number, it) for number, it in enumerate(seen.stops)
                       if started(seen, one) <= it.at < other.began]
            at = next((number for number, it in between if it.how not in LEAVE), None)
            if at is not None:
                again[at] += 1
            elif not any(run.is_first_of and one.began < run.began < other.began
                         for run in seen.runs):
                hows = ", ".join(it.how for _, it in between) or "no stop"
                yield f"6: {key} began again at {other.began:.3f}, with {hows} between"
    for at, count in again.items():
        if count > seen.stops[at].most:
            yield f"6: {count} commands ran twice after one stop ({seen.stops[at].how})"


# --- what comes after what

def ordered(seen: Seen) -> Iterator[str]:
    for it in seen.all_tries():
        since = night_of(seen, it.began)
        for other in seen.plan.before(it.key):
            earlier = [one for one in seen.tries[other] if since <= one.began < it.began]
            last = earlier[-1] if earlier else None
            if not last or not last.is_whole() or last.ended is None or last.ended > it.began:
                yield f"after: {it.key} began at {it.began:.3f}, and {other} hadn't ended ok"


def stopped_on_failure(seen: Seen) -> Iterator[str]:
    for group in seen.plan.groups.values():
        if not group.stops:
            continue
        for it in tries_of(seen, group.name):
            since, at = epoch_of(seen, it.began), started(seen, it)
            failed = next((key for key in seen.acked if seen.plan.commands[key].group == group.name
                           and has_failed(seen, key, max(
                               since, seen.wanted.since_at_most(key, at)), at)), None)
            if failed and failed != it.key and not seen.plan.cleans_up(it.key):
                yield f"stop on failure: {it.key} began at {it.began:.3f}, after {failed} failed"
                break


def has_failed(seen: Seen, key: str, since: float, until: float) -> bool:
    """Whether a key had failed for good between these moments."""
    ends = [it.end for it in seen.acked[key] if it.end is not None and since < it.at < until]
    return len(ends) > seen.plan.retries_of(key) and all(it.startswith("exit") for it in ends)


# --- cleanups

def cleaned_up(seen: Seen) -> Iterator[str]:
    """A cleanup begins once everything that it comes after has ended. Such a command doesn't live
    then, and doesn't begin afterwards, except when somebody asks for it again."""
    for it in seen.all_tries():
        for key in seen.plan.cleaned_by(it.key):
            late = next((one for one in seen.tries[key] if hadnt_ended(seen, one, it)), None)
            if late:
                yield (f"cleanup: {it.key} began at {it.began:.3f}, and {key} hadn't ended: {late}")


def hadnt_ended(seen: Seen, one: Try, cleanup: Try) -> bool:
    """Whether a try shows that its command hadn't ended when a cleanup after it began."""
    at, began = started(seen, cleanup), started(seen, one)
    if began < at:
        return any(at < it for it in (*one.terms, *([one.ended] if one.ended else ())))
    return epoch_of(seen, one.began) == epoch_of(seen, cleanup.began) \
        and not may_come_back(seen, one.key, at, began)


def may_come_back(seen: Seen, key: str, one: float, other: float) -> bool:
    """Whether a command that had ended by the first moment may begin by the second one: it is
    wanted again; or it was left out, or not due, or not started because its group had stopped, as
    may also be so of a command that it comes after."""
    its = with_needs(seen.plan, [key], seen.plan.not_due)
    stopped = {it.key for it in seen.plan.commands.values() if seen.plan.groups[it.group].stops
               and any(seen.plan.commands[name].group == it.group for name in its)}
    return any(world.leaves_out(name) for world in seen.wanted.at(one) for name in its) or any(
        seen.wanted.redone(name, one, other) for name in its | stopped)


def cleanups_go_on(seen: Seen) -> Iterator[str]:
    """Only its own timeout stops a cleanup that runs, or a signal to its driver."""
    for it in (it for it in seen.all_tries() if it.terms and seen.plan.cleans_up(it.key)):
        timeout, moment = seen.plan.timeout_of(it.key), it.terms[0]
        is_overdue = timeout is not None and moment >= started(seen, it) + timeout - 0.1
        if not is_overdue and not is_asked_to_stop(seen, moment):
            yield f"cleanup: {it.key} began at {it.began:.3f}, and was stopped at {moment:.3f}"


def is_asked_to_stop(seen: Seen, moment: float) -> bool:
    """Whether the driver of this moment was asked to end, and to stop what runs."""
    stop = next((it for it in seen.stops if it.at >= moment), None)
    return stop is not None and stop.how in ASKED_TO_STOP \
        and not any(moment < it.began < stop.at for it in seen.runs)


def outputs_own(seen: Seen) -> Iterator[str]:
    """Each try has an output of its own, whose name ends with its number. (Numbers begin again with
    a round of the group, which is in that name: another night, a group that was done, a store that
    was renewed or made again.)"""
    for key, tries in seen.tries.items():
        had: set[str] = set()
        since = 0.0
        for it in tries:
            if it.output in had:
                yield f"5: {key} has two tries with the output {it.output}"
            # (where `night` died as it began, on a busy machine, its output has another name now)
            starts = sum(ack.end is None and since < ack.at <= it.began for ack in seen.acked[key])
            is_its = it.output.rpartition(f".{key}.")[2] == it.number
            if it.number != "-" and not is_its and starts < 2:
                yield f"5: {key}: the output of try {it.number} is {it.output}"
            had.add(it.output)
            since = it.began


def in_places(seen: Seen) -> Iterator[str]:
    for it in seen.all_tries():
        command = seen.plan.commands[it.key]
        if command.folder and it.folder != command.folder:
            yield f"in: {it.key} ran in {it.folder}"
        word = command.word or (SECRET if command.group in seen.plan.secret else "")
        if word and it.word != word:
            yield f"env: {it.key} had the word {it.word}"


def limited(seen: Seen) -> Iterator[str]:
    """Each command has the limits of its own and of its group. (Its memory may be that of a scope,
    where systemd makes one.)"""
    usual, has_systemd = os.nice(0), os.path.isdir("/run/systemd/system")
    for it in seen.all_tries():
        command = seen.plan.commands[it.key]
        its = f"{command.limits} {seen.plan.groups[command.group].limits}"
        if it.nice != min(usual + (1 if NICE in its else 0), MOST_NICE):
            yield f"limits: {it.key} had the niceness {it.nice}"
        if it.kilobytes != (KILOBYTES if MEMORY in its else 0) and not has_systemd:
            yield f"limits: {it.key} had {it.kilobytes} kB of memory"


# --- what is asked of all

def started(seen: Seen, it: Try) -> float:
    """When the start of a try was acked. (It may begin after its driver has ended.)"""
    acks = [ack.at for ack in seen.acked[it.key] if ack.end is None and ack.at <= it.began]
    return acks[-1] if acks else it.began


def tries_of(seen: Seen, group: str) -> list[Try]:
    return [it for it in seen.all_tries() if seen.plan.commands[it.key].group == group]


def night_of(seen: Seen, at: float) -> float:
    """When the night began in which this moment is."""
    return next((it.began for it in reversed(seen.runs)
                 if it.is_first_of == "night" and it.began <= at), 0.0)


def epoch_of(seen: Seen, at: float) -> float:
    """The same, or when what failed was asked for once more."""
    return next((it.began for it in reversed(seen.runs)
                 if it.is_first_of and it.began <= at), 0.0)


def has_driver(seen: Seen, one: float, other: float) -> bool:
    """Whether a driver ran all the time between these moments, and wasn't asked to end."""
    return (any(it.began <= one and other <= it.ended for it in seen.runs)
            and not any(one <= it.at <= other for it in seen.stops))


def offset_of_clock() -> float:
    """The time of day less the monotonic clock."""
    return time.time() - time.monotonic()
