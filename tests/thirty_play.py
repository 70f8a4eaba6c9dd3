"""Thirty nights, one evening after the other, each with its accidents, and each compared in the
morning."""

from __future__ import annotations

import collections
import datetime
import random
import re
import time
from dataclasses import dataclass, field

from thirty_accidents import BEFORE, ONCE, RENEWED, WHEN_SLOW, Kind, happen, renamed
from thirty_evening import AHEAD, MISSING, Evening
from thirty_morning import Morning, Night, output_of
from thirty_oracle import Facts, Oracle, Phase
from thirty_order import Order
from thirty_plan import DAY, EVENING, HANGS, Act, Deadline, Name, acts_of, plan_of
from thirty_room import Room, Run, Unreadable

# Hours from the evening to a morning at which each deadline has passed.
TO_MORNING = 9.5
# After this many seconds without a word of a command what still runs hangs; as a driver begins it
# may take longer until the first word. A night that is quiet for the last of these times hangs.
QUIET, SLOW, HUNG = 2.5, 6.0, 60.0


@dataclass
class Tally:
    """What was tried over all nights."""

    accidents: collections.Counter[Kind] = field(default_factory=collections.Counter)
    phases: collections.Counter[Phase] = field(default_factory=collections.Counter)
    certain: int = 0
    standings: int = 0
    tries: int = 0


class Thirty:
    """The nights."""

    def __init__(self, room: Room, seed: int, is_short: bool) -> None:
        self.room, self.seed, self.is_short = room, seed, is_short
        self.dice = random.Random(f"{seed}.accidents")
        self.plan = plan_of("mails", Deadline(False, 5.5), Deadline(True, 8))
        self.nights: dict[int, Night] = {}
        self.left: Facts | None = None  # of a night that the next evening's run has to end
        self.left_acts: dict[Name, Act] = {}
        self.is_renamed = False  # whether a group got another name during the last night
        self.tally = Tally()
        room.write_plan(self.plan)

    # --- one night

    def play(self, number: int, kinds: list[Kind]) -> list[Kind]:
        """Plays a night, and returns the accidents that couldn't happen."""
        room = self.room
        missed: list[Kind] = []
        missed += [it for it in kinds if it is Kind.RENAME_BETWEEN and not self.rename()]
        acts = {**acts_of(renamed(self.plan), self.seed, number),
                **acts_of(self.plan, self.seed, number)}
        room.prepare(number, acts)
        evening = EVENING + (number - 1) * DAY
        # (after a night in which it was set a day on it may be a little later by now)
        is_set_back = room.clock.now() > evening + 60
        room.clock.set(evening + 60)
        day = datetime.datetime.fromtimestamp(evening, datetime.timezone.utc).date()
        begun = len(room.trace().tries)
        first, left = len(room.runs), self.left
        run = room.start("--nightly")
        if left:
            run.must_say.append(rf"night {left.number} wasn't finished: the rest of it comes first")
        if self.is_renamed or Kind.RENAME_BETWEEN in kinds:
            run.may_say.append(MISSING)
        facts = Facts(number, day, self.plan, run.began)
        held = {name for name, act in acts.items() if act.is_held}
        under_way = Evening(room, facts, self.dice, run, begun, held)
        if is_set_back:
            under_way.is_set_back = True
            run.may_say.append(AHEAD)
        if left:
            room.release()  # (what the rest runs holds nothing up)
        missed += self.disturb(under_way, [it for it in kinds if it not in BEFORE])
        room.release()
        self.is_renamed = facts.renamed is not None
        if under_way.is_left:
            self.plan, self.left, self.left_acts = facts.plan, facts, acts
            self.take_tries(facts, begun, None)
            return missed
        self.to_its_end(under_way, evening, acts)
        self.plan = facts.plan
        self.listen(first)
        self.take_tries(facts, begun, left)
        lines = under_way.run.output.splitlines()
        if left:
            lines = self.after_the_rest(left, lines)
        self.compare(facts, acts, lines, under_way.run)
        return missed

    def rename(self) -> bool:
        self.plan = renamed(self.plan)
        self.room.write_plan(self.plan)
        self.tally.accidents[Kind.RENAME_BETWEEN] += 1
        return True

    def disturb(self, under_way: Evening, kinds: list[Kind]) -> list[Kind]:
        """Has accidents happen in a night; those that didn't."""
        missed, most = [], 40 // max(1, len(kinds))
        least = 1
        for kind in kinds:
            is_running = under_way.wait_for_moment(least, least + most - 2)
            least += most // 2
            if is_running and happen(under_way, kind):
                self.tally.accidents[kind] += 1
            else:
                missed.append(kind)
            if under_way.is_left:
                break
        return missed

    def to_its_end(self, under_way: Evening, evening: float, acts: dict[Name, Act]) -> None:
        """Waits for the end of a night. What hangs is stopped by its deadline, once it is morning,
        and that comes once nothing else happens."""
        room, quiet, size, is_morning = self.room, time.monotonic(), -1, False
        while (run := under_way.run).is_active:
            now = time.monotonic()
            if room.trace_size() != size:
                size, quiet = room.trace_size(), now
            slack = room.pace.slack(quiet, now)
            late = QUIET + slack / 2 if quiet > run.began + QUIET else SLOW + 2 * slack
            if now > quiet + late and not is_morning and self.hangs(under_way, acts):
                if room.clock.now() < evening + 3600 * TO_MORNING:
                    room.clock.set(evening + 3600 * TO_MORNING)
                room.note("morning")
                is_morning, quiet = True, now
            if now > quiet + HUNG + 2 * slack:
                break
            time.sleep(0.02)
        room.end(run, 5)

    def hangs(self, under_way: Evening, acts: dict[Name, Act]) -> bool:
        """Whether a command runs that ends only by its deadline."""
        return any(under_way.is_running((it.group, it.key)) and it.timeout is None
                   for it in self.plan.commands.values()
                   if acts[it.name].milliseconds == HANGS)

    def listen(self, first: int) -> None:
        """Each run since this one has said what it had to, and nothing else."""
        for run in self.room.runs[first:]:
            lines = [it.removeprefix("night-run: ") for it in run.errors.splitlines()]
            # (one that was killed may not have come to say it)
            for pattern in run.must_say if run.status in (0, 1, 2) else []:
                self.room.holds(any(re.fullmatch(pattern, it) for it in lines),
                                f"`night-run {' '.join(run.words)}` didn't say {pattern!r}:"
                                f" {lines}")
            may = [*run.must_say, *run.may_say, RENEWED]
            may += WHEN_SLOW if self.room.is_slow(run) else []
            odd = [it for it in lines if not any(re.fullmatch(one, it) for one in may)]
            self.room.holds(not odd, f"`night-run {' '.join(run.words)}` said {odd}")

    def take_tries(self, facts: Facts, begun: int, left: Facts | None) -> None:
        """Sorts the tries since the evening by their nights. A try's output says of which night it
        is; so does the number that its command read, unless the last night's rest ran."""
        trace = self.room.trace()
        for it in trace.tries[begun:]:
            of = output_of(it.output)
            number = of[0] if of else 0
            name: Name = it.group, it.key
            is_right = number == facts.number == int(it.word)
            if left and number == left.number:
                left.tries.setdefault(name, []).append(it)
                continue
            self.room.holds(is_right, f"{it.group}/{it.key} of night {it.word} has the output"
                            f" {it.output}")
            facts.tries.setdefault(name, []).append(it)
        facts.over = time.monotonic()
        for seen in trace.beside:
            if facts.began < seen.at < facts.over:
                self.room.holds(False, str(seen))

    # --- the morning

    def after_the_rest(self, left: Facts, lines: list[str]) -> list[str]:
        """Compares the night before, whose rest came first; the lines of tonight."""
        room = self.room
        last = max((it.began for its in left.tries.values() for it in its), default=0.0)
        left.over = max(left.over, last, room.runs[-1].began)
        heads = [f"night {left.number}, the rest of it:", f"night {left.number + 1}:"]
        its = [lines.index(it) if it in lines else -1 for it in heads]
        if not room.holds(its[0] == 0 and its[1] > 0, f"the summary of a rest is {lines}"):
            return lines
        night = self.judged(left, self.left_acts)
        Morning(room, night, {}, room.runs[-1]).summary(lines[1:its[1]])
        self.nights[left.number] = night
        self.left = None
        return lines[its[1] + 1:]

    def judged(self, facts: Facts, acts: dict[Name, Act]) -> Night:
        """How a night has to stand."""
        room = self.room
        oracle = Oracle(facts, room.clock, room.runs, room.pace.slack)
        for it in [*oracle.complaints(), *Order(oracle).complaints()]:
            room.holds(False, f"night {facts.number}: {it}")
        tally = self.tally
        tally.standings += len(oracle.found)
        tally.certain += sum(it.is_certain for it in oracle.found.values())
        tally.tries += sum(map(len, facts.tries.values()))
        for found in oracle.found.values():
            tally.phases.update(found.phases if found.is_certain else ())
        return Night(facts, oracle.found, acts)

    def compare(self, facts: Facts, acts: dict[Name, Act], lines: list[str],
                run: Run) -> None:
        """Compares a night with all that the driver shows of it."""
        night = self.judged(facts, acts)
        morning = Morning(self.room, night, self.nights, run)
        try:
            self.look(morning, facts.number, lines)
        except Unreadable as error:
            self.room.holds(False, str(error))
        self.nights[facts.number] = night

    def look(self, morning: Morning, number: int, lines: list[str]) -> None:
        morning.exit_status()
        morning.summary(lines)
        morning.mails()
        morning.history()
        morning.status()
        more = [morning.listed, morning.metrics, morning.text]
        for at, look in enumerate(more):
            if not self.is_short or number % len(more) == at:
                look()
        morning.beside()


def scheduled(nights: int, is_short: bool, dice: random.Random, has_disk: bool) -> list[list[Kind]]:
    """The accidents of each night: each kind twice, or once in the short form; at least one a
    night, and at most three. Of very few nights not every kind has one."""
    kinds = [it for it in Kind if has_disk or it is not Kind.FULL_DISK]
    its = [it for kind in kinds for it in [kind] * (1 if is_short or kind in ONCE else 2)]
    dice.shuffle(its)
    found: list[list[Kind]] = [[] for _ in range(nights)]
    for kind in its[:3 * nights]:
        # (no night has the same one twice)
        free = [one for one in found if kind not in one] or found
        min(free, key=len).append(kind)
    for kinds_of in found:
        # (a night that is cut off has no accident after that)
        kinds_of.sort(key=lambda it: it is Kind.REBOOT_NEXT)
    return [it or [dice.choice(kinds)] for it in found]
