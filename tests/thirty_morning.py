"""What is compared in the morning: each form in which the driver shows a night, with the oracle."""

from __future__ import annotations

import collections
import math
import os
import re
import statistics
import time
from dataclasses import dataclass
from typing import Any

from nights_oracle import Try
from thirty_oracle import (WELL, Cancel, Facts, Found, Phase, Redo, Standing, Stop,
                           shown)
from thirty_plan import Act, Name
from thirty_room import JOBS, STORE, Room, Run

# How much longer than it says itself a try may take by the driver's clock, on a quick machine.
LONGER = 0.5
# How many seconds before a kill an end may be lost.
A_MOMENT = 2.0
# The phases that are a failure. A command in one of them has a cell of tonight, even if it didn't
# begin.
BAD = (Phase.FAILED, Phase.CANCELED, Phase.NOT_STARTED)
# The sizes of a store (docs/formats/console.md).
SIZES = (1_572_864, 6_291_456)


@dataclass
class Night:
    """A night that has ended: what is known of it, and how its commands have to stand."""

    facts: Facts
    found: dict[Name, Found]
    acts: dict[Name, Act]

    @property
    def number(self) -> int:
        return self.facts.number

    def tries(self, name: Name) -> list[Try]:
        return self.facts.tries.get(name, [])

    def was_cut(self, it: Try) -> bool:
        """Whether a try was cut off, or its end may have been lost."""
        return any(stop.ends_commands and it.began <= stop.done for stop in self.facts.stops)

    def may_be_lost(self, it: Try) -> bool:
        """Whether a kill came just as a try ended, so that nobody recorded its end."""
        return any(stop.ends_commands and it.began <= stop.done
                   and (it.ended or math.inf) >= stop.at - A_MOMENT for stop in self.facts.stops)

    def more_tries(self, name: Name) -> int:
        """How many tries a command may have besides those that it wrote down: one was started, and
        a kill or a cancel came before the command itself began, or the cancel of its group by a
        failure while the disk had no room for it; or a cancel of it alone, which has a line of its
        own in the log."""
        its, facts = self.tries(name), self.facts
        stops: list[Stop | Cancel | Redo] = [*facts.stops, *facts.cancels, *facts.redos]
        alone = sum(it.names == {name} for it in facts.cancels)
        if name in self.found and Phase.CANCELED in self.found[name].phases:
            alone += len(facts.full)
        return alone + sum(not any(
            it.began <= stop.at and (it.ended or math.inf) >= stop.at for it in its)
            for stop in stops)


class Morning:
    """The comparisons of a night, once it has ended."""

    def __init__(self, room: Room, night: Night, earlier: dict[int, Night], run: Run) -> None:
        self.room, self.night, self.earlier, self.run = room, night, earlier, run
        self.facts, self.plan = night.facts, night.facts.plan
        self.number = night.number

    def holds(self, is_so: bool, complaint: str) -> bool:
        return self.room.holds(is_so, f"night {self.number}: {complaint}")

    # --- one phase of one command

    def is_right(self, where: str, name: Name, phase: str, end: str | None = None) -> None:
        """Compares how a command stands somewhere."""
        found = self.night.found[name]
        likely = [it for it in found.standings if it.phase.value == phase]
        self.holds(bool(likely), f"{where}: {shown(name)} is {phase} ({end}), and not"
                   f" {sorted(map(str, found.standings))}")
        ends = {it.end for it in likely if it.end}
        if ends and end is not None:
            self.holds(end in ends, f"{where}: {shown(name)} ended with {end!r}, and not {ends}")

    def counts_are_right(self, where: str, counts: dict[str, int], names: list[Name]) -> None:
        """Compares how many commands are in each phase: those that are certain are at least there,
        and others may be."""
        low, high = collections.Counter[str](), collections.Counter[str]()
        for name in names:
            phases = self.night.found[name].phases
            low.update(it.value for it in phases if len(phases) == 1)
            high.update(it.value for it in phases)
        named = {*low, *high, *(it for it, count in counts.items() if count)}
        self.holds(sum(counts.values()) == len(names) and all(
            low[it] <= counts.get(it, 0) <= high[it] for it in named),
            f"{where}: {counts}, and not {dict(low)} to {dict(high)}")

    # --- the forms

    def exit_status(self) -> None:
        standings = [it.phases for it in self.night.found.values()]
        may = {int(not all(phases & {*WELL} for phases in standings)),
               int(any(phases - {*WELL} for phases in standings))}
        self.holds(self.run.status in may, f"the exit status is {self.run.status}, and not {may}")

    def summary(self, lines: list[str]) -> None:
        """The lines of a run: a line for each command that isn't well, and the counts."""
        last = lines[-1] if lines else ""
        if not last.startswith("nothing to do"):
            found = re.fullmatch(r"60 commands: (.*); (\d+) run this time", last)
            self.holds(found is not None, f"the summary ends with {last!r}")
            if found:
                counts = {it.partition(" ")[2]: int(it.partition(" ")[0])
                          for it in found[1].split(", ")}
                self.counts_are_right("the summary", counts, list(self.night.found))
        named = dict[Name, str]()
        for line in lines[:-1]:
            if it := re.fullmatch(r"([a-z]+) ([a-z0-9]+): ([^;]*)(?:; \S+)?", line):
                named[it[1], it[2]] = it[3]
        for name, of in self.night.found.items():
            bad = [one for one in of.standings if one.phase in (*BAD, Phase.LEFT_OUT)]
            self.holds(name in named or len(bad) < len(of.standings),
                       f"the summary doesn't name {shown(name)}")
            self.holds(name not in named or bool(bad),
                       f"the summary names {shown(name)}: {named.get(name)}")
            if name in named and bad:
                self.is_reason("the summary", name, named[name], bad)

    def is_reason(self, where: str, name: Name, text: str, bad: list[Standing]) -> None:
        """Compares why a command didn't end well: its own end, or another command that didn't."""
        texts = [it.end for it in bad if it.end]
        other = re.search(r"because (\S+)/(\S+) (?:failed|was |is left out)", text)
        names_one = other is not None and (other[1], other[2]) in self.night.found and bool(
            self.night.found[other[1], other[2]].phases - {Phase.OK, Phase.NOT_DUE})
        is_by_hand = text.startswith("left out by ") and text.endswith(" (--skip)")
        self.holds(text in texts or any(it.phase.value in text for it in bad if not it.end)
                   and (names_one or is_by_hand), f"{where}: {shown(name)}: {text}, and not {bad}")

    def history(self) -> Any:
        made = self.room.look_at(STORE, JOBS, "--report", "history-json")
        its = {(it["group"], it["key"]): it for it in made["commands"]}
        nights = {it["number"]: it for it in made["nights"]}
        kept = [*sorted(self.earlier), self.number][-min(30, self.room.keep + 1):]
        self.holds(list(nights) == kept, f"the history has the nights {list(nights)}, not {kept}")
        every = {**self.earlier, self.number: self.night}
        for number in (it for it in kept if it in every):
            self.cells(every[number], nights.get(number, {}), {
                name: cell for name, it in its.items() for cell in it["nights"]
                if cell["night"] == number})
        for name, it in its.items():
            self.in_all(name, it, [every[number] for number in kept])
        self.order([every[number] for number in kept], list(its))
        return made

    def cells(self, night: Night, row: dict[str, Any], cells: dict[Name, Any]) -> None:
        """Compares a night in the history."""
        is_tonight = night.number == self.number
        where = f"the history of night {night.number}"
        for name, found in night.found.items():
            cell, its = cells.get(name), night.tries(name)
            if cell is None:
                may_lack = not its and (not is_tonight or bool(
                    {it.phase for it in found.standings} - {*BAD}))
                self.holds(may_lack, f"{where} lacks {shown(name)}, which is {found.standings}")
                continue
            self.holds(bool(its) or bool(night.more_tries(name))
                       or is_tonight and bool(found.phases & {*BAD}),
                       f"{where} has {shown(name)}, which is {found.standings}: {cell}")
            self.cell(where, night, name, cell)
        for name in {it for it in night.facts.tries if it not in night.found} - (
                {*night.facts.tries} if is_tonight else set()):
            self.holds(name in cells, f"{where} lacks {shown(name)}, which is in no file now")
        if cells:
            self.totals(where, night, row, cells)

    def cell(self, where: str, night: Night, name: Name, cell: dict[str, Any]) -> None:
        found, its = night.found[name], night.tries(name)
        every, more = set(found.states), night.more_tries(name)
        if night.number != self.number and (night.was_cut(its[-1]) if its else more):
            # (what was cut off, and kept from beginning again after that)
            every |= {(Standing(Phase.INTERRUPTED), failures) for standing, failures in every
                      if standing.phase is not Phase.OK}
        states = [(standing, failures) for standing, failures in every
                  if standing.phase.value == cell["phase"]]
        self.holds(bool(states), f"{where}: {shown(name)} is {cell['phase']}, and not"
                   f" {sorted(map(str, every))}")
        self.holds(len(its) <= cell["tries"] <= len(its) + more,
                   f"{where}: {shown(name)} has {cell['tries']} tries, and not {len(its)}")
        self.holds(not states or cell["failures"] in {it for _, it in states},
                   f"{where}: {shown(name)} has {cell['failures']} failures, and not {states}")
        ends = {it.end for it, _ in states if it.end}
        self.holds(not ends or cell["end"] in ends,
                   f"{where}: {shown(name)} ended with {cell['end']!r}, and not {ends}")
        whole = seconds_of(self.room, its)
        if whole is not None and not more and not any(map(night.may_be_lost, its)):
            longer = len(its) * LONGER + self.room.pace.slack(its[0].began, its[-1].began)
            self.holds(cell["seconds"] is not None and whole - 0.002 <= cell["seconds"]
                       <= whole + longer,
                       f"{where}: {shown(name)} took {cell['seconds']} s, and not {whole:.3f}")
            if not any(at < (one.ended or 0) and one.began < done for at, done in night.facts.full
                       for one in its):
                size = sum(printed(night.acts[name], one) for one in its)
                self.holds(cell["output"] == size,
                           f"{where}: {shown(name)} printed {cell['output']}, and not {size}")

    def totals(self, where: str, night: Night, row: dict[str, Any],
               cells: dict[Name, Any]) -> None:
        """A night as a whole is the sum of its commands."""
        wanted = {"commands": len(cells), "tries": sum(it["tries"] for it in cells.values()),
                  "failed": sum(it["phase"] == "failed" for it in cells.values()),
                  "output": sum(it["output"] or 0 for it in cells.values())}
        found = {it: row.get(it) or 0 for it in wanted}
        self.holds(found == wanted, f"{where} has {found}, and not {wanted}")
        begun = [it.began for its in night.facts.tries.values() for it in its]
        if begun and not night.facts.stops:
            at = self.room.clock.shown(min(begun))
            self.holds(row.get("began") is not None and -1.5 - self.room.pace.slack(
                min(begun) - 1, min(begun)) <= row["began"] - at <= 1.5,
                f"{where} began at {row.get('began')}, and not at {at:.1f}")

    def in_all(self, name: Name, row: dict[str, Any], nights: list[Night]) -> None:
        """Compares what the history says of a command over all nights."""
        self.holds(row["is_listed"] == (name in self.plan.commands),
                   f"the history says that {shown(name)} is listed: {row['is_listed']}")
        its = [it for it in nights if name in it.found and (
            it.tries(name) or it.number == self.number)]
        if any(not it.found[name].is_certain for it in its) or any(
                name not in it.found and it.tries(name) for it in nights):
            return
        states = [(it, *next(iter(it.found[name].states))) for it in its]
        well = sum(standing.phase is Phase.OK for _, standing, _ in states)
        bad = sum(failures > 0 or standing.phase is Phase.FAILED
                  for _, standing, failures in states)
        found = row["ok"], row["troubled"], row["is_flaky"]
        self.holds(found == (well, bad, bool(well and bad)),
                   f"the history has {shown(name)}: {found}, and not {(well, bad)}")
        # (a kill may take the line of the log with the seconds of what ended just before it)
        times = [None if it.more_tries(name) else seconds_of(self.room, it.tries(name))
                 for it, standing, _ in states
                 if it.number != self.number and standing.phase is Phase.OK]
        if times and None not in times:
            low = statistics.median(it for it in times if it is not None)
            self.holds(row["median"] is not None and low - 0.002 <= row["median"] <= low + 3,
                       f"the history has {shown(name)} with the median {row['median']}, not {low}")

    def order(self, nights: list[Night], names: list[Name]) -> None:
        """Flaky commands come first, the worst of them before the others, and those last that the
        file doesn't have."""
        ranks = []
        for name in names:
            its = [next(iter(it.found[name].states)) for it in nights
                   if name in it.found and it.found[name].is_certain
                   and (it.tries(name) or it.number == self.number)]
            if any(name in it.facts.tries and (name not in it.found
                                               or not it.found[name].is_certain) for it in nights):
                continue
            bad = sum(failures > 0 or standing.phase is Phase.FAILED for standing, failures in its)
            well = any(standing.phase is Phase.OK for standing, _ in its)
            ranks.append((name not in self.plan.commands, -bad if well else 0, not bad))
        self.holds(ranks == sorted(ranks), f"the history's order is {list(zip(names, ranks))}")

    def status(self) -> None:
        made = self.room.look_at(STORE, "--status", "--json")
        self.counts_are_right("the status", made["counts"], list(self.night.found))
        self.holds((made["night"], made["is_over"], made["running"], made["waiting"],
                    made["driver"]) == (self.number, True, [], [], None),
                   f"the status is {({**made, 'unwell': ''})}")
        unwell = {(it["group"], it["key"]): it for it in made["unwell"]}
        for name, found in self.night.found.items():
            bad = found.phases & {*BAD}
            self.holds(name in unwell or found.phases != bad,
                       f"the status says nothing of {shown(name)}, which is {found.standings}")
            if name in unwell:
                self.is_right("the status", name, unwell[name]["phase"], unwell[name]["end"])

    def listed(self) -> None:
        made = self.room.look_at(STORE, JOBS, "--list", "--json")
        its = {(it["group"], it["key"]): it for it in made}
        self.holds(list(its) == list(self.night.found), f"the list has {list(its)}")
        for name, it in its.items():
            self.is_right("the list", name, it["phase"], it["end"])
            tries, more = len(self.night.tries(name)), self.night.more_tries(name)
            self.holds(tries <= len(it["tries"]) <= tries + more,
                       f"the list: {shown(name)} has {len(it['tries'])} tries, and not {tries}")

    def metrics(self) -> None:
        text = self.room.look(STORE, JOBS, "--report", "prom")
        counts: dict[str, dict[str, int]] = collections.defaultdict(dict)
        for group, phase, count in re.findall(
                r'^night_run_commands\{.*group="(.*)",phase="(.*)"\} (\d+)$', text, re.M):
            counts[group][phase] = int(count)
        for group in self.plan.groups:
            self.counts_are_right(f"the metrics of {group}", counts[group],
                                  [it.name for it in self.plan.members(group)])
        tries = {(it[0], it[1]): int(it[2]) for it in re.findall(
            r'^night_run_command_tries\{.*group="(.*)",key="(.*)"\} (\d+)$', text, re.M)}
        for name in self.night.found:
            its, more = len(self.night.tries(name)), self.night.more_tries(name)
            self.holds(its <= tries.get(name, -1) <= its + more,
                       f"the metrics: {shown(name)} has {tries.get(name)} tries, and not {its}")

    def text(self) -> None:
        lines = self.room.look(STORE, JOBS, "--report", "text").partition("\n\n")[0].splitlines()
        place = next((at for at, it in enumerate(lines)
                      if it.startswith(f"{STORE}, night {self.number},")), len(lines))
        rest = [it for it in lines[place + 1:]]
        while rest and rest[0].startswith("  "):
            rest.pop(0)
        words = " ".join(it.strip() for it in rest)
        counts = {it[1]: int(it[0]) for it in re.findall(r"(\d+) ([a-z ]+)", words)}
        self.counts_are_right("the report", counts, list(self.night.found))
        is_well = all(it.phases <= {*WELL} for it in self.night.found.values())
        is_bad = any(it.phases <= {*BAD} for it in self.night.found.values())
        head = lines[0] if lines else ""
        self.holds(not is_well or head.startswith("All is well"), f"the report begins {head!r}")
        self.holds(not is_bad or not head.startswith("All is well"), f"the report begins {head!r}")

    def mails(self) -> None:
        """Each owner of what didn't end well has got one mail by the last run, with his commands
        alone."""
        since = time.time() - time.monotonic() + self.run.began
        texts: dict[str, list[str]] = collections.defaultdict(list)
        for it in os.listdir(f"{self.room.path}/mails"):
            if os.stat(f"{self.room.path}/mails/{it}").st_mtime < since:
                continue
            with open(f"{self.room.path}/mails/{it}", encoding="utf-8") as file:
                text = file.read()
            # (of a run that did the rest of the last night first there are mails of both)
            if text.startswith(f"{STORE}, night {self.number}: "):
                texts[it.rpartition(".")[0]].append(text)
        for owner in {it.owner for it in self.plan.commands.values()}:
            its = {it.name for it in self.plan.commands.values() if it.owner == owner}
            bad = {it for it in its if self.night.found[it].phases <= {*BAD}}
            may = {it for it in its if self.night.found[it].phases & {*BAD}}
            mailed = {(it[0], it[1]) for text in texts[owner]
                    for it in re.findall(r"^([a-z]+) ([a-z0-9]+): ", text, re.M)}
            self.holds(bad <= mailed <= may and len(texts[owner]) == int(bool(mailed)),
                       f"{owner} got {len(texts[owner])} mails about {sorted(map(shown, mailed))},"
                       f" and not about {sorted(map(shown, bad))}")

    # --- what is left beside the store

    def beside(self) -> None:
        """No file of an old night is left, and the outputs are those of the tries."""
        keep = self.room.keep
        names = set(os.listdir(f"{self.room.path}/disk"))
        logs = {f"s.log.{it}" for it in range(max(1, self.number - keep), self.number)}
        wanted = {"s", "s.log", "s.nights", "s.out", "s.lock", "s.tries", *logs}
        may = {"s.ended", "s.tonight", "s.cancel"}
        self.holds(wanted <= names <= wanted | may,
                   f"beside the store are {sorted(names ^ wanted)}")
        size = os.path.getsize(f"{self.room.path}/{STORE}")
        self.holds(size in SIZES, f"the store has {size} bytes")
        tries = set(os.listdir(f"{self.room.path}/disk/s.tries")) - {"night", "plan", "told"}
        # (the end of what the file no longer has is recorded nowhere; the next night removes it)
        gone = {it for it in tries if it.partition("--")[0] not in self.plan.groups
                and self.facts.renamed is not None}
        self.holds(tries == gone, f"s.tries has {sorted(tries - gone)}")
        outputs = collections.Counter[tuple[int, Name]]()
        for it in os.listdir(f"{self.room.path}/disk/s.out"):
            if of := output_of(it):
                outputs[of] += 1
            else:
                self.holds(False, f"s.out has {it}")
        every = {**self.earlier, self.number: self.night}
        for (number, name), count in outputs.items():
            its = len(every[number].tries(name)) if number in every else -1
            self.holds(number >= self.number - keep and its <= count <= its + (
                every[number].more_tries(name) if number in every else 0),
                f"s.out has {count} outputs of {shown(name)} in night {number}, and not {its}")
        for number in (it for it in every if it >= self.number - keep):
            for name in every[number].facts.tries:
                self.holds((number, name) in outputs,
                           f"s.out has no output of {shown(name)} in night {number}")


def output_of(name: str) -> tuple[int, Name] | None:
    """The night and the command of an output, by its name (docs/options.md)."""
    it = re.fullmatch(r"([a-z]+)(?:--(\d+)(?:-\d+)?)?\.([a-z0-9]+)\.\d+", name)
    return (int(it[2] or 1), (it[1], it[3])) if it else None


def seconds_of(room: Room, its: list[Try]) -> float | None:
    """How long tries took together; None where one was cut off, or the clock was set meanwhile."""
    if not its or any(it.ended is None for it in its) or room.clock.was_set(
            its[0].began, (its[-1].ended or 0) + 1):
        return None
    return sum((it.ended or 0) - it.began for it in its)


def printed(act: Act, it: Try) -> int:
    """How many bytes a try printed that came to its end."""
    return act.printed + len(f"{it.key} of {it.group} ends with status {it.status}\n")

