"""The file of commands, line by line:

    GROUP KEY COMMAND..        a command, which /bin/sh runs, or what `shell` names
    + ..                       the next line of that command
    GROUP: SETTING..           settings of a group
    GROUP KEY: SETTING..       settings of one command, which win over those of its group
    night: SETTING..           of all groups together: until MOMENT, within TIME, pool NAME N; and
                               what counts for each command unless it or its group says otherwise
    each NAME: VALUE..         a list; a line with {NAME} in its group or key stands for several
    include FILE               the lines of another file
    # ..                       a comment; it is ignored, and so is an empty line

The words of a line are separated by spaces and tabs. All mistakes are reported together. `lines`
has the rules for lines, `lists` those for lists, and `settings` the settings.

A moment is a time of day, such as 05:30, which means the next one, or a date and time, such as
2026-11-26T05:30, in this machine's zone unless an offset follows. A time is 2h, 90m, 1h30m or 45s.
"""

from __future__ import annotations

import collections
import datetime
import functools
from collections.abc import Callable, Iterable
from dataclasses import dataclass, field
from typing import TypeVar

from . import Mistake, Name
from .days import Days
from .limits import Limits
from .lines import Mistakes
from .ordering import Node, in_order
from .parsing import Parsed
from .reading import At, short
from .settings import OF_ALL, Retries, Settings, Way
from .telling import note
from .users import User

T = TypeVar("T")
# What may stand before the names after `after`.
WHENS = ("failed", "ended")


@dataclass(frozen=True)
class Need:
    """What a command comes after: the end of a command or of a whole group, how they end."""

    when: str  # well, failed or ended
    of: Name | str


@dataclass(frozen=True)
class Job:
    """A command of the file, with all of its settings."""

    group: str
    key: str
    command: str
    after: tuple[Need, ...]
    retries: int
    wait: int  # seconds before the first retry
    factor: int  # how many times as long each wait is as the one before
    most_wait: int | None  # seconds, at most
    priority: int
    uses: tuple[tuple[str, int], ...]  # pools, and how much of each
    timeout: int | None
    timeout_text: str
    folder: str | None
    env: tuple[tuple[str, str], ...] = field(repr=False)  # its values may be secrets
    keeps: bool  # processes that it leaves may live on
    way: Way  # where it runs
    shell: tuple[str, ...]  # what runs it; nothing where that is /bin/sh
    user: User | None  # as whom root runs it; None if it is the user of the night
    owner: str | None  # who gets a mail if it doesn't end well
    days: Days | None  # of the nights in which it is due; None if it is due in each
    limits: Limits  # what it may take of the machine

    @property
    def name(self) -> Name:
        return self.group, self.key

    def is_due(self, day: datetime.date | None) -> bool:
        """Whether it is due in the night of that day. If the day isn't known, it is."""
        return self.days is None or day is None or self.days.has(day)

    @property
    def cleans_up(self) -> bool:
        """Whether it comes after ends alone: then what cancels its group doesn't stop it."""
        return bool(self.after) and all(it.when == "ended" for it in self.after)


class Jobs:
    """The commands by group and key, in the file's order, and the settings of each group."""

    def __init__(self, path: str, lines: Iterable[str] | None = None) -> None:
        """Reads the file of this path; or these lines, which are called by the path."""
        self.path = path
        self.limits: dict[str, int] = {}  # those that were set tonight
        self.mistakes = Mistakes(path)
        self.parsed = Parsed(path, self.mistakes, lines)
        self.groups, self.files = self.parsed.groups, self.parsed.files
        for group, its in self.groups.items():
            self.check_way(group, its)
        texts = self.parsed.texts
        if not texts:
            self.mistakes.refuse()
            raise Mistake(f"{path}: it has no command")
        self.with_commands = {group for group, _ in texts}
        self.all: dict[Name, Job] = {it: self.job(it) for it in texts}
        self.members: dict[str, list[Name]] = collections.defaultdict(list)
        for name in self.all:
            self.members[name[0]].append(name)
        known = {*self.all, *self.members}
        self.order = in_order({
            **{it: [one.of for one in job.after if one.of in known]
               for it, job in self.all.items()},
            **{it: list(its) for it, its in self.members.items()}}, self.refuse_cycle)
        self.mistakes.refuse()

    def limit(self, group: str) -> int | None:
        """How many commands of a group may run at a time."""
        return self.limits.get(group, self.groups[group].limit)

    def limit_in_store(self, group: str) -> int | None:
        """The same as the store is to know it: it can't have another one while commands run, so
        one that was set tonight isn't there."""
        return None if group in self.limits else self.groups[group].limit

    def stops(self, group: str) -> bool:
        return self.groups[group].stops

    def cancels(self, group: str) -> bool:
        return self.groups[group].cancels

    def cleans_up(self, name: Name) -> bool:
        return name in self.all and self.all[name].cleans_up

    @property
    def has_days(self) -> bool:
        """Whether a command isn't due in each night."""
        return any(it.days for it in self.all.values())

    def priority(self, group: str) -> int:
        return self.groups[group].priority or 0

    @property
    def pools(self) -> dict[str, int]:
        """How much there is of each pool that the file names."""
        return self.groups[OF_ALL].pools

    def lists(self) -> list[tuple[str, list[str]]]:
        """The lists that lines stand for several by, and the values of each."""
        return [(name, list(map(str, its))) for name, its in self.parsed.lists.all.items()]

    def tell_unused(self) -> None:
        """Reports settings of commands or groups that don't exist, as after a typing error."""
        for group, its in self.groups.items():
            if group != OF_ALL and group not in self.members:
                note(f"{its.at}: the group {group} has no command")
        for (group, key), its in [*self.parsed.own.items(), *self.parsed.made.items()]:
            if (group, key) not in self.all:
                note(f"{its.at}: {group} has no command {key}")
        for at, name in self.parsed.lists.unused():
            note(f"{at}: no command is made over the list {name}")

    def check_way(self, group: str, its: Settings) -> None:
        if its.way.stop and not its.way.via:
            self.mistakes.add(its.at, f"{group} has `stop`, and no `via`; to start no more of it"
                                      " after a failure, write `stop on failure`")
        elif its.way.ask and not its.way.via:
            self.mistakes.add(its.at, f"{group} has `ask`, and no `via`")
        if not its.way.via:
            return
        for what in "shell", "user":
            found = [it.at for it in (its, *self.of_commands(group)) if getattr(it, what)]
            if found:
                self.mistakes.add(found[0], f"{group} has `via`, whose words run its commands, and"
                                            f" `{what}`")
        limited = [it.at for it in (its, *self.of_commands(group)) if it.limits.is_of_processes]
        if limited:
            self.mistakes.add(limited[0], f"{group} has `via`, so its commands run elsewhere, where"
                                          " nice, ionice, memory and cpu limit nothing")

    def of_commands(self, group: str) -> list[Settings]:
        """The settings of single commands of a group."""
        its = [*self.parsed.own.items(), *self.parsed.made.items()]
        return [it for (other, _), it in its if other == group]

    # --- what they come to

    def job(self, name: Name) -> Job:
        parsed, group = self.parsed, self.groups[name[0]]
        own = [it[name] for it in (parsed.own, parsed.made) if name in it]
        both = [*own, group]
        every = [*both, self.groups[OF_ALL]]
        retries = first(every, lambda it: it.retries) or Retries()
        timeout = first(every, lambda it: it.timeout)
        return Job(
            *name, parsed.texts[name],
            self.needs(name[0], first(both, lambda it: it if it.after else None)),
            retries.count, retries.wait, retries.factor, retries.most_wait,
            first(own, lambda it: it.priority) or 0, self.uses(every),
            timeout.seconds if timeout else None, timeout.text if timeout else "",
            first(every, lambda it: it.folder),
            tuple({name: value for it in reversed(every)
                   for name, value in (it.secrets | it.env).items()}.items()),
            any(it.keeps for it in every), group.way,
            () if group.way.via else (
                first(every, lambda it: it if it.shell else None) or Settings()).shell,
            None if group.way.via else first(every, lambda it: it.user),
            first(every, lambda it: it.owner), first(every, lambda it: it.days),
            functools.reduce(Limits.over, (it.limits for it in every)))

    def uses(self, every: list[Settings]) -> tuple[tuple[str, int], ...]:
        """How much a command has of each pool while it runs."""
        its = first(every, lambda it: it if it.uses else None) or Settings()
        for pool, amount in its.uses.items():
            if pool not in self.pools:
                self.mistakes.add(its.uses_at, f"uses {short(pool)}: no such pool; night: pool"
                                               f" {pool} N makes one")
            elif amount > self.pools[pool]:
                self.mistakes.add(its.uses_at, f"uses {pool} {amount}: the pool has"
                                               f" {self.pools[pool]}")
        return tuple(its.uses.items())

    def needs(self, group: str, its: Settings | None) -> tuple[Need, ...]:
        """What a group's command comes after by these settings. A key or a group may be called
        `failed` or `ended`, too."""
        found: list[Need] = []
        for words in its.after if its else ():
            when, words = ("well", words) if words[1:] == [] or words[0] not in WHENS \
                or (group, words[0]) in self.parsed.texts or words[0] in self.with_commands \
                else (words[0], words[1:])
            found += [Need(when, self.need(group, it, its.after_at if its else At()))
                      for it in words]
        return tuple(found)

    def need(self, group: str, word: str, at: At) -> Node:
        """The thing that a word after `after` names: a key of the same group, GROUP/KEY, or a
        group."""
        where, slash, key = word.partition("/")
        texts = self.parsed.texts
        is_group = word != OF_ALL and word in self.with_commands
        if slash and (where, key) in texts:
            return where, key
        if (group, word) in texts and is_group:
            self.mistakes.add(at, f"after {word}: it is a group, and a key of {group}: write"
                                  f" {group}/{word} for the key; to name the group, rename the key")
            # (if it were taken for the key, a command of this key would wait for itself)
            return word if word != group else (group, word)
        if not is_group and (group, word) not in texts \
                and not self.parsed.is_misread(group, word):
            self.mistakes.add(at, f"after {short(word)}: no such key of {group}, and no such group")
        return (group, word) if (group, word) in texts else word

    def refuse_cycle(self, ring: list[Node]) -> None:
        """A cycle is a mistake, in the line of the setting that closes it."""
        name = next(it for it in ring if isinstance(it, tuple))
        its = [it[name] for it in (self.parsed.own, self.parsed.made) if name in it]
        at = first([*its, self.groups[name[0]]], lambda it: it.after_at if it.after else None)
        shown = ", after ".join(it if isinstance(it, str) else "/".join(it) for it in ring)
        self.mistakes.add(at or self.parsed.at[name], f"these wait for each other: {shown}")


def first(its: list[Settings], of: Callable[[Settings], T | None]) -> T | None:
    """What the first of these settings says that says anything."""
    return next((found for found in map(of, its) if found is not None), None)
