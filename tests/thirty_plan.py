"""The sixty commands of the thirty nights: their file, what it means, and what each command does in
which night.

What the file means is written down here a second time, by hand, from the page about it
(docs/command-file.md). The driver's own reader isn't asked.
"""

from __future__ import annotations

import calendar
import datetime
import enum
import random
from collections.abc import Iterator
from dataclasses import dataclass, field, replace

Name = tuple[str, str]

# The evening of the first night, 14 December 2026, a Monday, at 22:00 UTC; and a day.
EVENING, DAY = calendar.timegm((2026, 12, 14, 22, 0, 0)), 86_400
MOST, GRACE = 8, 1
HOSTS = "alpha bravo charlie delta echo foxtrot golf hotel india juliet".split()
TABLES = "orders users invoices stock prices logs carts terms visits notes".split()
STEPS = [f"s{at}" for at in range(10)]
PARTS = [f"p{at}" for at in range(10)]
MAILS = "report warn pack sheet weekly monthly all tidy audit bill".split()
# A command that hangs lasts this long, in milliseconds.
HANGS = 600_000
# What the file has, with the names and the deadlines that change from night to night.
FILE = """\
# sixty commands of three owners
each host: {hosts}
each table: {tables}
each step: {steps}
each part: {parts}
night: owner ops retries 0 pool tape 2

hosts: limit 4 {within} retries 1 wait 1s owner anna
hosts {{host}}  ./act hosts {{host}}
hosts india: timeout 1s
hosts juliet: retries 2 wait 1s x2 up to 2s

sums: priority 3
sums {{host}}
+ # one after each host
+ ./act sums {{host}}
sums {{host}}: after hosts/{{host}}

dumps: {until} uses tape 1 owner bert@example.org
dumps {{table}}  ./act dumps {{table}}
dumps users: after orders
dumps invoices: after orders users
dumps logs: on mon..fri
dumps terms: on 1 15
dumps visits: on sat,sun
dumps notes: timeout 1s retries 1 uses tape 2

steps: limit 1 stop on failure
steps {{step}}  ./act steps {{step}}
steps s3: priority 9
steps s7: priority 5
steps s8: retries 1

include pairs

{mails} report   ./act {mails} report
{mails} warn     ./act {mails} warn
{mails} pack     ./act {mails} pack
{mails} sheet    ./act {mails} sheet
{mails} weekly   ./act {mails} weekly
{mails} monthly  ./act {mails} monthly
{mails} all      ./act {mails} all
{mails} tidy     ./act {mails} tidy
{mails} audit    ./act {mails} audit
{mails} bill     ./act {mails} bill
{mails} report: after ended hosts sums dumps steps pair
{mails} warn: after failed dumps
{mails} pack: after dumps
{mails} sheet: after sums/alpha sums/bravo
{mails} weekly: on sun
{mails} monthly: on 1
{mails} all: after hosts sums
{mails} tidy: after ended dumps/orders
{mails} audit: after steps pair
{mails} bill: after failed hosts/alpha after ended sums
"""
PAIRS = """\
pair: failure cancel
pair {part}  ./act pair {part}
pair p0: retries 1
"""
# What a command runs: it does what `acts` says of it tonight, and writes that down.
ACT = """\
#!/bin/sh
. "./acts/$1.$2"
read -r WORD < tonight
export WORD
[ "$printed" = 0 ] || head -c "$printed" /dev/zero | tr '\\0' x
exec ./job . "$1" "$2" "$ms" "$status" "$fails" "$flags"
"""


class When(enum.Enum):
    """In which way a command comes after another one."""

    WELL = "well"
    FAILED = "failed"
    ENDED = "ended"


@dataclass(frozen=True)
class Need:
    """That all of these commands have ended in this way, or one of them has failed, if they are a
    whole group."""

    when: When
    of: tuple[Name, ...]


@dataclass(frozen=True)
class Command:
    """A command, as the file means it."""

    group: str
    key: str
    owner: str
    needs: tuple[Need, ...] = ()
    retries: int = 0
    wait: float = 0.0
    timeout: int | None = None
    days: frozenset[str] = frozenset()  # `mon` to `sun`, or a day of the month; empty for every day
    priority: int = 0
    tapes: int = 0

    @property
    def name(self) -> Name:
        return self.group, self.key

    @property
    def cleans_up(self) -> bool:
        return bool(self.needs) and all(it.when is When.ENDED for it in self.needs)

    def is_due(self, day: datetime.date) -> bool:
        names = {("mon", "tue", "wed", "thu", "fri", "sat", "sun")[day.weekday()], str(day.day)}
        return not self.days or bool(self.days & names)


@dataclass(frozen=True)
class Deadline:
    """A deadline of a group: a time of day in hours, or a number of hours after the begin."""

    is_within: bool
    hours: float

    def __str__(self) -> str:
        minutes = round(self.hours * 60)
        if self.is_within:
            return f"within {minutes // 60}h" + (f"{minutes % 60}m" if minutes % 60 else "")
        return f"until {minutes // 60:02}:{minutes % 60:02}"

    def moment(self, begun: float) -> float:
        """When it passes, counted from this moment."""
        if self.is_within:
            return begun + self.hours * 3600
        midnight = begun - begun % DAY
        at = midnight + self.hours * 3600
        return at if at > begun else at + DAY


@dataclass(frozen=True)
class Plan:
    """The file of a night, and what it means."""

    mails: str = "mails"
    until: Deadline = Deadline(False, 5.5)
    within: Deadline = Deadline(True, 8)
    commands: dict[Name, Command] = field(default_factory=dict)

    @property
    def text(self) -> str:
        return FILE.format(hosts=" ".join(HOSTS), tables=" ".join(TABLES), steps=" ".join(STEPS),
                           parts=" ".join(PARTS), mails=self.mails, until=self.until,
                           within=self.within)

    @property
    def groups(self) -> list[str]:
        return ["hosts", "sums", "dumps", "steps", "pair", self.mails]

    def deadline(self, group: str) -> Deadline | None:
        return {"hosts": self.within, "dumps": self.until}.get(group)

    def limit(self, group: str) -> int | None:
        return {"hosts": 4, "steps": 1}.get(group)

    def members(self, group: str) -> list[Command]:
        return [it for it in self.commands.values() if it.group == group]

    def after(self, names: set[Name]) -> set[Name]:
        """These commands, and what comes after them, directly or through others."""
        found = set(names)
        for _ in self.commands:
            found |= {it.name for it in self.commands.values()
                      for need in it.needs if found & set(need.of)}
        return found


def plan_of(mails: str, until: Deadline, within: Deadline) -> Plan:
    return Plan(mails, until, within, {it.name: it for it in commands(mails)})


def well(*names: Name) -> Need:
    return Need(When.WELL, names)


def ended(*names: Name) -> Need:
    return Need(When.ENDED, names)


def all_of(group: str, keys: list[str]) -> list[Name]:
    return [(group, it) for it in keys]


def commands(mails: str) -> Iterator[Command]:
    """The commands of the file, in its order."""
    hosts, sums = all_of("hosts", HOSTS), all_of("sums", HOSTS)
    dumps, steps, pair = all_of("dumps", TABLES), all_of("steps", STEPS), all_of("pair", PARTS)
    for key in HOSTS:
        it = Command("hosts", key, "anna", retries=1, wait=1.0)
        yield replace(it, timeout=1) if key == "india" else replace(it, retries=2) \
            if key == "juliet" else it
    yield from (Command("sums", it, "ops", (well(("hosts", it)),)) for it in HOSTS)
    made = {it: Command("dumps", it, "bert@example.org", tapes=1) for it in TABLES}
    made["users"] = replace(made["users"], needs=(well(("dumps", "orders")),))
    made["invoices"] = replace(
        made["invoices"], needs=(well(("dumps", "orders")), well(("dumps", "users"))))
    made["logs"] = replace(made["logs"], days=frozenset(("mon", "tue", "wed", "thu", "fri")))
    made["terms"] = replace(made["terms"], days=frozenset(("1", "15")))
    made["visits"] = replace(made["visits"], days=frozenset(("sat", "sun")))
    made["notes"] = replace(made["notes"], timeout=1, retries=1, tapes=2)
    yield from made.values()
    for key in STEPS:
        yield Command("steps", key, "ops", priority={"s3": 9, "s7": 5}.get(key, 0),
                      retries=int(key == "s8"))
    for key in PARTS:
        yield Command("pair", key, "ops", retries=int(key == "p0"))
    needs = {
        "report": (ended(*hosts, *sums, *dumps, *steps, *pair),),
        "warn": (Need(When.FAILED, tuple(dumps)),), "pack": (well(*dumps),),
        "sheet": (well(("sums", "alpha")), well(("sums", "bravo"))),
        "all": (well(*hosts), well(*sums)), "tidy": (ended(("dumps", "orders")),),
        "audit": (well(*steps), well(*pair)),
        "bill": (Need(When.FAILED, (("hosts", "alpha"),)), ended(*sums))}
    days = {"weekly": frozenset(("sun",)), "monthly": frozenset(("1",))}
    for key in MAILS:
        yield Command(mails, key, "ops", needs.get(key, ()), days=days.get(key, frozenset()))


# --- what each command does

@dataclass(frozen=True)
class Act:
    """What a command does tonight: how long it lasts, how it ends, and how much it prints first."""

    milliseconds: int = 0
    status: int = 0
    fails: int = 0  # this many tries of tonight fail first
    printed: int = 0
    is_held: bool = False  # whether it first waits for the accidents of the night

    @property
    def text(self) -> str:
        return (f"ms={self.milliseconds} status={self.status} fails={self.fails}"
                f" printed={self.printed} flags={'w' if self.is_held else '-'}\n")


def acts_of(plan: Plan, seed: int, night: int) -> dict[Name, Act]:
    """What the commands do in a night: most end well, and some fail, are flaky, get slower from
    night to night, print much, or hang."""
    usual, dice = random.Random(f"{seed}"), random.Random(f"{seed}.{night}")
    found = {it: Act(usual.choice((0, 10, 10, 20, 60, 150))) for it in plan.commands}
    found["hosts", "golf"] = Act(20 + 10 * night)
    found["dumps", "stock"] = Act(10 * night)
    found["hosts", "echo"] = Act(10, printed=60_000)
    found["sums", "delta"] = Act(10, printed=900 * night)
    # (the night goes on as long as its accidents last)
    for group, keys in ("steps", STEPS), ("hosts", HOSTS[:7]), ("pair", PARTS):
        held = group, dice.choice(keys)
        found[held] = replace(found[held], is_held=True)
    if dice.random() < 0.2:
        return found
    every = sorted(plan.commands)
    for name in dice.sample(every, dice.choice((0, 1, 1, 2, 3))):
        found[name] = replace(found[name], status=1 + dice.randrange(9))
    again = [it for it in every if plan.commands[it].retries]
    for name in dice.sample(again, dice.choice((0, 1, 2, 4))):
        found[name] = replace(found[name], fails=1)
    slow = [it for it in every if plan.commands[it].timeout]
    if dice.random() < 0.25:
        found[dice.choice(slow)] = Act(HANGS)
    late = [it for it in every if plan.deadline(it[0]) and it not in slow]
    if dice.random() < 0.4:
        found[dice.choice(late)] = Act(HANGS)
    return found
