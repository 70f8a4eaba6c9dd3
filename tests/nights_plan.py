"""What a random night runs: its commands, what each does, and the settings of its file."""

import random
import time
from collections.abc import Callable
from dataclasses import dataclass, field, replace
from typing import Any

# The limits of a command that it can see, and what it sees of the second one.
NICE, MEMORY, KILOBYTES = "nice 1", "memory 900M", 900 << 10
# The value of WORD in the file of variables, which stands nowhere but in the environment.
SECRET = "hush-42"
# The shapes of nights: how often each is taken.
SHAPES = {"mixed": 8, "many": 4, "stops": 3, "names": 3, "damage": 2, "clock": 1}


@dataclass(frozen=True)
class Command:
    """A command: its place, the arguments of `nights_job`, and its settings."""

    group: str
    key: str
    milliseconds: int = 0
    status: int = 0
    fails: int = 0
    flags: str = ""
    form: str = "exec {}"
    after: tuple[str, ...] = ()
    ended: tuple[str, ...] = ()  # it is a cleanup, which begins once these have ended
    retries: int | None = None
    wait: int = 0
    timeout: int | None = None
    folder: str = ""
    word: str = ""
    limits: str = ""  # settings of what it may take of the machine

    def shell(self, program: str, room: str) -> str:
        """What /bin/sh is given."""
        words = (program, room, self.group, self.key, self.milliseconds, self.status, self.fails,
                 self.flags or "-")
        return self.form.format(" ".join(map(str, words)))

    def settings(self) -> list[str]:
        found = after_settings(self.after, self.ended)
        if self.retries is not None:
            found.append(f"retries {self.retries}" + (f" wait {self.wait}s" if self.wait else ""))
        if self.timeout is not None:
            found.append(f"timeout {self.timeout}s")
        if self.folder:
            found.append(f"in {self.folder}")
        if self.word:
            found.append(f"env WORD={self.word}")
        if self.limits:
            found.append(self.limits)
        return found


@dataclass
class Group:
    """The settings of a group."""

    name: str
    limit: int | None = None
    until: int | None = None
    within: int | None = None
    after: tuple[str, ...] = ()
    ended: tuple[str, ...] = ()  # those without a setting of their own are cleanups
    retries: int | None = None
    timeout: int | None = None
    stops: bool = False
    keeps: bool = False
    limits: str = ""

    def settings(self) -> list[str]:
        found = []
        if self.limit is not None:
            found.append(f"limit {self.limit}")
        if self.until is not None:
            moment = time.strftime("%Y-%m-%dT%H:%M:%SZ", time.gmtime(self.until))
            found.append(f"until {moment}")
        if self.within is not None:
            found.append(f"within {self.within}s")
        found += after_settings(self.after, self.ended)
        if self.retries is not None:
            found.append(f"retries {self.retries}")
        if self.timeout is not None:
            found.append(f"timeout {self.timeout}s")
        if self.stops:
            found.append("stop on failure")
        if self.keeps:
            found.append("background keep")
        if self.limits:
            found.append(self.limits)
        return found


@dataclass
class Plan:
    """A night: its file, the words of its driver, and how often it is disturbed."""

    shape: str
    most: int
    grace: int
    groups: dict[str, Group]
    commands: dict[str, Command] = field(default_factory=dict)
    disturbances: int = 3
    slow: int = 0
    # What is done to drivers, and between them; anything where it is empty.
    kinds: tuple[str, ...] = ()
    rests: tuple[str, ...] = ()
    is_brief: bool = False
    # How the file is written: by lists, in several lines, and in two files.
    is_listed: bool = False
    # The retries of all commands, and the keys that are due on other days.
    retries: int | None = None
    not_due: frozenset[str] = frozenset()
    # How many tasks of an earlier group a small store has, so that it is renewed during the night.
    filled: int = 0
    # The size of a pool, and how much of it commands take; the groups that get the file of
    # variables, and who owns which group; and lines with these and other settings.
    tape: int = 0
    uses: dict[str, int] = field(default_factory=dict)
    secret: frozenset[str] = frozenset()
    owners: dict[str, str] = field(default_factory=dict)  # of groups
    more: tuple[str, ...] = ()

    def files(self, dice: random.Random, program: str, room: str) -> dict[str, str]:
        """The file of commands, and what it includes."""
        lines = self.lines(dice, program, room)
        if not self.is_listed:
            return {"JOBS": text_of(lines)}
        at = dice.randrange(len(lines))
        return {"JOBS": text_of([*lines[:at], "include MORE"]), "MORE": text_of(lines[at:])}

    def lines(self, dice: random.Random, program: str, room: str) -> list[str]:
        """The lines of commands and settings. Settings may stand anywhere."""
        lines = self.lists(dice, program, room) if self.is_listed else [
            f"{it.group} {it.key} {it.shell(program, room)}" for it in self.commands.values()]
        if self.retries is not None:
            lines.insert(dice.randrange(len(lines) + 1), f"night: retries {self.retries}")
        if self.not_due:
            lines.insert(dice.randrange(len(lines) + 1), f"night: on {days_from(0)} {days_from(1)}")
        lines += [f"{self.commands[it].group} {it}: on {days_from(3)}"
                  for it in sorted(self.not_due)]
        for group in self.groups.values():
            for it in group.settings():
                lines.insert(dice.randrange(len(lines) + 1), f"{group.name}: {it}")
        for command in self.commands.values():
            if command.settings():
                lines.insert(dice.randrange(len(lines) + 1),
                             f"{command.group} {command.key}: {' '.join(command.settings())}")
        return [*lines, *self.more]

    def lists(self, dice: random.Random, program: str, room: str) -> list[str]:
        """The lines of commands, of which those that differ in their keys alone are made by a list,
        and others may have several lines."""
        alike: dict[Command, list[str]] = {}
        for it in self.commands.values():
            what = Command(it.group, "", it.milliseconds, it.status, it.fails, it.flags, it.form)
            alike.setdefault(what, []).append(it.key)
        lines: list[str] = []
        for at, (what, keys) in enumerate(alike.items()):
            if keys[1:]:
                lines.append(f"each l{at}: {' '.join(keys)}")
            key = f"{{l{at}}}" if keys[1:] else keys[0]
            shell = replace(what, key=key).shell(program, room)
            lines.append(f"{what.group} {key}" + (f"\n+ :\n+\n+ {shell}" if dice.random() < 0.3
                                                  else f" {shell}"))
        return lines

    def has_deadline(self, group: str) -> bool:
        return self.groups[group].until is not None or self.groups[group].within is not None

    def retries_of(self, key: str) -> int:
        command = self.commands[key]
        own, its = command.retries, self.groups[command.group].retries
        return own if own is not None else its if its is not None else self.retries or 0

    def timeout_of(self, key: str) -> int | None:
        command = self.commands[key]
        own = command.timeout
        return own if own is not None else self.groups[command.group].timeout

    def before(self, key: str) -> set[str]:
        """The keys that have to be ok before this one, of those that are due."""
        return self.all_before(key) - self.not_due

    def all_before(self, key: str) -> set[str]:
        """The keys that have to be ok before this one, by the file."""
        return self.keys_of(self.order_of(key).after)

    def cleaned_by(self, key: str) -> set[str]:
        """The keys that have to have ended before this one, if it is a cleanup."""
        return self.keys_of(self.order_of(key).ended)

    def cleans_up(self, key: str) -> bool:
        return bool(self.order_of(key).ended)

    def order_of(self, key: str) -> Command | Group:
        """Whose `after` counts for a command: its own replaces that of its group."""
        command = self.commands[key]
        return command if command.after or command.ended else self.groups[command.group]

    def keys_of(self, names: tuple[str, ...]) -> set[str]:
        found: set[str] = set()
        for name in names:
            if name in self.groups:
                found |= {it.key for it in self.commands.values() if it.group == name}
            else:
                found.add(name.rpartition("/")[2])
        return found


def after_settings(after: tuple[str, ...], ended: tuple[str, ...]) -> list[str]:
    return [f"{words} {' '.join(names)}" for words, names in (("after", after),
                                                              ("after ended", ended)) if names]


def text_of(lines: list[str]) -> str:
    return "".join(f"{it}\n" for it in ("# a night", "", *lines))


def days_from(days: int) -> str:
    """The day of the week so many days after today."""
    return time.strftime("%a", time.localtime(time.time() + days * 86400)).lower()


def make_plan(dice: random.Random, knows: bool, shape: str = "") -> Plan:
    """A random night; with settings that today's driver knows alone, or all."""
    if shape in BRIEF:
        return BRIEF[shape]()
    shape = shape or dice.choices(list(SHAPES), list(SHAPES.values()))[0]
    names = dice.sample(("disks", "mails", "sums", "a", "b-2", "c-"), dice.randint(1, 4))
    plan = Plan(shape, dice.choice((1, 2, 3, 4, 4, 8, 8)), dice.choice((1, 1, 2)),
                {it: Group(it) for it in names})
    makers = {"mixed": mixed, "many": many, "stops": stops, "names": of_names,
              "damage": mixed, "clock": mixed}
    for it in makers[shape](dice, names):
        plan.commands[it.key] = it
    for group in plan.groups.values():
        set_group(dice, plan, group, knows)
    if knows:
        add_settings(dice, plan)
        plan.is_listed = dice.random() < 0.4
        plan.retries = dice.choice((None, None, None, 0, 1))
        if shape != "clock" and dice.random() < 0.3:
            plan.not_due = frozenset(dice.sample(sorted(plan.commands), len(plan.commands) // 5))
    plan.disturbances = dice.randint(1, 3) if shape == "many" else dice.randint(0, 5)
    plan.slow = dice.choice((0, 0, 0, 0, 3, 20))
    if knows:
        add_more(plan)
    return plan


def add_more(plan: Plan) -> None:
    """A pool, priorities, owners, and a file of variables. (Its dice are its own, so the rest of a
    night is that of its seed.)"""
    dice = random.Random(" ".join((plan.shape, str(plan.grace), *sorted(plan.commands))))
    lines = []
    if dice.random() < 0.5:
        plan.tape = dice.randint(1, 4)
        plan.uses = {key: dice.randint(1, plan.tape) for key in sorted(plan.commands)
                     if dice.random() < 0.3}
        lines += [f"night: pool tape {plan.tape}"] if plan.uses else []
        lines += [f"{plan.commands[key].group} {key}: uses tape {amount}"
                  for key, amount in plan.uses.items()]
    for name in plan.groups:
        its = [it for it in plan.commands.values() if it.group == name]
        lines += [f"{it.group} {it.key}: priority {dice.randint(0, 9)}" for it in its
                  if dice.random() < 0.1]
        if not its:
            continue
        lines += [f"{name}: priority {dice.randint(0, 9)}"] if dice.random() < 0.3 else []
        if dice.random() < 0.3:
            plan.owners[name] = f"{name.strip('-')}@example.org"
            lines.append(f"{name}: owner {plan.owners[name]}")
        if not any(it.word for it in its) and dice.random() < 0.3:
            plan.secret |= {name}
            lines.append(f"{name}: env file variables")
    plan.more = tuple(lines)


def mixed(dice: random.Random, names: list[str]) -> list[Command]:
    """Short and long ones, some of which fail."""
    return [Command(dice.choice(names), f"k{at:02}",
                    dice.choice((0, 0, 1, 5, 20, 60, 200)),
                    dice.choice((0, 0, 0, 0, 0, 0, 0, 0, 1, 9)),
                    dice.choice((0, 0, 0, 0, 0, 0, 1, 2)),
                    flags_of(dice, "ccibhd", 0.15), form_of(dice))
            for at in range(dice.randint(15, 60))]


def many(dice: random.Random, names: list[str]) -> list[Command]:
    """Hundreds that are as short as they can be."""
    failing = dice.choice((0.0, 0.0, 0.02))
    return [Command(dice.choice(names), f"k{at:03}", 0, int(dice.random() < failing))
            for at in range(dice.randint(100, 250))]


def stops(dice: random.Random, names: list[str]) -> list[Command]:
    """Those that are stopped: some ignore that, some answer it with status 0."""
    return [Command(dice.choice(names), f"k{at:02}", dice.choice((10, 300, 900, 2500)), 0, 0,
                    flags_of(dice, "ziizzbhd", 0.7), form_of(dice))
            for at in range(dice.randint(4, 14))]


def of_names(dice: random.Random, names: list[str]) -> list[Command]:
    """Those whose try a driver may fail to see: they close what they inherit."""
    return [Command(dice.choice(names), f"k{at:02}", dice.choice((5, 100, 500, 1200)), 0, 0,
                    flags_of(dice, "cccd", 0.8), form_of(dice))
            for at in range(dice.randint(4, 14))]


def flags_of(dice: random.Random, flags: str, chance: float) -> str:
    """One of the flags, or none. One that leaves a process leaves it in its own group."""
    return dice.choice(flags) if dice.random() < chance else ""


def form_of(dice: random.Random) -> str:
    return dice.choice(("exec {}", "exec {}", "{}", "{}; exit $?", ": | {}"))


def set_group(dice: random.Random, plan: Plan, group: Group, knows: bool) -> None:
    if dice.random() < 0.4:
        group.limit = dice.randint(1, 4)
    if plan.shape in ("many", "stops", "mixed") and dice.random() < 0.3:
        if dice.random() < 0.6:
            group.until = int(time.time()) + dice.randint(2, 5)
        else:
            group.within = dice.randint(1, 4)
    if not knows:
        return
    group.stops = dice.random() < 0.1
    group.keeps = dice.random() < 0.2
    if dice.random() < 0.2:
        group.retries = dice.randint(0, 2)
    if plan.shape == "stops" and dice.random() < 0.4:
        group.timeout = 1
    if dice.random() < 0.3:
        group.limits = limits_of(dice)
    used = {it.group for it in plan.commands.values()}
    earlier = [it for it in list(plan.groups)[:list(plan.groups).index(group.name)] if it in used]
    if earlier and dice.random() < 0.15:
        group.after = tuple(dice.sample(earlier, 1))
    elif earlier and dice.random() < 0.1:
        group.ended = tuple(dice.sample(earlier, 1))


def add_settings(dice: random.Random, plan: Plan) -> None:
    """Settings of single commands. Each comes after earlier ones alone, so that there is no
    cycle."""
    order = list(plan.groups)
    seen: list[Command] = []
    for key, it in plan.commands.items():
        chance = 0.03 if plan.shape == "many" else 0.2
        may = [other for other in seen if order.index(other.group) <= order.index(it.group)]
        if may and dice.random() < chance:
            it = replace(it, after=some_of(dice, may, it.group))
        elif may and dice.random() < chance:
            it = replace(it, ended=some_of(dice, may, it.group))
        if dice.random() < chance:
            it = replace(it, retries=dice.randint(0, 3), wait=dice.choice((0, 0, 1)))
        if plan.shape == "stops" and dice.random() < 0.3:
            it = replace(it, timeout=dice.choice((1, 1, 30)))
        if dice.random() < chance / 2:
            it = replace(it, folder="in", word=dice.choice(("x", "a=b", "y-1")))
        if dice.random() < chance:
            it = replace(it, limits=limits_of(dice))
        plan.commands[key] = it
        seen.append(it)


def some_of(dice: random.Random, commands: list[Command], group: str) -> tuple[str, ...]:
    """The names of some of these commands, as a setting of this group has them."""
    picked = dice.sample(commands, min(len(commands), dice.choice((1, 1, 2, 3))))
    return tuple(it.key if it.group == group else f"{it.group}/{it.key}" for it in picked)


def limits_of(dice: random.Random) -> str:
    """Limits that keep no command from its work."""
    every = [NICE, "ionice idle", MEMORY, "cpu 150%", "output 40M"]
    return " ".join(dice.sample(every, dice.randint(1, 3)))


# --- brief nights, each for one kind of wrong driver. (A request takes a second or three on a busy
# machine, so the commands that it is about take longer.)

def brief(shape: str, most: int, commands: list[Command], *kinds: str, slow: int = 0,
          rests: tuple[str, ...] = ()) -> Plan:
    """A night that is disturbed once by each of these."""
    groups = {it.group: Group(it.group) for it in commands}
    return Plan(shape, most, 1, groups, {it.key: it for it in commands}, len(kinds), slow, kinds,
                rests, is_brief=True)


def alike(count: int, milliseconds: int, group: str = "a", **how: Any) -> list[Command]:
    return [Command(group, f"{group}{at:03}", milliseconds, **how) for at in range(count)]


def acks() -> Plan:
    return brief("acks", 4, alike(20, 0), slow=20)


def places() -> Plan:
    return brief("places", 3, alike(60, 0), slow=5)


def limits() -> Plan:
    plan = brief("limits", 6, alike(12, 60) + alike(6, 60, "b"))
    plan.groups["a"].limit = 2
    return plan


def taped() -> Plan:
    """Commands that take turns at two of something."""
    plan = brief("taped", 6, alike(12, 60))
    plan.tape, plan.uses = 2, dict.fromkeys(plan.commands, 1)
    plan.more = ("night: pool tape 2", *(f"a {key}: uses tape 1" for key in plan.commands))
    return plan


def owned() -> Plan:
    """Commands that fail, and whose owner hears of that."""
    plan = brief("owned", 3, alike(3, 5, status=1) + alike(3, 5, "b"))
    plan.owners, plan.more = {"a": "a@example.org"}, ("a: owner a@example.org",)
    return plan


def late() -> Plan:
    """One command after the other, long after the group's deadline and a cancel; those of the
    deadline would take fifteen seconds on a quick machine."""
    plan = brief("late", 2, alike(600, 50) + alike(60, 50, "b"), "cancel b")
    plan.groups["a"].within = 1
    return plan


def alive() -> Plan:
    """Commands that last longer than a driver takes to begin on a machine with much else to do."""
    return brief("alive", 3, alike(4, 9000, flags="c"), "both", "driver")


def zero() -> Plan:
    """Commands that are stopped by their timeout, and answer that with status 0."""
    plan = brief("zero", 4, alike(4, 9000, flags="z") + alike(2, 10, "b"))
    plan.groups["a"].timeout = 1
    return plan


def termed() -> Plan:
    """The same, by a signal to the driver."""
    return brief("termed", 4, alike(4, 700, flags="z"), "term", "term")


def failing() -> Plan:
    return brief("failing", 2, alike(12, 5, status=1) + alike(12, 5, "b"), "both", "driver",
                 "both")


def twice() -> Plan:
    return brief("twice", 2, alike(120, 0), "both", "both", "driver")


def background() -> Plan:
    return brief("background", 3, alike(2, 20, flags="b") + alike(2, 20, "b", flags="h"))


def spoilt() -> Plan:
    return brief("spoilt", 2, alike(12, 150), "spoil s.cancel", "spoil s.log", "both")


def looked() -> Plan:
    return brief("looked", 2, alike(10, 300), "all", "all", rests=("look",))


def chained() -> Plan:
    """Each comes after the one before it; the first ones of two chains fail, for good or once."""
    commands = []
    for group, status, fails in (("a", 1, 0), ("b", 0, 1), ("c", 0, 0)):
        for at in range(4):
            key = f"{group}{at}"
            commands.append(Command(
                group, key, 60, status if not at else 0, fails if not at else 0,
                after=(f"{group}{at - 1}",) if at else (), retries=1))
    return brief("chained", 4, commands, "both", "driver")


def stopping() -> Plan:
    """A group that stops on its first failure."""
    plan = brief("stopping", 1, [Command("a", "a0", 5, 1), *alike(10, 60)[1:]], "both")
    plan.groups["a"].stops = True
    return plan


def due() -> Plan:
    """Commands that are due on another day, and one that comes after them."""
    plan = brief("due", 3, alike(8, 20) + [Command("b", "b000", 20, after=("a/a000", "a/a003"))],
                 "driver")
    plan.not_due, plan.is_listed = frozenset(("a000", "a003")), True
    return plan


def due_after_all() -> Plan:
    """One is wanted that isn't due, and is the only one of its group."""
    plan = brief("due_after_all", 2, [*alike(8, 600), Command("b", "b0", 20)], "want redo b/b0")
    plan.not_due = frozenset(("b0",))
    return plan


def skipped() -> Plan:
    """One is left out long before its turn."""
    return brief("skipped", 2, alike(16, 800), "want skip a/a014", "both", "driver")


def retried() -> Plan:
    """Those that fail are left out, with retries left."""
    return brief("retried", 3, alike(3, 5, status=1, retries=2, wait=2) + alike(4, 900, "b"),
                 "want skip a")


def alone() -> Plan:
    """One is wanted alone, and what it comes after."""
    commands = [*alike(4, 50), *(Command("b", f"b{at}", 1000, after=(f"b{at - 1}",) if at else ())
                                 for at in range(6))]
    return brief("alone", 2, commands, "want only b/b5", "driver")


def redone() -> Plan:
    """One is wanted again that is ok, and so is one that comes after it."""
    commands = [Command("a", "a0", 10), Command("a", "a1", 10, after=("a0",)), *alike(30, 150, "b")]
    return brief("redone", 2, commands, "wait 1", "want redo a/a0", "both")


def redone_early() -> Plan:
    """One is wanted again while it runs."""
    return brief("redone_early", 3, alike(4, 3000), "want redo a/a000")


def redone_at_its_end() -> Plan:
    """Each is wanted again just before it ends, as far as that can be hit."""
    commands = [Command("a", f"a{at}", 950 + 480 * at) for at in range(4)]
    return brief("redone_at_its_end", 5, [*commands, Command("b", "b0", 20000)],
                 *(f"want redo a/{it.key}" for it in commands * 3))


def redone_beside() -> Plan:
    """One is wanted again while one that comes after it outlives its driver."""
    commands = [Command("a", "a0", 10), Command("a", "a1", 9000, after=("a0",)),
                *alike(20, 300, "b")]
    return brief("redone_beside", 2, commands, "wait 1", "driver", rests=("want redo a/a0",))


def redone_renewed() -> Plan:
    """One is wanted again, and waits for another one of its group while the store is renewed."""
    plan = brief("redone_renewed", 5, [Command("a", "a0", 0), Command("a", "a1", 15000),
                                       *alike(620, 0, "b")], "wait 1", "want redo a/a0")
    plan.groups["a"].limit, plan.filled = 1, 1500
    return plan


def paused() -> Plan:
    """A pause while commands wait for their retries."""
    return brief("paused", 4, alike(3, 5, fails=2, retries=3, wait=5) + alike(8, 1000, "b"),
                 "pause 6")


def tidied() -> Plan:
    """Cleanups that begin after the deadline of their group, and after a cancel of it. They outlive
    a driver."""
    commands = [Command("a", "a0", 9000), Command("a", "a1", 20),
                Command("a", "a2", 6000, ended=("a1", "a0")), Command("a", "a3", 20, ended=("a2",)),
                Command("b", "b0", 9000), Command("b", "b1", 6000, ended=("b0",)),
                *alike(60, 300, "c")]
    plan = brief("tidied", 6, commands, "cancel b", "wait 2", "driver")
    plan.groups["a"].within = 1
    return plan


def alone_tidied() -> Plan:
    """One is wanted alone, and its cleanup comes with it."""
    commands = [*alike(4, 50), Command("b", "b0", 5000), Command("b", "b1", 150, after=("b0",)),
                Command("c", "c0", 20, ended=("b/b1",))]
    return brief("alone_tidied", 2, commands, "want only b/b1", "driver")


def redone_tidied() -> Plan:
    """One is wanted again that is ok, and so is its cleanup."""
    commands = [Command("a", "a0", 10), Command("c", "c0", 10, ended=("a/a0",)),
                *alike(30, 150, "b")]
    return brief("redone_tidied", 3, commands, "wait 1", "want redo a/a0", "both")


def lowered() -> Plan:
    """Limits are lowered, and a driver is killed then."""
    return brief("lowered", 6, alike(40, 400) + alike(20, 400, "b"), "want set a.limit=1 set j=3",
                 "both")


BRIEF: dict[str, Callable[[], Plan]] = {it.__name__: it for it in (
    acks, places, limits, taped, owned, late, alive, zero, termed, failing, twice, background,
    spoilt, looked, chained, stopping, due, due_after_all, skipped, retried, alone, redone,
    redone_early, redone_at_its_end, redone_beside, redone_renewed, paused, lowered, tidied,
    alone_tidied, redone_tidied)}
