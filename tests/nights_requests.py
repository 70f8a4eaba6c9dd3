"""How a random night is asked for more than its file says: while its driver runs, while none runs,
in the command line of a run, and during a kill; by one request or several, which name commands that
exist or that don't."""

from __future__ import annotations

import os
import random
import subprocess
import time
from collections.abc import Iterable

from nights_plan import Plan
from nights_room import Room
from nights_wants import EVER, Asked, Want, keys_of

# How often each is wanted, and of what.
VERBS = {"skip": 4, "only": 2, "redo": 4, "set": 3}
OF = {"key": 16, "group": 3, "night": 1, "nothing": 2}
# A request that nobody answers ends by itself after this many seconds.
PATIENCE = 90.0


class Asker:
    """Makes the requests of a night, and keeps what came of them."""

    def __init__(self, room: Room) -> None:
        self.room, self.plan, self.dice = room, room.plan, room.dice
        self.may_be_paused = False
        self.count = 0

    # --- what is wanted

    def any(self) -> tuple[Want, ...]:
        """One thing, or several that don't contradict each other."""
        dice = self.dice
        made: dict[str, Want] = {}
        for _ in range(dice.choice((1, 1, 1, 2, 3))):
            it = one_of(dice, self.plan)
            made.setdefault(it.verb, it)
        its = tuple(made.values())
        if its[0].verb in ("only", "redo") and dice.random() < 0.3:
            more = one_of(dice, self.plan)
            its += (more,) if more.verb == its[0].verb else ()
        return its[:1] if contradict(self.plan, its) else its

    def any_again(self) -> tuple[Want, ...]:
        """Something of a night that is over, which runs again."""
        key = self.dice.choice(sorted(self.plan.commands))
        group = self.plan.commands[key].group
        return (Want("redo", self.dice.choice((f"{group}/{key}",) * 3 + (group,))),)

    # --- how it is asked for

    def start(self, wants: Iterable[Want]) -> Request:
        """Asks without a file of commands."""
        return Request(self, tuple(wants))

    def ask(self, wants: Iterable[Want]) -> Asked:
        return self.start(wants).answer()

    def has_store(self) -> bool:
        return os.path.exists(f"{self.room.path}/s")

    def ask_at_once(self) -> None:
        """Several processes ask at a time, each for something else."""
        keys = self.dice.sample(sorted(self.plan.commands), min(3, len(self.plan.commands)))
        its = [(Want("skip", name_of(self.plan, key)),) for key in keys]
        for it in [self.start(it) for it in [*its, (Want("set", f"j={self.plan.most + 1}"),)]]:
            it.answer()

    def pause(self, seconds: float, is_over: bool) -> None:
        """A pause, which is ended after a while, or stays."""
        self.ask([Want("pause")])
        time.sleep(seconds)
        if is_over:
            self.resume()

    def resume(self) -> None:
        """Ends a pause, if there may be one."""
        if self.may_be_paused:
            self.ask([Want("resume")])

    def ran(self, wants: tuple[Want, ...], began: float, ended: float, status: int | None) -> None:
        """Keeps what stood in the line of a run. It holds once that has begun something."""
        seen = self.room.look()
        at = min((it.at for acks in seen.acked.values() for it in acks
                  if it.end is None and began < it.at < ended), default=EVER)
        errors = self.room.text("errors") if status else ""
        self.keep(Asked(wants, began, at, 2 if status == 2 else 0, errors, is_own=True))

    def keep(self, it: Asked) -> None:
        self.room.note(f"asked {' '.join(word for one in it.wants for word in one.words)}:"
                       f" status {it.status} {it.output.strip()}")
        self.room.seen.asked.append(it)
        if it.is_taken:
            verbs = [one.verb for one in it.wants]
            self.may_be_paused = "pause" in verbs or self.may_be_paused and "resume" not in verbs


class Request:
    """A process that asks."""

    def __init__(self, asker: Asker, wants: tuple[Want, ...]) -> None:
        self.asker, self.room, self.wants = asker, asker.room, wants
        self.room.bound_by(wants)
        asker.count += 1
        self.errors = f"errors.asked{asker.count}"
        asker.may_be_paused |= any(it.verb == "pause" for it in wants)
        words = [word for it in wants for word in it.words]
        self.asked = time.monotonic()
        self.process = self.room.spawn([self.room.tools.driver, "s", *words], self.errors)

    def answer(self) -> Asked:
        """Waits for the answer."""
        try:
            output = self.room.output_of(self.process, PATIENCE)
        except subprocess.TimeoutExpired:
            self.process.kill()
            output = self.process.communicate()[0]
            self.room.bad.append(f"3: night-run s {self.wants} hangs")
        done = time.monotonic()
        errors = self.room.text(self.errors)
        os.remove(f"{self.room.path}/{self.errors}")
        self.room.holds("Traceback" not in errors, f"8: night-run {self.wants}: {errors[-600:]}")
        made = Asked(self.wants, self.asked, done, self.process.returncode, output + errors)
        self.asker.keep(made)
        return made


# --- random wants

def one_of(dice: random.Random, plan: Plan) -> Want:
    verb = dice.choices(list(VERBS), list(VERBS.values()))[0]
    of = dice.choices(list(OF), list(OF.values()))[0]
    if verb == "set":
        name = "nobody.limit" if of == "nothing" else dice.choice(
            ["j", *(f"{it}.limit" for it in plan.groups)])
        return Want(verb, f"{name}={dice.randint(1, 6)}")
    if of == "nothing":
        return Want(verb, dice.choice(("nobody/k00", "nobody", f"{next(iter(plan.groups))}/zz")))
    if of == "night" and verb != "skip":
        return Want(verb, "night")
    key = dice.choice(sorted(plan.commands))
    return Want(verb, plan.commands[key].group if of == "group" else name_of(plan, key))


def name_of(plan: Plan, key: str) -> str:
    return f"{plan.commands[key].group}/{key}"


def contradict(plan: Plan, wants: tuple[Want, ...]) -> bool:
    """Whether one of them leaves out what another one has run."""
    out, others = set[str](), set[str]()
    for it in wants:
        if it.verb != "set":
            (out if it.verb == "skip" else others).update(keys_of(plan, it.word) or ())
    return bool(out & others)


def read_wants(text: str) -> tuple[Want, ...]:
    """The wants of a brief night, such as `skip a/a000 set j=3`."""
    words = text.split()
    made, at = [], 0
    while at < len(words):
        has_word = words[at] not in ("pause", "resume")
        made.append(Want(words[at], words[at + 1] if has_word else ""))
        at += 1 + has_word
    return tuple(made)
