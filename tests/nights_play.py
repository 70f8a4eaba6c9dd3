"""A random night from its first line to its last: drivers are begun, disturbed and begun again
until it has ended, and then it is compared with what its commands wrote down."""

import os
import random
import re
import shutil
import signal
import subprocess
import time
from dataclasses import dataclass

from nights_compare import Comparer
from nights_disturb import Disturber
from nights_oracle import complaints
from nights_plan import Command, Group, make_plan
from nights_requests import Asker
from nights_rests import Rests
from nights_room import SECONDS_TO_END, Room, Tools
from nights_wants import EVER, Want


@dataclass(frozen=True)
class Outcome:
    """A night that was played: how many commands began in it, and what was wrong."""

    seed: int
    shape: str
    tries: int
    bad: list[str]
    folder: str
    notes: list[str]


def play(tools: Tools, seed: int, shape: str = "") -> Outcome:
    dice = random.Random(seed)
    plan = make_plan(dice, tools.knows, shape)
    room = Room(tools, plan, dice)
    try:
        Night(room).play()
    except Exception as error:  # noqa: BLE001 (a night that can't be looked at has failed)
        room.bad.append(f"the test itself: {type(error).__name__}: {error}")
    finally:
        room.clear()
    seen = room.look()
    bad = room.bad + complaints(seen)
    if not bad:
        shutil.rmtree(room.path)
    return Outcome(seed, plan.shape, len(seen.all_tries()), bad, room.path, room.notes)


class Night:
    """A night in a room."""

    def __init__(self, room: Room) -> None:
        self.room, self.plan, self.dice, self.tools = room, room.plan, room.dice, room.tools
        self.cause = "night"
        self.own: tuple[Want, ...] = ()  # of the next run, if it is known
        self.asker, self.comparer = Asker(room), Comparer(room)
        self.disturber = Disturber(room, self.asker)
        self.rests = Rests(room, self.asker, self.disturber)
        if self.plan.shape == "clock":
            self.room.environment.update(LD_PRELOAD=f"{self.tools.folder}/clock.so",
                                         NIGHTS_CLOCK=f"{room.path}/clock")

    def play(self) -> None:
        if self.plan.is_brief:
            return self.to_its_end([])
        lister = self.start_lister() if self.dice.random() < 0.1 else None
        try:
            self.to_its_end([])
            if self.tools.knows and self.dice.random() < 0.3:
                self.tries_failed_ones()
            if self.tools.knows_wants and self.dice.random() < 0.4:
                self.redoes_some()
            if self.tools.knows and self.dice.random() < 0.4:
                self.disturber.left, self.cause = self.dice.randint(0, 2), "night"
                self.to_its_end([self.dice.choice(("--again", "--nightly"))])
        finally:
            if lister:
                os.killpg(lister.pid, signal.SIGKILL)
                lister.wait()
        self.room.holds(not self.room.text("lists"), "9: a list beside it failed")

    # --- drivers, one after the other

    def to_its_end(self, words: list[str]) -> None:
        """Runs drivers until the night has ended, and compares it."""
        self.room.begun = begun = self.room.trace_size()
        night = self.night() if words else 0
        while self.disturber.left > 0:
            if self.run_disturbed(words):
                words = []
                break
            self.rests.rest()
            # (--nightly does the rest of a night that was made, and begins another one)
            if self.room.trace_size() > begun or words and self.night() > night:
                words = []
        self.restore()
        began = time.monotonic()
        driver = self.room.start(*words)
        time.sleep(self.dice.choice((0, 0.1, 0.5)) if self.asker.may_be_paused else 0)
        self.asker.resume()
        status, output = self.room.end(driver, began, self.opens())
        self.comparer.compare(status, output)
        self.runs_nothing(status)
        if self.plan.shape == "clock":
            self.goes_on_later()

    def night(self) -> int:
        """The number of the last night that was made."""
        output = self.room.run("s", "JOBS", "--report", "prom")[1]
        found = re.search(r"^night_run_night\{.*\} ([0-9]+)$", output, re.M)
        return int(found[1]) if found else 0

    def opens(self) -> str:
        """Whether the next run is the first one of a night."""
        cause, self.cause = self.cause, ""
        return cause

    def run_disturbed(self, words: list[str]) -> bool:
        """Runs a driver and disturbs it. Whether the night has ended."""
        room, began = self.room, time.monotonic()
        # (of two with --again the second may begin a night more, once the first has ended)
        is_twin = self.dice.random() < 0.08 and not words
        own = () if is_twin else self.own_words()
        driver = room.start(*words, *(word for it in own for word in it.words))
        twin = room.start(*words, errors="errors.twin") if is_twin else None
        disturber = self.disturber
        opened, disturber.followed = self.opens(), EVER
        if twin:
            driver = self.one_of(driver, twin)
        ending = ""
        self.wait_for_begin(driver, bool(own))
        while driver.poll() is None and disturber.left > 0 and not ending:
            self.wait_for_moment(driver)
            disturber.left -= 1
            if driver.poll() is None:
                ending = disturber.disturb(driver)
        if not ending:
            self.asker.resume()
            status, _ = room.end(driver, began, opened)
            # (a line that leaves out what has ended is a mistake)
            room.holds(status in (0, 1) or status == 2 and bool(own), "8: a driver ended with"
                       f" status {status}: {room.text('errors')[-400:]}")
        else:
            status, _ = room.end(driver, began, opened, SECONDS_TO_END)
            disturber.stop(ending)
        if own:
            self.asker.ran(own, began, min(time.monotonic(), disturber.followed), status)
        return not ending and status in (0, 1)

    def own_words(self) -> tuple[Want, ...]:
        """What is wanted in the line of the next run."""
        if self.own:
            own, self.own = self.own, ()
        elif self.plan.is_brief or not self.tools.knows_wants or self.asker.may_be_paused \
                or self.dice.random() > 0.15:
            own = ()
        else:
            own = self.asker.any()
        self.room.bound_by(own)
        return own

    def wait_for_begin(self, driver: subprocess.Popen[str], is_asked: bool) -> None:
        """Waits until a run has begun something, which has taken what its line wants then."""
        size, end = self.room.trace_size(), time.monotonic() + 10
        while is_asked and driver.poll() is None and time.monotonic() < end \
                and self.room.trace_size() == size:
            time.sleep(0.004)

    def one_of(self, driver: subprocess.Popen[str],
               twin: subprocess.Popen[str]) -> subprocess.Popen[str]:
        """Of two that were begun at a time the one that has the store."""
        end = time.monotonic() + 30
        while driver.poll() is None and twin.poll() is None and time.monotonic() < end:
            time.sleep(0.01)
        # (a busy machine may leave both ended by now)
        first, second = driver.poll(), twin.poll()
        self.room.holds((first, second) != (3, 3), "4: of two drivers at a time none ran")
        has_it, other = (twin, driver) if first == 3 or second in (0, 1) else (driver, twin)
        if (first, second) != (None, None):
            # (it had no store, or found all done)
            other.communicate()
        return has_it

    def wait_for_moment(self, driver: subprocess.Popen[str]) -> None:
        """Waits until some more commands have written something, or for a time."""
        most = 2 if self.plan.is_brief else 2 * len(self.plan.commands)
        size = self.room.trace_size() + 90 * self.dice.randint(1, most)
        if self.dice.random() < 0.35 and not self.plan.is_brief:
            end, size = time.monotonic() + self.dice.uniform(0, 1.5), 1 << 60
        else:
            end = time.monotonic() + (120 if self.plan.is_brief else 4)
        while driver.poll() is None and time.monotonic() < end and self.room.trace_size() < size:
            time.sleep(0.004)
        time.sleep(self.dice.choice((0, 0, 0.003, 0.02)))

    def restore(self) -> None:
        """Takes back what the last run shall not meet."""
        self.room.write("clock", "0")

    def start_lister(self) -> subprocess.Popen[str]:
        """Something that looks all the time, beside the night."""
        one = f"'{self.tools.driver}' s JOBS --list >/dev/null 2>errors.lists"
        other = f"'{self.tools.driver}' s JOBS --dry-run >/dev/null 2>errors.lists"
        both = f"{one} || cat errors.lists >> lists; {other if self.tools.knows else ':'}"
        return self.room.spawn(["sh", "-c", f"while :; do {both}; sleep 0.2; done"], "errors.loop")

    def runs_nothing(self, status: int | None) -> None:
        """A night that has ended runs nothing more."""
        size = self.room.trace_size()
        began = time.monotonic()
        again, output = self.room.end(self.room.start(), began, "")
        self.room.holds(again == status, f"5: run again its status is {again}, and was {status}")
        self.room.holds(self.room.trace_size() == size, "5: run again it began something")
        self.room.holds(not self.tools.knows or "nothing to do" in output,
                        f"10: run again it prints {output!r}")

    # --- what comes after a night

    def tries_failed_ones(self) -> None:
        began = time.monotonic()
        status, output = self.room.end(self.room.start("--failed"), began, "failed")
        self.comparer.compare(status, output)

    def redoes_some(self) -> None:
        """Something of a night that is over runs again, and what comes after it."""
        it = self.asker.any_again()
        left = self.disturber.left = self.dice.randint(0, 2)
        if self.dice.random() < 0.5 or not left:
            self.asker.ask(it)
        else:
            self.own = it
        self.to_its_end([])

    def goes_on_later(self) -> None:
        """A clock that was once ahead doesn't make a later deadline pass. (The group is a new one:
        that of the last night may have been made while the clock was late.)"""
        if self.room.seen.asked:
            return  # (it may be left out)
        it = Command(f"later-{len(self.plan.commands)}", f"z{len(self.plan.commands)}")
        self.plan.commands[it.key] = it
        self.plan.groups[it.group] = Group(it.group, within=3600)
        self.room.write("JOBS", f"{self.room.text('JOBS')}{it.group}: within 1h\n"
                        f"{it.group} {it.key} {it.shell(self.tools.job, self.room.path)}\n")
        began = time.monotonic()
        status, output = self.room.end(self.room.start(), began, "")
        self.comparer.compare(status, output)
        phase = self.comparer.phases().get(it.key)
        self.room.holds(phase == "ok", f"3: {it.key} is {phase}, an hour before its deadline")
