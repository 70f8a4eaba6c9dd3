"""Nights of 200 commands that run by a real engine (`far_daemons`). What belongs to them is killed
at random moments: the driver, its `night`, a client, all of these at once as a power failure does,
a part of the engine. A group is canceled, another one has a deadline, and the driver is begun again
until it says that the night has ended.

A command writes a line where it begins and one where it ends, from where it runs into one file: its
key, its try, its process, the moment and its status. They are compared with the store and the log:

- no try of a key ran while another one of it did, by a lock that a command holds, and by the times;
- an end `ok` or `exit N` that the store has is that of a run of its key, each of another one (but
  after a kill of slurmctld a failure may be that of what it has forgotten);
- what a look into the store showed as ended stays so, and a key that was ok doesn't begin again (by
  ssh a try before it may);
- a key of a group that was canceled didn't begin later;
- in the end each key has an end, and the log has those of the store.
"""

from __future__ import annotations

import collections
import random
import re
import signal
import time
from dataclasses import dataclass, field

from driver_room import Shared, children, kill, nights_in
from far_room import FarRoom, room_of, settings

# A command: KEY SECONDS STATUS.
JOB = """#!/bin/sh
exec 7>>"lock.$1" 2>/dev/null
flock -n 7 || echo "$1 ${NIGHT_TRY:--} $$ beside 0 0" >> ran
note() { echo "$key ${NIGHT_TRY:--} $$ $1 $(date +%s.%N 7>&-) $2" >> ran; }
key=$1 n=0
trap 'note stopped 143; exit 143' TERM
note began -
while [ $n -lt $2 ]; do n=$((n + 1)); sleep 0.1 7>&-; done
note ended $3
exit $3
"""
# Commands of each group: those that go on, those that fail and are tried again, those that are
# canceled, and those that have a deadline.
GROUPS = {"g": 130, "r": 30, "c": 20, "d": 20}
AT_ONCE = 30
# How many kills of one night, each kind of them once at least.
KILLS = 14
OTHERS = ("driver", "all", "client", "night", "SIGTERM")
# What a driver prints last where the night has ended.
LAST = re.compile(r"nothing to do: .*|\d+ commands?: (?!.* left).*")
LONGEST = 900
# How what was killed ends; and the failures of what a killed slurmctld has forgotten.
OF_CLIENTS = re.compile(r"exit 255|signal 9")
OF_SLURM = re.compile(r"CANCELLED|NODE_FAIL|exit 1")
# How many seconds may lie between the clocks' times of an end and of a beginning.
SLACK = 0.05


@dataclass
class Ran:
    """What a command wrote down about one run of it."""

    tried: str
    began: float
    ended: float = 0.0
    status: str = ""  # empty where it was killed


@dataclass
class Observed:
    """What the inspections of a night's store showed, and what was done to it."""

    ends: dict[tuple[str, int], str] = field(default_factory=dict)
    oks: dict[str, float] = field(default_factory=dict)
    done: collections.Counter[str] = field(default_factory=collections.Counter)
    canceled: float = 0.0
    statuses: list[int] = field(default_factory=list)
    given_up: collections.Counter[str] = field(default_factory=collections.Counter)


def lines_of(way: str, is_wrong: bool) -> list[str]:
    """The settings of the page for each group; with ssh the try is named to the far side. Wrong
    ones ask for nothing."""
    its = [it.replace("{key}", "{key} export NIGHT_TRY={try};") if way == "ssh" else it
           for it in settings(way) if not (is_wrong and ": ask" in it)]
    return [it.replace("g:", f"{group}:", 1) for group in GROUPS for it in its]


def jobs_of(chance: random.Random) -> list[str]:
    made = ["r: retries 1", "d: within 25s"]
    for group, count in GROUPS.items():
        for at in range(count):
            status = 3 if group == "r" and at % 2 or chance.random() < 0.05 else 0
            tenths = int(chance.choice((2, 10, 50, 100)) * chance.uniform(0.5, 1.5)) + 1
            made.append(f'{group} k{at:03} cd "$ROOM" && exec ./job {group}.k{at:03} {tenths}'
                        f' {status}')
    return made


def ran_of(room: FarRoom) -> dict[str, list[Ran]]:
    """The runs of each key, by when they began."""
    its: dict[tuple[str, str], Ran] = {}
    found: dict[str, list[Ran]] = collections.defaultdict(list)
    for line in room.lines("ran"):
        key, tried, pid, what, when, status = line.split()
        if what == "began":
            its[key, pid] = Ran(tried, float(when))
            found[key].append(its[key, pid])
        elif what in ("ended", "stopped"):
            its[key, pid].ended, its[key, pid].status = float(when), status
    return found


class Night:
    """One night over an engine."""

    def __init__(self, tries: Shared, room: FarRoom, kind: str, chance: random.Random) -> None:
        self.tries, self.room, self.kind, self.chance = tries, room, kind, chance
        self.observed = Observed()
        kinds = [*OTHERS, *(room.real.hits() if room.real else [])]
        self.kills = kinds + chance.choices(kinds, k=KILLS - len(kinds))
        chance.shuffle(self.kills)

    def start(self) -> None:
        self.run = self.room.start("s", "JOBS", "-j", str(AT_ONCE), "--grace", "2")

    def play(self) -> None:
        """Plays it to its end."""
        self.start()
        last, end = "", time.monotonic() + LONGEST
        while time.monotonic() < end and not LAST.fullmatch(last):
            time.sleep(self.chance.uniform(0.5, 4))
            if self.run.poll() is not None:
                last = (self.run.communicate()[0].splitlines() or [""])[-1]
                self.observed.statuses.append(self.run.returncode)
                if not LAST.fullmatch(last):
                    self.start()
            elif self.kills:
                self.hit(self.kills.pop())
            if self.room.real:
                self.room.real.tend()
        self.tries.holds(f"{self.kind}: it ends", self.room.path, LAST.fullmatch(last),
                         f"{self.run.poll()} {self.room.text('errors')[-600:]}")
        if self.run.poll() is None:
            self.room.hit(self.run, "all")
        self.room.until(lambda: not self.others(), 30)

    def others(self) -> list[str]:
        """The keys that still run."""
        return [key for key, its in ran_of(self.room).items()
                if not its[-1].status and self.room.runs(key)]

    def has_ended(self) -> bool:
        """Whether a driver says that nothing is left."""
        if self.run.poll() is None or self.run.returncode not in (0, 1):
            return False
        dry = self.room.run("s", "JOBS", "--dry-run", errors="errors3")[1]
        listed = self.room.run("s", "JOBS", "--list", errors="errors3")[1]
        return not re.search(r"interrupted|running|would|not begun yet", dry + listed)

    def hit(self, what: str) -> None:
        """Kills something, or asks the driver to end."""
        if not self.observed.canceled and self.chance.random() < 0.3:
            self.observed.canceled = time.time()
            self.room.run("s", "--cancel", "c", "not", "now", errors="errors2")
            self.observed.canceled = time.time() + 2
        self.observed.done[what] += 1
        below = children(self.run.pid)
        clients = [it for it in below if it not in nights_in(below)]
        if what in ("driver", "all"):
            self.room.hit(self.run, what)
        elif what == "night":
            kill(nights_in(below))
        elif what == "client":
            kill(self.chance.sample(clients, min(1, len(clients))))
        elif what == "SIGTERM":
            kill([self.run.pid], which=signal.SIGTERM)
        elif self.room.real:
            self.room.real.hit(what, self.chance)
        self.look()

    def look(self) -> None:
        """Looks into the store, and compares what is there with what was there before."""
        if not self.room.has("s"):
            return
        now = time.time()
        ended = {task: it for task, (_, it) in self.room.tasks().items()
                 if it not in ("running", "ready", "held", "interrupted")}
        lost = {task: end for task, end in self.observed.ends.items() if ended.get(task) != end}
        self.tries.is_same(f"{self.kind}: what was acked is kept", self.room.path, lost, {})
        self.observed.ends.update(ended)
        for (key, _), end in ended.items():
            if end == "success":
                self.observed.oks.setdefault(key, now)

    def judge(self) -> None:
        """Compares what ran with the store and the log."""
        self.look()
        tries, room, kind, ran = self.tries, self.room, self.kind, ran_of(self.room)
        tries.is_same(f"{kind}: no key ran beside itself, by its lock", room.path,
                      [it for it in room.lines("ran") if " beside " in it], [])
        ends: dict[str, list[str]] = collections.defaultdict(list)
        for (key, _), end in sorted(self.observed.ends.items(), key=lambda it: it[0]):
            ends[key].append("0" if end == "success" else end.removeprefix("error "))
        for group, count in GROUPS.items():
            for at in range(count):
                self.judge_one(f"{group}.k{at:03}", ran[f"{group}.k{at:03}"],
                               ends[f"{group}.k{at:03}"])
        its = {task: it for task, it in room.tasks().items() if it[1] not in (
            "running", "ready", "held")}
        tries.is_same(f"{kind}: the log and the store", room.path, room.log(), its)

    def judge_one(self, key: str, ran: list[Ran], ends: list[str]) -> None:
        tries, kind = self.tries, self.kind
        about = (self.room.path, key, ran, ends)
        # (one that was killed has no time of its end; of it only the lock speaks)
        for one, other in zip(ran, ran[1:]):
            if one.status:
                tries.holds(f"{kind}: no key ran beside itself, by the times", about,
                            one.ended <= other.began + SLACK)
        tries.holds(f"{kind}: each key has an end", about,
                    ends or key[0] in "cd" and not ran, "no end")
        left = [it.status for it in ran]
        for end in ends:
            status = end.removeprefix("exit ")
            if OF_SLURM.fullmatch(end) and status not in left and self.observed.done["slurmctld"]:
                self.observed.given_up[end] += 1
            elif status.isdigit() and status != "255":
                tries.holds(f"{kind}: an end of the store is that of a run", about,
                            status in left, end)
                if status in left:
                    del left[:left.index(status) + 1]
            elif end.startswith("canceled: ") or OF_CLIENTS.fullmatch(end) and self.is_client():
                pass
            else:
                tries.holds(f"{kind}: an end that nobody brought about", about, False, end)
        if key in self.observed.oks:
            # (by ssh an earlier try that was on its way as the power failed may begin later)
            when = self.observed.oks[key] + SLACK
            last = max((int(it.tried) for it in ran if it.began <= when), default=0)
            last = last if kind.startswith("ssh") else 0
            tries.holds(f"{kind}: what is acked as ok doesn't run again", about,
                        all(it.began <= when or int(it.tried) < last for it in ran))
        if key[0] == "c" and self.observed.canceled:
            tries.holds(f"{kind}: what is canceled doesn't begin later", about,
                        not ran or ran[-1].began <= self.observed.canceled + 3)

    def is_client(self) -> bool:
        """Whether what was killed has no other end: a client where nobody can be asked, or what it
        speaks with; the command, which systemd's client becomes; the script of a job."""
        its = {"ssh": ("client", "sshd's child"), "systemd-run": ("client",), "sbatch": ("alone",)}
        return any(self.observed.done[it] for it in its[self.kind.partition(":")[0]])


def night(tries: Shared, way: str, seed: int, is_wrong: bool) -> None:
    chance = random.Random(seed)
    kind = f"{way}: a night"
    with room_of(tries, way) as room:
        room.program("job", JOB)
        room.set([*lines_of(way, is_wrong), *jobs_of(chance)])
        if is_wrong:
            room.program("batch", '#!/bin/sh\nexec sbatch -W -J "$1" --wrap "$3"\n')
        it = Night(tries, room, kind, chance)
        began = time.monotonic()
        it.play()
        it.judge()
        runs = sum(len(its) for its in ran_of(room).values())
        nodes = collections.Counter(re.findall(r" NodeList=(n\d) ", "\n".join(room.record())))
        print(f"{kind}, seed {seed}: {runs} runs of {sum(GROUPS.values())} commands in"
              f" {time.monotonic() - began:.0f} s; "
              f"{', '.join(f'{count} {what}' for what, count in sorted(it.observed.done.items()))}"
              f"; failed by what slurmctld forgot: {dict(it.observed.given_up)}"
              f"; jobs by node: {dict(sorted(nodes.items()))}",
              flush=True)
