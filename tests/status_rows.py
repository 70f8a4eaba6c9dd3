"""Rows for `tests/status` that need no program: forecasts, usual times, plans and screens."""

from __future__ import annotations

import contextlib
import datetime
import itertools
import os
import random
import re
import sys
import time
import unicodedata
from collections.abc import Callable
from dataclasses import replace
from functools import partial
from typing import cast

from driver_room import Shared

TOP = os.path.dirname(os.path.dirname(os.path.realpath(__file__)))
sys.path.insert(0, f"{TOP}/drivers")
from night_run.ends import failed  # noqa: E402
from night_run.escapes import plain_lines  # noqa: E402
from night_run.facts import Facts  # noqa: E402
from night_run.files import Files  # noqa: E402
from night_run.jobs import Job, Jobs  # noqa: E402
from night_run.night import NightEnded, ran  # noqa: E402
from night_run.phases import Phase  # noqa: E402
from night_run.planner import Planner  # noqa: E402
from night_run.rounds import Round  # noqa: E402
from night_run.rows import Row, Try  # noqa: E402
from night_run.status import Running, Status  # noqa: E402
from night_run.status_forecast import Forecast, Moment, forecast, retry_due  # noqa: E402
from night_run.status_line import phases_of  # noqa: E402
from night_run.status_plan import lines, parsed_plan  # noqa: E402
from night_run.status_screen import Size, height, screen, width_of  # noqa: E402
from night_run.status_times import Usual, usual_times  # noqa: E402
from night_run.status_waits import Waiting  # noqa: E402
from night_run.status_wanted import Setting, Wanted  # noqa: E402
from night_run.tonight import Again  # noqa: E402
from night_run.wants import By  # noqa: E402

# 2026-11-26T22:00:00Z
EVENING = 1_795_730_400.0
Name = tuple[str, str]


def named(name: str) -> Name:
    group, key = name.split("/")
    return group, key


def jobs_of(*lines: str) -> Jobs:
    return Jobs("JOBS", lines)


# --- when a night ends

# What it is about; the lines of the file, in which `true 10` is a command that usually takes 10 s;
# how many at a time; phases other than waiting; how long each running one has run; and what else is
# known. Then the seconds after which the night ends, with what, and what isn't counted; a + stands
# for `then or later`.
A, B, C, D = (f"g {it} true" for it in "abcd")
FORECASTS: list[tuple[str, list[str], int, dict[str, str], dict[str, float], dict[str, float],
                      str]] = [
    ("one at a time", [f"{A} 10", f"{B} 20"], 1, {}, {}, {}, "30 g/b"),
    ("two at a time", [f"{A} 10", f"{B} 20", f"{C} 5"], 2, {}, {}, {}, "20 g/b"),
    ("a chain is longer", [f"{A} 10", f"{B} 20", f"{C} 15", "g c: after a"], 2, {}, {}, {},
     "25 g/c"),
    ("a group that waits for a group", [f"{A} 10", f"{B} 30", "h x true 5", "h: after g"], 4, {},
     {}, {}, "35 h/x"),
    ("a limit", [f"{A} 10", f"{B} 10", "g: limit 1"], 4, {}, {}, {}, "20 g/b"),
    ("a pool of two groups", [f"{A} 10", "h b true 20", "night: pool tape 1", "g: uses tape 1",
                              "h: uses tape 1"], 4, {}, {}, {}, "30 h/b"),
    ("a pool with room for two", [f"{A} 10", "h b true 20", "night: pool tape 2", "g: uses tape 1",
                                  "h: uses tape 1"], 4, {}, {}, {}, "20 h/b"),
    ("the order of the file", [f"{A} 20", f"{B} 20", f"{C} 10", f"{D} 30", "g d: after c"], 2, {},
     {}, {}, "60 g/d"),
    ("a priority", [f"{A} 20", f"{B} 20", f"{C} 10", f"{D} 30", "g c: priority 1",
                    "g d: after c"], 2, {}, {}, {}, "50 g/d"),
    ("a group's priority comes first", [f"{A} 10", "g a: priority 9", "h b true 10",
                                        "h: priority 1", "h c true 50", "h c: after b"], 1, {}, {},
     {}, "70 g/a"),
    ("what is ok is over", [f"{A} 100", f"{B} 20", "g b: after a"], 1, {"g/a": "ok"}, {}, {},
     "20 g/b"),
    ("what runs already", [f"{A} 100", f"{B} 20"], 1, {"g/a": "running"}, {"g/a": 30}, {},
     "90 g/b"),
    ("what runs has its place", [f"{A} 100", f"{B} 20", f"{C} 20"], 2, {"g/a": "running"},
     {"g/a": 90}, {}, "30 g/c"),
    ("late, and not longer than ever", [f"{A} 100"], 1, {"g/a": "running"}, {"g/a": 120}, {},
     "80 g/a"),
    ("later than ever", [f"{A} 100", f"{B} 20"], 1, {"g/a": "running"}, {"g/a": 201}, {},
     "20+ g/b late g/a"),
    ("no time is known", ["g a true", "g b true"], 1, {}, {}, {}, "none"),
    ("one time isn't known", [f"{A} 10", "g b true"], 1, {}, {}, {}, "10+ g/b unknown g/b"),
    ("one that runs has no time", [f"{A} 10", "g b true"], 2, {"g/b": "running"}, {"g/b": 5}, {},
     "10+ g/a unknown g/b"),
    ("all is over", [f"{A} 10"], 1, {"g/a": "failed"}, {}, {}, "none"),
    ("a retry waits", [f"{A} 10", f"{B} 20"], 2, {}, {}, {"g/a": 100}, "110 g/a"),
    ("a retry that is due", [f"{A} 10"], 2, {}, {}, {"g/a": -5}, "10 g/a"),
    ("a deadline stops it", [f"{A} 100", f"{B} 100", "g: limit 1"], 4, {}, {}, {"g": 60}, "60 g/a"),
    ("a deadline that comes later", [f"{A} 100"], 4, {}, {}, {"g": 101}, "100 g/a"),
    ("a cleanup after the deadline", [f"{A} 100", f"{B} 10", "g b: after ended a"], 4, {}, {},
     {"g": 60}, "70 g/b"),
    ("what waits for what is stopped never begins", [f"{A} 100", "h b true 500", "h: after g"], 4,
     {}, {}, {"g": 60}, "60 g/a"),
    ("a timeout", [f"{A} 100", "g a: timeout 60s"], 1, {}, {}, {}, "60 g/a"),
    ("a timeout of what runs", [f"{A} 100", "g a: timeout 60s"], 1, {"g/a": "running"},
     {"g/a": 20}, {}, "40 g/a"),
    ("a warning isn't needed", [f"{A} 10", f"{B} 100", "g b: after failed a"], 4, {}, {}, {},
     "10 g/a"),
    ("a warning after a failure", [f"{A} 10", f"{B} 100", "g b: after failed a"], 4,
     {"g/a": "failed"}, {}, {}, "100 g/b"),
    ("a warning after one failure of a group", [f"{A} 10", f"{B} 50", "h w true 100",
                                                "h w: after failed g"], 4,
     {"g/a": "failed", "g/b": "running"}, {"g/b": 0}, {}, "100 h/w"),
    ("after the end of what failed", [f"{A} 10", f"{B} 100", "g b: after ended a"], 4,
     {"g/a": "failed"}, {}, {}, "100 g/b"),
    ("what was interrupted runs again", [f"{A} 10", f"{B} 20"], 1, {"g/a": "interrupted"}, {}, {},
     "30 g/b"),
]


def usual_of(lines: list[str]) -> tuple[list[str], dict[Name, Usual]]:
    """The lines of a file, and the usual times that stand at the ends of its commands. The longest
    time of each is twice the usual one."""
    found = {}
    for line in lines:
        if it := re.fullmatch(r"(\S+) (\S+) true (\d+)", line):
            found[it[1], it[2]] = Usual(float(it[3]), 2.0 * float(it[3]), 3)
    return lines, found


def in_words(it: Forecast | None, now: float) -> str:
    """A forecast as a row has it."""
    if it is None:
        return "none"
    words = [f"{it.at - now:g}{'+' if it.is_least else ''}", "/".join(it.last or ("", ""))]
    for what, names in (("late", it.late), ("unknown", it.unknown)):
        words += [f"{what} {'/'.join(name)}" for name in names]
    return " ".join(words)


def forecasts(tries: Shared) -> None:
    """When nights end whose rest can be played by hand."""
    for what, text, most, phases, running, dues, wanted in FORECASTS:
        made, usual = usual_of(text)
        jobs = jobs_of(*made)
        it = Moment(EVENING, most,
                    {name: Phase(phases.get("/".join(name), "waiting")) for name in jobs.all},
                    {named(name): seconds for name, seconds in running.items()},
                    {named(name): EVENING + at for name, at in dues.items() if "/" in name},
                    {name: EVENING + at for name, at in dues.items() if "/" not in name})
        tries.is_same(f"a forecast: {what}", made,
                      in_words(forecast(jobs, usual, it), EVENING), wanted)


def retries(tries: Shared) -> None:
    """When a retry is due, by how often the command has failed."""
    for words, count, wanted in (
            ("retries 9", 1, 0.0), ("retries 9 wait 30s", 1, 30.0), ("retries 9 wait 30s", 4, 30.0),
            ("retries 9 wait 30s x2", 3, 120.0), ("retries 9 wait 30s x2 up to 1m", 3, 60.0),
            ("retries 999 wait 1h x99", 999, 49.0 * 86_400), ("retries 9 wait 30s", 0, None)):
        job = jobs_of("g a true", f"g a: {words}").all["g", "a"]
        facts = Facts()
        if count:
            facts.ended(job.name, failed("exit 1"), EVENING)
            facts.failures[job.name] = count
        found = retry_due(job, facts)
        tries.is_same(f"a retry is due: {words}, {count} failures", "",
                      None if found is None else found - EVENING, wanted)


def progress_phases(tries: Shared) -> None:
    """What the line of progress plays leaves out what isn't due and what is left out by hand."""
    jobs = jobs_of("g a true", "g b true", "g b: on sun", "g c true", "g d true", "g d: on sun",
                   "g e true")
    facts = Facts(day=datetime.date(2026, 11, 30))
    facts.tonight.skip["g", "c"] = By("root", 1)
    facts.tonight.redo["g", "d"] = Again(Round(1, 1), By("root", 1))
    facts.busy.add(("g", "e"))
    tries.is_same("phases for the line of progress", "", {
        key: phase for (_, key), phase in phases_of(jobs, facts, cast(Planner, None)).items()},
        {"a": "waiting", "b": "not due", "c": "left out", "d": "waiting", "e": "running"})


# --- random nights, against a play of each second

def random_lines(it: random.Random) -> list[str]:
    """A file of a few commands, with everything that decides when they begin."""
    keys = [f"{it.choice('gh')} {key}" for key in "abcdefij"[:it.randint(1, 8)]]
    made = [f"{key} true {it.randint(1, 9)}" for key in keys]
    groups = sorted({key[0] for key in keys})
    made += [f"night: pool tape {it.randint(1, 3)}"]
    for group in groups:
        made += [f"{group}: limit {it.randint(1, 3)}"] if it.random() < 0.4 else []
        made += [f"{group}: priority {it.randint(0, 3)}"] if it.random() < 0.4 else []
    for at, key in enumerate(keys):
        if at and it.random() < 0.5:
            when = it.choice(["", "", "ended "])
            made.append(f"{key}: after {when}{keys[it.randrange(at)].replace(' ', '/')}")
        if it.random() < 0.3:
            made.append(f"{key}: priority {it.randint(0, 3)}")
        if it.random() < 0.3:
            made.append(f"{key}: uses tape 1")
    return made


def played(jobs: Jobs, usual: dict[Name, Usual], most: int, deadlines: dict[str, int]) -> int:
    """How many seconds a night takes, second by second."""
    over: set[Name] = set()
    never: set[Name] = set()
    ends: dict[Name, int] = {}
    last = 0
    for now in itertools.count():
        for name in [it for it in ends if ends[it] == now]:
            last = now
            del ends[name]
            over.add(name)
        for name, job in jobs.all.items():
            is_late = deadlines.get(name[0], 1 << 30) <= now and not job.cleans_up
            if is_late and name in ends:
                last = now
                del ends[name]
            if is_late and name not in over:
                never.add(name)
        while True:
            ready = []
            for at, (name, job) in enumerate(jobs.all.items()):
                its = [it.of for it in job.after]
                if any(it.when == "well" and it.of in never for it in job.after):
                    never.add(name)
                if name in over | never | set(ends) or not all(it in over | never for it in its):
                    continue
                running = [jobs.all[it] for it in ends]
                if len(running) >= most or len([it for it in running if it.group == job.group]) >= \
                        (jobs.limit(job.group) or 99):
                    continue
                if all(sum(dict(it.uses).get(pool, 0) for it in running) + amount
                       <= jobs.pools[pool] for pool, amount in job.uses):
                    ready.append((-jobs.priority(job.group), -job.priority, at, name))
            if not ready:
                break
            ends[min(ready)[3]] = now + int(usual[min(ready)[3]].seconds)
        if len(over | never) == len(jobs.all):
            return last
    raise AssertionError


def random_forecasts(tries: Shared) -> None:
    """Random nights end when a play of each second ends them."""
    it = random.Random(20_261_130)
    for _ in range(300 if tries.is_short else 2000):
        made, usual = usual_of(random_lines(it))
        jobs = jobs_of(*made)
        most = it.randint(1, 4)
        deadlines = {group: it.randint(1, 20) for group in jobs.members if it.random() < 0.2}
        wanted = played(jobs, usual, most, deadlines)
        found = forecast(jobs, usual, Moment(
            EVENING, most, dict.fromkeys(jobs.all, Phase.WAITING), {}, {},
            {group: EVENING + at for group, at in deadlines.items()}))
        tries.is_same("a random night ends", (made, most, deadlines),
                      found and found.at - EVENING, float(wanted))


def large_forecast(tries: Shared) -> None:
    """A night of 8,000 commands is played in a moment."""
    text = [f"g{at % 100} k{at} true {at % 7 + 1}" for at in range(8000)]
    made, usual = usual_of(text)
    jobs = jobs_of(*made, *(f"g{at}: limit 2 priority {at % 5}" for at in range(100)))
    began = time.process_time()
    found = forecast(jobs, usual, Moment(EVENING, 64, dict.fromkeys(jobs.all, Phase.WAITING)))
    took = time.process_time() - began
    least = sum(it.seconds for it in usual.values()) / 64
    tries.holds("8,000 commands: the end is no sooner than their places allow", "",
                found and least <= found.at - EVENING < 1.2 * least + 20, found)
    tries.holds("8,000 commands: it takes less than 20 seconds of a slow processor", "", took < 20,
                took)


# --- usual times

HEAD = "Try\tGroup\tKey\tBegan\tSeconds\tEnd\tCommand\n"


def log_of(night: int, *rows: str) -> str:
    """The log of a night, by rows of KEY SECONDS END."""
    group = "g" if night == 1 else f"g--{night}"
    began = "2026-11-26T22:00:00.000+0000"
    return HEAD + "".join(f"0\t{group}\t{key}\t{began}\t{seconds}\t{end}\ttrue\n"
                          for key, seconds, end in (it.split(" ", 2) for it in rows))


def usual(tries: Shared) -> None:
    """The usual times, by logs that are written here."""
    folder = f"{tries.folder}/usual"
    os.mkdir(folder, 0o700)
    files = Files(f"{folder}/s")
    names = [("g", key) for key in "abcd"]

    def write(logs: dict[int, str]) -> None:
        for it in os.listdir(folder):
            os.unlink(f"{folder}/{it}")
        for night, text in logs.items():
            with open(os.open(f"{folder}/s.log.{night}", os.O_WRONLY | os.O_CREAT, 0o600), "w",
                      encoding="utf-8") as file:
                file.write(text)

    nights = {night: log_of(night, f"a {night}.000 ok") for night in range(1, 12)}
    whole = log_of(3, "a 30.000 ok", "b 5.000 ok")
    rows: list[tuple[str, dict[int, str], tuple[dict[str, tuple[float, float, int]], int]]] = [
            ("no log", {}, ({}, 0)),
            ("one night", {1: log_of(1, "a 10.500 ok")}, ({"a": (10.5, 10.5, 1)}, 1)),
            ("the one in the middle", {1: log_of(1, "a 1.000 ok"), 2: log_of(2, "a 9.000 ok"),
                                       3: log_of(3, "a 2.000 ok")}, ({"a": (2.0, 9.0, 3)}, 3)),
            ("between the two in the middle",
             {1: log_of(1, "a 1.000 ok"), 2: log_of(2, "a 4.000 ok")}, ({"a": (2.5, 4.0, 2)}, 2)),
            ("the last seven nights of eleven", nights, ({"a": (8.0, 11.0, 7)}, 7)),
            ("what failed has no time", {1: log_of(1, "a 3.000 exit 1", "b 4.000 ok", "c - ok",
                                                   "d 5.000 interrupted")},
             ({"b": (4.0, 4.0, 1)}, 1)),
            ("the try that was ok", {1: log_of(1, "a 3.000 exit 1", "a 8.000 ok")},
             ({"a": (8.0, 8.0, 1)}, 1)),
            ("a log that was cut", {3: whole[:len(whole) - 20]}, ({"a": (30.0, 30.0, 1)}, 1)),
            ("a log of zeros and a line", {3: "\0" * 4_000_000 + "\n" + whole},
             ({"a": (30.0, 30.0, 1), "b": (5.0, 5.0, 1)}, 1)),
            ("many nights in one log of an older version", {
                9: "".join(log_of(night, f"a {night}.000 ok") for night in range(1, 10))},
             ({"a": (6.0, 9.0, 7)}, 7)),
            ("nights that come later aren't read", {40: log_of(40, "a 1.000 ok")}, ({}, 0))]
    for what, logs, wanted in rows:
        write(logs)
        found = usual_times(files, 30, names)
        tries.is_same(f"usual times: {what}", "", (
            {key: (it.seconds, it.longest, it.nights) for (_, key), it in found.usual.items()},
            found.nights), wanted)
    write(nights)
    os.chmod(f"{folder}/s.log.11", 0o666)
    tries.is_same("usual times: a log that others may write isn't read", "",
                  usual_times(files, 30, names).usual["g", "a"].longest, 10.0)
    write({})
    with open(os.open(f"{folder}/s.log.1", os.O_WRONLY | os.O_CREAT, 0o600), "wb") as file:
        file.truncate(1 << 40)
    began = time.process_time()
    tries.is_same("usual times: a log of a terabyte of nothing", "",
                  usual_times(files, 30, names).usual, {})
    tries.holds("usual times: it is read from its end", "", time.process_time() - began < 20)


# --- plans

def kept(job: Job) -> tuple[object, ...]:
    """What a plan keeps of a command."""
    waits = (job.wait, job.factor, job.most_wait) if job.retries else None
    return (job.after, job.retries, waits, job.priority, job.uses, job.timeout, job.cleans_up,
            " ".join(job.command.split("\n")))


def plans(tries: Shared) -> None:
    """A plan that is read again says what the file of commands said."""
    it = random.Random(7)
    more = ["g: retries 3 wait 90s x2 up to 2h stop on failure", "h: failure cancel timeout 10m",
            "g x echo 'a b'  c\t# d", "h y true", "h y: after failed g after ended g/x",
            "g x: retries 0 priority 7", "each q echo one", "+ echo two", "each: retries 2",
            "h z \xff\x1b[2J"]
    for _ in range(50):
        jobs = jobs_of(*random_lines(it), *more)
        text = "".join(f"{line}\n" for line in lines(jobs, 12))
        found = parsed_plan(Files("s"), text)
        tries.is_same("a plan: how many at a time, and the file", text,
                      (found and found.most, found and found.path),
                      (12, os.path.abspath("JOBS")))
        if not found:
            continue
        for name, job in jobs.all.items():
            other = found.jobs.all.get(name)
            tries.is_same("a plan: a command", text, other and kept(other), kept(job))
        for group in jobs.members:
            tries.is_same("a plan: a group", text, [f(group) for f in (
                found.jobs.limit, found.jobs.priority, found.jobs.stops, found.jobs.cancels)],
                [f(group) for f in (jobs.limit, jobs.priority, jobs.stops, jobs.cancels)])
        tries.is_same("a plan: the order and the pools", text,
                      (list(found.jobs.all), found.jobs.pools), (list(jobs.all), jobs.pools))
    for text in ("", "# night-run\n", "g a true\n", "# night-run -j 4 x\n",
                 "# night-run -j 0 x\ng a b",
                 "# night-run -j 4 x\ng a true\ng: no such setting\n", "\0\xff",
                 "# night-run -j 4 x\neach h: command touch ran; echo a\ng {h} true\n",
                 "# night-run -j 4 x\ng a true\ninclude /etc/hostname\n"):
        tries.is_same("a plan that is none", repr(text), parsed_plan(Files("s"), text), None)


# --- screens

HOSTILE = "\x1b[2J\x1b]0;x\x07\u202e\u200bend\xa0\u4e2d\u6587 e\u0301"


def night(count: int = 3, hostile: str = "") -> Status:
    """A night with this many commands of each kind."""
    running = tuple(Running("disks", f"host-{at}", "true", EVENING + 10, 3600.0 + at,
                            Usual(3000.0, 4000.0, 7), 1 + at % 2, 4000 + at,
                            f"b.store{hostile}.out/disks--12.host-{at}.0") for at in range(count))
    unwell = tuple(Row("www", f"mirror{at}", "true", Phase.FAILED, f"exit {at + 1}",
                       (Try(0, EVENING, 4.0, "exit 3"),) * 3, f"b.store.out/www--12.mirror{at}.2",
                       ("first", f"{hostile}last line {at}")) for at in range(count))
    waiting = tuple(Waiting("tape", f"offsite{at}", f"after disks/host-{at}, disks/host-1", None)
                    for at in range(count))
    return Status(f"b.store{hostile}", 12, EVENING + 15_247, EVENING, None, 4711, EVENING, 4,
                  "/etc/night/backups", {Phase.OK: 31, Phase.FAILED: count, Phase.RUNNING: count,
                                         Phase.WAITING: count}, running, unwell, waiting,
                  Forecast(EVENING + 25_920, False, (), (), ("tape", "offsite0")), 7)


WHOLE = """\
b.store, night 12: 32 of 34 ended: 31 ok, 1 failed; 1 running, 1 waiting
began 22:00, 4h14m ago; night-run is process 4711, -j 4; now 02:14:07
ends at about 05:12, in 2h57m, with tape/offsite0, going by the last 7 nights

RUNNING                  for  usually     since  process
disks/host-0           1h00m   50m00s  22:00:10     4000
  b.store.out/disks--12.host-0.0

NOT WELL
www/mirror0  exit 1 in 3 tries
  | last line 0
  b.store.out/www--12.mirror0.2

WAITING
tape/offsite0  after disks/host-0, disks/host-1"""
# What a night says of itself at the top, by what is changed of it.
HEADS = [
    ({"driver": None}, "began 22:00, 4h14m ago; no night-run is active; now 02:14:07",
     "what is left takes about 2h57m, going by the last 7 nights"),
    ({"forecast": None}, "began 22:00, 4h14m ago; night-run is process 4711, -j 4; now 02:14:07",
     "when it will end isn't known: no earlier night has times of what is left"),
    ({"forecast": Forecast(EVENING + 25_920, True, (("a", "b"),), (("c", "d"), ("e", "f")),
                           ("a", "b"))},
     "began 22:00, 4h14m ago; night-run is process 4711, -j 4; now 02:14:07",
     "ends after 05:12, in 2h57m, with a/b, going by the last 7 nights; not counted: 1 command"
     " without a time in earlier nights and 2 commands running longer than ever"),
    ({"forecast": Forecast(EVENING + 15_247.4, True, (), (("a", "b"),), ("a", "b"))},
     "began 22:00, 4h14m ago; night-run is process 4711, -j 4; now 02:14:07",
     "may end at any moment: a/b has run longer than in any of the last 7 nights"),
    ({"forecast": Forecast(EVENING + 15_247, True, (), (("a", "b"), ("c", "d")), ("a", "b")),
      "nights": 1}, "began 22:00, 4h14m ago; night-run is process 4711, -j 4; now 02:14:07",
     "may end at any moment: 2 commands have run longer than in the last night"),
    ({"forecast": Forecast(EVENING + 15_247, True, (), (("a", "b"),), ("a", "b")), "driver": None},
     "began 22:00, 4h14m ago; no night-run is active; now 02:14:07",
     "what is left may end at any moment: a/b has run longer than in any of the last 7 nights"),
    ({"forecast": Forecast(EVENING + 15_249, True, (), (("a", "b"),), ("a", "b"))},
     "began 22:00, 4h14m ago; night-run is process 4711, -j 4; now 02:14:07",
     "ends after 02:14, in 2.0s, with a/b, going by the last 7 nights; not counted: 1 command"
     " running longer than ever"),
    ({"forecast": Forecast(EVENING + 15_247, True, (("a", "b"),), (("c", "d"),), ("a", "b"))},
     "began 22:00, 4h14m ago; night-run is process 4711, -j 4; now 02:14:07",
     "when it will end isn't known: 1 command without a time in earlier nights and 1 command"
     " running longer than ever"),
    ({"forecast": Forecast(EVENING + 86_400, False, (), (), None), "nights": 1},
     "began 22:00, 4h14m ago; night-run is process 4711, -j 4; now 02:14:07",
     "ends at about 2026-11-27 22:00, in 19h45m, going by the last night"),
    ({"began": EVENING + 40_000}, "began 09:06; night-run is process 4711, -j 4; now 02:14:07",
     "ends at about 05:12, in 2h57m, with tape/offsite0, going by the last 7 nights"),
    ({"paused": By("anna", int(EVENING) + 14_400)},
     "began 22:00, 4h14m ago; night-run is process 4711, -j 4; now 02:14:07",
     "paused by anna at 02:00, so nothing is started; to go on: night-run b.store --resume"),
    ({"counts": {"ok": 3, "not needed": 1}, "driver": None, "ended": EVENING + 9000},
     "began 22:00; now 02:14:07", "ended 00:30"),
    ({"began": None, "most": None, "forecast": None},
     "night-run is process 4711; now 02:14:07",
     "when it will end isn't known: the run of an older night-run isn't described"),
]


# What operators have wanted of that night, and the lines that say so.
TITLES = ("set tonight", "skipped tonight", "left out", "again tonight", "for the next run")
MANY = tuple(f"disks/host-{at}" for at in range(60))
WANTED: list[tuple[Wanted, list[str]]] = [
    (Wanted(), []),
    (Wanted(settings=(Setting("disks.limit", 4, "anna", 5), Setting("j", 2, "ben", 6))),
     ["set tonight: disks.limit=4, j=2"]),
    (Wanted(skipped=("db/crm",)), ["skipped tonight: db/crm"]),
    (Wanted(not_only=("db/crm", "db/orders")), ["left out by --only: db/crm, db/orders"]),
    (Wanted(again=("db/crm", "mail/all")), ["again tonight: db/crm, mail/all"]),
    (Wanted(next=("skip mail", "pause")), ["for the next run: skip mail, pause"]),
    (Wanted(skipped=MANY, again=MANY[:2]), [
        "skipped tonight: disks/host-0, disks/host-1, disks/host-2 and 57 more",
        "again tonight: disks/host-0, disks/host-1"]),
]


def wants(tries: Shared) -> None:
    """What operators have wanted is one line of each kind, on screens of each size."""
    os.environ["TZ"] = "UTC"
    time.tzset()
    for its, wanted in WANTED:
        shown = screen(replace(night(1), wanted=its), Size(80, 24))
        head = shown[:shown.index("")]
        tries.is_same("what was wanted, on a screen", its, head[len(head) - len(wanted):], wanted)
        tries.is_same("what was wanted, on a screen: nothing else", its, [
            it for it in head if it.startswith(TITLES)], wanted)
        tries.holds("what was wanted: it fits", its, len(shown) <= 24, shown)
    every = Wanted(WANTED[1][0].settings * 9, MANY, MANY, MANY, MANY)
    for columns, rows in itertools.product((20, 40, 80, 400), (5, 10, 22)):
        shown = screen(replace(night(60), wanted=every, paused=By("anna", 5)),
                       Size(columns, rows))
        tries.holds("all that is wanted: no more lines than the terminal has", (columns, rows),
                    len(shown) <= rows, shown)
        wide = [it for it in shown[:9] if width_of(it) > columns and ".out/" not in it]
        tries.is_same("all that is wanted: no wider than the terminal", (columns, rows), [
            it for it in wide if not re.match("RUNNING|NOT|WAIT", it)], [])
        kinds = [it.partition(":")[0] for it in shown]
        tries.is_same("all that is wanted: a line of each kind", (columns, rows), [
            kinds.count(it) for it in ("set tonight", "skipped tonight", "again tonight")]
            if columns >= 80 and rows >= 10 else [1] * 3, [1] * 3)


def screens(tries: Shared) -> None:
    """Screens of each size: as a whole, by their widths, and by their heights."""
    os.environ["TZ"] = "UTC"
    time.tzset()
    tries.is_same("a screen", "", "\n".join(screen(night(1), Size(80, 24))), WHOLE)
    for change, *wanted in HEADS:
        shown = screen(replace(night(1), **change), Size(400, 24))  # type: ignore[arg-type]
        tries.is_same("the top of a screen", change, shown[1:3], wanted)
    held = replace(night(1), paused=By("anna", int(EVENING)))
    tries.is_same("the top of a paused screen: the end", "", screen(held, Size(400, 24))[3],
                  "what is left takes about 2h57m, going by the last 7 nights")
    for seconds, nights, said in ((4000.0, 7, []), (4001.0, 7, [
            "  longer than in any of the last 7 nights"]), (4001.0, 1, [
                "  longer than in the last night"])):
        late = replace(night(1), running=(replace(
            night(1).running[0], seconds=seconds, usual=Usual(3000.0, 4000.0, nights)),))
        tries.is_same("a command that is late", (seconds, nights), [
            it for it in screen(late, Size(80, 24)) if it.startswith("  longer")], said)
    tries.is_same("a store without a night", "", screen(replace(night(0), counts={}), Size(80, 24)),
                  ["b.store: no night has begun"])
    for count, columns, rows in itertools.product((0, 1, 3, 60), (1, 5, 20, 40, 60, 80, 400),
                                                  (1, 5, 10, 22, 200)):
        it, size = night(count, HOSTILE), Size(columns, rows)
        shown = screen(it, size)
        what = (count, columns, rows)
        tries.holds("a screen: no more lines than the terminal has", what, len(shown) <= rows,
                    shown)
        wide = [line for line in shown if width_of(line) > columns
                and not re.search(r"\.out/", line) and not re.match("RUNNING|and |NOT|WAIT", line)]
        tries.is_same("a screen: only paths are wider", what, wide if columns >= 20 else [], [])
        seen = [it for line in shown for it in line
                if unicodedata.category(it) in ("Cc", "Cf", "Cs", "Zl", "Zp")]
        tries.is_same("a screen: nothing moves the cursor", what, seen, [])
        tries.is_same("a screen: nothing is left to escape", what, plain_lines("\n".join(shown)),
                      "\n".join(shown))
        if columns >= 80 and rows >= 22:
            taken = sum(height(line, columns) for line in shown)
            tries.holds("a screen: it fits, with its paths", what, taken <= rows, (taken, shown))
            for kind, mark in (("runs", "disks/host-"), ("isn't well", "www/mirror"),
                               ("waits", "tape/offsite")):
                tries.holds(f"a screen: something that {kind} is shown", what,
                            not count or any(it.startswith(mark) for it in shown), shown)
    for lines, wanted in (
            (9, ["RUNNING: 1", "NOT WELL: 1", "WAITING: 1"]),
            (12, ["RUNNING: 1", "", "NOT WELL", "www/mirror0  exit 1 in 3 tries", "  | last line 0",
                  "WAITING: 1"]),
            (14, ["", "RUNNING", "disks/host-0", "  for 1h00m, usually 50m00s, since 22:00:10,",
                  "  process 4000", "  b.store.out/disks--12.host-0.0", "NOT WELL: 1",
                  "WAITING: 1"])):
        tries.is_same("a small screen", lines, screen(night(1), Size(44, lines))[6:], wanted)
    began = time.process_time()
    large = screen(night(8000), Size(80, 22))
    tries.is_same("a screen of 24,000 commands: what is left out", "", sum(
        int(it.split()[1]) for it in large if it.startswith("and ")) + len(
        [it for it in large if it.startswith(("disks/", "www/", "tape/"))]), 24_000)
    tries.holds("a screen of 24,000 commands: it takes less than 10 seconds of a processor", "",
                time.process_time() - began < 10, time.process_time() - began)
    more = [it for it in screen(night(60), Size(80, 22)) if it.startswith("and ")]
    tries.is_same("a screen: what is left out is counted", "", [
        60 - int(it.split()[1]) > 0 for it in more], [True] * 3)


# --- looks whose `night` is late

# Stands for `night`. An `inspect` leaves a mark while it syncs, in which the system holds it (state
# D) until somebody opens the pipe `disk`.
SYNCS = """#!/usr/bin/env python3
import os
open("s.failed", "x").close()
os.posix_spawn("/bin/true", ["true"], {},
               file_actions=[(os.POSIX_SPAWN_OPEN, 9, "disk", os.O_RDONLY, 0)])
os.unlink("s.failed")
"""


def late_looks(tries: Shared) -> None:
    """A look gives up an `inspect` that is late without the mark of a failed sync, which would have
    the next opening copy the store for nothing. Of a word that writes the mark is left."""
    folder = f"{tries.folder}/late"
    os.mkdir(folder)
    os.mkfifo(f"{folder}/disk")
    had = os.getcwd(), os.environ.get("NIGHT")
    os.chdir(folder)
    os.environ["NIGHT"] = f"{folder}/night"
    for what, text, words, is_left, is_marked in (
            ("a look", "#!/bin/sh\nexec sleep 60\n", ("inspect", "--json"), False, False),
            ("a renewal", "#!/bin/sh\nexec sleep 60\n", ("renew", "--in-place"), False, True),
            ("a look that the disk holds", SYNCS, ("inspect", "--json"), True, False)):
        with open(f"{folder}/night", "w", encoding="ascii") as file:
            file.write(text)
        os.chmod(f"{folder}/night", 0o755)
        try:
            how = ran(*words, f"{folder}/s", seconds=60,
                      meanwhile=partial(seconds_left, folder, "D" if is_left else ""))
        except NightEnded as ended:
            how = str(ended)
        tries.holds(f"{what} is late: it is given up", folder, "no end within 60 s" in how, how)
        tries.is_same(f"{what} is late: it goes on", folder, bool(phases_in(folder)), is_left)
        if is_left:
            with open(f"{folder}/disk", "wb"):
                pass
            until(lambda: not phases_in(folder))
        tries.is_same(f"{what} is late: the mark", folder, os.path.exists(f"{folder}/s.failed"),
                      is_marked)
        if is_marked:
            os.unlink(f"{folder}/s.failed")
    os.chdir(had[0])
    os.environ.pop("NIGHT")
    if had[1] is not None:
        os.environ["NIGHT"] = had[1]


def phases_in(folder: str, wanted: str = "") -> list[str]:
    """The states of the processes there that are in one of these, or in any."""
    found = []
    for it in filter(str.isdecimal, os.listdir("/proc")):
        with contextlib.suppress(OSError):
            if os.readlink(f"/proc/{it}/cwd") == folder and int(it) != os.getpid():
                with open(f"/proc/{it}/stat", encoding="ascii", errors="replace") as file:
                    found.append(file.read().rpartition(")")[2].split()[0])
    return [it for it in found if not wanted or it in wanted]


def seconds_left(folder: str, wanted: str) -> float:
    """No more once a process there is in one of these states; until then a minute."""
    return 0.0 if phases_in(folder, wanted) else 60.0


def until(holds: Callable[[], bool], seconds: float = 30) -> None:
    """Waits until this holds."""
    end = time.monotonic() + seconds
    while not holds() and time.monotonic() < end:
        time.sleep(0.02)


ROWS = [forecasts, retries, progress_phases, random_forecasts, large_forecast, usual, plans, wants,
        screens, late_looks]
