"""Days: which commands are due in a night, what comes after those that aren't, and a night that
goes on when its day is over."""

from __future__ import annotations

import datetime
import re
import signal
from collections.abc import Callable
from typing import Any

from driver_plan import driver_module, facts_of, pair, planner_of
from driver_room import Room, Shared, job, kill

# Days, and whether they have each of DATES: a Monday, a Sunday that is the last of its month, the
# first of a month, and the last of February in a leap year.
DATES = tuple(map(datetime.date.fromisoformat, (
    "2026-11-30", "2026-05-31", "2026-12-01", "2028-02-29", "2026-02-28")))
DAYS = [
    ("mon", "10000"), ("mon..fri", "10110"), ("sat..mon", "11001"), ("fri..fri", "00000"),
    ("sun..sat", "11111"), ("mon..sun", "11111"), ("wed..tue", "11111"), ("sat sun", "01001"),
    ("1", "00100"), ("31", "01000"), ("28..31", "11011"), ("last", "11011"), ("01", "00100"),
    ("1,sun", "01100"), ("1, sun", ""), ("mon 1 last", "11111"), ("29 30", "10010")]
NO_DAY = "is not written like mon, mon..fri, 1, 1..7 or last"
MISTAKES = [
    ("g: on Mon", f"line 1: the day 'Mon' {NO_DAY}"),
    ("g: on mon..", f"line 1: the day 'mon..' {NO_DAY}"),
    ("g: on fri..Mon", f"line 1: the day 'fri..Mon' {NO_DAY}"),
    ("g: on 0", f"line 1: the day '0' {NO_DAY}"), ("g: on 32", f"line 1: the day '32' {NO_DAY}"),
    ("g: on 9..3", f"line 1: the day '9..3' {NO_DAY}"),
    ("g: on 1..mon", f"line 1: the day '1..mon' {NO_DAY}"),
    ("g: on mon,", f"line 1: the day '' {NO_DAY}"), ("g: on mon on 1", "line 1: g has a list of"
                                                    " days already"),
    ("g: on monday", f"line 1: the day 'monday' {NO_DAY}"),
    ("g: on ١", f"line 1: the day '١' {NO_DAY}"),
    ("g: on mon tuesday", "line 1: no setting is called 'tuesday'"),
    ("g on mon..fri", "line 1: a setting stands after a colon, as in g: on mon..fri")]
# Commands of a Monday and of others, how they ended, and how each stands on a Monday.
STANDINGS: list[tuple[str, str, dict[str, str], dict[str, str]]] = [
    ("a group and a command", "g: on tue\ng a x\ng b x\ng b: on mon\nh c x\nh d x\nh d: on 1", {},
     {"g a": "not due", "g b": "waiting", "h c": "waiting", "h d": "not due"}),
    ("all commands", "night: on tue\ng a x\ng b x\ng: on mon\nh c x", {},
     {"g a": "waiting", "g b": "waiting", "h c": "not due"}),
    ("after one that isn't due", "g a x\ng a: on tue\ng b x\ng b: after a", {},
     {"g a": "not due", "g b": "waiting"}),
    ("after failed", "g a x\ng a: on tue\ng b x\ng b: after failed a\ng c x\ng c: after b", {},
     {"g b": "not needed", "g c": "not needed"}),
    ("after ended", "g a x\ng a: on tue\ng b x\ng b: after ended a", {}, {"g b": "waiting"}),
    ("after a group of which one is due", "g: on tue\ng a x\ng b x\ng b: on mon\nh c x\nh: after g",
     {"g b": "exit 1"}, {"g a": "not due", "h c": "not started"}),
    ("after a group of which none is due", "g: on tue\ng a x\ng b x\nh c x\nh: after g\nh d x"
     "\nh d: after failed g", {}, {"h c": "waiting", "h d": "not needed"}),
    ("one that isn't due after a failure", "g a x\ng b x\ng b: after a on tue\ng c x\ng c: after b",
     {"g a": "exit 1"}, {"g b": "not due", "g c": "waiting"}),
    ("stop on failure", "g: stop on failure\ng a x\ng b x\ng b: on tue\ng c x", {"g a": "exit 1"},
     {"g b": "not due", "g c": "not started"}),
    ("a done group", "g a x\ng b x\ng b: on tue", {"g": "why"},
     {"g a": "canceled", "g b": "not due"}),
    ("what ran before the file said so", "g: on tue\ng a x\ng b x\ng c x\ng d x",
     {"g a": "ok", "g b": "exit 1", "g c": "interrupted", "g d": "running"},
     {"g a": "ok", "g b": "failed", "g c": "not due", "g d": "running"}),
    ("keys called on and mon", "g on x\ng mon x\ng a x\ng a: after on mon", {"g on": "ok"},
     {"g a": "waiting", "g mon": "waiting"}),
]
MONDAY = DATES[0]


def days(tries: Shared) -> None:
    """Which days have which dates."""
    for text, wanted in DAYS:
        jobs: Any = planner_or_none(tries, f"g: on {text}\ng a x")
        found = "".join(str(int(jobs.all["g", "a"].is_due(it))) for it in DATES) if jobs else ""
        tries.is_same("days", text, found, wanted)


def planner_or_none(tries: Shared, text: str) -> object:
    mistake = driver_module(tries, "lines").Mistake
    try:
        return planner_of(tries, text).jobs
    except mistake:
        return None


def wrong_days(tries: Shared) -> None:
    wrong = driver_module(tries, "lines").Mistake
    for text, wanted in MISTAKES:
        found = "no mistake"
        try:
            planner_of(tries, f"{text}\ng one x")
        except wrong as mistake:
            found = str(mistake).partition(": ")[2]
        tries.is_same("days that are a mistake", text, found, wanted)


def days_stand(tries: Shared) -> None:
    """How commands stand on a Monday; and on a day that has all of them due."""
    for what, text, ends, wanted in STANDINGS:
        facts: Any = facts_of(tries, ends)
        facts.day = MONDAY
        found = planner_of(tries, text).standings(facts)
        tries.is_same("how a command stands on a Monday", what,
                      {it: found[pair(it)].phase for it in wanted}, wanted)
    facts = facts_of(tries, {})
    facts.day = MONDAY
    found = planner_of(tries, "g a x\ng: on tue 1\nh b x\nh b: after failed g").standings(facts)
    tries.is_same("why a command isn't due", "", {" ".join(it): one.why
                                                   for it, one in found.items()}, {
        "g a": "on tue 1; tonight is mon 2026-11-30", "h b": "g isn't due"})


def zones() -> tuple[str, str]:
    """A zone in which it is about noon, and one in which it is the same hour of the next day: at
    whatever hour this runs, midnight is far from both."""
    hour = datetime.datetime.now(datetime.timezone.utc).hour
    west = min(23, 24 - (36 - hour) % 24)
    return f"AAA{west:+}", f"BBB{west - 24:+}"


def day_in(zone: str) -> str:
    """The day of the week in a zone that is written like AAA+12 (12 hours behind), and its date."""
    now = datetime.datetime.now(datetime.timezone.utc) - datetime.timedelta(hours=int(zone[3:]))
    return f"{now:%a} {now:%Y-%m-%d}".lower()


def begin_a_day_earlier(room: Room) -> None:
    """Has the file of nights say that its nights began 24 hours earlier. The file has moments in
    seconds since 1970: where it is a day later, a begin of just now is on the later day, too, and
    one of 24 hours ago is on the day before."""
    room.write("s.nights", re.sub(r"(?<=begun )\d+", lambda it: str(int(it[0]) - 24 * 3600),
                                  room.text("s.nights")))


def night_keeps_its_day(tries: Shared) -> None:
    """A night that is resumed on the next day goes on with the commands of its own day, whatever
    knows of it; and so does what repeats its failures."""
    for what in ("as it is", "without its file of nights", "by its file of nights"):
        kind = f"a night over two days, {what}"
        west, east = zones()
        first, second = day_in(west), day_in(east)
        waits = "h c echo h.c >> begun; [ -e go ] || sleep 60; [ -e fine ]"
        jobs = [waits, "h c: retries 0", job("g", "a"), job("g", "b"), "k d true"]
        whole = [*jobs, f"g a: on {first[:3]}", f"g b: on {second[:3]}", f"k: on {first[:3]}"]
        room = Room(tries, jobs[:2] if what.startswith("by") else whole)
        room.before = ["env", f"TZ={west}"]
        run = room.start()
        is_plain = what.startswith("by")
        count = 3 if is_plain else 1

        def is_on(room: Room = room, least: int = 1 if is_plain else 3) -> bool:
            return "h.c" in room.lines("begun") and len(room.lines("s.log")) >= least

        tries.holds(f"{kind}: it runs", room.path, room.until(is_on))
        kill([run.pid], which=signal.SIGTERM)
        room.ended(run)
        if what == "without its file of nights":
            room.write("s.nights", "")
        if is_plain:
            begin_a_day_earlier(room)
        room.set(whole)
        room.before = ["env", f"TZ={east}"]
        room.write("go", "")
        line = f"g b: not due: on {second[:3]}; tonight is {first}"
        tries.holds(f"{kind}: a list", room.path, line in room.run(
            "s", "JOBS", "--list")[1].splitlines(), line)
        dry = room.run("s", "JOBS", "--dry-run")[1].splitlines()
        tries.holds(f"{kind}: what would begin", room.path, f"not due g b: {line[14:]}" in dry, dry)
        tries.is_same(f"{kind}: it goes on", room.path, (room.last(), room.begun()["g.a"],
                                                         room.begun()["g.b"]), (
            (1, f"4 commands: 2 ok, 1 failed, 1 not due; {count} run this"
                " time"), 1, 0))
        room.write("fine", "")
        tries.is_same(f"{kind}: its failures", room.path, room.last("s", "JOBS", "--failed"),
                      (0, "4 commands: 3 ok, 1 not due; 1 run this time"))
        dry = room.run("s", "JOBS", "--dry-run", "--nightly")[1].splitlines()
        tries.holds(f"{kind}: what the next would begin", room.path,
                    f"not due g a: on {first[:3]}; tonight is {second}" in dry
                    and any(it.startswith("begin g b: ") for it in dry), dry)
        tries.is_same(f"{kind}: the next one", room.path, (room.last("s", "JOBS", "--nightly"),
                                                           room.begun()["g.b"]), (
            (0, "4 commands: 2 ok, 2 not due; 2 run this time"), 1))
        shown = room.run("s", "JOBS", "--report", "prom")[1]
        tries.holds(f"{kind}: metrics", room.path, 'phase="not due"} 1' in shown, shown)
        for form in "text", "html":
            tries.is_same(f"{kind}: {form}", room.path,
                          room.run("s", "JOBS", "--report", form)[0], 0)


def rest_has_its_day(tries: Shared) -> None:
    """The rest of a night has the commands of its day, and the night after it those of its own."""
    kind = "the rest of a night on the next day"
    west, east = zones()
    first, second = day_in(west), day_in(east)
    room = Room(tries, ["h c [ -e go ] || sleep 60", job("g", "a"), f"g a: on {second[:3]}",
                        job("g", "b"), f"g b: on {first[:3]} ", "g b: after h/c"])
    room.before = ["env", f"TZ={west}"]
    run = room.start("s", "JOBS", "--nightly")
    room.until(lambda: room.has("s.out/h.c.0"))
    kill([run.pid], which=signal.SIGTERM)
    room.ended(run)
    room.write("go", "")
    room.before = ["env", f"TZ={east}"]
    status, output = room.run("s", "JOBS", "--nightly")
    tries.is_same(kind, room.path, (status, output.splitlines(), room.lines("begun")), (0, [
        "night 1, the rest of it:", "3 commands: 2 ok, 1 not due; 2 run this time", "night 2:",
        "3 commands: 2 ok, 1 not due; 2 run this time"], ["g.b", "g.a"]))


def nothing_due(tries: Shared) -> None:
    """A night in which nothing is due is well, whether it is the first or a later one."""
    kind = "a night in which nothing is due"
    west, east = zones()
    now, other = day_in(west)[:3], day_in(east)[:3]
    room = Room(tries, [job("g", "a"), f"g: on {other}"])
    room.before = ["env", f"TZ={west}"]
    count = "1 command: 1 not due; 0 run this time"
    for words in ((), ("--nightly",), ("--resume",), ("--failed",)):
        tries.is_same(f"{kind}, the first", words, (room.last("s", "JOBS", *words), room.errors),
                      ((0, count), ""))
    tries.is_same(f"{kind}: quiet", room.path, room.run("s", "JOBS", "--nightly", "--quiet"),
                  (0, ""))
    room.before = ["env", f"TZ={east}"]
    tries.is_same(f"{kind}: the next day", room.path, room.last("s", "JOBS", "--nightly"),
                  (0, "1 command: 1 ok; 1 run this time"))
    room.before = ["env", f"TZ={west}"]
    room.set([job("g", "a"), f"g: on {other}"])
    tries.is_same(f"{kind}: a later one", room.path, (
        room.last("s", "JOBS", "--again"), room.begun()), ((0, count), {"g.a": 1}))
    status, last = room.last("s", "JOBS")
    tries.holds(f"{kind}: run again", room.path, status == 0 and last.startswith("nothing to do: "),
                (status, last))
    room.set([job("g", "a"), f"g: on {now}"])
    tries.is_same(f"{kind}: other days", room.path, room.last("s", "JOBS"),
                  (0, "1 command: 1 ok; 1 run this time"))


DAYS_OF_NIGHTS: list[Callable[[Shared], None]] = [
    days, wrong_days, days_stand, night_keeps_its_day, rest_has_its_day, nothing_due]
