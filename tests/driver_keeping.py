"""What is kept of earlier nights, and what a night reads of its log."""

from __future__ import annotations

import os
import random
import re
import subprocess
import sys
import tempfile

from driver_plan import driver_module
from driver_room import Room, Shared, hit, job

# (that of an older driver, whose lines say less)
HEAD = "Try\tGroup\tKey\tBegan\tSeconds\tEnd\tCommand\n"
# How many kB a driver may take.
MOST_MEMORY = 60_000
# Adds two lines to a log on a disk with room for this many more bytes, makes room, and adds one.
FULL = """import resource, signal, sys
sys.path.insert(0, sys.argv[1])
from night_run.ends import read_end
from night_run.files import Files
from night_run.log import Log, line_of
signal.signal(signal.SIGXFSZ, signal.SIG_IGN)
log = Log(Files(sys.argv[2]), ())
limit = lambda most: resource.setrlimit(resource.RLIMIT_FSIZE, (most, resource.RLIM_INFINITY))
add = lambda key: log.add(iter([(("g", key, 0), line_of(1.5, 0.5, read_end("exit 12"), "echo"))]))
add("a")
limit(len(open(f"{sys.argv[2]}.log").read()) + int(sys.argv[3]))
add("b"), add("c")
limit(resource.RLIM_INFINITY)
add("d") if sys.argv[4] == "d" else log.write("")
"""


def nights_of(room: Room, count: int, *words: str) -> list[int | str]:
    return [room.run("s", "JOBS", "--nightly", "--quiet", *words)[0] for _ in range(count)]


def names(room: Room, folder: str = "") -> list[str]:
    """The names beside the store, or of its outputs."""
    return sorted(os.listdir(f"{room.path}/{folder}"))


def outputs(*rounds: int) -> list[str]:
    return sorted(f"g{f'--{it}' if it > 1 else ''}.{key}.0" for it in rounds for key in "ab")


def nights_are_kept(tries: Shared) -> None:
    """Outputs and logs of as many nights are kept as is said, and of tonight."""
    kind = "nights that are kept"
    jobs = [job("g", "a"), job("g", "b")]
    for keep, last, logs in ((1, 5, [4]), (2, 5, [3, 4]), (30, 4, [1, 2, 3])):
        room = Room(tries, jobs)
        words = ("--keep", str(keep)) if keep < 30 else ()
        tries.is_same(f"{kind}: they run", keep, set(nights_of(room, last, *words)), {0})
        tries.is_same(f"{kind}: outputs", keep, names(room, "s.out"), outputs(*logs, last))
        tries.is_same(f"{kind}: logs", keep, [it for it in names(room) if it.startswith("s.log.")],
                      [f"s.log.{it}" for it in logs])
        tries.is_same(f"{kind}: tonight's log", keep, set(room.log()),
                      {(f"g--{last}.{key}", 0) for key in "ab"})
        tries.is_same(f"{kind}: the log of the night before", keep, len(room.lines(
            f"s.log.{last - 1}")), 3)
        tries.is_same(f"{kind}: a second run", keep, (room.run()[0], names(room, "s.out")),
                      (0, outputs(*logs, last)))
    tries.is_same(f"{kind}: fewer", room.path, nights_of(room, 1, "--keep", "1"), [0])
    tries.is_same(f"{kind}: fewer: outputs", room.path, names(room, "s.out"), outputs(4, 5))
    tries.is_same(f"{kind}: fewer: logs", room.path, room.has("s.log.4") and not room.has(
        "s.log.3"), True)
    for word in ("0", "10000", "many"):
        tries.is_same(f"{kind}: no number", word, room.run("s", "JOBS", "--keep", word)[0], 2)


def nothing_else_goes(tries: Shared) -> None:
    """Only outputs and logs go, by the driver's own names."""
    kind = "what isn't the driver's own"
    room = Room(tries, [job("g", "a"), job("g", "b")])
    nights_of(room, 1)
    own = ["notes", "g.a", "g.a.0.gz", ".g.a.0", "G.a.0", "g.a.0000001", "g.a.-1", "g.a.0 "]
    for it in own:
        room.write(f"s.out/{it}", "")
    os.mkdir(f"{room.path}/s.out/g.d.0")
    os.symlink("../JOBS", f"{room.path}/s.out/g.l.0")
    os.mkfifo(f"{room.path}/s.out/g.p.0")
    beside = ["s.log.1.gz", "s.log.0", "s.log.old", "s.log.01", "x.s.log.1", "s2.log.1", "t.log.1"]
    for it in beside:
        room.write(it, "")
    nights_of(room, 4, "--keep", "1")
    tries.is_same(f"{kind}: outputs", room.path, names(room, "s.out"), sorted(
        [*own, "g.d.0", "g.l.0", "g.p.0", *outputs(4, 5)]))
    tries.is_same(f"{kind}: beside the store", room.path,
                  [it for it in beside if not room.has(it)], [])


def unknown_nights(tries: Shared) -> None:
    """Where it isn't known when nights began nothing goes, until that is known again."""
    kind = "nights that aren't known"
    jobs = [job("g", "a"), job("g", "b")]
    for what in ("gone", "bytes", "a folder", "of another store"):
        room = Room(tries, jobs)
        nights_of(room, 2, "--keep", "1")
        os.remove(f"{room.path}/s.nights")
        if what == "bytes":
            room.write("s.nights", b"night 1 round 9\n\xff\0night 2 round 99999 begun 1 last -\n")
        if what == "a folder":
            os.makedirs(f"{room.path}/s.nights/x")
        if what == "of another store":
            room.write("s.nights", "".join(f"night {it} round {9 * it} begun 1.5 last -\n"
                                           for it in range(1, 50)))
        tries.is_same(f"{kind}: {what}", room.path, nights_of(room, 1, "--keep", "1"), [0])
        tries.is_same(f"{kind}: {what}: outputs", room.path, names(room, "s.out"),
                      outputs(1, 2, 3))
        tries.is_same(f"{kind}: {what}: later", room.path, nights_of(room, 2, "--keep", "1"),
                      [0, 0])
        kept = outputs(1, 2, 3, 4, 5) if what == "a folder" else outputs(4, 5)
        tries.is_same(f"{kind}: {what}: outputs later", room.path, names(room, "s.out"), kept)
    kind = "outputs that a report names"
    room = Room(tries, ["g a echo here; exit 3", "g: limit 1", "h b [ ! -e hang ] || sleep 60"])
    room.run()
    shown = room.run("s", "JOBS", "--nightly", "--keep", "1")[1]
    output = shown.splitlines()[0].split("; ")[1]
    room.write("hang", "")
    run = room.start("s", "JOBS", "--nightly", "--keep", "1")
    room.until(lambda: room.has("s.out/h--3.b.0"))
    tries.is_same(kind, room.path, (output, room.text(output)), ("s.out/g--2.a.0", "here\n"))
    hit(run, "all")
    room.ended(run)


def metrics(tries: Shared) -> None:
    """When the last command ended, and when all was well, is known while a night hangs."""
    kind = "metrics of a night that hangs"
    room = Room(tries, ["g a [ ! -e hang ] || sleep 60"])
    nights_of(room, 1)
    form = re.compile(r"^night_run_(last_end|last_success)_timestamp_seconds\{[^}]*\} (.*)$", re.M)
    before = form.findall(room.run("s", "JOBS", "--report", "prom")[1])
    tries.is_same(f"{kind}: before", room.path, [it for it, _ in before],
                  ["last_end", "last_success"])
    room.write("hang", "")
    run = room.start("s", "JOBS", "--nightly")
    room.until(lambda: room.has("s.out/g--2.a.0"))
    found = room.run("s", "JOBS", "--report", "prom", errors="errors2")[1]
    tries.is_same(kind, room.path, [(it, at.partition(".")[0]) for it, at in form.findall(found)],
                  [(it, at.partition(".")[0]) for it, at in before])
    begun = re.findall(r"^night_run_begin_timestamp_seconds\{[^}]*\} ([0-9.]+)$", found, re.M)
    tries.holds(f"{kind}: when it began", room.path, len(begun) == 1 and float(begun[0])
                >= float(before[0][1].partition(".")[0]), (begun, before))
    hit(run, "all")
    room.ended(run)
    room.settle()


def logs_from_the_end(tries: Shared) -> None:
    """A log that is read from its end in blocks is the same as one that is read whole."""
    log, dice = driver_module(tries, "log"), random.Random(7)
    real = log.BLOCK, log.MOST_LINE
    with tempfile.TemporaryDirectory(dir=tries.folder) as folder:
        for at in range(300):
            rows = [b"x" * dice.choice((0, 1, 3, 5, 12, 40)) for _ in range(dice.randrange(6))]
            text = b"\n".join(rows)
            with open(f"{folder}/log", "wb") as file:
                file.write(text)
            log.BLOCK, log.MOST_LINE = dice.choice((1, 2, 3, 7, 64)), 20
            with open(f"{folder}/log", "rb") as file:
                found = list(log.backwards(file.fileno()))
            log.BLOCK, log.MOST_LINE = real
            # (one that is too long may be seen to be so, or not, by where blocks end)
            tries.is_same("a log from its end", at, [it for it in found if len(it) < 20],
                          [it for it in reversed(text.split(b"\n")) if len(it) < 20]
                          if text else [b""])
        lines = [f"{tried}\tg{'--' + str(night) if night > 1 else ''}\tk\t-\t-\tok\techo {night}"
                 for night in range(1, 40) for tried in range(2)]
        with open(f"{folder}/s.log", "w", encoding="ascii") as file:
            file.write(HEAD + "\n".join(["of no form", *lines]) + "\n")
        for groups in ((), ("g",), ("g--7",), ("g--38", "g--39"), ("g--99",)):
            found = log.read_log(driver_module(tries, "files").Files(f"{folder}/s"), groups)
            wanted = [(group, "k", it) for group in groups if group != "g--99" for it in range(2)]
            tries.is_same("lines of some groups", groups, list(found), wanted)


def long_logs(tries: Shared) -> None:
    """The log of a year takes neither memory nor time."""
    kind = "the log of a year"
    room = Room(tries, [f"g k{it} true" for it in range(4)])
    room.run()
    with open(f"{room.path}/s.log", "a", encoding="ascii") as file:
        for night in range(2, 102):
            file.writelines(f"0\tbackups--{night}\tk{key}\t2025-11-26T22:00:00+0000\t12.345\tok\t"
                            f"rsync -a /data/{key} backup:/data/{key}\n" for key in range(3000))
    run = room.start("s", "JOBS", "--nightly", "--quiet")
    _, status, used = os.wait4(run.pid, 0)
    run.returncode = os.waitstatus_to_exitcode(status)
    tries.holds(kind, room.path, run.returncode == 0 and used.ru_maxrss < MOST_MEMORY,
                (run.returncode, used.ru_maxrss))
    tries.is_same(f"{kind}: put aside", room.path, (len(room.lines("s.log")),
                                                    len(room.lines("s.log.1"))), (5, 300_005))


def full_logs(tries: Shared) -> None:
    """Lines that the disk has no room for are written whole, once it has."""
    kind = "a log on a full disk"
    folder = os.path.dirname(os.path.realpath(tries.driver))
    for room_left in (0, 1, 20, 50, 55, 70):
        for last in ("d", ""):
            with tempfile.TemporaryDirectory(dir=tries.folder) as where:
                ran = subprocess.run([sys.executable, "-c", FULL, folder, f"{where}/s",
                                      str(room_left), last], capture_output=True, text=True)
                with open(f"{where}/s.log", encoding="ascii") as file:
                    text = file.read()
            keys = [it.split("\t")[2] for it in text.splitlines()[1:]]
            whole = all(len(it.split("\t")) == 11 and it.endswith("\texit 12\techo\t-\t-\t-\t-")
                        for it in text.splitlines()[1:])
            tries.is_same(kind, (room_left, last), (ran.returncode, keys, whole, text[-1:]),
                          (0, [*"abc", *last], True, "\n"))


KEEPING = [nights_are_kept, nothing_else_goes, unknown_nights, metrics, logs_from_the_end,
           long_logs, full_logs]
