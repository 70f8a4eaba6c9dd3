"""What keeps nobody waiting: a renewal, a pipe in a file's place, a dead mount, a clock that isn't
set."""

from __future__ import annotations

import os
import re
import signal
import time

from driver_cases import small_store
from driver_room import Room, Shared, environments, is_within, job, kill
from nights_room import copied

# Stands for `night`: a renewal takes a while.
RENEWS_LONG = """#!/bin/sh
[ "$1" = renew ] && {{ touch renews; sleep 100; }}
exec '{night}' "$@"
"""


def long_renewal(tries: Shared) -> None:
    """While a store is renewed in the midst of a night timeouts are kept, and signals heard."""
    kind = "a renewal that takes long"
    lingers = [f"h k{it} exec sleep 61" for it in range(40)]
    room = Room(tries, ["h: limit 1 timeout 2s", *lingers,
                        *(f"g k{it} true" for it in range(640))])
    small_store(room)
    lines = ["derive night root cause", "derive f night cause", "bare f f"]
    for it in range(1500):
        lines += [f"go f sh k{it}", "start", f"finish {it} ok"]
    tries.is_same(f"{kind}: made", room.path, room.script(lines), "")
    room.night = room.program("between", RENEWS_LONG.format(night=tries.program))
    run = room.start("s", "JOBS", "-j", "8")
    tries.is_same(f"{kind}: it does", room.path, room.until(lambda: room.has("renews"), 90), True)
    began = time.monotonic()

    def is_stopped() -> bool:
        return not any("sleep\x0061" in it for it in environments(room.path))

    tries.holds(f"{kind}: a timeout is kept", room.path, room.until(is_stopped, 40),
                time.monotonic() - began)
    kill([run.pid], which=signal.SIGTERM)
    asked = time.monotonic()
    status = room.ended(run)[0]
    tries.holds(f"{kind}: a signal is heard", room.path, status == 1
                and is_within(asked, 40), (status, time.monotonic() - asked, room.errors))
    room.night = tries.program
    status, last = room.last("s", "JOBS", "--list")
    tries.is_same(f"{kind}: the store is whole", room.path, status, 0)


def pipes(tries: Shared) -> None:
    """A pipe in an output's place keeps neither a night nor a report waiting."""
    kind = "a pipe in an output's place"
    room = Room(tries, ["g a true", "g b true"])
    os.makedirs(f"{room.path}/s.out")
    os.mkfifo(f"{room.path}/s.out/g.a.0")
    status, output = room.run(seconds=90)
    tries.is_same(f"{kind}: before it begins", room.path, (status, output.splitlines()[-1]),
                  (1, "2 commands: 1 ok, 1 failed; 2 run this time"))
    room = Room(tries, ['g a rm -f "$NIGHT_STORE.out/g.a.0"; mkfifo "$NIGHT_STORE.out/g.a.0"'])
    for words in ((), ("--list",), ("--report", "text"), ("--report", "html")):
        tries.is_same(f"{kind}: as it runs", words, room.run("s", "JOBS", *words, seconds=90)[0],
                      0)


def dead_mounts(tries: Shared) -> None:
    """A mount that doesn't answer fails the commands that run there, and keeps no other waiting."""
    kind = "a dead mount"
    library = tries.built("dead_mount.c")
    if not library:
        tries.skip(kind, "no cc")
        return
    before = ["env", f"LD_PRELOAD={library}"]
    driver = copied(tries.driver, f"{Room(tries, []).path}/driver",
                    ("night_run/lines.py", "SECONDS = 60.0", "SECONDS = 2.0"),
                    ("night_run/mounts.py", "PATIENCE = 0.2, 10.0", "PATIENCE = 0.2, 3.0"))
    room = Room(tries, ["d: in dead", "d a true", "d b true", "g: timeout 1s", "g c exec sleep 62",
                        *(job("h", f"k{it}", 0.1) for it in range(30))])
    os.mkdir(f"{room.path}/dead")
    room.before = before
    status, output = room.run("s", "JOBS", driver=driver, seconds=60)
    shown = [it.partition(";")[0] for it in output.splitlines()]
    tries.is_same(f"{kind}: a command's folder", room.path, (status, shown), (1, [
        "d a: can't be started: it hangs: dead", "d b: can't be started: it hangs: dead",
        "g c: timeout 1s", "33 commands: 30 ok, 3 failed"]))
    room = Room(tries, ["g a true"])
    room.before = before
    os.rename(f"{room.path}/JOBS", f"{room.path}/dead")
    found = room.run("s", "dead", "--on-failure", "cat > summary", driver=driver, seconds=30)
    said = "night-run: dead: it can't be read within 2 s: does its mount answer?\n"
    tries.is_same(f"{kind}: the file of commands", room.path, (found, room.errors,
                                                               room.text("summary")),
                  ((3, ""), said, said))


def unset_clock(tries: Shared) -> None:
    """A machine whose clock isn't set resumes a night, whose deadlines wait until it is."""
    kind = "a clock that isn't set"
    library = tries.built("nights_clock.c")
    if not library:
        tries.skip(kind, "no cc")
        return
    room = Room(tries, ["g: within 8h limit 1", job("g", "a"),
                        "g b echo g.b >> begun; [ -e go ] || exec sleep 63", job("g", "c")])
    run = room.start()
    room.until(lambda: len(room.lines("begun")) == 2)
    kill([run.pid], which=signal.SIGTERM)
    room.ended(run)
    deadline = re.findall(r"^scope \d+ g .*deadline (\d+)", room.shown(), re.M)
    room.write("clock", f"{-int(time.time()) + 946_684_800}")  # (1 January 2000)
    room.before = ["env", f"LD_PRELOAD={library}", f"NIGHTS_CLOCK={room.path}/clock"]
    run = room.start()
    room.until(lambda: len(room.lines("begun")) == 3)
    time.sleep(1.5)
    room.write("clock", "0")
    time.sleep(1.5)
    room.write("go", "")
    kill([int(it) for it in os.listdir("/proc") if it.isdigit() and is_sleep(it, room.path)])
    status, output = room.ended(run)
    tries.holds(kind, room.path, "canceled" not in output and room.lines("begun")[-1] == "g.c",
                (status, output))
    tries.holds(f"{kind}: it is printed", room.path, "clock shows 2000-01-01" in room.errors,
                room.errors)
    tries.is_same(f"{kind}: its deadline", room.path, re.findall(
        r"^scope \d+ g .*deadline (\d+)", room.shown(), re.M), deadline)


def is_sleep(pid: str, folder: str) -> bool:
    try:
        with open(f"/proc/{pid}/cmdline", "rb") as file:
            return file.read() == b"sleep\x0063\x00" and os.readlink(f"/proc/{pid}/cwd") == folder
    except OSError:
        return False


WAITS = [long_renewal, pipes, dead_mounts, unset_clock]
