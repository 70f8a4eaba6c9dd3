"""Each setting of a file of commands, each word of the command line, and words that go astray."""

from __future__ import annotations

import functools
import json
import os
import re
import signal
import subprocess
import time

from driver_plan import driver_module
from driver_room import (Room, Shared, environments, hit, is_within, job, kill, locked,
                         most_at_once)

NO_STORE = "so it is not a store; give STORE first, and then JOBS"
# Words that name a wrong file, or no program: the status, and why. The room has a file `bytes` and
# `null`, a link to a device.
ASTRAY = [
    (("JOBS", "JOBS"), 2, f"JOBS: it has 9 bytes, {NO_STORE}"),
    ((".", "JOBS"), 2, f".: it is not a regular file, {NO_STORE}"),
    (("null", "JOBS"), 2, f"/dev/null: it is not a regular file, {NO_STORE}"),
    (("s", "bytes"), 2, "bytes: line 1: it has a byte 0, as no text does"),
    (("s", "missing"), 2, "missing: No such file or directory"),
    (("s", "--cancel", "g"), 2, "s: No such file or directory"),
    (("s", "JOBS"), 3, "NIGHT names no program: ./missing"),
]
KEY = ("crm is a key of db: --cancel db/crm cancels that command alone; to cancel all of db,"
       " begin the reason with another word")
ENDED = "night-run: s: night 1 has ended, and nothing of it is left to cancel\n"
LEFT = "night-run: night 1 wasn't finished: the rest of it comes first\n"
# Wrong options, and a part of the line that reports them.
UNUSABLE = [(("s",), "JOBS is missing"), (("s", "JOBS", "-j", "0"), "-j"),
            (("s", "JOBS", "-j", "x"), "-j"), (("s", "JOBS", "--json"), "--json goes with"),
            (("s", "JOBS", "--failed", "--again"), "--again"),
            (("s", "JOBS", "--report", "pdf"), "pdf"),
            (("s", "JOBS", "--dry-run", "--list"), "--dry-run goes with none"),
            (("s", "JOBS", "--list", "--again"), "--again"),
            (("s", "JOBS", "--unknown"), "--unknown"),
            (("s", "--set", "g.limit=0"), "--set 'g.limit=0': g.limit is 1 to 64"),
            (("s", "--set", "g.limit=65"), "--set 'g.limit=65': g.limit is 1 to 64"),
            (("s", "--set", "j=10000"), "--set 'j=10000': j is 1 to 9999"),
            (("s", "--set", "limit=4"), "a setting is j=N or GROUP.limit=N")]
MORE = "; night-run --help shows all options\n"


def retries(tries: Shared) -> None:
    kind = "retries"
    room = Room(tries, [
        "g: retries 2 wait 1s", "g a date +%s.%N >> moments; echo g.a >> begun; exit 3",
        "g b echo $NIGHT_TRY >> begun; [ $NIGHT_TRY = 1 ]", "h c echo h.c >> begun; exit 1"])
    status, output = room.run()
    shown = [it for it in output.splitlines() if not it.startswith(" ")]
    tries.is_same(kind, room.path, (status, shown), (1, [
        "g a: exit 3; s.out/g.a.2", "h c: exit 1; s.out/h.c.0",
        "3 commands: 1 ok, 2 failed; 3 run this time"]))
    tries.is_same(f"{kind}: so often", room.path, room.begun(),
                  {"g.a": 3, "0": 1, "1": 1, "h.c": 1})
    moments = [float(it) for it in room.lines("moments")]
    waits = [later - one for one, later in zip(moments, moments[1:])]
    tries.holds(f"{kind}: they wait", room.path, all(1 <= it < 20 for it in waits), waits)
    room.agrees(kind)
    kind = "retries over a stop"
    room = Room(tries, ["g: retries 3", "g a echo g.a >> begun; sleep 0.5; exit 3"])
    run = room.start()
    room.until(lambda: len(room.lines("begun")) == 3)
    kill([run.pid], which=signal.SIGTERM)
    room.ended(run)
    tries.is_same(kind, room.path, (room.run()[0], room.begun()), (1, {"g.a": 5}))


def cleanups(tries: Shared) -> None:
    """A cleanup begins once what it comes after has ended, though their group is past its deadline
    or was canceled by a failure; its own timeout stops it."""
    tidy = ["g tidy echo g.tidy >> begun; sleep 1; echo g.tidy >> done", "g tidy: after ended a b"]
    kind = "a cleanup after a deadline"
    room = Room(tries, ["g: within 3s", job("g", "a", 60), job("g", "b", 0), *tidy,
                        job("g", "more", 0), "g more: after a"])
    status, output = room.run()
    tries.is_same(kind, room.path, (status, room.lines("done"), output.splitlines()), (
        1, ["g.b", "g.tidy"], ["g a: canceled: within 3s; s.out/g.a.0",
                               "g more: canceled: within 3s",
                               "4 commands: 2 ok, 2 canceled; 3 run this time"]))
    kind = "a cleanup after a failure that cancels"
    room = Room(tries, ["g: failure cancel", job("g", "a", 60),
                        job("g", "b", 0.5, "; exit 3"), *tidy,
                        job("h", "mail", 0), "h mail: after failed g/b", job("h", "other", 0),
                        "h other: after failed g/tidy", "h last true", "h last: after ended g"])
    status, output = room.run()
    shown = [it for it in output.splitlines() if not it.startswith(" ")]
    tries.is_same(kind, room.path, (status, sorted(room.lines("done")), shown), (
        1, ["g.b", "g.tidy", "h.mail"], ["g a: canceled: exit 3; s.out/g.a.0",
                                  "g b: exit 3; s.out/g.b.0",
                                  "6 commands: 3 ok, 1 failed, 1 canceled, 1 not needed; 5 run this"
                                  " time"]))
    kind = "a cleanup after a cancel by hand"
    room = Room(tries, [job("g", "a", 60), *tidy[:1], "g tidy: after ended a timeout 1s",
                        "g tidy2 echo g.tidy2 >> done", "g tidy2: after ended tidy"])
    room.write("JOBS", room.text("JOBS").replace("sleep 1; echo", "sleep 60; echo"))
    run = room.start()
    room.until(lambda: room.lines("begun"))
    room.run("s", "--cancel", "g", "why", errors="errors2")
    status, output = room.ended(run)
    shown = [it for it in output.splitlines() if not it.startswith(" ")]
    tries.is_same(kind, room.path, (status, room.lines("done"), shown), (
        1, ["g.tidy2"], ["g a: canceled: why; s.out/g.a.0", "g tidy: timeout 1s; s.out/g.tidy.0",
                         "3 commands: 1 ok, 1 failed, 1 canceled; 3 run this time"]))
    cleanups_over_runs(tries)
    kind = "what isn't needed is well"
    room = Room(tries, [job("g", "a", 0), job("h", "mail", 0), "h mail: after failed g/a"])
    for words in (("s", "JOBS"), ("s", "JOBS", "--failed")):
        status, output = room.run(*words)
        tries.is_same(kind, words, (status, room.lines("done")), (0, ["g.a"]))
    tries.is_same(kind, room.path, room.run("s", "JOBS", "--list"),
                  (0, "h mail: not needed, because g/a didn't fail\n"))


def cleanups_over_runs(tries: Shared) -> None:
    """A cleanup that was killed with its driver begins again, though its group is canceled; and a
    failure of an earlier run cancels its group."""
    kind = "a cleanup that is killed"
    room = Room(tries, ["g: within 1s", job("g", "a", 60), "g tidy echo g.tidy >> begun; until"
                        " [ -e go ]; do sleep 0.1; done; echo g.tidy >> done",
                        "g tidy: after ended a"])
    run = room.start()
    room.until(lambda: room.begun()["g.tidy"] == 1)
    hit(run, "all")
    room.ended(run)
    room.settle()
    room.write("go", "")
    tries.is_same(f"{kind}: what would begin", room.path,
                  room.run("s", "JOBS", "--dry-run")[1].splitlines()[1:],
                  ["canceled g a: canceled: within 1s"])
    status, output = room.run()
    tries.is_same(kind, room.path, (status, room.begun()["g.tidy"], room.lines("done"), output
                                    .splitlines()[-1]), (
        1, 2, ["g.tidy"], "2 commands: 1 ok, 1 canceled; 1 run this time"))
    kind = "a failure of an earlier run that cancels"
    room = Room(tries, [job("g", "b", 0, "; exit 3")])
    tries.is_same(f"{kind}: before", room.path, room.run()[0], 1)
    room.set(["g: failure cancel", job("g", "b", 0, "; exit 3"), job("g", "c", 0),
              job("g", "tidy", 0), "g tidy: after ended c"])
    status, output = room.run()
    shown = [it for it in output.splitlines() if not it.startswith(" ")]
    tries.is_same(kind, room.path, (status, shown), (
        1, ["g b: exit 3; s.out/g.b.0", "g c: canceled: exit 3",
            "3 commands: 1 ok, 1 failed, 1 canceled; 1 run this time"]))


def timeout(tries: Shared) -> None:
    kind = "a timeout"
    room = Room(tries, ["g a echo x; sleep 60", "g a: timeout 1s",
                        "g b trap '' TERM; while :; do sleep 0.1; done", "g b: timeout 1s",
                        "g c trap 'exit 0' TERM; sleep 60 & wait", "g c: timeout 1s",
                        "g d sleep 1.2", "g d: timeout 9s"])
    began = time.monotonic()
    status, output = room.run("s", "JOBS", "--grace", "1")
    shown = [it for it in output.splitlines() if not it.startswith(" ")]
    tries.is_same(kind, room.path, (status, shown), (1, [
        f"g {it}: timeout 1s; s.out/g.{it}.0" for it in "abc"] + [
        "4 commands: 1 ok, 3 failed; 4 run this time"]))
    tries.holds(f"{kind}: they are stopped", room.path, is_within(began, 40),
                time.monotonic() - began)
    tries.is_same(f"{kind}: no process is left", room.path,
                  [it for it in environments(room.path) if "sleep" in it], [])
    kind = "a timeout over a kill"
    room = Room(tries, ["g a echo g.a >> begun; sleep 60", "g a: timeout 3s"])
    run = room.start()
    room.until(lambda: room.lines("begun"))
    kill([run.pid])
    room.ended(run)
    status, output = room.run("s", "JOBS", seconds=50)
    tries.is_same(kind, room.path, (status, output.splitlines()[0]),
                  (1, "g a: timeout 3s; s.out/g.a.1"))


def places(tries: Shared) -> None:
    """A folder, an environment, and what the driver puts there."""
    kind = "a command's place"
    room = Room(tries, [
        "g: in sub env A=group env B='two words'",
        'g a echo "$A|$B|$(basename "$PWD")|$NIGHT_GROUP|$NIGHT_KEY|$NIGHT_TRY|$NIGHT_STORE"',
        "g a: env A=own", "g b cat; pwd", "g b: in /", "g c true", "g c: in ./missing"])
    os.mkdir(f"{room.path}/sub")
    first = room.jobs
    status, output = room.run()
    tries.is_same(kind, room.path, (status, output.splitlines()[:1]), (
        1, ["g c: can't be started: no folder ./missing"]))
    tries.is_same(f"{kind}: its environment", room.path, room.text("s.out/g.a.0"),
                  f"own|two words|sub|g|a|0|{os.path.realpath(room.path)}/s\n")
    tries.is_same(f"{kind}: its own folder", room.path, room.text("s.out/g.b.0"), "/\n")
    os.makedirs(f"{room.path}/other/sub")
    room.before = ["env", f"CDPATH={room.path}/other"]
    room.set(["g a pwd", "g: in sub", "g b pwd", "g b: in /nowhere/" + "x" * 40])
    status, output = room.run("s", "JOBS", "--again")
    tries.is_same(f"{kind}: whatever CDPATH is", room.path, room.text("s.out/g--2.a.0"),
                  f"{os.path.realpath(room.path)}/sub\n")
    tries.is_same(f"{kind}: a long one", room.path, output.splitlines()[0],
                  "g b: can't be started: no folder .." + "x" * 32)
    room.before = []
    room.set(first)
    room.run("s", "JOBS", "--again")
    tries.is_same(f"{kind}: the group has no round", room.path,
                  room.text("s.out/g--3.a.0").split("|")[3:6], ["g", "a", "0"])


def shells(tries: Shared) -> None:
    """What runs the commands instead of /bin/sh."""
    kind = "a shell"
    room = Room(tries, [
        "night: shell ./say night", "g: shell ./say", "g a echo 'a b'", "g b echo x",
        "g b: shell ./say own -o", "h c echo y", "h: via ./say", "i d echo z", "i: limit 1",
        "j e false | true", "j: shell bash -o pipefail"])
    room.program("say", '#!/bin/sh\nprintf "%s|" "$@"\n')
    status, output = room.run()
    tries.is_same(kind, room.path, (status, output.splitlines()), (1, [
        "j e: exit 1; s.out/j.e.0", "5 commands: 4 ok, 1 failed; 5 run this time"]))
    tries.is_same(f"{kind}: what it is given", room.path,
                  [room.text(f"s.out/{it}.0") for it in ("g.a", "g.b", "h.c", "i.d")],
                  ["-c|echo 'a b'|", "own|-o|-c|echo x|", "echo y|", "night|-c|echo z|"])


def after(tries: Shared) -> None:
    """An order holds over kills."""
    kind = "an order"
    room = Room(tries, [job("g", "a", 0.4), job("g", "b", 0.2), "g b: after a", job("h", "c"),
                        "h: after g", job("i", "d"), "i d: after h/c g/a"])
    for _ in range(3):
        run = room.start()
        time.sleep(0.9)
        kill([run.pid])
        room.ended(run)
        room.settle()
    tries.is_same(kind, room.path, room.run()[0], 0)
    lines, done = room.lines("begun"), set(room.lines("done"))
    first = {it: lines.index(it) for it in set(lines)}
    tries.holds(f"{kind}: it is kept", room.path,
                first["g.a"] < first["g.b"] < first["h.c"] < first["i.d"], lines)
    tries.is_same(f"{kind}: all end", room.path, done, {"g.a", "g.b", "h.c", "i.d"})
    kind = "an order: a failure that is mended"
    room = Room(tries, [job("g", "a", end="; test -e fine"), job("g", "b"), "g b: after a"])
    tries.is_same(f"{kind}: before", room.path, room.run()[0], 1)
    room.write("fine", "")
    tries.is_same(kind, room.path, (room.last("s", "JOBS", "--failed"), room.begun()),
                  ((0, "2 commands: 2 ok; 2 run this time"), {"g.a": 2, "g.b": 1}))


def cancels(tries: Shared) -> None:
    """One command is canceled, and what looks as if it were meant isn't taken for a reason."""
    waits = "echo {0} >> begun; until [ -e go ]; do sleep 0.1; done"
    kind = "a cancel of one command"
    room = Room(tries, ["db: limit 1 retries 3", "db a " + waits.format("a"), job("db", "crm"),
                        "db tail " + waits.format("tail"), "www x " + waits.format("x"),
                        "www y " + waits.format("y"), "rest z true", "rest: after db/crm"])
    run = room.start("s", "JOBS", "--grace", "1")
    room.until(lambda: len(room.lines("begun")) == 3)
    asked = [
        (("db", "crm"), 2, "", KEY), (("db", "crm", "too", "slow"), 2, "", KEY),
        (("db/nowhere", "why"), 2, "", "db has no command nowhere"),
        (("nowhere/crm",), 2, "", "nowhere has no command crm; did you mean db/crm?"),
        (("db/cmr",), 2, "", "db has no command cmr; did you mean db/crm?"),
        (("nowhere",), 2, "", "s has no group nowhere"),
        (("wwww",), 2, "", "s has no group wwww; did you mean www?"),
        (("crm", "it", "hangs"), 2, "", "s has no group crm; did you mean db/crm?"),
        (("db/crm", "too", "slow"), 0, "db/crm: canceled: too slow", ""),
        (("db/crm", "again"), 0, "db/crm: canceled: too slow", ""),
        (("www/x",), 0, "www/x: canceled: by hand", "")]
    for words, status, printed, why in asked:
        found = room.run("s", "--cancel", *words, errors="errors2", seconds=40)
        tries.is_same(f"{kind}: {' '.join(words)}", room.path, (found, room.errors), (
            (status, printed and f"{printed}\n"), why and f"night-run: {why}\n"))
    tries.is_same(f"{kind}: the others run on", room.path,
                  (run.poll(), sorted(room.lines("begun"))), (None, ["a", "x", "y"]))
    room.write("go", "")
    ended, output = room.ended(run)
    tries.is_same(kind, room.path, (ended, output.splitlines()), (1, [
        "db crm: canceled: too slow", "www x: canceled: by hand; s.out/www.x.0",
        "rest z: not started, because db/crm was canceled",
        "6 commands: 3 ok, 2 canceled, 1 not started; 4 run this time"]))
    tries.is_same(f"{kind}: one that has ended", room.path, (
        room.run("s", "JOBS", "--cancel", "db/a"), room.errors), ((2, ""), ENDED))
    tries.is_same(f"{kind}: run again", room.path, room.run()[0], 1)
    room.agrees(kind)
    tries.is_same(f"{kind}: --failed", room.path, (room.last("s", "JOBS", "--failed"),
                                                   "db.crm" in room.lines("done")),
                  ((0, "6 commands: 6 ok; 3 run this time"), True))


def deadlines_after_the_end(tries: Shared) -> None:
    """A night that has ended stays as it is when a deadline passes later: what wasn't needed or
    wasn't started isn't canceled by it. --failed and --redo run all of it that may run again."""
    kind = "a deadline after the night's end"
    # (the commands are done long before that, even on a slow machine)
    file = ["night: within 12s", "g a test -e ready", "m b true", "m b: after g",
            "m w echo >> warned", "m w: after failed m/b", "n c true", "n c: after ended g",
            "n d true", "n d: after failed n/c"]
    wanted = ["g a: exit 1", "m b: not started, because g/a failed",
              "m w: not needed, because m/b didn't fail",
              "n d: not needed, because n/c didn't fail"]
    counts = "5 commands: {}, 2 not needed; {} run this time"
    room = Room(tries, file)
    tries.is_same(f"{kind}: the night", room.path, room.last(),
                  (1, "5 commands: 1 ok, 1 failed, 1 not started, 2 not needed; 2 run this time"))
    time.sleep(12.1)
    for words in (("--list",), ("--dry-run",)):
        shown = room.run("s", "JOBS", *words)[1].splitlines()
        tries.is_same(f"{kind}: {words[0]}", room.path, [
            it for it in shown if "within" in it or "canceled" in it], [])
    tries.is_same(f"{kind}: its commands", room.path,
                  room.run("s", "JOBS", "--list")[1].splitlines(), wanted)
    tries.is_same(f"{kind}: the metrics", room.path, re.findall(
        '.*(?:phase="canceled"|group_canceled).* [1-9].*',
        room.run("s", "JOBS", "--report", "prom")[1]), [])
    tries.holds(f"{kind}: the report", room.path, "deadline passed" not in room.run(
        "s", "JOBS", "--report", "text")[1])
    tries.is_same(f"{kind}: nothing to do", room.path, (room.last()[0], room.run(
        "s", "JOBS", "--list")[1].splitlines()), (1, wanted))
    tries.is_same(f"{kind}: --redo of another one", room.path,
                  room.last("s", "JOBS", "--redo", "n/c"), (1, counts.format(
                      "1 ok, 1 failed, 1 not started", 1)))
    tries.is_same(f"{kind}: what isn't needed still", room.path,
                  room.run("s", "JOBS", "--list")[1].splitlines()[-1], wanted[-1])
    room.write("ready", "")
    tries.is_same(f"{kind}: --failed", room.path, room.last("s", "JOBS", "--failed"),
                  (0, counts.format("3 ok", 2)))
    os.remove(f"{room.path}/ready")
    room.set(["night: within 12s", "g a test -e ready", "m b exit 4", *file[3:]])
    room.run("s", "JOBS", "--again")
    time.sleep(12.1)
    room.write("ready", "")
    room.run("s", "JOBS", "--failed")
    tries.holds(f"{kind}: a warning that is needed after all", room.path, room.has("warned"),
                room.errors)
    kind = "a command that is new after a deadline"
    file = ["night: within 12s", "g a true", "m w true", "m w: after failed g/a"]
    room = Room(tries, file)
    room.run()
    time.sleep(12.1)
    room.set([*file, "g z true"])
    room.run()
    tries.is_same(kind, room.path, room.run("s", "JOBS", "--list")[1].splitlines(),
                  ["m w: not needed, because g/a didn't fail", "g z: canceled: within 12s"])


def cancels_with_a_deadline(tries: Shared) -> None:
    """A cancel of all groups, which have a deadline, is printed with its reason, with a driver that
    runs and without one."""
    for who in "", "driver":
        kind = f"a cancel of all groups, past {who or 'nobody'}"
        room = Room(tries, ["night: until 2035-01-01T05:30",
                            "g a echo g.a >> begun; exec sleep 900"])
        run = room.start("s", "JOBS", "--grace", "1")
        room.until(functools.partial(room.lines, "begun"))
        if who:
            hit(run, who)
            room.ended(run)
        tries.is_same(kind, room.path, (room.run("s", "--cancel", "night", "deadline 5;",
                                                 errors="errors2")), (
            0, "night: canceled: deadline 5;\n"))
        tries.is_same(f"{kind}: its end", room.path,
                      room.run()[0] if who else room.ended(run)[0], 1)
    in_words = driver_module(tries, "canceling").in_words
    for state, wanted in (
            ("done; deadline none; err context canceled; cause no room", "canceled: no room"),
            ("done; deadline 1795730400; err context canceled; cause x; y", "canceled: x; y"),
            ("done; deadline 1795730400; err context deadline exceeded; cause within 2s",
             "its deadline has passed: within 2s"),
            ("canceled: too slow", "canceled: too slow")):
        tries.is_same("a cancel in words", state, in_words(state), wanted)


def helps(tries: Shared) -> None:
    """The help names each setting of all groups, and each setting has a line of its own."""
    kind, room = "the help", Room(tries, [])
    status, output = room.run("--help")
    settings = driver_module(tries, "settings")
    of_all = re.search(r"^  night: SETTING\.\. +((?:.+\n)(?: {20,}.+\n)*)", output, re.M)
    tries.is_same(f"{kind}: all groups together", room.path, (status, [
        it.word for it in settings.SETTINGS if settings.Of.NIGHT in it.of
        and not (of_all and f"{it.word} " in of_all[1])]), (0, []))
    missing = [it for it in (*settings.BY_WORD, "until", "within")
               if not re.search(rf"^  (?:\w.*, )?{it} ", output, re.M)]
    tries.is_same(f"{kind}: each setting", room.path, missing, [])


def cancels_alone(tries: Shared) -> None:
    """The same, where no driver runs."""
    kind = "a cancel of one command where nothing runs"
    room = Room(tries, ["db: limit 1", job("db", "a"), "db b echo b >> begun; exec sleep 900",
                        job("db", "crm"), job("www", "x")])
    run = room.start("s", "JOBS", "-j", "1", "--grace", "1")
    room.until(lambda: "b" in room.lines("begun"))
    hit(run, "driver")
    room.ended(run)
    asked = [
        (("s", "--cancel", "Disks"), "--cancel 'Disks': the group 'Disks' is not 1 to 20 of a-z,"
         " 0-9, - and _ without --, or it is root"),
        (("s", "--cancel", "db/Crm"), "--cancel 'db/Crm': the key 'Crm' is not 1 to 32 of a-z, 0-9,"
         " - and _"),
        (("s", "--cancel", "night/a"),
         "--cancel 'night/a': the group night stands for all groups"),
        (("s", "--cancel", "nowhere"), "s has no group nowhere"),
        (("s", "--cancel", "db", "a", "stop"), KEY.replace("crm", "a")),
        (("s", "JOBS", "--cancel", "db", "crm"), KEY),
        (("s", "--cancel", "db/crm"), "no night-run runs: night-run s JOBS --cancel db/crm cancels"
         " this command, by its file of commands"),
        (("s", "JOBS", "--cancel", "db/nowhere"), "db has no command nowhere"),
        (("s", "JOBS", "--cancel", "db/a"), "db a has ended: ok")]
    for words, why in asked:
        began = time.monotonic()
        tries.is_same(f"{kind}: {' '.join(words)}", room.path, (room.run(*words), room.errors),
                      ((2, ""), f"night-run: {why}\n"))
        tries.holds(f"{kind}: at once", words, is_within(began, 20))
    lives = "night-run: db b still runs from the last run; the next one stops it\n"
    for key, errors in ("crm", ""), ("b", lives):
        tries.is_same(f"{kind}: {key}", room.path, (
            room.run("s", "JOBS", "--cancel", f"db/{key}", "not", "now"), room.errors), (
                (0, f"db/{key}: canceled: not now\n"), errors))
    status, output = room.run("s", "JOBS", "--grace", "1", seconds=40)
    tries.is_same(kind, room.path, (status, output.splitlines()), (1, [
        "db b: canceled: not now; s.out/db.b.0", "db crm: canceled: not now",
        "4 commands: 2 ok, 2 canceled; 1 run this time"]))
    tries.is_same(f"{kind}: what has run", room.path, room.begun(), {"db.a": 1, "b": 1, "www.x": 1})
    room.agrees(kind)
    kind = "a cancel of a night that has ended"
    for words in ("night",), ("db", "too", "late"), ("night", "again"):
        tries.is_same(kind, words, (room.run("s", "--cancel", *words), room.errors), (
            (2, ""), "night-run: s: night 1 has ended, and nothing of it is left to cancel\n"))


def stop_on_failure(tries: Shared) -> None:
    kind = "stop on failure"
    room = Room(tries, ["g: limit 1 stop on failure", job("g", "a"), job("g", "b", end="; exit 3"),
                        job("g", "c"), job("h", "d")])
    status, output = room.run("s", "JOBS", "--list")[0], room.run()[1]
    shown = [it for it in output.splitlines() if not it.startswith(" ")]
    tries.is_same(kind, room.path, (status, shown), (0, [
        "g b: exit 3; s.out/g.b.0",
        "g c: not started, because g/b failed, and the group stops on failure",
        "4 commands: 2 ok, 1 failed, 1 not started; 3 run this time"]))
    tries.is_same(f"{kind}: run again", room.path, (room.run()[0], room.begun()),
                  (1, {"g.a": 1, "g.b": 1, "h.d": 1}))


def limits(tries: Shared) -> None:
    kind = "a limit"
    room = Room(tries, ["g: limit 2", *(job("g", f"k{it}", 0.2) for it in range(6)),
                        *(job("h", f"k{it}", 0.2) for it in range(6))])
    tries.is_same(kind, room.path, room.run("s", "JOBS", "-j", "6")[0], 0)
    tries.is_same(f"{kind}: it holds", room.path, most_at_once(room, "g"), 2)
    tries.holds(f"{kind}: the other group has none", room.path, 2 < most_at_once(room, "h") <= 6)


def summaries(tries: Shared) -> None:
    """What a night says at its end, with --quiet too, and what --on-failure is given."""
    kind = "a summary"
    alarm = "{ echo $NIGHT_STATUS $NIGHT_FAILED $NIGHT_LEFT $NIGHT_STORE; cat; } > alarm"
    room = Room(tries, ["g a for i in 1 2 3 4 5; do echo line $i; done; exit 3", "g b true"])
    wanted = ("g a: exit 3; s.out/g.a.0\n    line 3\n    line 4\n    line 5\n"
              "2 commands: 1 ok, 1 failed; 2 run this time\n")
    tries.is_same(kind, room.path, room.run("s", "JOBS", "--on-failure", alarm), (1, wanted))
    tries.is_same(f"{kind}: the alarm", room.path, room.text("alarm"),
                  f"1 1 0 {os.path.realpath(room.path)}/s\n{wanted}")
    status, output = room.run("s", "JOBS", "--quiet", "--on-failure", alarm)
    tries.holds(f"{kind}: nothing to do after a failure", room.path, status == 1
                and "nothing to do: 2 commands ended by" in output and "--failed" in output,
                (status, output))
    tries.is_same(f"{kind}: nothing to do after a failure: the alarm", room.path,
                  room.text("alarm"), f"1 1 0 {os.path.realpath(room.path)}/s\n{output}")
    os.remove(f"{room.path}/alarm")
    room.set(["h: within 1h", "g a true", "g b true"])
    found = room.run("s", "JOBS", "--failed", "--quiet", "--on-failure", alarm), room.errors
    tries.is_same(f"{kind}: --quiet where all is well", room.path, (found, room.has("alarm")),
                  (((0, ""), ""), False))
    room = Room(tries, ["g a true"])
    room.write("s.ended", "nothing of this\n")
    room.script([])
    tries.is_same(f"{kind}: a fault", room.path, room.run("s", "JOBS", "--on-failure", alarm)[0], 3)
    tries.holds(f"{kind}: a fault: the alarm", room.path, room.text("alarm").startswith("3 0 1 ")
                and "s.ended" in room.text("alarm"), room.text("alarm"))


# Files, words, and what a dry run says of the commands that can't begin at once.
WAITS: list[tuple[list[str], tuple[str, ...], list[str]]] = [
    (["g: limit 2", "g a true", "g b true", "g c true", "h a true"], (),
     ["later g c: for the limit 2 of g"]),
    (["g a true", "g b true", "g c true"], ("-j", "2"), ["later g c: for a place (-j 2)"]),
    (["g: limit 9", "g a true", "g b true", "g c true"], ("--set", "g.limit=1", "--set", "j=1"),
     ["later g b: for the limit 1 of g", "later g c: for the limit 1 of g"]),
    (["night: pool tape 2", "g: uses tape 2", "g a true", "h b true", "h b: uses tape 1"], (),
     ["later h b: for 1 of the pool tape, of which none is free"]),
    (["g a true", "h b true", "h b: after g", "h c true", "h c: after ended g/a b", "h d true",
      "h d: after failed g"], (),
     ["later h b: after g", "later h c: after the end of g/a, the end of h/b",
      "later h d: after a failure of g"])]


def views(tries: Shared) -> None:
    kind = "views"
    room = Room(tries, [job("g", "a"), job("g", "b", end="; echo oh; exit 3"), job("g", "c"),
                        "g c: after b", job("g", "d")])
    shown = room.run("s", "JOBS", "--dry-run")[1].splitlines()
    tries.is_same(f"{kind}: a dry run", room.path, ([it.partition(":")[0] for it in shown],
                                                    room.has("begun"), room.has("s")),
                  (["begin g a", "begin g b", "begin g d", "later g c"], False, False))
    for lines, words, wanted in WAITS:
        room.set(lines)
        tries.is_same(f"{kind}: a dry run says what is waited for", (lines, words), [
            it for it in room.run("s", "JOBS", "--dry-run", *words)[1].splitlines()
            if it.startswith("later")], wanted)
    room.set([job("g", "a"), job("g", "b", end="; echo oh; exit 3"), job("g", "c"),
              "g c: after b", job("g", "d")])
    room.run()
    tries.is_same(f"{kind}: a list", room.path, room.run("s", "JOBS", "--list"), (
        0, "g b: exit 3\ng c: not started, because g/b failed\n"))
    status, output = room.run("s", "JOBS", "--list", "--json")
    found = {it["key"]: (it["phase"], it["end"], [one["end"] for one in it["tries"]], it["output"],
                         it["tail"]) for it in json.loads(output)}
    tries.is_same(f"{kind}: as JSON", room.path, (status, found), (0, {
        "a": ("ok", "", ["ok"], "s.out/g.a.0", []),
        "b": ("failed", "exit 3", ["exit 3"], "s.out/g.b.0", ["oh"]),
        "c": ("not started", "g/b failed", [], "", []),
        "d": ("ok", "", ["ok"], "s.out/g.d.0", [])}))
    for form, word in (("text", "exit 3"), ("html", "<html"), ("prom", "# TYPE")):
        status, output = room.run("s", "JOBS", "--report", form)
        tries.holds(f"{kind}: a report", form, status == 0 and word in output, output[:200])
    tries.holds(f"{kind}: a version", room.path, re.fullmatch(
        r"night-run \d+\.\d+\.\d+\n", room.run("--version")[1]))


# What a retry waits for, without the hour.
RETRY = "for its retry at HOUR, after exit 7"


def without_hours(text: str) -> str:
    return re.sub(r"\d\d:\d\d:\d\d", "HOUR", text)


def looks(tries: Shared) -> None:
    """What is printed of a retry that is due, of what runs, and of what other words would do."""
    kind = "a look at a night that runs"
    room = Room(tries, ["g: retries 1 wait 1h", "g a [ -e fine ] || exit 7", "g b until [ -e go ];"
                        " do sleep 0.1; done", "g c true", "g c: after a", "h d false"])
    run = room.start()
    room.until(lambda: len(room.lines("s.log")) == 3 and room.has("s.out/g.b.0"))
    tries.is_same(f"{kind}: a list", room.path, room.run("s", "JOBS", "--list", errors="errors2"), (
        0, "g a: waiting: a retry after exit 7\ng b: running\ng c: waiting\nh d: exit 1\n"))
    status, output = room.run("s", "JOBS", "--dry-run", errors="errors2")
    tries.is_same(f"{kind}: a dry run", room.path, (status, without_hours(output)), (
        0, f"later g a: {RETRY}\nrunning g b\nlater g c: after g/a\nfailed h d: exit 1\n"))
    kill([run.pid], which=signal.SIGTERM)
    room.ended(run)
    room.write("go", "")
    fresh = ["begin g a: [ -e fine ] || exit 7", "begin g b: until [ -e go ]; do sleep 0.1; done",
             "begin h d: false", "later g c: after g/a"]
    rest = ["begin g b: until [ -e go ]; do sleep 0.1; done",
            f"later g a: {RETRY}", "later g c: after g/a", "failed h d: exit 1"]
    both = ["night 1, the rest of it:", *rest, "night 2:", *(
        f"later {it}: after the rest of night 1" for it in ("g a", "g b", "g c", "h d"))]
    retried = ["begin g b: until [ -e go ]; do sleep 0.1; done", "begin h d: false",
               f"later g a: {RETRY}", "later g c: after g/a"]
    for words, wanted in ((), rest), (("--nightly",), both), (("--again",), fresh), (
            ("--failed",), retried):
        status, output = room.run("s", "JOBS", "--dry-run", *words)
        tries.is_same(f"{kind}: a dry run {' '.join(words)}", room.path,
                      (status, without_hours(output).splitlines()), (0, wanted))
    room.set(["g a true", "g b true"])
    tries.is_same(f"{kind}: its end", room.path, room.run("s", "JOBS")[0], 1)
    status, output = room.run("s", "JOBS", "--dry-run", "--nightly")
    tries.is_same(f"{kind}: a night that has ended", room.path, output,
                  "begin g a: true\nbegin g b: true\n")
    kind = "when commands began"
    room = Room(tries, ["g: limit 1", *(f"g k{it} sleep 0.3" for it in range(5))])
    tries.is_same(kind, room.path, room.run()[0], 0)
    its = [it["tries"][0] for it in json.loads(room.run("s", "JOBS", "--list", "--json")[1])]
    beside = [(one, other) for one, other in zip(its, its[1:])
              if one["began"] + one["took"] > other["began"] + 0.002]
    tries.holds(f"{kind}: no two at a time", room.path, not beside and len(its) == 5, beside)


def has_begun(room: Room, name: str, count: int) -> bool:
    """Whether a command has begun so often."""
    return room.begun()[name] == count


def failed(tries: Shared) -> None:
    """--failed, --again and --nightly after failures, cancels and stops."""
    kind = "what failed, again"
    room = Room(tries, [job("g", "a", end="; test -e fine"), job("h", "b", 30), job("g", "c")])
    run = room.start()
    room.until(lambda: room.has("s.out/h.b.0"))
    room.until(lambda: len(room.lines("s.log")) == 3)
    room.run("s", "--cancel", "h", "not", "now", errors="errors2")
    tries.is_same(f"{kind}: before", room.path, room.ended(run)[1].splitlines()[-1],
                  "3 commands: 1 ok, 1 failed, 1 canceled; 3 run this time")
    room.write("fine", "")
    room.set([job("g", "a", end="; test -e fine"), job("h", "b"), job("g", "c")])
    tries.is_same(kind, room.path, (room.last("s", "JOBS", "--failed"), room.begun()), (
        (0, "3 commands: 3 ok; 2 run this time"), {"g.a": 2, "h.b": 2, "g.c": 1}))
    room.agrees(kind)
    kind = "a night that is left"
    room = Room(tries, [job("g", f"k{it}", 0.3) for it in range(4)])
    run = room.start("s", "JOBS", "-j", "1")
    room.until(lambda: len(room.lines("begun")) == 2)
    kill([run.pid], which=signal.SIGTERM)
    room.ended(run)
    tries.is_same(f"{kind}: --nightly does the rest, and tonight's", room.path,
                  (room.run("s", "JOBS", "--nightly"), room.errors), ((0, (
                      "night 1, the rest of it:\n4 commands: 4 ok; 3 run this time\nnight 2:\n"
                      "4 commands: 4 ok; 4 run this time\n")), LEFT))
    tries.is_same(f"{kind}: how often each began", room.path, room.begun(),
                  {"g.k0": 2, "g.k1": 3, "g.k2": 2, "g.k3": 2})
    for word, count in ("--nightly", 4), ("--again", 6):
        run = room.start("s", "JOBS", word, "-j", "1")
        room.until(functools.partial(has_begun, room, "g.k1", count))
        kill([run.pid], which=signal.SIGTERM)
        room.ended(run)
        if word == "--nightly":
            tries.is_same(f"{kind}: --resume does the rest alone", room.path,
                          (room.run("s", "JOBS", "--resume")[0], room.begun()["g.k0"]), (0, 3))
    run = room.start("s", "JOBS", "--nightly", "-j", "1")
    room.until(lambda: room.begun()["g.k1"] == 7)
    kill([run.pid], which=signal.SIGTERM)
    status, output = room.ended(run)
    tries.is_same(f"{kind}: a stop in the rest", room.path, (
        status, output.splitlines()[-1], room.begun()["g.k0"]), (
            1, "4 commands: 1 ok, 3 left; 0 run this time", 4))
    tries.is_same(f"{kind}: --quiet", room.path,
                  (room.run("s", "JOBS", "--nightly", "--quiet"), room.errors,
                   room.begun()["g.k0"]), ((0, ""), "", 5))


def missed(tries: Shared) -> None:
    """What the last night missed for good is reported with tonight's, and a command that outlived
    its driver and its deadline is stopped before tonight's try of it begins."""
    kind = "the rest of a night whose deadline has passed"
    room = Room(tries, ["g: within 4s", job("g", "a"), "g b [ -e second ] || { touch second;"
                        " exec sleep 61; }; echo b >> done", job("g", "c"), "g c: after b"])
    run = room.start("s", "JOBS", "--grace", "1")
    # (the end of `a` is logged once it is recorded, and so isn't one that the next run takes)
    room.until(lambda: room.has("second") and room.has("s.log") and "\tok\t" in room.text("s.log"))
    hit(run, "driver")
    room.ended(run)
    time.sleep(5)
    alarm = "{ echo $NIGHT_STATUS $NIGHT_FAILED; cat; } > alarm"
    found = room.run("s", "JOBS", "--nightly", "--quiet", "--grace", "1", "--on-failure", alarm,
                     seconds=40)
    tries.is_same(kind, room.path, found, (0, (
        "night 1, the rest of it:\ng b: canceled: within 4s; s.out/g.b.1\n"
        "g c: canceled: within 4s\n3 commands: 1 ok, 2 canceled; 1 run this time\nnight 2:\n"
        "3 commands: 3 ok; 3 run this time\n")))
    tries.is_same(f"{kind}: the alarm", room.path, room.text("alarm"), f"0 2\n{found[1]}")
    tries.is_same(f"{kind}: its command is stopped", room.path,
                  [it for it in environments(room.path) if "sleep\x0061" in it], [])
    tries.is_same(f"{kind}: once", room.path, room.run("s", "JOBS", "--nightly"),
                  (0, "3 commands: 3 ok; 3 run this time\n"))
    kind = "a store that another program has"
    with locked(f"{room.path}/s"):
        status, output = room.run("s", "JOBS", "--nightly", seconds=90)
    tries.holds(kind, room.path, (status, output) == (3, "") and
                "s: in use by another program" in room.errors, (status, output, room.errors))


def nightly(tries: Shared) -> None:
    """--nightly where a line is added, and where a deadline passed that no driver saw."""
    kind = "the next night after an added line"
    room = Room(tries, [job("g", "a")])
    room.run()
    room.set([job("g", "a"), job("g", "b")])
    tries.is_same(kind, room.path, (room.run("s", "JOBS", "--nightly")[0], room.begun()),
                  (0, {"g.a": 2, "g.b": 1}))
    kind = "the next night after a deadline"
    room = Room(tries, ["night: within 3s", job("g", "a", 1), job("g", "b", 1)])
    run = room.start("s", "JOBS", "-j", "1")
    room.until(lambda: room.lines("begun"))
    kill([run.pid], which=signal.SIGTERM)
    room.ended(run)
    time.sleep(3.5)
    tries.is_same(kind, room.path, (room.run("s", "JOBS", "--nightly", "-j", "2")[0],
                                    room.begun()), (0, {"g.a": 2, "g.b": 1}))


def astray(tries: Shared) -> None:
    """Mistakes of a newcomer on the command line: each is reported, and nothing is made."""
    for words, status, why in ASTRAY:
        room = Room(tries, ["g a true"])
        room.write("bytes", "\0" * 4096)
        os.symlink("/dev/null", f"{room.path}/null")
        night = "./missing" if "NIGHT" in why else ""
        tries.is_same("astray", words, (room.run(*words, night=night), room.errors),
                      ((status, ""), f"night-run: {why}\n"))
        tries.is_same("astray: nothing is made", words, sorted(os.listdir(room.path)),
                      ["JOBS", "bytes", "errors", "null"])
    for words, part in UNUSABLE:
        room = Room(tries, ["g a true"])
        found = room.run(*words)
        tries.is_same("unusable words", words, (
            found, room.errors[:11], part in room.errors, room.errors.count("\n"),
            room.errors.endswith(MORE)), ((2, ""), "night-run: ", True, 1, True))
    done = subprocess.run([tries.driver], capture_output=True, text=True, check=False)
    tries.is_same("no words", "", (done.returncode, done.stderr.split(" ")[0]), (2, "usage:"))
    room = Room(tries, ["disk: limit 1", "disks: limit 1", "disks a true", "disks b: timeout 1s"])
    tries.is_same("a group with no command", room.path, (room.run()[0], room.errors), (
        0, "night-run: JOBS: line 1: the group disk has no command\n"
           "night-run: JOBS: line 4: disks has no command b\n"))


def keys(tries: Shared) -> None:
    """Ctrl-C once, twice, and SIGTERM."""
    jobs = [job("g", f"k{it}", 0.8) for it in range(4)]
    left = ["g k2: waiting", "g k3: waiting"]
    soon = "night-run: no more commands are started; Ctrl-C again stops those that run\n"
    cut = [f"night-run: g k{it}: interrupted\n" for it in range(2)]
    both = ["g k0: interrupted", "g k1: interrupted"]
    for kind, signals, errors, wanted in (
            ("Ctrl-C", [signal.SIGINT], soon,
             [*left, "4 commands: 2 ok, 2 left; 2 run this time"]),
            ("Ctrl-C twice", [signal.SIGINT] * 2, soon + "".join(cut),
             [*both, *left, "4 commands: 4 left; 0 run this time"]),
            ("SIGTERM", [signal.SIGTERM], "".join(cut),
             [*both, *left, "4 commands: 4 left; 0 run this time"])):
        room = Room(tries, jobs)
        run = room.start("s", "JOBS", "-j", "2")
        room.until(lambda: len(room.lines("begun")) == 2)
        for it in signals:
            kill([run.pid], which=it)
            time.sleep(0.1)
        status, output = room.ended(run)
        tries.is_same(kind, room.path, (status, output.splitlines(), sorted(
            room.errors.splitlines(True))), (1, wanted, sorted(errors.splitlines(True))))
        tries.is_same(f"{kind}: listed", room.path, room.run("s", "JOBS", "--list"),
                      (0, "".join(f"{it}\n" for it in wanted[:-1])))
        tries.is_same(f"{kind}: run again", room.path, (room.run()[0], set(room.lines("done"))),
                      (0, {f"g.k{it}" for it in range(4)}))
        room.agrees(kind)


def terminals(tries: Shared) -> None:
    """A line of progress, on a terminal alone, and no wider than that."""
    room = Room(tries, [job("g", "a"), job("g", "b", end="; exit 3")])
    shown = on_a_terminal(room)
    tries.holds("progress on a terminal", room.path,
                shown.endswith("\r\x1b[K2 of 2 done, 0 running, 1 failed\r\x1b[K"), shown)
    tries.is_same("progress: none into a file", room.path, (room.run()[0], room.errors), (1, ""))


def on_a_terminal(room: Room) -> str:
    """What a driver prints on a terminal."""
    ours, its = os.openpty()
    with subprocess.Popen([room.tries.driver, "s", "JOBS"], cwd=room.path, stderr=its,
                          stdin=subprocess.DEVNULL, stdout=subprocess.DEVNULL,
                          start_new_session=True, env={**os.environ, "NIGHT": room.night}):
        os.close(its)
        shown = b""
        while True:
            try:
                shown += os.read(ours, 4096)
            except OSError:
                break
    os.close(ours)
    return shown.decode()


SETTINGS = [cleanups, retries, timeout, places, shells, cancels, cancels_alone,
            deadlines_after_the_end, cancels_with_a_deadline, helps, after, stop_on_failure, limits,
            summaries, views, looks, failed, missed, nightly, astray, keys, terminals]
