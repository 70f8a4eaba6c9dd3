"""What an operator wants of a night besides its file of commands: one command alone, one again, one
left out, a pause, other limits; and what a stranger would break there."""

from __future__ import annotations

import os
import re
import shutil
import signal
import time

from driver_cases import small_store
from driver_room import Room, Shared, hit, kill, most_at_once
from driver_tries import fill, on_full_disk
from nights_plan import days_from
from running import bytes_of

# What becomes of a wish while no driver is active.
NEXT = "no night-run is active, so the next run does it"
# A command that writes down that it begins, and waits for a file of its key.
WAITS = "echo {group}.{key} >> begun; echo +{group} >> steps; until [ -e go.{key} ];" \
    " do sleep 0.05; done; echo -{group} >> steps"


def waits(group: str, key: str, end: str = "") -> str:
    return f"{group} {key} {WAITS.format(group=group, key=key)}{end}"


def short(group: str, key: str, end: str = "") -> str:
    return f"{group} {key} echo {group}.{key} >> begun{end}"


def go(room: Room, *keys: str) -> None:
    for it in keys:
        room.write(f"go.{it}", "")


def until_begun(room: Room, *names: str) -> None:
    room.until(lambda: set(names) <= set(room.lines("begun")))


def has_ended(room: Room, tried: str) -> bool:
    """Whether the shell of a try has ended, and nobody has waited for it."""
    found = re.search(r"^process \S+ ([0-9]+) ", room.text(f"s.tries/{tried}"), re.M)
    return found is not None and b") Z " in bytes_of(f"/proc/{found[1]}/stat")


def ask(room: Room, *words: str) -> tuple[int | str, str]:
    """The status of a request, and the line that it prints, wherever it does."""
    status, output = room.run("s", *words, seconds=90, errors="errors2")
    return status, (output + room.text("errors2")).rstrip("\n")


def rows(output: str) -> list[str]:
    """The lines of a summary without the outputs that it names."""
    return [it.partition("; ")[0] for it in output.splitlines() if not it.startswith("    ")]


# --- skip

def skips(tries: Shared) -> None:
    """What is left out never begins, and neither does what comes after it; its cleanup does. That
    is no failure."""
    kind = "--skip"
    room = Room(tries, ["disks: limit 1 stop on failure", waits("disks", "a"), short("disks", "b"),
                        short("disks", "c"), "mails: after disks", short("mails", "all"),
                        short("tidy", "up"), "tidy up: after ended disks/b",
                        short("warn", "me"), "warn me: after failed disks/b"])
    run = room.start("s", "JOBS", "--quiet", "--on-failure", "echo >> alarm",
                     "--on-success", "echo >> fine")
    until_begun(room, "disks.a")
    tries.is_same(f"{kind}: the answer", room.path, ask(room, "--skip", "disks/b"),
                  (0, "disks/b: left out, and with it mails/all"))
    tries.is_same(f"{kind}: twice", room.path, ask(room, "--skip", "disks/b"),
                  (0, "disks/b: left out, and with it mails/all"))
    tries.is_same(f"{kind}: a key that there isn't", room.path, ask(room, "--skip", "disks/x"),
                  (2, "night-run: disks has no command x"))
    tries.is_same(f"{kind}: a group that there isn't", room.path, ask(room, "--skip", "disk"),
                  (2, "night-run: JOBS has no group disk; did you mean disks?"))
    tries.is_same(f"{kind}: all or none", room.path, ask(room, "--skip", "disks/c", "disks/x"),
                  (2, "night-run: disks has no command x"))
    tries.is_same(f"{kind}: nothing is named", room.path, ask(room, "--skip")[0], 2)
    tries.is_same(f"{kind}: what is no name", room.path, ask(room, "--skip", "Disks/b")[0], 2)
    go(room, "a")
    status, output = room.ended(run)
    tries.is_same(f"{kind}: the summary, with --quiet, too", room.path, (status, rows(output)), (
        0, ["disks b: left out by root (--skip)",
            "mails all: left out because disks/b is left out",
            "6 commands: 3 ok, 1 not needed, 2 left out"]))
    tries.is_same(f"{kind}: what began", room.path, sorted(room.begun()),
                  ["disks.a", "disks.c", "tidy.up"])
    tries.is_same(f"{kind}: no alarm", room.path, (room.has("alarm"), room.has("fine")),
                  (False, True))
    tries.is_same(f"{kind}: the list", room.path, room.run("s", "JOBS", "--list")[1].splitlines(), [
        "disks b: left out by root (--skip)", "mails all: left out because disks/b is left out",
        "warn me: not needed, because disks/b didn't fail"])
    tries.is_same(f"{kind}: after all, by --redo", room.path,
                  room.last("s", "JOBS", "--redo", "disks/b"),
                  (0, "6 commands: 5 ok, 1 not needed; 3 run this time"))
    tries.is_same(f"{kind}: it lasts for a night", room.path, room.last("s", "JOBS", "--again"),
                  (0, "6 commands: 5 ok, 1 not needed; 5 run this time"))


def skips_what_ran(tries: Shared) -> None:
    """What runs goes on, and isn't tried again; what has ended isn't left out."""
    kind = "--skip of what ran"
    room = Room(tries, ["g: retries 3", waits("g", "a", "; exit 3"), short("g", "b"),
                        short("g", "c", "; exit 5"), "g c: retries 1 wait 1h",
                        short("h", "d"), "h d: after failed g/b"])
    run = room.start()
    until_begun(room, "g.a", "g.b", "g.c")
    room.until(lambda: "exit 5" in room.text("s.log"))
    tries.is_same(f"{kind}: it runs", room.path, ask(room, "--skip", "g/a"),
                  (0, "g/a: still running, and won't be tried again"))
    tries.is_same(f"{kind}: it has ended", room.path, ask(room, "--skip", "g/b"),
                  (2, "night-run: g b has ended: ok"))
    tries.is_same(f"{kind}: it never begins", room.path, (
        ask(room, "--skip", "h/d"), ask(room, "--cancel", "h/d")),
        ((2, "night-run: h d is not needed, because g/b didn't fail"),) * 2)
    tries.is_same(f"{kind}: it waits for its retry", room.path, ask(room, "--skip", "g"),
                  (0, "g: 1 of 3 left out; 1 still running, and won't be tried again"))
    tries.is_same(f"{kind}: with the command file", room.path, (
        room.run("s", "JOBS", "--skip", "g/a", errors="errors2")[0], re.sub(
            "for [0-9][0-9.hms]*", "for TIME", room.errors)), (
        3, f"night-run: s: in use by another night-run, process {run.pid}, for TIME; without the"
        " command file, that one is asked: night-run s --skip g/a\n"))
    go(room, "a")
    status, output = room.ended(run, 30)
    tries.is_same(f"{kind}: a failure stays one", room.path, (status, rows(output)), (
        1, ["g a: exit 3", "g c: exit 5", "4 commands: 1 ok, 2 failed, 1 not needed"]))
    tries.is_same(f"{kind}: each began once", room.path, room.begun(),
                  {"g.a": 1, "g.b": 1, "g.c": 1})


def skips_survive(tries: Shared) -> None:
    """After the answer it holds, whatever is killed; and a request of one that was killed before
    the answer cancels nothing else."""
    kind = "--skip and kills"
    room = Room(tries, ["g: limit 1", waits("g", "a"), short("g", "b"), short("g", "c")])
    run = room.start()
    until_begun(room, "g.a")
    tries.is_same(f"{kind}: the answer", room.path, ask(room, "--skip", "g/b"),
                  (0, "g/b: left out"))
    kill([run.pid], which=signal.SIGSTOP)
    asking = room.start("s", "--skip", "g/c", errors="errors2")
    room.until(lambda: os.listdir(f"{room.path}/s.cancel"))
    kill([asking.pid])
    asking.wait()
    hit(run, "all")
    room.ended(run)
    go(room, "a")
    status, output = room.run()
    tries.is_same(kind, room.path, (status, rows(output), sorted(room.begun().items())), (
        0, ["g b: left out by root (--skip)", "3 commands: 2 ok, 1 left out"],
        [("g.a", 2), ("g.c", 1)]))
    # the driver is killed between the request and the answer
    room = Room(tries, ["g: limit 1", waits("g", "a"), short("g", "b")])
    run = room.start()
    until_begun(room, "g.a")
    kill([run.pid], which=signal.SIGSTOP)
    asking = room.start("s", "--skip", "g/b", errors="errors2")
    room.until(lambda: os.listdir(f"{room.path}/s.cancel"))
    hit(run, "all")
    room.ended(run)
    tries.is_same(f"{kind}: the driver is killed before", room.path,
                  room.ended(asking, errors="errors2"), (0, f"skip g/b: {NEXT}\n"))
    go(room, "a")
    tries.is_same(f"{kind}: the next run has it", room.path, rows(room.run()[1]), [
        "g b: left out by root (--skip)", "2 commands: 1 ok, 1 left out"])


# --- only

def onlys(tries: Shared) -> None:
    """Only those that are named begin, with what they come after and their cleanups."""
    kind = "--only"
    room = Room(tries, [waits("x", "first"), short("disks", "a"), short("disks", "b"),
                        "disks b: after a", short("disks", "c"), short("tidy", "up"),
                        "tidy up: after ended disks", short("mails", "all"),
                        "mails: after disks"])
    run = room.start("s", "JOBS", "-j", "1", "--on-failure", "echo >> alarm")
    until_begun(room, "x.first")
    tries.is_same(f"{kind}: the answer", room.path, ask(room, "--only", "disks/b"),
                  (0, "only disks/b: 2 others left out"))
    hit(run, "all")
    room.ended(run)
    status, output = room.run("s", "JOBS", "-j", "1", "--on-failure", "echo >> alarm")
    tries.is_same(f"{kind}: a killed night does the same", room.path, (status, rows(output)), (
        0, ["x first: left out by root (--only)", "disks c: left out by root (--only)",
            "mails all: left out by root (--only)", "6 commands: 3 ok, 3 left out"]))
    tries.is_same(f"{kind}: what began", room.path, sorted(room.begun()),
                  ["disks.a", "disks.b", "tidy.up", "x.first"])
    tries.is_same(f"{kind}: no alarm", room.path, room.has("alarm"), False)
    tries.is_same(f"{kind}: with the file of commands it is a run", room.path,
                  room.last("s", "JOBS", "--again", "--only", "disks/a", "--skip", "tidy"),
                  (0, "6 commands: 1 ok, 5 left out; 1 run this time"))
    go(room, "first")
    tries.is_same(f"{kind}: --redo of one that is left out", room.path,
                  room.last("s", "JOBS", "--redo", "x"),
                  (0, "6 commands: 2 ok, 4 left out; 1 run this time"))
    tries.is_same(f"{kind}: the rest may begin after all", room.path, (
        ask(room, "--only", "night"), room.last()), (
        (0, f"only night: {NEXT}"),
        (0, "6 commands: 5 ok, 1 left out; 3 run this time")))


def comes_back(tries: Shared) -> None:
    """A skipped command comes back only by its name. One that --only has left out also comes back
    with a command that it comes after, or that comes after it."""
    kind = "what is left out comes back"
    room = Room(tries, [short("g", "a"), short("g", "b"), "g b: after a", short("g", "c"),
                        "g c: after b", short("h", "d"), "h d: after g/a", short("h", "e")])
    tries.is_same(f"{kind}: a night", room.path,
                  room.last("s", "JOBS", "--only", "g/a", "--skip", "h/d"),
                  (0, "5 commands: 1 ok, 4 left out; 1 run this time"))
    tries.is_same(f"{kind}: with what it comes after", room.path,
                  (room.last("s", "JOBS", "--redo", "g/c"), room.begun()), (
        (0, "5 commands: 3 ok, 2 left out; 2 run this time"), {"g.a": 1, "g.b": 1, "g.c": 1}))
    tries.is_same(f"{kind}: with what comes after it, but for what was skipped", room.path,
                  (room.last("s", "JOBS", "--redo", "g/a"), room.begun()), (
        (0, "5 commands: 3 ok, 2 left out; 3 run this time"), {"g.a": 2, "g.b": 2, "g.c": 2}))
    tries.is_same(f"{kind}: by its name", room.path, room.last("s", "JOBS", "--only", "h/d"),
                  (0, "5 commands: 4 ok, 1 left out; 1 run this time"))
    ask(room, "--redo", "g/a")
    tries.is_same(f"{kind}: with what is to run again by another request", room.path,
                  (room.last("s", "JOBS", "--only", "g/b"), room.begun()), (
        (0, "5 commands: 2 ok, 3 left out; 2 run this time"),
        {"g.a": 3, "g.b": 3, "g.c": 2, "h.d": 1}))


def asks_for_several(tries: Shared) -> None:
    """The requests of one line, while no driver was active, are taken as a whole; if that can't be,
    those of them that can."""
    kind = "several for the next run"
    room = Room(tries, ["g: limit 1 stop on failure", short("g", "a"),
                        short("g", "b", "; [ -e good ]"), short("h", "c"), short("h", "d"),
                        short("i", "e")])
    tries.is_same(f"{kind}: a night", room.path, room.last()[0], 1)
    room.write("good", "")
    ask(room, "--redo", "g/a", "g/b")
    tries.is_same(f"{kind}: two that need each other", room.path, (room.last(), room.begun()), (
        (0, "5 commands: 5 ok; 2 run this time"), {
            "g.a": 2, "g.b": 2, "h.c": 1, "h.d": 1, "i.e": 1}))
    ask(room, "--only", "h/c", "i")
    ask(room, "--skip", "i", "--set", "j=1")
    tries.is_same(f"{kind}: two alone, and one of them left out then", room.path,
                  room.last("s", "JOBS", "--again"),
                  (0, "5 commands: 1 ok, 4 left out; 1 run this time"))
    ask(room, "--only", "h/c", "h/d", "i")
    room.set([it for it in room.jobs if not it.startswith("h d")])
    status, output = room.last("s", "JOBS", "--again")
    tries.is_same(f"{kind}: one has gone from the file", room.path, (status, output, room.errors), (
        0, "4 commands: 2 ok, 2 left out; 2 run this time",
        "night-run: --only h/d by root is passed over: h has no command d\n"))


def leaves_nothing(tries: Shared) -> None:
    """A line that leaves out all that is left ends the night."""
    kind = "nothing is left"
    for words, count in ((("s", "JOBS", "--skip", "night"), 2), (("s", "JOBS", "--only", "h"), 2),
                         (("s", "--skip", "g"), 2)):
        room = Room(tries, ["g: limit 1", waits("g", "a"), short("g", "b"), short("h", "c")])
        run = room.start()
        until_begun(room, "g.a", "h.c")
        room.until(lambda: "ok" in room.text("s.log"))
        kill([run.pid], which=signal.SIGTERM)
        room.ended(run)
        if "JOBS" in words:
            tries.is_same(f"{kind}: it ends", words, room.last(*words),
                          (0, f"3 commands: 1 ok, {count} left out; 0 run this time"))
        else:
            ask(room, *words[1:])
            room.run()
        tries.is_same(f"{kind}: another run", words, (
            room.last()[1].partition(":")[0], sorted(room.begun())),
            ("nothing to do", ["g.a", "h.c"]))
    room = Room(tries, [short("g", "a"), short("g", "b")])
    tries.is_same(f"{kind}: from the start", room.path, (
        room.last("s", "JOBS", "--skip", "night"), room.last()[1].partition(":")[0]),
        ((0, "2 commands: 2 left out; 0 run this time"), "nothing to do"))
    tries.is_same(f"{kind}: the next night", room.path, room.last("s", "JOBS", "--nightly"),
                  (0, "2 commands: 2 ok; 2 run this time"))


def only_not_due(tries: Shared) -> None:
    """A command that isn't due counts as if it weren't there; only --redo with its name runs it."""
    kind = "--only, and what isn't due"
    other = days_from(3)
    room = Room(tries, [short("g", "a"), short("g", "b"), f"g b: after a on {other}",
                        short("g", "c"), "g c: after b", short("h", "d"), f"h d: on {other}",
                        short("h", "e"), "h e: after d"])
    tries.is_same(kind, room.path, (room.last("s", "JOBS", "--only", "g/c", "h/e"), room.begun()), (
        (0, "5 commands: 2 ok, 2 not due, 1 left out; 2 run this time"), {"g.c": 1, "h.e": 1}))
    tries.is_same(f"{kind}: it alone", room.path, (
        room.last("s", "JOBS", "--again", "--only", "h/d"), len(room.begun())),
        ((0, "5 commands: 2 not due, 3 left out; 0 run this time"), 2))
    tries.is_same(f"{kind}: all of it", room.path, room.last("s", "JOBS", "--again"),
                  (0, "5 commands: 3 ok, 2 not due; 3 run this time"))
    room.set([*room.jobs, waits("i", "x")])
    run = room.start("s", "JOBS")
    until_begun(room, "i.x")
    tries.is_same(f"{kind}: the answers", room.path, (
        ask(room, "--skip", "h/d"), ask(room, "--only", "h/d", "g/c"), ask(room, "--only", "night"),
        ask(room, "--redo", "g")), (
        (0, "h/d: not due"),
        (0, "only h/d g/c: 0 others left out; h/d: not due, which --redo changes"),
        (0, "nothing is left out by --only"), (0, "g: runs again")))
    go(room, "x")
    tries.is_same(f"{kind}: a group's name runs what is due", room.path, room.ended(run), (
        0, "6 commands: 4 ok, 2 not due; 3 run this time\n"))
    before = room.begun()
    tries.is_same(f"{kind}: --redo by its name", room.path, (
        room.last("s", "JOBS", "--redo", "g/b"), room.begun() - before), (
        (0, "6 commands: 5 ok, 1 not due; 2 run this time"), {"g.b": 1, "g.c": 1}))
    before = room.begun()
    tries.is_same(f"{kind}: --redo in the next night", room.path, (
        room.last("s", "JOBS", "--again", "--redo", "h/d", "--skip", "g/b", "--only", "h"),
        room.begun() - before), (
        (0, "6 commands: 2 ok, 1 not due, 3 left out; 2 run this time"), {"h.d": 1, "h.e": 1}))


def begins_late(tries: Shared) -> None:
    """A group of which nothing was to begin as the run began, since it was left out or isn't due,
    may get something to do while commands run on."""
    kind = "a group that gets something to do during the run"
    room = Room(tries, [waits("g", "a"), short("h", "b"), short("h", "c"), short("i", "d"),
                        f"i: on {days_from(3)}", "j: within 1h", short("j", "e"), short("k", "f"),
                        "k f: after j"])
    run = room.start("s", "JOBS", "-j", "2", "--only", "g/a")
    until_begun(room, "g.a")
    tries.is_same(f"{kind}: what wasn't due", room.path, ask(room, "--redo", "i/d"),
                  (0, "i/d: runs again"))
    room.until(lambda: room.begun()["i.d"] == 1)
    tries.is_same(f"{kind}: what was left out", room.path, ask(room, "--redo", "h/b"),
                  (0, "h/b: runs again"))
    room.until(lambda: room.begun()["h.b"] == 1)
    tries.is_same(f"{kind}: no place is free", room.path, (
        ask(room, "--set", "j=1"), ask(room, "--only", "night"), room.begun(),
        ask(room, "--cancel", "j/e", "not", "now")), (
        (0, "j=1"), (0, "nothing is left out by --only"), {"g.a": 1, "i.d": 1, "h.b": 1},
        (0, "j/e: canceled: not now")))
    go(room, "a")
    status, output = room.ended(run)
    tries.is_same(kind, room.path, (status, rows(output), room.begun()), (
        1, ["j e: canceled: not now", "k f: not started, because j/e was canceled",
            "6 commands: 4 ok, 1 canceled, 1 not started"],
        {"g.a": 1, "h.b": 1, "h.c": 1, "i.d": 1}))
    tries.is_same(f"{kind}: nothing is wrong", room.path, room.errors, "")
    room.agrees(kind)


def dry_runs(tries: Shared) -> None:
    """What a line would run, without a run."""
    kind = "a dry run of --only, --redo and --skip"
    room = Room(tries, ["g a true", "g b true", "g b: after a", "h c true"])
    tries.is_same(f"{kind}: no store", room.path,
                  room.run("s", "JOBS", "--dry-run", "--only", "g/b")[1].splitlines(),
                  ["begin g a: true", "later g b: after g/a", "left out h c: by root (--only)"])
    tries.is_same(f"{kind}: nothing is made", room.path, os.listdir(room.path).count("s"), 0)
    tries.is_same(f"{kind}: a night", room.path, room.run()[0], 0)
    tries.is_same(f"{kind}: again", room.path,
                  room.run("s", "JOBS", "--dry-run", "--redo", "g/a")[1].splitlines(),
                  ["begin g a: true", "later g b: after g/a", "ok h c"])
    tries.is_same(f"{kind}: a slip", room.path,
                  room.run("s", "JOBS", "--dry-run", "--redo", "g/x")[0], 2)
    tries.is_same(f"{kind}: nothing is kept", room.path, room.has("s.tonight"), False)
    tries.is_same(f"{kind}: what the next run has", room.path, (
        ask(room, "--skip", "h"), room.run("s", "JOBS", "--dry-run", "--again")[1].splitlines()), (
        (0, f"skip h: {NEXT}"),
        ["begin g a: true", "later g b: after g/a", "left out h c: by root (--skip)",
         "next run: skip h, by root"]))


# --- redo

def redoes(tries: Shared) -> None:
    """What is ok runs again, and what comes after it; while one of these runs it is refused."""
    kind = "--redo"
    room = Room(tries, [short("g", "a"), short("g", "b", "; [ -e bad ] && exit 1; true"),
                        waits("h", "c"), "h c: after g/b", short("h", "d")])
    run = room.start()
    until_begun(room, "h.c", "g.a")
    tries.is_same(f"{kind}: one after it runs", room.path, ask(room, "--redo", "g/b"), (
        2, "night-run: g/b can't run again while h/c runs: cancel that, or wait until it has"
           " ended"))
    room.until(lambda: room.text("s.log").count("ok") >= 3)
    tries.is_same(f"{kind}: another", room.path, ask(room, "--redo", "g/a"), (0, "g/a: runs again"))
    room.until(lambda: room.begun()["g.a"] == 2)
    go(room, "c")
    tries.is_same(f"{kind}: the night", room.path, room.ended(run),
                  (0, "4 commands: 4 ok; 4 run this time\n"))
    tries.is_same(f"{kind}: it ran again", room.path, room.begun(),
                  {"g.a": 2, "g.b": 1, "h.c": 1, "h.d": 1})
    room.write("bad", "")
    tries.is_same(f"{kind}: after the night", room.path, (
        room.run("s", "JOBS", "--redo", "g/b")[0], room.begun()), (
        1, {"g.a": 2, "g.b": 2, "h.c": 1, "h.d": 1}))
    os.remove(f"{room.path}/bad")
    tries.is_same(f"{kind}: what failed, and what comes after it", room.path, (
        room.last("s", "JOBS", "--redo", "g/b"), room.begun()), (
        (0, "4 commands: 4 ok; 2 run this time"), {"g.a": 2, "g.b": 3, "h.c": 2, "h.d": 1}))
    room.agrees(kind)
    tries.is_same(f"{kind}: the next night", room.path, room.last("s", "JOBS", "--nightly"),
                  (0, "4 commands: 4 ok; 4 run this time"))


def redoes_a_stop(tries: Shared) -> None:
    """A group that had stopped on a failure goes on once that runs again. What ran because the
    others of the group didn't begin runs again after them, such as a cleanup."""
    kind = "--redo of what had stopped a group"
    room = Room(tries, [
        "g: limit 1 stop on failure", short("g", "a", "; [ -e fine ]"), short("g", "b"),
        short("g", "c", "; [ -e good ]"), short("t", "z"), "t z: after ended g/b",
        short("t", "y"), "t y: after ended t/z", short("w", "f"), "w f: after failed g",
        short("w", "n"), "w n: after failed g/b", short("o", "k")])
    tries.is_same(f"{kind}: the night", room.path, (room.last(), room.begun()), (
        (1, "8 commands: 4 ok, 1 failed, 2 not started, 1 not needed; 5 run this time"),
        dict.fromkeys(("g.a", "t.z", "t.y", "w.f", "o.k"), 1)))
    tries.is_same(f"{kind}: what couldn't begin", room.path, ask(room, "--redo", "g/b")[0], 0)
    tries.is_same(f"{kind}: what couldn't begin is passed over", room.path, (
        room.last("s", "JOBS", "--failed", "--skip", "o")[0], "passed over" in room.errors),
        (1, True))
    room.write("fine", "")
    before = room.begun()
    tries.is_same(f"{kind}: while nothing runs", room.path, (
        room.run("s", "JOBS", "--redo", "g/a")[0], room.begun() - before), (
        1, dict.fromkeys(("g.a", "g.b", "g.c", "t.z", "t.y", "w.f"), 1)))
    its = room.lines("begun")[sum(before.values()):]
    tries.holds(f"{kind}: in their order", room.path, its.index("g.b") < its.index("t.z")
                < its.index("t.y") and its.index("g.c") < its.index("w.f"), its)
    room.write("good", "")
    before = room.begun()
    tries.is_same(f"{kind}: the last one alone", room.path, (
        room.last("s", "JOBS", "--redo", "g/c"), room.begun() - before), (
        (0, "8 commands: 6 ok, 2 not needed; 1 run this time"), {"g.c": 1}))
    room.agrees(kind)
    kind = "--redo of what had stopped a group that runs"
    room = Room(tries, ["g: stop on failure", short("g", "a", "; [ -e fine ]"), short("g", "b"),
                        "g b: after h/go", waits("h", "go"), waits("t", "z"),
                        "t z: after ended g/b", waits("o", "k")])
    run = room.start()
    until_begun(room, "t.z")
    room.write("fine", "")
    tries.is_same(f"{kind}: while its cleanup runs", room.path, ask(room, "--redo", "g/a"), (
        2, "night-run: g/a can't run again while t/z runs: cancel that, or wait until it has"
           " ended"))
    go(room, "z")
    room.until(lambda: "z" in room.text("s.log"))
    tries.is_same(f"{kind}: after it", room.path, ask(room, "--redo", "g/a"),
                  (0, "g/a: runs again, and after it t/z"))
    go(room, "go", "k")
    tries.is_same(f"{kind}: the night", room.path, (room.ended(run), room.begun()), (
        (0, "5 commands: 5 ok; 5 run this time\n"),
        {"g.a": 2, "g.b": 1, "h.go": 1, "t.z": 2, "o.k": 1}))


def redoes_at_its_end(tries: Shared) -> None:
    """A driver that sees the end of a command and a request to run it again in one round takes the
    request: the command runs again, once."""
    kind = "--redo as the command ends"
    for how in ("ok", "failed"):
        room = Room(tries, [waits("g", "a"), waits("g", "b", "" if how == "ok" else "; exit 3"),
                            short("g", "c"), "g c: after b"])
        run = room.start()
        until_begun(room, "g.a", "g.b")
        kill([run.pid], which=signal.SIGSTOP)
        go(room, "b")
        asking = room.start("s", "--redo", "g/b", errors="errors2")
        room.until(lambda: os.listdir(f"{room.path}/s.cancel"))
        room.until(lambda: has_ended(room, "g.b.0"))
        kill([run.pid], which=signal.SIGCONT)
        tries.is_same(f"{kind}: the answer", how, room.ended(asking, errors="errors2"),
                      (0, "g/b: runs again, and after it g/c\n"))
        room.until(lambda: room.begun()["g.b"] == 2 and room.text("s.log").count("\tb\t") == 2)
        go(room, "a")
        status, output = room.ended(run)
        tries.is_same(kind, how, (status, rows(output), room.begun(), room.errors), (
            (0, ["3 commands: 3 ok"], {"g.a": 1, "g.b": 2, "g.c": 1}, "") if how == "ok" else
            (1, ["g b: exit 3", "g c: not started, because g/b failed",
                 "3 commands: 1 ok, 1 failed, 1 not started"], {"g.a": 1, "g.b": 2}, "")))
        room.agrees(f"{kind}: {how}")


def redoes_once(tries: Shared) -> None:
    """A command that is to run again does so once, however often a driver is killed, and once more
    if another driver finds it meanwhile."""
    kind = "--redo and kills"
    room = Room(tries, [short("g", "a"), waits("g", "b")])
    go(room, "b")
    tries.is_same(f"{kind}: a night", room.path, room.run()[0], 0)
    os.remove(f"{room.path}/go.b")
    run = room.start("s", "JOBS", "--redo", "night")
    room.until(lambda: room.begun() == {"g.a": 2, "g.b": 2} and room.text("s.log").count("ok") > 2)
    time.sleep(0.5)
    hit(run, "both")
    room.ended(run)
    go(room, "b")
    room.settle()
    tries.is_same(f"{kind}: resumed by the next evening's line", room.path, (
        room.run("s", "JOBS", "--nightly")[1].splitlines(), room.begun()), (
        ["night 1, the rest of it:", "2 commands: 2 ok; 1 run this time", "night 2:",
         "2 commands: 2 ok; 2 run this time"], {"g.a": 3, "g.b": 3}))
    tries.is_same(f"{kind}: nothing is left", room.path, room.last()[1].split(";")[0],
                  "nothing to do: 2 commands ended" + room.last()[1].split(";")[0].partition(
                      "ended")[2])


def redoes_in_a_renewal(tries: Shared) -> None:
    """A command that is to run again does so once, although the store is renewed meanwhile, before
    the command has begun and after it has ended, and although all is killed after that."""
    kind = "--redo across a renewal"
    room = Room(tries, ["g: limit 1", short("g", "a"), waits("g", "b"), short("h", "c"),
                        short("h", "d"), "h d: after c",
                        *(f"i k{it} [ -e go ] || sleep 1; echo i.k{it} >> begun"
                          for it in range(620))])
    small_store(room)
    lines = ["derive night root cause", "derive f night cause", "bare f f"]
    for it in range(1500):
        lines += [f"go f sh k{it}", "start", f"finish {it} ok"]
    tries.is_same(f"{kind}: made", room.path, room.script(lines), "")
    run = room.start("s", "JOBS", "-j", "8")
    until_begun(room, "g.a", "g.b", "h.d")
    room.until(lambda: room.text("s.log").count("ok") > 4)
    tries.is_same(f"{kind}: it waits for another of its group", room.path,
                  ask(room, "--redo", "g/a"), (0, "g/a: runs again"))
    room.until(lambda: ask(room, "--redo", "h/c") == (0, "h/c: runs again, and after it h/d"))
    room.until(lambda: room.begun()["h.d"] == 2)
    tries.is_same(f"{kind}: before it", room.path, ("renewed" in room.text("errors"), {
        it: count for it, count in room.begun().items() if it[0] != "i"}),
        (False, {"g.a": 1, "g.b": 1, "h.c": 2, "h.d": 2}))
    room.write("go", "")
    tries.holds(f"{kind}: it is renewed", room.path,
                room.until(lambda: "renewed; events" in room.text("errors"), 120))
    room.until(lambda: room.lines("begun").count("i.k619"))
    hit(run, "both")
    room.ended(run)
    go(room, "b")
    room.settle()
    tries.is_same(kind, room.path, room.last("s", "JOBS", "-j", "8")[0], 0)
    tries.is_same(f"{kind}: what began", room.path, {
        it: count for it, count in room.begun().items() if it[0] != "i"},
        {"g.a": 2, "g.b": 1, "h.c": 2, "h.d": 2})
    tries.is_same(f"{kind}: all others began once", room.path, {
        count for it, count in room.begun().items() if it[0] == "i"}, {1})
    tries.holds(f"{kind}: a run more", room.path, room.last()[1].startswith("nothing to do"))
    tries.is_same(f"{kind}: once more", room.path, (
        room.run("s", "JOBS", "--redo", "h/c")[0], room.begun()["h.c"], room.begun()["h.d"]),
        (0, 3, 3))


def redoes_what_is_left(tries: Shared) -> None:
    """While a command of a killed driver runs, no command is begun again that it comes after. A
    command that has ended meanwhile runs again."""
    kind = "--redo of what a killed driver has left"
    room = Room(tries, [short("g", "a"), waits("g", "b"), "g b: after a", short("h", "c")])
    run = room.start()
    until_begun(room, "g.a", "g.b", "h.c")
    room.until(lambda: room.text("s.log").count("ok") >= 2)
    hit(run, "both")
    room.ended(run)
    why = "g/a can't run again while g/b runs: cancel that, or wait until it has ended"
    tries.is_same(f"{kind}: in the line of a run", room.path, (
        room.run("s", "JOBS", "--redo", "g/a")[0], room.errors.splitlines()[-1]),
        (2, f"night-run: {why}"))
    tries.is_same(f"{kind}: for the next run", room.path, ask(room, "--redo", "g/a"),
                  (0, f"redo g/a: {NEXT}"))
    run = room.start()
    tries.holds(f"{kind}: that says so", room.path, room.until(
        lambda: f"--redo g/a by root is passed over: {why}" in room.text("errors"), 30),
        room.text("errors"))
    hit(run, "both")
    room.ended(run)
    go(room, "b")
    room.until(lambda: "-g" in room.text("steps"))
    tries.is_same(f"{kind}: it has ended", room.path, room.run("s", "JOBS", "--redo", "g/b")[0], 0)
    tries.is_same(f"{kind}: what began", room.path, room.begun(), {"g.a": 1, "g.b": 2, "h.c": 1})


def redoes_what_stays(tries: Shared) -> None:
    """The end of a command that still couldn't be started isn't forgotten: the request is
    refused."""
    kind = "--redo of what couldn't be started"
    room = Room(tries, ["g: limit 1 stop on failure", short("g", "a"),
                        short("g", "b", "; [ -e good ]"), short("g", "c"), short("h", "d"),
                        "h d: after g/b", short("h", "e")])
    tries.is_same(f"{kind}: a night", room.path, room.last(),
                  (1, "5 commands: 2 ok, 1 failed, 2 not started; 3 run this time"))
    stops = "g/a can't run again: it would be not started, because g/b failed, and the group" \
        " stops on failure"
    for words, why in ((("g/a",), stops), (("h/e", "g/a"), stops), (
            ("h/d",), "h/d can't run again: it would be not started, because g/b failed")):
        tries.is_same(kind, words, (room.run("s", "JOBS", "--redo", *words)[0], room.errors),
                      (2, f"night-run: {why}\n"))
    tries.is_same(f"{kind}: left for the next run", room.path,
                  (ask(room, "--redo", "g/a")[0], room.run()[0], room.errors),
                  (0, 1, f"night-run: --redo g/a by root is passed over: {stops}\n"))
    tries.is_same(f"{kind}: nothing is forgotten", room.path, (
        [it.partition(": ")[0] for it in room.run("s", "JOBS", "--list")[1].splitlines()],
        room.begun()), (["g b", "g c", "h d", "next run"], {"g.a": 1, "g.b": 1, "h.e": 1}))
    room.write("good", "")
    tries.is_same(f"{kind}: with what failed", room.path, (
        room.last("s", "JOBS", "--redo", "g/a", "g/b"), room.begun()), (
        (0, "5 commands: 5 ok; 4 run this time"),
        {"g.a": 2, "g.b": 2, "g.c": 1, "h.d": 1, "h.e": 1}))


def redoes_late(tries: Shared) -> None:
    """A command of a group whose deadline has passed, or that was canceled, runs again; the others
    stay canceled, and --failed repeats them."""
    for what, setting in (("a deadline", "g: within 2s"), ("a failure", "g: failure cancel"),
                          ("the deadline of all", "night: within 2s")):
        kind = f"--redo after {what}"
        end = "; [ -e ok ]" if what == "a failure" else ""
        room = Room(tries, [setting, short("g", "a", end), waits("g", "b"), short("g", "c"),
                            "g c: after b", short("g", "d"), "g d: after a"])
        status, _ = room.run()
        tries.is_same(f"{kind}: a night", room.path, status, 1)
        room.write("ok", "")
        status, output = room.run("s", "JOBS", "--redo", "g/a")
        cause = "exit 1" if what == "a failure" else "within 2s"
        tries.is_same(kind, room.path, (status, rows(output)), (
            1, [f"g b: canceled: {cause}", f"g c: canceled: {cause}",
                "4 commands: 2 ok, 2 canceled"]))
        tries.is_same(f"{kind}: what began", room.path, room.begun(), {
            "g.a": 2, "g.b": 1, **({"g.d": 1} if what == "a failure" else {"g.d": 2})})
        tries.is_same(f"{kind}: a run more", room.path, room.last()[1].partition(":")[0],
                      "nothing to do")
        go(room, "b")
        tries.is_same(f"{kind}: --failed", room.path, room.last("s", "JOBS", "--failed"),
                      (0, "4 commands: 4 ok; 2 run this time"))


def redoes_early(tries: Shared) -> None:
    """A command that ran again before the deadline of its group doesn't put that off."""
    kind, library = "--redo before a deadline", tries.built("nights_clock.c")
    if not library:
        tries.skip(kind, "no cc")
        return
    room = Room(tries, ["g: within 1h", short("g", "a"), waits("g", "b"), short("g", "c"),
                        "g c: after b"])
    room.write("clock", "0")
    room.before = ["env", f"LD_PRELOAD={library}", f"NIGHTS_CLOCK={room.path}/clock"]
    run = room.start()
    until_begun(room, "g.a", "g.b")
    room.until(lambda: ask(room, "--redo", "g/a")[0] == 0)
    room.until(lambda: room.begun()["g.a"] == 2)
    room.write("clock", "7200")
    status, output = room.ended(run)
    tries.is_same(kind, room.path, (status, rows(output), room.begun()), (
        1, ["g b: canceled: within 1h", "g c: canceled: within 1h",
            "3 commands: 1 ok, 2 canceled"], {"g.a": 2, "g.b": 1}))
    tries.is_same(f"{kind}: a run more", room.path, room.last()[1].partition(":")[0],
                  "nothing to do")


def redoes_canceled(tries: Shared) -> None:
    """A command runs again in a night that goes on, though its group was canceled; also where both
    are asked for at once."""
    kind = "--redo after a cancel"
    room = Room(tries, [waits("g", "a"), short("g", "b"), "g b: after a", waits("h", "c")])
    run = room.start()
    until_begun(room, "g.a", "h.c")
    kill([run.pid], which=signal.SIGSTOP)
    cancel = room.start("s", "--cancel", "g", "not", "now", errors="errors2")
    skip = room.start("s", "--skip", "h", "g", errors="errors3")
    room.until(lambda: len(os.listdir(f"{room.path}/s.cancel")) == 2)
    time.sleep(0.2)
    kill([run.pid], which=signal.SIGCONT)
    tries.is_same(f"{kind}: the cancel", room.path, room.ended(cancel, errors="errors2")[0], 0)
    tries.is_same(f"{kind}: at once with it", room.path, room.ended(skip, errors="errors3"), (
        0, "h: 0 of 1 left out; 1 still running, and won't be tried again; g: 0 of 2 left out; 1"
           " still running, and won't be tried again\n"))
    room.until(lambda: "canceled" in room.text("s.log"))
    go(room, "a")
    room.until(lambda: ask(room, "--redo", "g/a") == (0, "g/a: runs again, and after it g/b"))
    room.until(lambda: room.begun()["g.b"] == 1)
    go(room, "c")
    tries.is_same(kind, room.path, room.ended(run)[0], 0)
    tries.is_same(f"{kind}: what began", room.path, room.begun(),
                  {"g.a": 2, "g.b": 1, "h.c": 1})


def redoes_beside_a_retry(tries: Shared) -> None:
    """A command that was canceled while it waited for its retry isn't tried again, although its
    group begins again; also after a kill."""
    kind = "--redo beside a retry that was canceled"
    room = Room(tries, [short("g", "a", "; exit 1"), "g a: retries 3 wait 24s", short("g", "b"),
                        waits("h", "c")])
    run = room.start()
    until_begun(room, "g.a", "g.b", "h.c")
    room.until(lambda: "exit 1" in room.text("s.log") and "ok" in room.text("s.log"))
    tries.is_same(f"{kind}: the cancel", room.path, ask(room, "--cancel", "g", "not", "now")[0], 0)
    tries.is_same(f"{kind}: the answer", room.path, ask(room, "--redo", "g/b"),
                  (0, "g/b: runs again"))
    room.until(lambda: room.begun()["g.b"] == 2)
    time.sleep(25)
    hit(run, "both")
    room.ended(run)
    go(room, "c")
    room.settle()
    status, output = room.run()
    tries.is_same(kind, room.path, (status, rows(output), room.begun()), (
        1, ["g a: exit 1", "3 commands: 2 ok, 1 failed"], {"g.a": 1, "g.b": 2, "h.c": 1}))


# --- pause and resume

def pauses(tries: Shared) -> None:
    """In a pause nothing begins, and what runs goes on; a killed night is paused still."""
    kind = "--pause"
    room = Room(tries, ["g: limit 1", waits("g", "a"), short("g", "b"), short("g", "c")])
    run = room.start()
    until_begun(room, "g.a")
    tries.is_same(f"{kind}: it isn't paused", room.path, ask(room, "--resume"),
                  (0, "the night isn't paused"))
    tries.is_same(f"{kind}: the answer", room.path, ask(room, "--pause"),
                  (0, "paused; 1 still running"))
    tries.is_same(f"{kind}: twice", room.path, ask(room, "--pause"), (0, "paused; 1 still running"))
    go(room, "a")
    room.until(lambda: "ok" in room.text("s.log"))
    time.sleep(1.5)
    tries.is_same(f"{kind}: nothing begins", room.path, (run.poll(), room.begun()),
                  (None, {"g.a": 1}))
    tries.is_same(f"{kind}: the list", room.path, room.run("s", "JOBS", "--list")[1].split(",")[0],
                  "g b: waiting\ng c: waiting\nnight: paused by root")
    tries.is_same(f"{kind}: what would begin", room.path, [
        it for it in room.run("s", "JOBS", "--dry-run")[1].splitlines() if it.startswith("begin")],
        [])
    kill([run.pid], which=signal.SIGTERM)
    tries.is_same(f"{kind}: a signal ends it", room.path, room.ended(run, 20)[0], 1)
    run = room.start("s", "JOBS", "--quiet")
    hint = "to go on: night-run s --resume\n"
    tries.holds(f"{kind}: the next run says so", room.path,
                room.until(lambda: hint in room.text("errors"), 30), room.text("errors"))
    hit(run, "all")
    room.ended(run)
    run = room.start("s", "JOBS", "--resume")
    room.until(lambda: hint in room.text("errors"), 30)
    time.sleep(1.5)
    tries.is_same(f"{kind}: after kills", room.path, (run.poll(), room.begun()),
                  (None, {"g.a": 1}))
    tries.is_same(f"{kind}: --resume", room.path, ask(room, "--resume"), (0, "the night goes on"))
    tries.is_same(f"{kind}: the night", room.path, room.ended(run, 30),
                  (0, "3 commands: 3 ok; 2 run this time\n"))


def pauses_and_deadlines(tries: Shared) -> None:
    """A paused night ends at its deadline; the next evening's line doesn't wait for a pause."""
    kind = "a pause at the deadline"
    room = Room(tries, ["night: within 15s", waits("g", "a"), short("g", "b"), "g b: after a"])
    run = room.start()
    until_begun(room, "g.a")
    tries.is_same(f"{kind}: the answer", room.path, ask(room, "--pause"),
                  (0, "paused; 1 still running"))
    go(room, "a")
    status, output = room.ended(run, 60)
    tries.is_same(kind, room.path, (status, rows(output)),
                  (1, ["g b: canceled: within 15s", "2 commands: 1 ok, 1 canceled"]))
    kind = "a pause and the next evening"
    room = Room(tries, ["g: limit 1", waits("g", "a"), short("g", "b")])
    run = room.start()
    until_begun(room, "g.a")
    ask(room, "--pause")
    hit(run, "all")
    room.ended(run)
    go(room, "a")
    tries.is_same(kind, room.path, (room.run("s", "JOBS", "--nightly")[1],
                                    "night 1 was paused by root, and goes on" in room.errors), (
        "night 1, the rest of it:\n2 commands: 2 ok; 2 run this time\nnight 2:\n"
        "2 commands: 2 ok; 2 run this time\n", True))


def pauses_and_retries(tries: Shared) -> None:
    """No retry and no cleanup begins in a pause, whatever ends meanwhile."""
    kind = "a pause keeps retries and cleanups back"
    room = Room(tries, ["g: within 24s", waits("g", "a"), short("g", "tidy"),
                        "g tidy: after ended a", short("h", "b", "; [ -e ok ]"),
                        "h b: retries 3 wait 20s"])
    run = room.start()
    until_begun(room, "g.a", "h.b")
    room.until(lambda: "exit 1" in room.text("s.log"))
    tries.is_same(f"{kind}: the answer", room.path, ask(room, "--pause"),
                  (0, "paused; 1 still running"))
    room.until(lambda: "canceled: within 24s" in room.text("s.log"))
    time.sleep(2)
    tries.is_same(kind, room.path, (run.poll(), room.begun()), (None, {"g.a": 1, "h.b": 1}))
    room.write("ok", "")
    tries.is_same(f"{kind}: --resume", room.path, ask(room, "--resume"), (0, "the night goes on"))
    status, output = room.ended(run, 30)
    tries.is_same(f"{kind}: after it", room.path, (status, rows(output), room.begun()), (
        1, ["g a: canceled: within 24s", "3 commands: 2 ok, 1 canceled"],
        {"g.a": 1, "g.tidy": 1, "h.b": 2}))


# --- set

def sets_limits(tries: Shared) -> None:
    """Limits that are changed while it runs hold from then on, and after a kill."""
    kind = "--set"
    keys = [f"k{it}" for it in range(8)]
    room = Room(tries, ["g: limit 2", *(waits("g", it) for it in keys), waits("h", "z")])
    run = room.start("s", "JOBS", "-j", "3")
    until_begun(room, "g.k0", "g.k1", "h.z")
    for word, wanted in (("g.limit=4", (0, "g.limit=4")), ("j=6", (0, "j=6")),
                         ("x.limit=4", (2, "night-run: JOBS has no group x"))):
        tries.is_same(f"{kind}: the answer", word, ask(room, "--set", word), wanted)
    for word in ("j=0", "g.limit=65", "g=3", "j", "g.limit=", "J=3", "j=10000"):
        tries.is_same(f"{kind}: what is no setting", word, ask(room, "--set", word)[0], 2)
    room.until(lambda: len(room.lines("begun")) == 5)
    time.sleep(0.5)
    tries.is_same(f"{kind}: more may run", room.path, sorted(room.begun()),
                  ["g.k0", "g.k1", "g.k2", "g.k3", "h.z"])
    tries.is_same(f"{kind}: less", room.path, ask(room, "--set", "g.limit=1", "--set", "j=2"),
                  (0, "g.limit=1; j=2"))
    hit(run, "night")
    go(room, "k0", "k1", "k2")
    room.until(lambda: room.text("steps").count("-g") == 3)
    time.sleep(1)
    tries.is_same(f"{kind}: more run than may", room.path, len(room.lines("begun")), 5)
    hit(run, "all")
    room.ended(run)
    room.write("steps", "")
    go(room, *keys, "z")
    status, output = room.run("s", "JOBS", "-j", "8")
    tries.is_same(f"{kind}: after a kill", room.path, (status, rows(output)),
                  (0, ["9 commands: 9 ok"]))
    tries.is_same(f"{kind}: its limit after a kill", room.path, most_at_once(room, "g"), 1)
    tries.is_same(f"{kind}: the list", room.path, room.run("s", "JOBS", "--list")[1],
                  "g: limit 1, set by root\nnight: j 2, set by root\n")
    begins = [it for it in room.run("s", "JOBS", "--again", "--dry-run", "-j", "9")[1].splitlines()
              if it.startswith("begin")]
    tries.is_same(f"{kind}: it lasts for a night", room.path, [it.split(":")[0] for it in begins],
                  ["begin g k0", "begin g k1", "begin h z"])
    begins = room.run("s", "JOBS", "--again", "--dry-run", "--set", "j=1")[1].splitlines()
    tries.is_same(f"{kind}: a dry run", room.path, [it for it in begins if "begin" in it][1:], [])


# --- what it is recorded in

def without_a_night(tries: Shared) -> None:
    """Without an active driver the next run takes a request, if it knows the names."""
    kind = "without an active night"
    room = Room(tries, [short("g", "a"), short("g", "b")])
    tries.is_same(f"{kind}: no store", room.path, ask(room, "--skip", "g/a"),
                  (2, "night-run: s: No such file or directory"))
    tries.is_same(f"{kind}: a night", room.path, room.run()[0], 0)
    tries.is_same(f"{kind}: a slip", room.path, ask(room, "--skip", "g/x")[0], 2)
    tries.is_same(f"{kind}: for the next run", room.path, (
        ask(room, "--skip", "g/b"), ask(room, "--skip", "g/b"), ask(room, "--pause"),
        ask(room, "--resume")), (*[(0, f"skip g/b: {NEXT}")] * 2, (0, f"pause: {NEXT}"),
                                 (0, "the next run isn't paused")))
    tries.is_same(f"{kind}: the list", room.path, room.run("s", "JOBS", "--list")[1],
                  "next run: skip g/b, by root\n")
    tries.holds(f"{kind}: a run with nothing to do leaves it", room.path,
                room.last()[1].startswith("nothing to do"), room.last())
    tries.is_same(f"{kind}: a run with nothing to do says that it waits", room.path, room.errors,
                  "night-run: s: --skip g/b waits for the next run that has something to do\n")
    tries.is_same(f"{kind}: the next run", room.path, room.last("s", "JOBS", "--nightly"),
                  (0, "2 commands: 1 ok, 1 left out; 1 run this time"))
    tries.is_same(f"{kind}: what has gone from the file", room.path, ask(room, "--skip", "g/b"),
                  (0, f"skip g/b: {NEXT}"))
    room.set([short("g", "a")])
    status, _ = room.run("s", "JOBS", "--nightly")
    tries.is_same(f"{kind}: it is reported", room.path, (status, room.errors), (
        0, "night-run: --skip g/b by root is passed over: g has no command b\n"))
    tries.is_same(f"{kind}: nothing is kept", room.path, room.has("s.tonight"), False)


def strange_notes(tries: Shared) -> None:
    """A file that says something else begins no night; that of another store counts for nothing."""
    kind = "STORE.tonight"
    room = Room(tries, [short("g", "a"), short("g", "b")])
    room.write("s.tonight", "night 1 skip g b by root at 5\n")
    os.chmod(f"{room.path}/s.tonight", 0o600)
    tries.is_same(f"{kind}: of another store", room.path, room.last(),
                  (0, "2 commands: 2 ok; 2 run this time"))
    for text in ("hello\n", "night 2 skip g b by root at 5", "night 2 skip g b\n", "\0\n",
                 "night 2 only g by root at 5\n", "next jump g by root at 5\n",
                 "night 2 redo g b since 2 by root at 5\n", "night 0 pause by root at 5\n"):
        room.write("s.tonight", text)
        os.chmod(f"{room.path}/s.tonight", 0o600)
        status, _ = room.run("s", "JOBS", "--again", "--on-failure", "echo >> alarm")
        tries.is_same(f"{kind}: {text!r}", room.path, (
            status, len(room.begun()), room.errors.startswith("night-run: s.tonight: ")),
            (3, 2, True))
    tries.is_same(f"{kind}: each raises the alarm", room.path, len(room.text("alarm")), 8)


def wants_of_others(tries: Shared) -> None:
    """Nobody else asks for anything; root asks as the user whose night it is."""
    kind = "another user's night"
    if os.getuid() or not shutil.which("setpriv"):
        tries.skip(kind, "it takes root, and setpriv")
        return
    user = str(61_000 + os.getpid() % 1000)
    other = str(62_000 + os.getpid() % 1000)
    room = Room(tries, [waits("g", "a"), short("g", "b"), "g b: after a"])
    os.chown(room.path, int(user), int(user))
    room.before = ["setpriv", f"--reuid={user}", f"--regid={user}", "--clear-groups"]
    run = room.start()
    until_begun(room, "g.a")
    if room.text("errors"):
        tries.skip(kind, "another user can't run the programs")
        return
    room.before = ["setpriv", f"--reuid={other}", f"--regid={other}", "--clear-groups"]
    tries.is_same(f"{kind}: nobody else", room.path, ask(room, "--skip", "g/b")[0], 3)
    room.before = []
    tries.is_same(f"{kind}: root", room.path, ask(room, "--skip", "g/b"), (0, "g/b: left out"))
    tries.is_same(f"{kind}: whose file", room.path,
                  os.stat(f"{room.path}/s.tonight").st_uid, int(user))
    go(room, "a")
    status, output = room.ended(run)
    tries.is_same(kind, room.path, (status, rows(output)), (
        0, ["g b: left out by root (--skip)", "2 commands: 1 ok, 1 left out"]))


def on_a_full_disk(tries: Shared) -> None:
    """What can't be written down isn't taken, and that is reported."""
    kind = "a request on a full disk"

    def part(room: Room) -> None:
        room.set([waits("g", "a"), short("g", "b"), "g b: after a"])
        run = room.start("m/s", "JOBS")
        until_begun(room, "g.a")
        fill(f"{room.path}/m")
        found = room.run("m/s", "--skip", "g/b", errors="errors2")
        tries.is_same(f"{kind}: a fault", room.path, found[0], 3)
        os.remove(f"{room.path}/m/hog")
        go(room, "a")
        tries.is_same(f"{kind}: nothing is left out", room.path, room.ended(run),
                      (0, "2 commands: 2 ok; 2 run this time\n"))

    on_full_disk(tries, kind, part)


def many_wants(tries: Shared) -> None:
    """Requests of many processes at once are all answered, and all hold."""
    kind = "requests at once"
    keys = [f"k{it}" for it in range(6)]
    room = Room(tries, ["g: limit 1", waits("g", "a"), *(short("g", it) for it in keys)])
    run = room.start()
    until_begun(room, "g.a")
    asking = [room.start("s", "--skip", f"g/{it}", errors=f"errors.{it}") for it in keys]
    tries.is_same(f"{kind}: the answers", room.path, [
        room.ended(it, errors=f"errors.{key}") for it, key in zip(asking, keys)],
        [(0, f"g/{it}: left out\n") for it in keys])
    go(room, "a")
    tries.is_same(kind, room.path, (room.ended(run)[0], room.begun()), (0, {"g.a": 1}))
    tries.is_same(f"{kind}: no request is left", room.path, os.listdir(f"{room.path}/s.cancel"), [])


def words_wanted(tries: Shared) -> None:
    """Words that don't go together."""
    room = Room(tries, [short("g", "a")])
    for given in ("s JOBS --pause", "s JOBS --list --skip g", "s --skip g --nightly",
                  "s --pause --cancel g", "s JOBS --report text --only g", "s --dry-run --skip g"):
        status, _ = room.run(*given.split())
        tries.is_same("words that don't go together", given, (status, room.has("s")), (2, False))


TONIGHT = [redoes_in_a_renewal, skips, skips_what_ran, skips_survive, onlys, comes_back,
           asks_for_several, leaves_nothing, only_not_due, begins_late, dry_runs, redoes,
           redoes_a_stop, redoes_at_its_end, redoes_once, redoes_beside_a_retry,
           redoes_what_is_left, redoes_what_stays, redoes_late, redoes_early, redoes_canceled,
           pauses, pauses_and_deadlines, pauses_and_retries, sets_limits, without_a_night,
           strange_notes, wants_of_others, on_a_full_disk, many_wants, words_wanted]
