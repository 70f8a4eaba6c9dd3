"""Nights for `tests/status`, at which somebody looks while they run and after that."""

from __future__ import annotations

import fcntl
import json
import os
import pty
import pwd
import re
import select
import signal
import struct
import subprocess
import termios
import time
from functools import partial
from typing import Any

from driver_room import Room, Shared, kill

# A file whose commands run until the file `go` is there.
WAITS = "until [ -e go ]; do sleep 0.05; done"
FILE = ["night: pool tape 1", "g: limit 2", f"g a echo begun; {WAITS}",
        "g b printf 'no \\033[2J room\\n'; exit 3", f"g c {WAITS}", "g d true", "h: uses tape 1",
        f"h t {WAITS}", "h u true", "i x true", "i x: after g h/t", "i w true",
        "i w: after failed h", "i v true", "i v: after failed g", "i y true",
        "i y: after ended g/a"]
# What a terminal is sent to draw a screen, and nothing else.
DRAWS = re.compile("\x1b\\[(?:H|2J|K|J)")


def look(room: Room, *words: str, seconds: float = 120) -> Any:
    """What a status says as JSON."""
    status, output = room.run("s", *words, "--status", "--json", errors="errors2", seconds=seconds)
    if status:
        raise AssertionError(f"no status: {status}, {room.errors}")
    return json.loads(output)


def names(its: Any) -> set[str]:
    return {f"{it['group']}/{it['key']}" for it in its}


def started(tries: Shared, lines: list[str] | None = None, *words: str) -> tuple[Room, Any]:
    """A night whose first commands run, and whose g/b has failed."""
    room = Room(tries, lines or FILE)
    run = room.start("s", "JOBS", "-j", "3", *words)
    room.until(lambda: room.text("s.out/g.a.0") and "exit 3" in room.text("s.log")
               and room.has("s.out/h.t.0") and room.has("s.out/g.c.0"))
    return room, run


def ended(room: Room, run: Any) -> tuple[int | str, str]:
    room.write("go", "")
    return room.ended(run)


def a_night(tries: Shared) -> None:
    """What runs, what isn't well, and what waits and for what; then the same after the night, and
    when the next one will end."""
    kind = "a night"
    room, run = started(tries)
    before = {it: os.stat(f"{room.path}/{it}").st_mtime_ns for it in os.listdir(room.path)
              if it.startswith("s.") and it not in ("s.lock", "s.tries")}
    it = look(room)
    tries.is_same(f"{kind}: what runs", room.path, names(it["running"]), {"g/a", "g/c", "h/t"})
    tries.is_same(f"{kind}: what isn't well", room.path, [
        (one["group"], one["key"], one["phase"], one["end"], one["tail"]) for one in it["unwell"]],
        [("g", "b", "failed", "exit 3", ["no \x1b[2J room"]),
         ("i", "x", "not started", "g/b failed", [])])
    tries.is_same(f"{kind}: what waits", room.path, {
        f"{one['group']}/{one['key']}": one["why"] for one in it["waiting"]}, {
        "g/d": "for the limit 2 of g", "h/u": "for 1 of the pool tape, of which none is free",
        "i/w": "after a failure of h", "i/v": "for a place (-j 3)", "i/y": "after the end of g/a"})
    tries.is_same(f"{kind}: its driver, -j and file", room.path,
                  (it["driver"], it["most"], it["path"]), (run.pid, 3, f"{room.path}/JOBS"))
    for one in it["running"]:
        with open(f"/proc/{one['process']}/environ", "rb") as file:
            tries.holds(f"{kind}: the process of what runs", one,
                        f"NIGHT_KEY={one['key']}".encode() in file.read().split(b"\0"))
        tries.holds(f"{kind}: the output of what runs", one,
                    os.path.isfile(os.path.join(room.path, one["output"])))
    tries.is_same(f"{kind}: no end is guessed", room.path, (it["forecast"], it["nights"]),
                  (None, 0))
    after = {name: os.stat(f"{room.path}/{name}").st_mtime_ns for name in before}
    tries.is_same(f"{kind}: a look writes nothing", room.path, after, before)
    status, output = room.run("s", "--status", errors="errors2")
    tries.is_same(f"{kind}: no escape of others is printed", room.path,
                  (status, "\x1b" in output, "  | no \\x1b[2J room" in output.splitlines()),
                  (0, False, True))
    ended(room, run)
    it = look(room)
    tries.is_same(f"{kind}: after it", room.path, (
        it["is_over"], it["driver"], it["running"], it["waiting"], it["counts"]), (
        True, None, [], [], {"ok": 7, "failed": 1, "not started": 1, "not needed": 1}))
    os.unlink(f"{room.path}/go")
    run = room.start("s", "JOBS", "-j", "3", "--again")
    room.until(lambda: room.text("s.out/g--2.a.0") and "exit 3" in room.text("s.log")
               and room.has("s.out/h--2.t.0"))
    it = look(room)
    tries.is_same(f"{kind}: the next one is compared with it", room.path, (
        it["night"], it["nights"], it["forecast"] and it["forecast"]["unknown"],
        {bool(one["usual"]) for one in it["running"]}), (2, 1, [], {True}))
    ended(room, run)


# A program that inspects a store, and prints what it saw only once the file `over` is there.
SLOW = """#!/bin/sh
case $1 in inspect)
    {0} "$@" > seen; status=$?; touch looked
    until [ -e over ]; do sleep 0.05; done
    cat seen; exit $status;;
esac
exec {0} "$@"
"""


def ends_meanwhile(tries: Shared) -> None:
    """A night that ends while somebody looks is shown as it was, or as it is then. No command that
    ended well is shown as interrupted."""
    kind = "a night that ends while somebody looks"
    for words in (("--status", "--json"), ("JOBS", "--list", "--json")):
        room = Room(tries, [f"g a {WAITS}", "h b true", "h: after g"])
        run = room.start()
        room.until(partial(room.has, "s.out/g.a.0"))
        slow = room.program("slow", SLOW.format(tries.program))
        looks = room.start("s", *words, night=slow, errors="errors2")
        room.until(partial(room.has, "looked"))
        tries.is_same(f"{kind}: its end", words, ended(room, run)[0], 0)
        room.write("over", "")
        status, output = room.ended(looks, errors="errors2")
        found = json.loads(output)
        phases = found["counts"] if isinstance(found, dict) else {
            phase: sum(it["phase"] == phase for it in found) for phase in {
                it["phase"] for it in found}}
        tries.is_same(kind, words, (status, phases), (0, {"ok": 2}))


def paused(tries: Shared) -> None:
    """A night that somebody has paused says so, and counts as many places as were set."""
    kind = "a pause"
    room = Room(tries, ["g: limit 1", f"g a {WAITS}", "g d true", f"h t {WAITS}", "i x true",
                        "i: after g"])
    run = room.start()
    room.until(lambda: room.has("s.out/g.a.0") and room.has("s.out/h.t.0"))
    room.run("s", "--set", "j=7", errors="errors2")
    it = look(room)
    tries.is_same(f"{kind}: none yet", room.path, (it["paused"], it["most"]), (None, 7))
    room.run("s", "--pause", errors="errors2")
    it = look(room)
    tries.is_same(kind, room.path, it["paused"]["who"], "root" if os.getuid() == 0 else
                  it["paused"]["who"])
    tries.is_same(f"{kind}: what waits", room.path, {
        f"{one['group']}/{one['key']}": one["why"] for one in it["waiting"]}, {
        "g/d": "for the end of the pause", "i/x": "after g"})
    shown = room.run("s", "--status", errors="errors2")[1].splitlines()
    tries.holds(f"{kind}: it is shown, and how to go on", room.path, any(
        line.startswith("paused by ") for line in shown) and "s --resume" in " ".join(shown), shown)
    room.run("s", "--resume", errors="errors2")
    ended(room, run)
    tries.is_same(f"{kind}: after it", room.path, look(room)["paused"], None)


def no_night(tries: Shared) -> None:
    """Stores in which there is nothing to see."""
    room = Room(tries, ["g a true"])
    for words, wanted in ((("--status",), "s: No such file or directory"),
                          (("--status", "--watch"), "s: No such file or directory"),
                          (("--tail", "g/a"), "s: No such file or directory"),
                          (("--output", "g/a"), "s: No such file or directory"),
                          (("--tail", "g"), None), (("--output", "../x/y"), None),
                          (("--status", "--list"), None), (("--watch",), None)):
        status, output = room.run("s", *words)
        tries.is_same("no store", words, (status, output), (2, ""))
        if wanted:
            tries.is_same("no store: why", words, room.errors, f"night-run: {wanted}\n")
    tries.holds("no store: none is made", room.path, os.listdir(room.path), ["JOBS", "errors"])
    tries.run("format", f"{room.path}/s")
    tries.is_same("a store without a night", room.path, room.run("s", "--status"),
                  (0, "s: no night has begun\n"))
    tries.is_same("a store without a night: no command", room.path, room.run("s", "--tail", "g/a"),
                  (2, ""))


def locked_night(tries: Shared) -> None:
    """A status waits for no lock of a night, and a night for none of a status."""
    room, run = started(tries)
    with open(f"{room.path}/s.lock", "rb") as lock:
        try:
            fcntl.flock(lock, fcntl.LOCK_EX | fcntl.LOCK_NB)
            tries.holds("a night has its lock", room.path, False)
        except BlockingIOError:
            pass
        tries.is_same("a status beside the lock", room.path, len(look(room)["running"]), 3)
    ended(room, run)
    with open(f"{room.path}/s.lock", "rb") as lock:
        fcntl.flock(lock, fcntl.LOCK_EX)
        tries.is_same("a status of a night that somebody locks", room.path, look(room)["is_over"],
                      True)


def killed(tries: Shared) -> None:
    """What a killed driver left runs on, and is shown; so is what the next run has to do."""
    room, run = started(tries)
    kill([run.pid])
    room.ended(run)
    it = look(room)
    tries.is_same("a killed night: what runs on", room.path, (it["driver"], names(it["running"])),
                  (None, {"g/a", "g/c", "h/t"}))
    tries.holds("a killed night: the next run is waited for", room.path,
                "for the next run" in {one["why"] for one in it["waiting"]} or all(
                    one["why"].startswith(("after", "for the limit", "for 1 of"))
                    for one in it["waiting"]), it["waiting"])
    lines = room.run("s", "--status")[1].splitlines()
    tries.holds("a killed night: it is said", room.path,
                "no night-run is active" in lines[1], lines)
    room.write("go", "")
    room.settle()
    it = look(room)
    tries.is_same("a killed night: its commands have ended", room.path,
                  (names(it["running"]), it["is_over"]), (set(), False))
    room.run("s", "JOBS")
    tries.is_same("a killed night: it is finished", room.path, look(room)["counts"],
                  {"ok": 7, "failed": 1, "not started": 1, "not needed": 1})


def wanted(tries: Shared) -> None:
    """What operators have wanted of a night is shown while it lasts, whatever is killed, and not of
    the next night."""
    kind = "what was wanted"
    room, run = started(tries)
    who = pwd.getpwuid(os.getuid()).pw_name
    before = time.time()
    for words in (("--pause",), ("--set", "g.limit=5", "--set", "j=4"), ("--skip", "h/u"),
                  ("--redo", "g/b")):
        tries.is_same(f"{kind}: it is taken", words, room.run("s", *words, errors="errors2")[0], 0)
    for what in ("while it runs", "after a kill"):
        it = look(room)
        at = it["paused"]["at"]
        tries.holds(f"{kind}, {what}: since when it is paused", room.path,
                    int(before) <= at <= time.time(), (before, at))
        tries.is_same(f"{kind}, {what}", room.path, {
            **it["wanted"], "settings": [(one["name"], one["value"], one["who"])
                                         for one in it["wanted"]["settings"]]}, {
            "settings": [("g.limit", 5, who), ("j", 4, who)],
            "skipped": ["h/u"], "not_only": [], "again": ["g/b", "i/x"], "next": []})
        tries.is_same(f"{kind}, {what}: -j, and who paused it", room.path,
                      (it["most"], it["paused"]["who"]), (4, who))
        tries.is_same(f"{kind}, {what}: what waits", room.path, {
            one["key"]: one["why"] for one in it["waiting"] if one["key"] in ("b", "d", "y")}, {
            **dict.fromkeys("bd", "for the end of the pause"), "y": "after the end of g/a"})
        lines = room.run("s", "--status", errors="errors2")[1].splitlines()
        since = time.strftime("%H:%M", time.localtime(at))
        tries.is_same(f"{kind}, {what}: the screen", room.path, [
            it for it in lines if it.startswith((f"paused by {who} at {since}", "set tonight",
                                                 "skipped", "again"))], [
            f"paused by {who} at {since}, so nothing is started; to go on: night-run s --resume",
            "set tonight: g.limit=5, j=4", "skipped tonight: h/u", "again tonight: g/b, i/x"])
        kill([run.pid])
        room.ended(run)
    tries.is_same(f"{kind}: for the next run", room.path, (
        room.run("s", "--resume", errors="errors2")[0],
        room.run("s", "--only", "night", errors="errors2")[0], look(room)["paused"],
        look(room)["wanted"]["next"]), (0, 0, None, ["only night"]))
    room.write("go", "")
    room.settle()
    room.run()
    tries.is_same(f"{kind}: after the night", room.path, look(room)["wanted"]["skipped"], ["h/u"])
    room.run("s", "JOBS", "--again")
    tries.is_same(f"{kind}: of the next night nothing", room.path, set(map(
        str, look(room)["wanted"].values())), {"[]"})


def edited(tries: Shared) -> None:
    """The command file isn't read: it may be edited during the night, and wrongly."""
    room, run = started(tries)
    wanted = names(look(room)["waiting"])
    for text in ("", "g a true\n", "no such line\n", None):
        if text is None:
            os.unlink(f"{room.path}/JOBS")
        else:
            room.write("JOBS", text)
        tries.is_same("an edited file", repr(text), names(look(room)["waiting"]), wanted)
    room.set(["g a true", "g new true"])
    tries.is_same("a file that is named is read", room.path, names(look(room, "JOBS")["waiting"]),
                  {"g/new"})
    os.rename(f"{room.path}/s.tries/plan", f"{room.path}/plan")
    it = look(room)
    tries.is_same("a night of an older version", room.path,
                  (names(it["running"]), names(it["unwell"]), it["waiting"], it["forecast"]),
                  ({"g/a", "g/c", "h/t"}, {"g/b"}, [], None))
    for text in ("# night-run -j 4 /x\ng: no such setting\n", "\0" * 100, ""):
        room.write("s.tries/plan", text)
        tries.is_same("a plan that is damaged", repr(text), names(look(room)["running"]),
                      {"g/a", "g/c", "h/t"})
    os.unlink(f"{room.path}/s.tries/plan")
    room.set(FILE)
    ended(room, run)


def cut_log(tries: Shared) -> None:
    """A log that is cut, gone, or somebody else's, says less and ends no look."""
    room = Room(tries, ["g a true", "g b true"])
    room.run()
    room.run("s", "JOBS", "--again")
    whole = room.text("s.log.1")
    for what, size in (("whole", len(whole)), ("cut in its last line", len(whole) - 9),
                       ("cut in its first line", 9), ("empty", 0)):
        room.write("s.log.1", whole[:size])
        tries.is_same(f"a log: {what}", room.path, look(room)["counts"], {"ok": 2})
    os.chmod(f"{room.path}/s.log.1", 0o666)
    tries.is_same("a log that others may write", room.path, look(room)["nights"], 0)
    room.write("s.log", room.text("s.log")[:60])
    tries.is_same("tonight's log, cut", room.path, look(room)["counts"], {"ok": 2})


# --- a terminal

class Terminal:
    """A status on a terminal of its own."""

    def __init__(self, room: Room, *words: str, columns: int = 80, lines: int = 24) -> None:
        ours, its = pty.openpty()
        self.file, self.text = ours, ""
        self.resize(columns, lines)
        self.before = termios.tcgetattr(its)
        self.its = its
        self.run = subprocess.Popen([room.tries.driver, *words], cwd=room.path, stdin=its,
                                    stdout=its, stderr=its, start_new_session=True,
                                    preexec_fn=controls, env={**os.environ, "NIGHT": room.night,
                                                          "TERM": "xterm"})

    def resize(self, columns: int, lines: int) -> None:
        fcntl.ioctl(self.file, termios.TIOCSWINSZ, struct.pack("HHHH", lines, columns, 0, 0))

    def until(self, wanted: str, seconds: float = 60) -> bool:
        """Reads until the text has this, and says whether it has."""
        end = time.monotonic() + seconds
        while not re.search(wanted, self.text, re.S) and time.monotonic() < end:
            if select.select([self.file], [], [], 0.1)[0]:
                self.text += os.read(self.file, 65536).decode("utf-8", "replace")
        return bool(re.search(wanted, self.text, re.S))

    def type(self, keys: bytes) -> None:
        os.write(self.file, keys)

    def end(self, seconds: float = 30) -> tuple[int, bool]:
        """Its status, and whether the terminal is as it was."""
        try:
            status = self.run.wait(seconds)
        except subprocess.TimeoutExpired:
            self.run.kill()
            status = -99
        while select.select([self.file], [], [], 0.1)[0]:
            self.text += os.read(self.file, 65536).decode("utf-8", "replace")
        is_same = termios.tcgetattr(self.its) == self.before
        os.close(self.its)
        os.close(self.file)
        return status, is_same


def controls() -> None:
    """Makes the terminal the one that controls this session, so that Ctrl-C is a signal."""
    fcntl.ioctl(0, termios.TIOCSCTTY, 0)


def watched(tries: Shared) -> None:
    """A screen that is drawn again and again, in each size, and left by Ctrl-C."""
    room, run = started(tries)
    it = Terminal(room, "s", "--status", "--watch")
    tries.holds("a watch: it shows the night", room.path, it.until("s, night 1.*RUNNING"),
                it.text[-2000:])
    it.text = ""
    it.resize(20, 6)
    tries.holds("a watch: it is drawn again", room.path, it.until("\x1b\\[H.*\x1b\\[J"),
                it.text[-2000:])
    it.text = ""
    tries.holds("a watch: and again", room.path, it.until("\x1b\\[H[^\x1b]*s, night"),
                it.text[-2000:])
    it.until("\x1b\\[J")
    its = [len(DRAWS.sub("", line)) for line in it.text.split("\x1b[H")[-1].split("\r\n")]
    tries.holds("a watch: 20 columns and 6 lines", room.path,
                len(its) <= 6 and max(its) <= 20, it.text[-2000:])
    tries.holds("a watch: nothing but its own escapes", room.path,
                "\x1b" not in DRAWS.sub("", it.text), it.text[-2000:])
    it.type(b"\x13")  # (Ctrl-S)
    time.sleep(2.5)
    it.type(b"\x03")
    tries.is_same("a watch: Ctrl-C ends it, also after Ctrl-S", room.path, it.end(), (0, True))
    os.rename(f"{room.path}/s", f"{room.path}/away")
    os.rename(f"{room.path}/away", f"{room.path}/s")
    status, output = ended(room, run)
    tries.is_same("a watch: the night isn't disturbed", room.path,
                  (status, output.splitlines()[-1]),
                  (1, "10 commands: 7 ok, 1 failed, 1 not started, 1 not needed; 8 run this time"))
    it = Terminal(room, "s", "--status", columns=200)
    it.end()
    tries.holds("a status on a terminal", room.path, "10 of 10 ended" in it.text
                and "\x1b" not in it.text, it.text[-2000:])


# A program that doesn't answer an inspection while the file `late` is there.
LATE = """#!/bin/sh
case $1 in inspect) while [ -e late ]; do sleep 0.05; done;; esac
exec {0} "$@"
"""


def watched_late(tries: Shared) -> None:
    """A screen says that it is an old one while the machine is late with a newer one, is drawn
    again in another size meanwhile, and can be left."""
    kind = "a watch of a machine that is late"
    room, run = started(tries)
    room.night = room.program("slow", LATE.format(tries.program))
    room.write("late", "")
    it = Terminal(room, "s", "--status", "--watch")
    tries.holds(f"{kind}: nothing is known yet", room.path,
                it.until("no answer yet\x1b\\[K\r\ns: not read yet"), it.text[-2000:])
    os.unlink(f"{room.path}/late")
    tries.holds(f"{kind}: it shows the night", room.path, it.until(
        "\x1b\\[Hs, night 1[^\x1b]*\x1b.*RUNNING.*g/a"), it.text[-2000:])
    tries.holds(f"{kind}: a new screen says nothing of that", room.path,
                "as of" not in it.text, it.text[-2000:])
    room.write("late", "")
    tries.holds(f"{kind}: it says so", room.path, it.until(
        r"\[Has of \d\d:\d\d:\d\d, \d+s ago; no newer state yet\x1b\[K\r\ns, night 1.*g/a"),
        it.text[-2000:])
    it.text = ""
    it.resize(40, 10)
    tries.holds(f"{kind}: it is drawn again", room.path,
                it.until("\x1b\\[H[^\x1b]*as of.*\x1b\\[J"), it.text[-2000:])
    it.until("\x1b\\[J[^\x1b]*\x1b\\[H.*\x1b\\[J")
    its = [len(DRAWS.sub("", line)) for line in it.text.split("\x1b[H")[-1].split("\r\n")]
    tries.holds(f"{kind}: 40 columns and 10 lines", room.path,
                len(its) <= 10 and max(its) <= 40, it.text[-2000:])
    os.unlink(f"{room.path}/late")
    it.text = ""
    tries.holds(f"{kind}: the next state is shown", room.path,
                it.until("\x1b\\[Hs, night 1"), it.text[-2000:])
    room.write("late", "")
    it.text = ""
    it.until("no newer state yet")
    began = time.monotonic()
    it.type(b"\x03")
    tries.is_same(f"{kind}: Ctrl-C ends it", room.path, it.end(), (0, True))
    tries.holds(f"{kind}: at once", room.path, time.monotonic() - began < 15)
    os.unlink(f"{room.path}/late")
    tries.holds(f"{kind}: no mark is left", room.path, not room.has("s.failed"))
    ended(room, run)


def watched_in_a_pipe(tries: Shared) -> None:
    """Without a terminal each screen follows the last one, until nobody reads it."""
    room = Room(tries, ["g a true"])
    room.run()
    run = room.start("s", "--status", "--watch")
    assert run.stdout
    found = [run.stdout.readline() for _ in range(8)]
    run.stdout.close()
    tries.is_same("a watch into a pipe", room.path, (
        found.count("s, night 1: 1 of 1 ended: 1 ok\n"), "\x1b" in "".join(found)), (2, False))
    tries.is_same("a watch into a pipe: it ends", room.path, run.wait(60), 0)


def outputs(tries: Shared) -> None:
    """What commands have printed, as it can't control a terminal."""
    long = "x" * 200_000
    room = Room(tries, [
        "g a printf 'one\\n\\033]0;t\\007two\\r100%%\\nthree\\377'",
        "g b head -c 200000 /dev/zero | tr '\\0' x",
        "g c true", "g d true", "g d: after failed c", "g e exit 1", "g e: retries 1"])
    room.run()
    for name, status, wanted in (
            ("g/a", 0, "one\n100%\nthree\\xff\n"), ("g/c", 0, ""), ("g/d", 2, ""), ("g/e", 0, ""),
            ("g/none", 2, ""), ("h/a", 2, "")):
        tries.is_same("an output", name, room.run("s", "--output", name), (status, wanted))
    _, found = room.run("s", "--output", "g/b")
    tries.is_same("an output without a line's end", room.path, found.replace("\n", ""), long)
    tries.is_same("an output of a command that never began", room.path, (
        room.run("s", "--output", "g/d"), room.errors), (
        (2, ""), "night-run: g/d: not needed, because c didn't fail; it has no output\n".replace(
            "because c", "because g/c")))
    tries.is_same("the end of an output", room.path, (
        room.run("s", "--tail", "g/a"), room.errors),
        ((0, "one\n100%\nthree\\xff\n"), "night-run: g/a: ok\n"))


def followed(tries: Shared) -> None:
    """A command is followed from one try to the next, until it ends."""
    room = Room(tries, [f"g a {WAITS}; echo first", "g b i=0; while [ ! -e stop ]; do echo $i;"
                        " i=$((i+1)); sleep 0.05; done; echo try $NIGHT_TRY; exit 1",
                        "g b: retries 1 wait 1s after a"])
    run = room.start("s", "JOBS")
    room.until(lambda: room.has("s.out/g.a.0"))
    tail = room.start("s", "--tail", "g/b", errors="errors2")
    tries.holds("a tail: it waits for the command", room.path, room.until(
        lambda: "followed once it runs" in room.text("errors2")), room.text("errors2"))
    room.write("go", "")
    room.until(lambda: len(room.lines("s.out/g.b.0")) > 30)
    room.write("stop", "")
    status, output = room.ended(tail, errors="errors2")
    lines = output.splitlines()
    numbers = [int(it) for it in lines if it.isdecimal()]
    tries.is_same("a tail: it goes on from try to try", room.path, (
        status, [it for it in lines if not it.isdecimal()], numbers == list(
            range(numbers[0], numbers[-1] + 1)) if numbers else None),
        (0, ["try 0", "try 1"], True))
    tries.is_same("a tail: how it ended", room.path, room.errors.splitlines()[1:], [
        "night-run: g/b: the next try, s.out/g.b.1", "night-run: g/b: exit 1"])
    room.ended(run)
    it = Terminal(room, "s", "--tail", "g/a")
    tries.is_same("a tail on a terminal", room.path, (
        it.end(), DRAWS.sub("", it.text).replace("\r", "").splitlines()),
        ((0, True), ["first", "night-run: g/a: ok"]))


def left(tries: Shared) -> None:
    """A tail is left by Ctrl-C, and the command runs on."""
    room, run = started(tries)
    it = Terminal(room, "s", "--tail", "g/a")
    it.until("begun")
    it.type(b"\x03")
    tries.is_same("a tail: Ctrl-C ends it", room.path, it.end(), (0, True))
    tries.holds("a tail: the command runs on", room.path,
                "g/a" in names(look(room)["running"]))
    ended(room, run)


def progress(tries: Shared) -> None:
    """At a terminal the line of progress names what runs, and when the night ends."""
    room = Room(tries, [f"g a {WAITS}", f"g b {WAITS}"])
    room.write("go", "")
    room.run()
    os.unlink(f"{room.path}/go")
    it = Terminal(room, "s", "JOBS", "--again", columns=200)
    shown = it.until(r"0 of 2 done, 2 running, 0 failed; ends at about \d\d:\d\d; g/[ab] [\d.]+s,"
                     r" g/[ab] [\d.]+s|ends after")
    tries.holds("progress: what runs, and the end", room.path, shown, it.text[-2000:])
    it.resize(30, 24)
    it.text = ""
    it.until("\x1b\\[K.*\x1b\\[K.*\x1b\\[K")
    its = [len(line) for line in re.split("\r|\x1b\\[K|\n", it.text)]
    tries.holds("progress: no wider than the terminal", room.path, max(its) < 30, it.text[-2000:])
    it.type(b"\x13")
    room.write("go", "")
    tries.holds("progress: a stalled terminal delays nothing", room.path, room.until(
        lambda: len(room.lines("s.log")) == 3), room.text("s.log"))
    it.type(b"\x11")
    tries.is_same("progress: the night ends", room.path, it.end(60)[0], 0)


NIGHTS = [a_night, ends_meanwhile, paused, wanted, no_night, locked_night, killed, edited, cut_log,
          watched, watched_late,
          watched_in_a_pipe, outputs, followed, left, progress]
