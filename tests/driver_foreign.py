"""What the driver meets that isn't as it left it: files of others beside a store, ways that lead
elsewhere, streams that take nothing, a lock that was removed, a store of a backup, a session with
more than one process group.
"""

from __future__ import annotations

import contextlib
import os
import re
import shutil
import signal
import subprocess
import sys
import tempfile
import time
from functools import partial
from typing import Any

from driver_plan import driver_module
from driver_room import Room, Shared, job, locked
from nights_room import copied
from running import bytes_of

OWN = "a file of somebody's own\n"
# What the command line asks for, with a stream that takes nothing or is closed; the status.
STREAMS = [("--version > /dev/full", 3), ("--help > /dev/full", 3), ("--bad 2> /dev/full", 2),
           ("--bad 2>&-", 2), ("--version > /dev/null", 0), ("--help > /dev/null", 0)]
# Ways to a file in a folder with `real/low/J`, `J`, a link `link` to real/low, and one in it, `up`,
# to its own folder's parent.
WAYS = ["J", "./J", "link/J", "link/../J", "link/../low/J", "link/up/J", "link/up/../J",
        "real/low/../../J", "real//low/./J", "link/../../J", "gone", "link/gone"]
# Signals that ended the driver without a word.
UNHEARD = (signal.SIGQUIT, signal.SIGUSR1, signal.SIGUSR2, signal.SIGALRM, signal.SIGVTALRM,
           signal.SIGXCPU)
LARGE = 40 << 30


def files_of_others(tries: Shared) -> None:
    """A file that has the name of one beside a new store is left alone, and named."""
    for part in (".lock", ".pids", ".making", ".cancel", ".nights", ".failed"):
        room = Room(tries, [job("g", "a")])
        room.write(f"s{part}", OWN)
        os.chmod(f"{room.path}/s{part}", 0o600)
        status, _ = room.run()
        tries.is_same("a file of somebody's own", f"s{part}",
                      (status, room.text(f"s{part}"), room.has("done"), room.errors),
                      (3, OWN, False, f"night-run: s{part} is not night-run's: move it away, or"
                                      " choose another name for the store\n"))
    for part in (".making", ".renewing"):
        room = Room(tries, [job("g", "a")])
        room.run(f"s{part}", "JOBS")
        room.run()
        os.close(os.open(f"{room.path}/s.failed", os.O_CREAT | os.O_WRONLY, 0o600))
        whole = room.has(f"s{part}") and bytes_of(f"{room.path}/s{part}")
        status, _ = room.run()
        tries.is_same("another night's store", f"s{part}", (
            status, bytes_of(f"{room.path}/s{part}") if room.has(f"s{part}") else b"",
            room.errors), (3, whole, f"night-run: s{part} is another night's store: move one of"
                                     " the two away, or choose another name for it\n"))


def commands_named_so(tries: Shared) -> None:
    """A file of commands with the name of a file beside the store is a mistake, and is kept."""
    for name in ("s.lock", "s.pids", "s.making", "s.cancel", "s.nights", "s.ended", "s.far",
                 "s.failed", "s.log", "s.log.1", "s.nights.new", "s.renewing", "s.out/J"):
        room = Room(tries, [])
        if "/" in name:
            os.mkdir(f"{room.path}/s.out", 0o700)
        text = f"{job('g', 'a')}\n"
        room.write(name, text)
        os.chmod(f"{room.path}/{name}", 0o600)
        status, _ = room.run("s", name)
        tries.is_same("a file of commands beside the store", name, (status, room.text(name),
                      room.has("done"), room.has("s")), (2, text, False, False))
    room = Room(tries, [])
    room.write("s.jobs", f"{job('g', 'a')}\n")
    tries.is_same("a file of commands beside the store", "of another name",
                  room.run("s", "s.jobs")[0], 0)


def ways(tries: Shared) -> None:
    """A path leads where it leads for the system, `..` after a link, too."""
    way_to = driver_module(tries, "beside").way_to
    with tempfile.TemporaryDirectory(dir=tries.folder) as folder:
        os.makedirs(f"{folder}/real/low")
        for name in ("J", "real/J", "real/low/J"):
            with open(f"{folder}/{name}", "w", encoding="ascii"):
                pass
        os.symlink("real/low", f"{folder}/link")
        os.symlink("..", f"{folder}/real/low/up")
        for way in WAYS:
            tries.is_same("a way", way, way_to(f"{folder}/{way}"),
                          os.path.realpath(f"{folder}/{way}"))
        for way in ("J/../J", "J/", "J/x"):
            try:
                found = way_to(f"{folder}/{way}")
            except NotADirectoryError:
                found = "no folder"
            tries.is_same("a way through a file", way, found, "no folder")


def store_of_the_way(tries: Shared) -> None:
    """The store is where its way was judged to lead, and the commands are those of the system's
    path."""
    room = Room(tries, [])
    os.makedirs(f"{room.path}/real/low")
    os.symlink("real/low", f"{room.path}/link")
    room.write("J", "g a echo wrong > ran\n")
    room.write("real/J", "g a echo right > ran\n")
    tries.is_same("`..` after a link", room.path, (room.run("link/../s", "link/../J")[0],
                  room.text("ran"), room.has("real/s"), room.has("s")), (0, "right\n", True, False))
    os.mkdir(f"{room.path}/open")
    os.chmod(f"{room.path}/open", 0o777)
    os.mkdir(f"{room.path}/open/low", 0o755)
    os.symlink("open/low", f"{room.path}/other")
    tries.is_same("`..` after a link: a folder of all", room.path,
                  (room.run("other/../s", "J")[0], room.has("open/s.lock")), (3, False))
    for it in ("made", "there"):
        status, _ = room.run("real/x/", "real/J")
        tries.is_same("a slash at the end", it, (status, "x/" in room.errors), (0, False))


def streams(tries: Shared) -> None:
    """What is asked for is printed, or the status says that it wasn't."""
    for words, wanted in STREAMS:
        done = subprocess.run(["sh", "-c", f"{tries.driver} {words}"], capture_output=True,
                              text=True, check=False)
        tries.is_same("a stream that takes nothing", words,
                      (done.returncode, "Exception" in done.stderr), (wanted, False))


def alarm_without_room(tries: Shared) -> None:
    """An alarm is run also where there is no room for its input."""
    room = Room(tries, [job("g", "a")])
    done = subprocess.run(["sh", "-c", f"ulimit -f 0; exec {tries.driver} s JOBS --on-failure"
                           " 'mkdir alarmed; cat'"], cwd=room.path, capture_output=True, text=True,
                          env={**os.environ, "NIGHT": tries.program}, check=False)
    tries.holds("an alarm without its input", done.stderr, done.returncode == 3
                and room.has("alarmed") and "it is run without the summary" in done.stderr,
                (done.returncode, done.stdout))
    tries.is_same("a store without a name", room.path, (room.run("", "JOBS")[0],
                  room.errors.startswith("night-run: STORE is empty;")), (2, True))


def folder_is_gone(tries: Shared) -> None:
    """A night that is started in a folder that was removed ends with the alarm."""
    with tempfile.TemporaryDirectory(dir=tries.folder) as folder:
        script = f"mkdir {folder}/x; cd {folder}/x; rmdir {folder}/x; exec {sys.executable} -I" \
                 f" {tries.driver} s J --on-failure 'echo $NIGHT_STATUS > {folder}/alarm'"
        done = subprocess.run(["sh", "-c", script], capture_output=True, text=True, check=False,
                              env={**os.environ, "NIGHT": tries.program})
        alarm = ""
        if os.path.exists(f"{folder}/alarm"):
            with open(f"{folder}/alarm", encoding="ascii") as file:
                alarm = file.read()
        tries.is_same("a folder that is gone", done.stderr[-300:],
                      (done.returncode, "s: the folder in which night-run was started is gone"
                       in done.stderr, alarm), (3, True, "3\n"))


def large_files(tries: Shared) -> None:
    """A file that is larger than any of a night is named, and not read."""
    for name in ("s.ended", "s.far", "s.lock", "JOBS"):
        room = Room(tries, [job("g", "a")])
        room.run()
        os.truncate(room.write(name, room.text(name)), LARGE)
        os.chmod(f"{room.path}/{name}", 0o600)
        began = time.monotonic()
        status, _ = room.run("s", "JOBS", "--nightly")
        tries.holds("a file of 40 GB", name, status in (2, 3) and name in room.errors
                    and "nobody foresaw" not in room.errors and time.monotonic() < began + 60,
                    (status, room.errors))


def lock_removed(tries: Shared) -> None:
    """A lock that is removed while a night runs costs no command: the next one sees that night."""
    room = Room(tries, ["g a : > begun; until [ -e go ]; do sleep 0.1; done"])
    run = room.start()
    room.until(lambda: room.has("begun"))
    os.remove(f"{room.path}/s.lock")
    status, _ = room.run(errors="errors2")
    tries.holds("a lock that was removed", "the second one", status == 3 and
                f"s: in use by another night-run, process {run.pid}, " in room.text("errors2"),
                (status, room.text("errors2")))
    room.write("go", "")
    tries.is_same("a lock that was removed", "the first one", room.ended(run)[0], 0)
    tries.is_same("a lock that was removed", "the night after it",
                  room.last("s", "JOBS", "--nightly"), (0, "1 command: 1 ok; 1 run this time"))


def gone_while_waiting(tries: Shared) -> None:
    """A store that goes while its lock is waited for isn't made again beside its log."""
    kind = "a store that goes while its lock is waited for"
    room = Room(tries, [job("g", "a")])
    room.run()
    driver = copied(tries.driver, f"{room.path}/driver",
                    ("night_run/lock.py", "OF_CANCELS = 3.0", "OF_CANCELS = 60.0"))
    with locked(f"{room.path}/s.lock"):
        run = room.start("s", "JOBS", driver=driver)
        tries.holds(f"{kind}: it waits", room.path,
                    room.until(lambda: any(opened_by(run.pid, f"{room.path}/s.lock")
                                           for _ in range(1000))))
        os.rename(f"{room.path}/s", f"{room.path}/away")
    status, _ = room.ended(run)
    tries.is_same(kind, room.path, (status, room.begun(), room.has("s")), (3, {"g.a": 1}, False))


def opened_by(pid: int, path: str) -> bool:
    """Whether a process has this file open for writing, as one that tries its lock has for a
    moment."""
    for it in os.listdir(f"/proc/{pid}/fd"):
        with contextlib.suppress(OSError):
            if os.readlink(f"/proc/{pid}/fd/{it}") == path:
                with open(f"/proc/{pid}/fdinfo/{it}", encoding="ascii") as file:
                    flags = int(re.findall(r"^flags:\s*([0-7]+)", file.read(), re.M)[0], 8)
                if flags & os.O_ACCMODE == os.O_RDWR:
                    return True
    return False


def unseen_driver(tries: Shared) -> None:
    """Why a cancel isn't taken by a driver whose process isn't to be seen here."""
    room = Room(tries, [job("g", "a")])
    room.run()
    driver = copied(tries.driver, f"{room.path}/driver",
                    ("night_run/canceling.py", "SECONDS = 60.0", "SECONDS = 1.0"))
    processes = driver_module(tries, "processes")
    for what, number, why in (
            ("in another namespace", 0, "s: in use by a night-run that isn't seen here, as one in"
                                        " a container is: cancel g from there"),
            ("here", os.getpid(), "the active night-run hasn't read s.cancel within 1 s:"
                                  " g is not canceled")):
        it = processes.process_of(os.getpid())
        start = it.start if number else it.start + 1
        room.write("s.lock", f"process {it.boot} {it.pid} {start}\nsize 1572864\n")
        with locked(f"{room.path}/s.lock"):
            status, _ = room.run("s", "--cancel", "g", driver=driver)
        tries.is_same("a driver that takes no cancel", what, (status, room.errors),
                      (3, f"night-run: {why}\n"))


def no_proc(tries: Shared) -> None:
    """Without /proc a night ends by a fault, with its alarm."""
    kind = "no /proc"
    room = Room(tries, [job("g", "a")])
    room.before = ["unshare", "-m", "sh", "-c", 'mount -t tmpfs none /proc && exec "$@"', "sh"]
    if subprocess.run([*room.before, "true"], capture_output=True, check=False).returncode:
        tries.skip(kind, "no mount namespace")
        return
    found = room.run("s", "JOBS", "--on-failure", "echo $NIGHT_STATUS > alarm", night="/bin/true")
    tries.is_same(kind, room.path, (found[0], room.text("alarm"), "Traceback" in room.errors),
                  (3, "3\n", False))


def locales(tries: Shared) -> None:
    """A command has the bytes of the file, whatever the locale."""
    kind = "a locale that isn't UTF-8"
    room = Room(tries, [])
    name = "de_DE.ISO-8859-1"
    try:
        subprocess.run(["localedef", "-c", "-i", "de_DE", "-f", "ISO-8859-1",
                        f"{room.path}/{name}"], capture_output=True, check=False)
    except FileNotFoundError:
        pass
    if not room.has(name):
        tries.skip(kind, "no localedef")
        return
    room.write("JOBS", "g a printf '\u00e4\u20ac' > bytes\n")
    room.before = ["env", f"LOCPATH={room.path}", f"LC_ALL={name}"]
    tries.is_same(kind, room.path, (room.run()[0], room.text("bytes")), (0, "\u00e4\u20ac"))


def store_of_a_backup(tries: Shared) -> None:
    """A store that is brought back from an earlier night writes over no later log or output."""
    room = Room(tries, ["g a echo $$"])
    room.run()
    shutil.copy2(f"{room.path}/s", f"{room.path}/kept")
    for _ in range(2):
        room.run("s", "JOBS", "--nightly")
    kept = {it: room.text(f"s.out/{it}") for it in os.listdir(f"{room.path}/s.out")}
    os.replace(f"{room.path}/kept", f"{room.path}/s")
    status, _ = room.run("s", "JOBS", "--nightly")
    tries.holds("a store of a backup", "it is reported", status == 3
                and "s ends with night 1, and s.log.1 is there: " in room.errors, room.errors)
    tries.is_same("a store of a backup", "nothing is written over",
                  {it: room.text(f"s.out/{it}") for it in os.listdir(f"{room.path}/s.out")}, kept)
    for it in ("s.nights", "s.log", "s.log.1", "s.log.2", "s.out"):
        os.rename(f"{room.path}/{it}", f"{room.path}/old.{it}")
    tries.is_same("a store of a backup", "once they are moved away",
                  room.last("s", "JOBS", "--nightly"), (0, "1 command: 1 ok; 1 run this time"))


def new_store(tries: Shared) -> None:
    """No new store is made beside what an old one left; all of that is named at once. One that was
    made writes over no log of another one."""
    kind, room = "a new store beside old logs", Room(tries, ["g a true"])
    for _ in range(3):
        room.run("s", "JOBS", "--nightly")
    shutil.copy2(f"{room.path}/s.log", f"{room.path}/kept")
    for gone, named in (("s", "s.log, s.log.1 and s.log.2 are"),
                        ("s.log", "s.log.1 and s.log.2 are"), ("s.log.1", "s.log.2 is")):
        os.remove(f"{room.path}/{gone}")
        what = "them" if named.endswith("are") else "s.log.2"
        tries.is_same(kind, gone, (room.run(), room.errors, room.has("s")), (
            (3, ""), f"night-run: s is not there, but {named}: bring the store back, or move {what}"
            " away if you want a new store\n", False))
    room.script([])
    tries.is_same(f"{kind}: it was made", room.path, (room.run()[0], room.errors), (
        3, "night-run: s is a new store, and s.log.2 is of another one: move s.log* away, and s.out"
        " if you want to keep what is in it\n"))
    os.rename(f"{room.path}/s.log.2", f"{room.path}/old")
    tries.is_same(f"{kind}: once it is moved away", room.path, room.run(),
                  (0, "1 command: 1 ok; 1 run this time\n"))
    shutil.copy2(f"{room.path}/kept", f"{room.path}/s.log.7")
    tries.is_same(f"{kind}: a log of a later night", room.path, (
        room.run("s", "JOBS", "--nightly")[0], room.errors), (
        3, "night-run: s ends with night 1, and s.log.7 is there: restore s.log*, s.nights and"
        " s.out from the backup that the store is from, or move them away\n"))
    are_there = driver_module(tries, "files").are_there
    tries.is_same(f"{kind}: many", "", are_there(list("abcdefg")), "a, b, c, d and 3 more are")


def other_signals(tries: Shared) -> None:
    """Each signal that ends a process is heard, and raises the alarm."""
    for which in UNHEARD:
        room = Room(tries, ["g a : > begun; exec sleep 300"])
        run = room.start("s", "JOBS", "--on-failure", "echo $NIGHT_STATUS > alarm")
        room.until(partial(room.has, "begun"))
        os.kill(run.pid, which)
        tries.is_same("a signal", which.name, (room.ended(run)[0], room.text("alarm"),
                      room.settle()), (1, "1\n", True))


def groups_of_its_own(tries: Shared) -> None:
    """A command that makes process groups of its own, as `timeout` does, is stopped whole; and so
    is what one leaves in another group of its session."""
    work = "timeout 100 sh -c 'echo $$ >> pids; trap \"\" TERM; sleep 100 & sleep 100; sleep 100'"
    for what, lines, wanted in (
            ("a timeout", ["g: timeout 1s retries 1", f"g a {work}"], (1, 2)),
            ("it ends", ["g: shell bash", f"g a set -m; ({work}) & until [ -s pids ]; do :; done"],
             (0, 1))):
        room = Room(tries, lines)
        status, _ = room.run("s", "JOBS", "--grace", "1")
        tries.is_same("groups of its own", what, (status, len(room.lines("pids"))), wanted)
        tries.holds("groups of its own: nothing lives on", what, room.settle(5))


def stranger_opened(tries: Shared) -> None:
    """A file that has lost the name under which it was opened isn't touched: it may be another's,
    which had a second name there for a moment."""
    beside: Any = driver_module(tries, "beside")
    with tempfile.TemporaryDirectory(dir=tries.folder) as folder:
        os.chmod(folder, 0o700)
        secret = f"{folder}/secret"
        with open(secret, "w", encoding="ascii") as file:
            file.write(OWN)
        os.chmod(secret, 0o644)
        it = beside.Folder.at(folder, "x")
        it.opened = lambda name, flags: os.open(secret, os.O_RDWR)
        for flags in (os.O_RDONLY, os.O_RDWR, os.O_RDWR | os.O_CREAT | os.O_TRUNC):
            try:
                os.close(it.open("s.log", flags))
                found = "opened"
            except beside.NotOurs as error:
                found = error.strerror
            with open(secret, encoding="ascii") as file:
                tries.is_same("a second name that went", flags,
                              (found, file.read(), os.stat(secret).st_mode & 0o777),
                              ("its name is given to other files again and again", OWN, 0o644))
        it.close()


FOREIGN = [files_of_others, commands_named_so, ways, store_of_the_way, streams, folder_is_gone,
           alarm_without_room, large_files, lock_removed, store_of_a_backup, new_store,
           other_signals, groups_of_its_own, stranger_opened, gone_while_waiting, unseen_driver,
           no_proc, locales]
