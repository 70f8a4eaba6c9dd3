"""What commands may take of the machine, and what is said of what they took: limits of memory,
processors and output, and the last four fields of a line of the log."""

from __future__ import annotations

import os
import signal
import subprocess
import sys
from collections.abc import Mapping

from driver_plan import driver_module
from driver_room import Room, Shared, hit, kill

PYTHON = sys.executable
# Takes 200 MB of memory, and says how much of it this process had at most, in kB.
LARGE = (f"{PYTHON} -c \"x = bytearray(200 << 20); import resource as r;"
         " print(r.getrusage(r.RUSAGE_SELF).ru_maxrss)\"")
# Computes until it has taken this many processor seconds.
BURN = f"{PYTHON} -c \"import time; all(time.process_time() < {{}} for _ in iter(int, 1))\""
# Stands for systemd-run: notes its words, and runs those after --.
SCOPES = """#!/bin/sh
echo "$*" >> {room}/scopes
while [ "$1" != -- ]; do shift; done
shift; exec "$@"
"""
# The same, without a systemd.
NO_SYSTEMD = "#!/bin/sh\necho 'no bus here' >&2\nexit 1\n"
NO_SCOPE = ("night-run: memory and cpu are limited process by process: no scope of systemd can be"
            " made (no bus here)")
# What a command finds of its limits: its niceness, its class of the disk, and its processors.
LOOKS = ("nice; ionice; nproc; ulimit -d")
# Prints 3 MB, and then takes a while. (What prints for ever fills the disk over a wrong driver.)
PRINTS = "head -c 3000000 /dev/zero; sleep 100"
# Stops the driver of a command, which would see what the command does meanwhile.
HALTS = "read -r _ _ _ by _ </proc/$PPID/stat; kill -STOP $by"
TOOLS = ("nice", "ionice", "taskset")
FIELDS = ("cpu", "memory", "output", "limits")


def with_systemd(room: Room, text: str) -> None:
    """Puts this in the place of systemd-run."""
    os.makedirs(f"{room.path}/bin", exist_ok=True)
    room.program("bin/systemd-run", text.format(room=room.path))
    room.before = ("env", f"PATH={room.path}/bin:{os.environ['PATH']}", "XDG_RUNTIME_DIR=/nowhere")


def figures(room: Room) -> dict[str, dict[str, str]]:
    """The last four fields of each line of the log, by the key and the try."""
    lines = [it.split("\t") for it in room.lines("s.log")[1:]]
    return {f"{it[2]}.{it[0]}": dict(zip(FIELDS, it[7:])) for it in lines if it[5] != "interrupted"}


def put_on_processes(tries: Shared) -> None:
    """Without a scope of systemd each process is limited for itself, and that is said once."""
    kind = "limits of each process"
    count = len(os.sched_getaffinity(0))
    room = Room(tries, [
        "g: nice 3", f"g plain {LOOKS}", f"g own {LOOKS}", "g own: nice 5 ionice best-effort 6",
        f"g idle {LOOKS}", "g idle: ionice idle cpu 100% memory 512M",
        f"h two {LOOKS}", "h two: cpu 101%", f"h all {LOOKS}", "h all: cpu 999900%",
        f"h small {LARGE}", "h small: memory 100M", f"h large {LARGE}", "h large: memory 1G"])
    with_systemd(room, NO_SYSTEMD)
    status, output = room.run()
    tries.is_same(kind, room.path, (status, [it for it in output.splitlines() if it[:1] != " "]), (
        1, ["h small: exit 1; s.out/h.small.0", "7 commands: 6 ok, 1 failed; 7 run this time"]))
    tries.is_same(f"{kind}: it is said once", room.path, room.lines("errors"), [NO_SCOPE])
    own = os.nice(0)
    free = "unlimited"
    wanted = {
        "g.plain": [own + 3, "none: prio 0", count, free],
        "g.own": [own + 5, "best-effort: prio 6", count, free],
        "g.idle": [own + 3, "idle", 1, 512 << 10],
        "h.two": [own, "none: prio 0", min(2, count), free],
        "h.all": [own, "none: prio 0", count, free]}
    for name, its in wanted.items():
        found = room.lines(f"s.out/{name}.0")
        # (an unset class of the disk is shown by the niceness in some versions)
        found[1] = "none: prio 0" if its[1] == "none: prio 0" else found[1]
        tries.is_same(f"{kind}: {name}", room.path, found, [str(it) for it in its])
    tries.is_same(f"{kind}: the log", room.path,
                  {name: it["limits"] for name, it in figures(room).items()}, {
                      "plain.0": "-", "own.0": "-", "idle.0": "process", "two.0": "process",
                      "all.0": "process", "small.0": "process", "large.0": "process"})
    tries.holds(f"{kind}: why it failed", room.path, "MemoryError" in room.text("s.out/h.small.0"),
                room.text("s.out/h.small.0"))
    room.run("s", "JOBS", "--again", "--quiet")
    tries.is_same(f"{kind}: said again, as it failed", room.path, room.lines("errors"), [NO_SCOPE])
    room.set(["h two true", "h two: cpu 100%"])
    tries.is_same(f"{kind}: not if it is quiet", room.path, (
        room.run("s", "JOBS", "--again", "--quiet"), room.errors), ((0, ""), ""))


def put_by_systemd(tries: Shared) -> None:
    """A scope of systemd is made for each try with such a limit, and for no other."""
    kind = "limits by a scope"
    room = Room(tries, [
        "g: memory 512M", "g a echo $NIGHT_KEY $PWD; ulimit -d", "g b true", "g b: cpu 250%",
        "g c nice", "g c: memory 2G nice 4", "h d true", "h d: cpu 50%", "h e true"])
    with_systemd(room, SCOPES)
    tries.is_same(kind, room.path, (room.last(), room.lines("errors")), (
        (0, "5 commands: 5 ok; 5 run this time"), []))
    user = " --user" if os.geteuid() else ""
    made = [it.removeprefix(f"--scope --quiet --collect{user} ").replace("'", "")
            for it in room.lines("scopes")]
    no_swap = "-p MemorySwapMax=0"
    wanted = [f"-p MemoryMax={512 << 20} {no_swap} -- /bin/sh -c echo $NIGHT_KEY $PWD; ulimit -d",
              f"-p MemoryMax={512 << 20} {no_swap} -p CPUQuota=250% -- /bin/sh -c true",
              f"-p MemoryMax={2 << 30} {no_swap} -- NICE -n 4 /bin/sh -c nice",
              "-p CPUQuota=50% -- /bin/sh -c true"]
    shown = [" ".join("NICE" if word.endswith("/nice") else word for word in it.split(" "))
             for it in made[1:]]
    tries.is_same(f"{kind}: their words", room.path, sorted(shown), sorted(wanted))
    tries.is_same(f"{kind}: it is looked for once", room.path, made[:1], [
        f"-p MemoryMax={64 << 20} {no_swap} -p CPUQuota=100% -- true"])
    tries.is_same(f"{kind}: the log", room.path,
                  [it["limits"] for _, it in sorted(figures(room).items())],
                  ["scope", "scope", "scope", "scope", "-"])
    tries.is_same(f"{kind}: what a command has", room.path, room.lines("s.out/g.a.0"),
                  [f"a {os.path.realpath(room.path)}", "unlimited"])
    tries.is_same(f"{kind}: its niceness", room.path, room.lines("s.out/g.c.0"),
                  [str(os.nice(0) + 4)])


def without_tools(tries: Shared) -> None:
    """A command whose tool isn't there runs without it, and that is said."""
    kind = "limits without their tools"
    room = Room(tries, ["g a echo here", "g a: nice 3 ionice idle cpu 100%"])
    os.mkdir(f"{room.path}/bin")
    for it in ("env", "sh", "sleep", "sync"):
        os.symlink(f"/bin/{it}", f"{room.path}/bin/{it}")
    room.before = ("env", f"PATH={room.path}/bin", PYTHON)
    tries.is_same(kind, room.path, room.last(), (0, "1 command: 1 ok; 1 run this time"))
    tries.is_same(f"{kind}: it is said", room.path, sorted(room.lines("errors")), sorted([
        "night-run: memory and cpu are limited process by process: there is no systemd-run here",
        *(f"night-run: {it} isn't installed here, so commands run without it" for it in TOOLS)]))


def outputs(tries: Shared) -> None:
    """A try that prints more than it may is ended, and has failed, whether it would have ended
    itself or not; one that prints as much hasn't."""
    kind = "a limit of output"
    room = Room(tries, [
        "g: output 1M", f"g endless {PRINTS}", "g quick head -c 1048577 /dev/zero",
        "g exact head -c 1048576 /dev/zero", "g over head -c 1048577 /dev/zero; exit 3",
        "g holes truncate -s 2M /dev/stdout; sleep 60", "g own head -c 3000000 /dev/zero",
        "g own: output 3M", "g apart head -c 3000000 /dev/zero > file",
        f"g cut {HALTS}; head -c 3000000 /dev/zero; truncate -s 5 /dev/stdout; kill -CONT $by",
        "h free head -c 3000000 /dev/zero", f"h again {PRINTS}", "h again: output 1M retries 1"])
    status, output = room.run("s", "JOBS", "-j", "8", "--grace", "1")
    shown = sorted(it for it in output.splitlines() if it[:1] != " ")
    tries.is_same(kind, room.path, (status, shown), (1, [
        "10 commands: 5 ok, 5 failed; 10 run this time",
        *(f"g {it}: output over 1M; s.out/g.{it}.0" for it in ("endless", "holes", "over",
                                                                "quick")),
        "h again: output over 1M; s.out/h.again.1"]))
    sizes = {f"{key}.{number}": os.stat(f"{room.path}/s.out/{group}.{key}.{number}").st_size
             for group, key, number in (it.split(".") for it in os.listdir(f"{room.path}/s.out"))}
    tries.is_same(f"{kind}: the log has the sizes", room.path,
                  {name: int(it["output"]) for name, it in figures(room).items()}, sizes)
    tries.is_same(f"{kind}: they are stopped", room.path, room.settle(10), True)
    kind = "a limit of output over a kill"
    room = Room(tries, ["g a echo g.a >> begun; until [ -e go ]; do sleep 0.05; done;"
                        f" {PRINTS}",
                        "g a: output 1M",
                        "g b echo g.b >> begun; until [ -e go ]; do sleep 0.05; done;"
                        " head -c 3000000 /dev/zero", "g b: output 1M"])
    run = room.start()
    room.until(lambda: len(room.lines("begun")) == 2)
    hit(run, "driver")
    room.ended(run)
    run = room.start("s", "JOBS", "--grace", "1")
    room.until(lambda: "still runs" in room.text("errors"))
    room.write("go", "")
    status, output = room.ended(run)
    shown = sorted(it for it in output.splitlines() if it[:1] != " ")
    tries.is_same(kind, room.path, (status, shown, room.begun()), (1, [
        "2 commands: 2 failed; 2 run this time", "g a: output over 1M; s.out/g.a.1",
        "g b: output over 1M; s.out/g.b.1"], {"g.a": 1, "g.b": 1}))


def taken(tries: Shared) -> None:
    """What a try took is what its processes and its output have, whichever way it is found out."""
    kind = "what a try took"
    room = Room(tries, [
        f"g large {LARGE}", f"g long {LARGE}; sleep 1.2", f"g burns {BURN.format(1.5)}",
        f"g child sh -c '{LARGE.replace(chr(39), '')}' > kept; echo; sleep 1.1; cat kept",
        "g none sleep 1.1", "g fails sleep 1.1; echo oh; exit 3", "g dies sleep 1.1; kill -9 $$",
        f"g daemon {PYTHON} -c \"x = bytearray(300 << 20); import time; time.sleep(4)\" &",
        "g daemon: background keep", "g killed trap '' TERM; sleep 60", "g killed: timeout 1s"])
    room.run("s", "JOBS", "-j", "9", "--grace", "1")
    found = figures(room)
    tries.is_same(f"{kind}: it is known of all", room.path, len(found), 9)
    for key in ("large", "long", "child"):
        said = int(room.text(f"s.out/g.{key}.0").split()[-1]) << 10
        tries.is_same(f"{kind}: the memory of {key}", room.path, found[f"{key}.0"]["memory"],
                      str(said))
    tries.holds(f"{kind}: memory is large", room.path, said > 200 << 20, said)
    for key, least, most in (("burns", 1.5, 3.0), ("none", 0.0, 0.3)):
        cpu = float(found[f"{key}.0"]["cpu"])
        tries.holds(f"{kind}: the seconds of {key}", room.path, least <= cpu <= most, cpu)
    tries.is_same(f"{kind}: what was printed", room.path,
                  {name: int(it["output"]) for name, it in found.items()},
                  {name: os.stat(f"{room.path}/s.out/g.{name}").st_size for name in found})
    small = int(found["none.0"]["memory"])
    tries.holds(f"{kind}: less than the driver has", room.path, 0 < small < 8 << 20, small)
    # (the two end at about the same time, so the log has them in either order)
    tries.is_same(f"{kind}: of a failure", room.path, sorted(
        (it[2], it[5], it[9]) for it in (line.split("\t") for line in room.lines("s.log"))
        if it[2] in ("fails", "dies")), [("dies", "signal 9", "0"), ("fails", "exit 3", "3")])
    tries.is_same(f"{kind}: nothing is known of what was killed with its shell", room.path,
                  found["killed.0"], {"cpu": "-", "memory": "-", "output": "0", "limits": "-"})
    tries.holds(f"{kind}: a daemon doesn't count", room.path,
                found["daemon.0"]["memory"] in ("-", *map(str, range(1, 30 << 20))),
                found["daemon.0"])
    kill([int(it) for it in os.listdir("/proc") if it.isdigit() and is_in(it, room.path)])


# Begins a program after having been a large one; and what that prints: the memory of a command that
# it runs, as a driver learns it of a brief one.
ONCE_LARGE = "import os, sys; x = bytearray(600 << 20); del x; os.execv(sys.argv[1], sys.argv[1:])"
LEARNS = """import os, sys
sys.path.insert(0, sys.argv[1])
from night_run.used import of_shell
its = os.wait4(os.posix_spawn("/bin/sh", ["/bin/sh", "-c", sys.argv[2]], os.environ), 0)[2]
print(of_shell(its, "-").memory)
"""


def learned_below_a_large_one(tries: Shared) -> None:
    """The memory of a brief command is known also where the driver was begun by a large program, of
    which the system counts the memory as the driver's."""
    folder = os.path.dirname(os.path.realpath(tries.driver))
    callers: dict[str, list[str]] = {"a small program": [],
                                     "a large one": [PYTHON, "-c", ONCE_LARGE]}
    for what, before in callers.items():
        output = subprocess.run([*before, PYTHON, "-c", LEARNS, folder, LARGE], text=True,
                                capture_output=True, timeout=300, check=True).stdout.split()
        tries.is_same("what a try took: a driver that was begun by", what, output[1:],
                      [str(int(output[0]) << 10)])


def is_in(process: str, path: str) -> bool:
    try:
        return os.readlink(f"/proc/{process}/cwd") == os.path.realpath(path)
    except OSError:
        return False


def taken_over_a_kill(tries: Shared) -> None:
    """What a command took that outlived its driver is what its shell kept."""
    kind = "what a try took that outlived its driver"
    waits = "echo begun >> begun; until [ -e go ]; do sleep 0.05; done"
    room = Room(tries, [f"g a {waits}; {LARGE}; {BURN.format(0.5)}", f"g b {waits}; exit 3",
                        "g b: cpu 100%"])
    with_systemd(room, NO_SYSTEMD)
    run = room.start()
    room.until(lambda: len(room.lines("begun")) == 2)
    hit(run, "both")
    room.ended(run)
    room.write("go", "")
    room.settle(30)
    tries.is_same(kind, room.path, room.last()[1], "2 commands: 1 ok, 1 failed; 2 run this time")
    found = figures(room)
    said = int(room.text("s.out/g.a.1").split()[-1]) << 10
    tries.is_same(f"{kind}: its memory and output", room.path,
                  (found["a.1"]["memory"], found["a.1"]["output"]),
                  (str(said), str(os.stat(f"{room.path}/s.out/g.a.1").st_size)))
    tries.holds(f"{kind}: its seconds", room.path, 0.5 <= float(found["a.1"]["cpu"]) < 3,
                found["a.1"])
    tries.is_same(f"{kind}: how it was limited", room.path, found["b.1"]["limits"], "process")
    lines = [it.split("\t") for it in room.lines("s.log")[1:] if "\tinterrupted\t" in it]
    tries.is_same(f"{kind}: nothing of the first", room.path, [it[7:] for it in lines],
                  [["-"] * 4] * 2)


def variables(tries: Shared) -> None:
    """The shell that begins a command changes no variable of its."""
    room = Room(tries, ["g a echo $s $up $it $by $from; echo ${NIGHT_STAT-none}", "g b sleep 1.1",
                        "g: env s=1 env up=2 env it=3 env by=4 env from=5"])
    tries.is_same("variables", room.path, (room.last(), room.lines("s.out/g.a.0")), (
        (0, "2 commands: 2 ok; 2 run this time"), ["1 2 3 4 5", "none"]))
    tries.holds("variables: the memory of a long one", room.path,
                figures(room)["b.0"]["memory"].isdigit(), figures(room))


def small_limits(tries: Shared) -> None:
    """A limit that is less than a shell needs is a failure of its try, and not of the night."""
    kind = "a limit that a shell doesn't fit in"
    room = Room(tries, ["g: memory 1M", "g a true", "g b echo here", "g b: shell bash -o pipefail",
                        f"g c {PYTHON} -c 'print(1)'", "h d true"])
    with_systemd(room, NO_SYSTEMD)
    status, output = room.run()
    tries.is_same(kind, room.path, (status, output.splitlines()[-1].split("; ")[-1]),
                  (1, "4 run this time"))
    tries.holds(f"{kind}: Python", room.path, "g c: " in output, output)
    tries.holds(f"{kind}: another group", room.path, "h d" not in output, output)


def without_python(tries: Shared) -> None:
    """A shell that can't become Python has kept how its command ended."""
    used, begin = driver_module(tries, "used"), driver_module(tries, "beginnings")
    tries.is_same("a shell that can't ask: the text is given", "", begin.ASKING, used.ASKING)
    kind = "a shell that can't ask"
    room = Room(tries, ["g a sleep 1.2", "g b sleep 1.2; exit 5", "g c sleep 1.2; kill -9 $$"])
    room.program("driver", f"""#!{PYTHON}
import sys
sys.path.insert(0, "{os.path.dirname(os.path.realpath(tries.driver))}")
from night_run import beginnings, words
beginnings.PYTHON = "/nowhere/python"
sys.exit(words.main())
""")
    status, output = room.run("s", "JOBS", driver=f"{room.path}/driver")
    tries.is_same(kind, room.path, (status, output.splitlines()), (1, [
        "g b: exit 5; s.out/g.b.0", "g c: signal 9; s.out/g.c.0",
        "3 commands: 1 ok, 2 failed; 3 run this time"]))


# Lines of a log, and the end and the figures that are read from each; None is no line.
READ: list[tuple[str, tuple[str, str, tuple[object, ...]] | None]] = [
    ("0\tg\ta\t-\t-\tok\techo x", ("ok", "echo x", (None, None, None, "-"))),
    ("0\tg\ta\t-\t-\tok\techo x\t1.500\t2048\t3\tscope", ("ok", "echo x", (1.5, 2048, 3, "scope"))),
    ("0\tg\ta\t-\t-\tok\techo x\t-\t-\t0\t-", ("ok", "echo x", (None, None, 0, "-"))),
    ("0\tg\ta\t-\t-\tok\t\t0.000\t0\t0\tprocess", ("ok", "", (0.0, 0, 0, "process"))),
    # (what a crash tore is part of the command, or no line)
    ("0\tg\ta\t-\t-\tok\techo x\t1.500\t2048\t3", ("ok", "echo x\t1.500\t2048\t3",
                                                   (None, None, None, "-"))),
    ("0\tg\ta\t-\t-\tok\techo x\t1.500\t2048\t3\tsco", ("ok", "echo x\t1.500\t2048\t3\tsco",
                                                        (None, None, None, "-"))),
    ("0\tg\ta\t-\t-\tok", None), ("", None),
    ("Try\tGroup\tKey\tBegan\tSeconds\tEnd\tCommand", None),
    # (a command of an older driver may look like figures)
    ("0\tg\ta\t-\t-\texit 1\t1.500 2048 3 -", ("exit 1", "1.500 2048 3 -",
                                               (None, None, None, "-")))]


def lines_are_read(tries: Shared) -> None:
    """A line of the log with figures and one of an older driver without."""
    log = driver_module(tries, "log")
    for text, wanted in READ:
        found = log.read_line(text.encode())
        its = None
        if found is not None:
            it = found[1]
            its = it.end.text, it.command, (it.used.cpu, it.used.memory, it.used.output,
                                            it.used.limits)
        tries.is_same("a line of the log", text, its, wanted)
    kind = "a log that an older driver began"
    room = Room(tries, ["g a true", "g b [ -e ready ] || { touch ready; exit 2; }"])
    room.run()
    lines = [line.split("\t")[:7] for line in room.lines("s.log")]
    room.write("s.log", "".join("\t".join(it) + "\n" for it in lines) + "0\tg\tb\t2026-11-")
    tries.is_same(kind, room.path, room.last("s", "JOBS", "--failed"),
                  (0, "2 commands: 2 ok; 1 run this time"))
    tries.is_same(f"{kind}: its lines", room.path, [len(it.split("\t"))
                                                    for it in room.lines("s.log")],
                  [7, 7, 7, 4, 11])
    tries.is_same(f"{kind}: the report", room.path, room.run("s", "JOBS", "--report", "prom")[0], 0)


def together(tries: Shared) -> None:
    """The limits of a command win over those of its group, one by one; and as many processors are
    taken as make a share, by turns."""
    limits, means = driver_module(tries, "limits"), driver_module(tries, "means")
    jobs = driver_module(tries, "jobs")
    room = Room(tries, [
        "g: nice 3 memory 1G output 1K", "g: cpu 50%", "g a true", "g b true",
        "g b: nice 0 ionice realtime 0 output 2T", "h x true",
        "h x: after nice memory output", "h nice true", "h memory true", "h output true",
        "i x true", "i x: after g nice 1 memory 2M", "night: output 7K nice 9"])
    made = jobs.Jobs(f"{room.path}/JOBS").all
    plain = limits.Limits(nice=3, memory=1 << 30, cpu=50, output=1 << 10, output_text="1K")
    tries.is_same("limits: of the group", "g a", made["g", "a"].limits, plain)
    tries.is_same("limits: of its own", "g b", made["g", "b"].limits, limits.Limits(
        0, ("realtime", 0), 1 << 30, 50, 2 << 40, "2T"))
    tries.is_same("limits: after keys of these names", "h x", (
        [it.of for it in made["h", "x"].after], made["h", "x"].limits), (
            [("h", "nice"), ("h", "memory"), ("h", "output")],
            limits.Limits(nice=9, output=7 << 10, output_text="7K")))
    tries.is_same("limits: behind the names of an `after`", "i x", (
        [it.of for it in made["i", "x"].after], made["i", "x"].limits), (
            ["g"], limits.Limits(nice=1, memory=2 << 20, output=7 << 10, output_text="7K")))
    rows: list[tuple[list[int], list[int], list[str]]] = [
        ([0, 1, 2, 3], [100, 100, 200, 100], ["0", "1", "0,1", "3"]),
        ([0, 1, 2, 3], [301, 400, 50, 50], ["", "", "0", "1"]), ([5], [50, 100], ["", ""]),
        ([2, 7], [1, 1, 1], ["2", "7", "2"])]
    for processors, shares, wanted in rows:
        its = means.Means(processors=processors)
        tries.is_same("processors by turns", (processors, shares),
                      [its.some(it) for it in shares], wanted)


def in_words(tries: Shared) -> None:
    used = driver_module(tries, "used")
    rows: Mapping[float, str] = {
        0: "0", 1: "1", 1023: "1023", 1024: "1.0K", 1535: "1.5K", 102_348: "99.9K", 102_400: "100K",
        1_047_552: "1023K", 1_048_575: "1.0M", 5 << 30: "5.0G", 3 << 40: "3.0T",
        5000 << 40: "5000T"}
    for count, wanted in rows.items():
        tries.is_same("a size in words", count, used.size(count), wanted)
    for count, wanted in {0: "0 bytes", 1: "1 byte", 1023: "1023 bytes", 1024: "1.0K"}.items():
        tries.is_same("an amount in words", count, used.amount(count), wanted)
    for its, shown in ((used.Used(), []), (used.Used(0.0, 0, 0), [
            "0.00s of processor time", "0 bytes of memory", "0 bytes printed"]), (
                used.Used(75.2, 3 << 20, None), ["1m15s of processor time", "3.0M of memory"])):
        tries.is_same("what was taken in words", its, used.in_words(its), shown)


def interrupts(tries: Shared) -> None:
    """A signal to a shell that asks for what its command took loses no end."""
    kind = "a signal to a shell that asks"
    room = Room(tries, [f"g k{it} sleep 1.1; exit {it}" for it in range(1, 7)])
    run = room.start("s", "JOBS", "-j", "6")
    seen = set[int]()

    def killed() -> bool:
        """Kills each shell once it has become Python."""
        for it in filter(str.isdigit, os.listdir("/proc")):
            if int(it) not in seen and is_in(it, room.path) and asks(it):
                seen.add(int(it))
                kill([int(it)], which=signal.SIGTERM)
        return run.poll() is not None

    room.until(killed, 30)
    status, output = room.ended(run)
    tries.is_same(kind, room.path, (status, [it.split(";")[0] for it in output.splitlines()]), (
        1, [*(f"g k{it}: exit {it}" for it in range(1, 7)), "6 commands: 6 failed"]))


def asks(process: str) -> bool:
    try:
        with open(f"/proc/{process}/cmdline", "rb") as file:
            return file.read().split(b"\0")[1:2] == [b"-ISc"]
    except OSError:
        return False


LIMITS = [put_on_processes, put_by_systemd, without_tools, outputs, taken,
          learned_below_a_large_one, taken_over_a_kill, variables, small_limits, without_python,
          lines_are_read, together, in_words, interrupts]
