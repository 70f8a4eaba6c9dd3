"""Lines of a file of commands that stand for several, files that it includes, commands of several
lines, and settings of all commands."""

from __future__ import annotations

import os
import signal
import subprocess
import sys
import tempfile
from collections.abc import Callable

from driver_plan import driver_module
from driver_room import Room, Shared, kill

NO_KEY = ("is not 1 to 32 of a-z, 0-9, - and _, the first of them no -; to have another text in the"
          " command, write KEY=VALUE")
NO_VALUE = ("is not 1 to 255 of A-Z, a-z, 0-9 and _.:/@%+,=-, the first of them no -")
ABOVE = "a line that begins with + stands directly below the command that it belongs to"
A_LINE = "a line is GROUP KEY COMMAND.., or GROUP: and settings"
BACKSLASH = ("it ends with a backslash, which doesn't join it to the next line; put a longer"
             " command into a script")
RETURN = "a carriage return stands within it; write a line feed where the line is to end"
MANY = " ".join(f"v{it}" for it in range(100))
# Files, of which JOBS is the one of commands; and the commands that they make, in order.
MADE: list[tuple[str, dict[str, str], list[tuple[str, str]]]] = [
    ("a list", {"JOBS": "each host: a b\ndisks {host} \t rsync {host}:/ x"},
     [("disks a", "rsync a:/ x"), ("disks b", "rsync b:/ x")]),
    ("two lists", {"JOBS": "g {h}-{d} do {h} {d}\neach h: a b\neach d: x y"},
     [("g a-x", "do a x"), ("g a-y", "do a y"), ("g b-x", "do b x"), ("g b-y", "do b y")]),
    ("a list of groups", {"JOBS": "each h: a b\n{h} all x {h}\n{h}: limit 2"},
     [("a all", "x a"), ("b all", "x b")]),
    ("a name twice", {"JOBS": "each h: a b\ng {h}{h} x"}, [("g aa", "x"), ("g bb", "x")]),
    ("what isn't replaced", {"JOBS": "each h: a\ng {h} echo ${h} {} {x} {{h}} {h}{h} ${h:-{h}}"},
     [("g a", "echo ${h} {} {x} {a} aa ${h:-a}")]),
    ("no list in the key", {"JOBS": "g a awk '{print}' {x}"}, [("g a", "awk '{print}' {x}")]),
    ("another text", {"JOBS": "each h: a www=www.Example.org:22 c=k=v\ng {h} ssh {h}"},
     [("g a", "ssh a"), ("g www", "ssh www.Example.org:22"), ("g c", "ssh k=v")]),
    ("a file", {"JOBS": "each h: file hosts\ng {h} x", "hosts": "a\tb\r\n  # c d\n\n e"},
     [("g a", "x"), ("g b", "x"), ("g e", "x")]),
    ("a file with a blank in its name", {"JOBS": "each h: file 'my hosts'\ng {h} x",
                                         "my hosts": "a"}, [("g a", "x")]),
    ("a command", {"JOBS": "each h: command echo a; printf 'b\\n\\nc' | cat; sleep 9 &\ng {h} x"},
     [("g a", "x"), ("g b", "x"), ("g c", "x")]),
    ("a value called file", {"JOBS": "each h: a file\ng {h} x"}, [("g a", "x"), ("g file", "x")]),
    ("a group called each", {"JOBS": "each a true\neach a: timeout 5s\neach b: c\ng {b} x"},
     [("each a", "true"), ("g c", "x")]),
    ("included files", {"JOBS": "g a x\n include sub/more \ng c x",
                        "sub/more": "include 'rest of it'\neach h: file hosts",
                        "sub/rest of it": "h b y\nh {h} z", "sub/hosts": "k"},
     [("g a", "x"), ("h b", "y"), ("h k", "z"), ("g c", "x")]),
    ("a group called include", {"JOBS": "include a true\ninclude a: timeout 5s"},
     [("include a", "true")]),
    ("marks of the byte order", {"JOBS": "\ufeffeach h: file hosts\r\ng {h} x\ninclude more",
                                 "hosts": "\ufeffa b", "more": "\ufeffg: limit 2\ng c x"},
     [("g a", "x"), ("g b", "x"), ("g c", "x")]),
    ("several lines", {"JOBS": "g a\n+ cd /\n\t+\r\n  +   ls \\\n+ # x\n+ y\n# z\ng b x"},
     [("g a", "cd /\n\n  ls \\\n# x\ny"), ("g b", "x")]),
    ("several lines, from the first on", {"JOBS": "g a tar \\\n+  x\n+\ty"},
     [("g a", "tar \\\n x\ny")]),
    ("several lines over a list", {"JOBS": "each h: a\ng {h}\n+ x {h}\n+ y ${h} {h}"},
     [("g a", "x a\ny ${h} a")]),
]
# The same; and the mistakes that are reported.
REFUSED: list[tuple[str, dict[str, str], list[str]]] = [
    ("an empty list", {"JOBS": "each h:\ng {h} x\ng b x\ng b: after a\nh c x\nh c: after g/a"},
     ["JOBS: line 1: the list h is empty"]),
    ("an empty file", {"JOBS": "# x\neach h: file hosts\ng {h} x", "hosts": "# a\n\n"},
     ["JOBS: line 2: the list h is empty"]),
    ("a file that is missing", {"JOBS": "each h: file hosts\ng {h} x"},
     ["JOBS: line 1: hosts: No such file or directory"]),
    ("no file", {"JOBS": "each h: file\ng {h} x"},
     ["JOBS: line 1: a list has the form each NAME: file FILE, with one FILE"]),
    ("two files", {"JOBS": "each h: file a b\ng {h} x"},
     ["JOBS: line 1: a list has the form each NAME: file FILE, with one FILE"]),
    ("a bad name", {"JOBS": "each h: a B c\ng {h} x"}, [f"JOBS: line 1: the value 'B' {NO_KEY}"]),
    ("a bad name of a file", {"JOBS": "each h: file hosts\ng {h} x", "hosts": "a\nb www.b.org\n"},
     [f"JOBS: line 1: hosts: line 2: the value 'www.b.org' {NO_KEY}"]),
    ("what looks like an option", {"JOBS": "each h: a -rf\ng {h} rm {h}"},
     [f"JOBS: line 1: the value '-rf' {NO_KEY}"]),
    ("a text that looks like one", {"JOBS": "each h: a=-rf\ng {h} rm {h}"},
     [f"JOBS: line 1: the value '-rf' {NO_VALUE}"]),
    ("a text for the shell", {"JOBS": "each h: 'a=$(reboot)'\ng {h} x"},
     [f"JOBS: line 1: the value '$(reboot)' {NO_VALUE}"]),
    ("a text with a semicolon", {"JOBS": "each h: file f\ng {h} x", "f": "a=b;reboot"},
     [f"JOBS: line 1: f: line 1: the value 'b;reboot' {NO_VALUE}"]),
    ("an empty text", {"JOBS": "each h: a=\ng {h} x"}, [f"JOBS: line 1: the value '' {NO_VALUE}"]),
    ("a value twice", {"JOBS": "each h: a b a\ng {h} x"}, ["JOBS: line 1: the list has a twice"]),
    ("a value twice in a file", {"JOBS": "each h: file f\ng {h} x", "f": "a\nb\na=c"},
     ["JOBS: line 1: f: line 3: the list has a twice"]),
    ("a key twice", {"JOBS": "each a: x-y x\neach b: z y-z\ng {a}-{b} t"},
     ["JOBS: line 3: it stands for the command g x-y-z twice"]),
    ("a key that is there", {"JOBS": "each h: a b\ng b x\ng {h} y"},
     ["JOBS: line 3: g has a command b in line 2 already; give one of the two another key"]),
    ("a key of another line", {"JOBS": "each h: a b\neach k: b c\ng {h} x\ng {k} x"},
     ["JOBS: line 4: g has a command b in line 3 already; remove one of the two"]),
    ("a long key", {"JOBS": f"each h: {'k' * 32}\ng {{h}} x\ng x{{h}} x"},
     [f"JOBS: line 3: the key 'x{'k' * 32}' is not 1 to 32 of a-z, 0-9, - and _"]),
    ("a long group", {"JOBS": f"each h: {'k' * 21}\n{{h}} a x"},
     [f"JOBS: line 2: the group '{'k' * 21}' is not 1 to 20 of a-z, 0-9, - and _ without --, or it"
      " is root"]),
    ("the group of all groups", {"JOBS": "each h: a night\n{h} a x"},
     ["JOBS: line 2: the group night stands for all groups"]),
    ("no such list", {"JOBS": "each host: a\ng {hots} x"},
     ["JOBS: line 2: no list is called hots; each hots: A B.. makes one"]),
    ("a list in the command alone", {"JOBS": "each h: a\ng k echo {h}"},
     ["JOBS: line 2: {h} stands in it, and in neither its group nor its key, which tell for which"
      " values it is made"]),
    ("a list in the settings alone", {"JOBS": "each h: a\ng {h} x\nh: after g/{h}\nh b x"},
     ["JOBS: line 3: {h} stands in it, and in neither its group nor its key, which tell for which"
      " values it is made"]),
    ("too many", {"JOBS": f"each h: {MANY}\neach k: {MANY}\ng {{h}}-{{k}} x"},
     ["JOBS: line 3: it stands for 10000 lines, and 9999 at most may be"]),
    ("too many of three lists", {"JOBS": f"each h: {MANY}\ng {{h}}-{{k}}-{{l}} x\neach k: {MANY}"
                                 f"\neach l: {MANY}"},
     ["JOBS: line 2: it stands for 1000000 lines, and 9999 at most may be"]),
    ("a list twice", {"JOBS": "each h: a\neach h: b\ng {h} x"},
     ["JOBS: line 2: h is a list already, by JOBS: line 1"]),
    ("a list with a bad name", {"JOBS": "each Host: a\ng a x"},
     ["JOBS: line 1: the list 'Host' is not 1 to 20 of a-z, 0-9, - and _"]),
    ("a command that fails", {"JOBS": "each h: command echo a; echo no net >&2; exit 3\ng {h} x"},
     ["JOBS: line 1: the command of the list ended with status 3: no net"]),
    ("a command that a signal ends", {"JOBS": "each h: command echo a; kill -9 $$\ng {h} x"},
     ["JOBS: line 1: the command of the list was ended by signal 9"]),
    ("a command that prints nothing", {"JOBS": "each h: command true\ng {h} x"},
     ["JOBS: line 1: the list h is empty"]),
    ("no command", {"JOBS": "each h: command\ng {h} x"},
     ["JOBS: line 1: the command of the list is missing"]),
    ("a command that prints more and more", {"JOBS": "each h: command yes\ng {h} x"},
     ["JOBS: line 1: the command of the list prints more than 1 MB"]),
    ("a command that hangs", {"JOBS": "each h: command trap '' TERM; sleep 60; true\ng {h} x"},
     ["JOBS: line 1: the command of the list was ended after 1 s"]),
    ("a file that is missing", {"JOBS": "g a x\ninclude more"},
     ["JOBS: line 2: include more: No such file or directory"]),
    ("a folder", {"JOBS": "g a x\ninclude sub", "sub/x": ""},
     ["JOBS: line 2: include sub: it is no regular file, but a folder (it belongs to USER, mode"
      " 0755): move it away"]),
    ("a mistake in an included file", {"JOBS": "include more\ng a x", "more": "\nh: speed 1"},
     ["more: line 2: no setting is called 'speed'"]),
    ("mistakes in their order", {"JOBS": "g: limit 0\ninclude more\nG a x\ng a x",
                                 "more": "h: limit 0"},
     ["JOBS: line 1: the limit '0' is not 1 to 64", "more: line 1: the limit '0' is not 1 to 64",
      "JOBS: line 3: the group 'G' is not 1 to 20 of a-z, 0-9, - and _ without --, or it is root"]),
    ("a command that another file has", {"JOBS": "include more\ng a x", "more": "\ng a y"},
     ["JOBS: line 2: g has a command a in line 2 of more already; give one of the two another"
      " key"]),
    ("a file that includes itself", {"JOBS": "g a x\ninclude JOBS"},
     ["JOBS: line 2: these files include each other: JOBS, JOBS"]),
    ("files that include each other", {"JOBS": "g a x\ninclude b", "b": "include ./c",
                                       "c": "\ninclude b"},
     ["./c: line 2: these files include each other: b, ./c, b"]),
    ("a file that is included twice", {"JOBS": "g a x\ninclude b\ninclude c", "b": "include d",
                                       "c": "include sub/../d", "d": "h a x", "sub/x": ""},
     ["c: line 1: include sub/../d: b: line 1 includes it already"]),
    ("no name", {"JOBS": "g a x\ninclude"}, [f"JOBS: line 2: {A_LINE}"]),
    ("a line of no command", {"JOBS": "+ x\ng a x"}, [f"JOBS: line 1: {ABOVE}"]),
    ("a line below settings", {"JOBS": "g a x\ng: limit 2\n+ x"}, [f"JOBS: line 3: {ABOVE}"]),
    ("a line below a comment", {"JOBS": "g a x\n# y\n+ z"}, [f"JOBS: line 3: {ABOVE}"]),
    ("a line below an empty one", {"JOBS": "g a x\n\n+ z"}, [f"JOBS: line 3: {ABOVE}"]),
    ("a line below an included file", {"JOBS": "g a x\ninclude b\n+ z", "b": "g b x"},
     [f"JOBS: line 3: {ABOVE}"]),
    ("a line without its blank", {"JOBS": "g a x\n+y"},
     ["JOBS: line 2: a space stands after the +, as in + cd /srv"]),
    ("no command but empty lines", {"JOBS": "g a\n+\n+ \t\ng b x"}, [f"JOBS: line 1: {A_LINE}"]),
    ("a last backslash", {"JOBS": "g a\n+ x \\\n+ y \\\n"}, [f"JOBS: line 1: {BACKSLASH}"]),
    ("a carriage return", {"JOBS": "g a\n+ x\ry\ng b x"},
     [f"JOBS: line 1: {A_LINE}", f"JOBS: line 2: {RETURN}"]),
    ("a byte 0", {"JOBS": "g a\n+ x\0\n"}, ["JOBS: line 1: it has a byte 0, as no text does"]),
    ("settings with a backslash", {"JOBS": "g a x\ng: limit \\\n+ 2"},
     [f"JOBS: line 2: {BACKSLASH}", f"JOBS: line 3: {ABOVE}"]),
]


def files_of(tries: Shared, files: dict[str, str]) -> str:
    """A folder with these files."""
    folder = tempfile.mkdtemp(dir=tries.folder)
    for name, text in files.items():
        os.makedirs(os.path.dirname(f"{folder}/{name}"), exist_ok=True)
        with open(f"{folder}/{name}", "wb") as file:
            file.write(f"{text}\n".encode())
    return folder


def mistakes_of(tries: Shared, folder: str) -> list[str]:
    """The mistakes of the file JOBS in a folder."""
    jobs = driver_module(tries, "jobs")
    try:
        jobs.Jobs(f"{folder}/JOBS")
    except jobs.Mistake as mistake:
        return str(mistake).replace(f"{folder}/", "").split("\n")
    return ["no mistake"]


def made(tries: Shared) -> None:
    """What each file stands for."""
    for what, files, wanted in MADE:
        folder = files_of(tries, files)
        its = driver_module(tries, "jobs").Jobs(f"{folder}/JOBS")
        tries.is_same("what a line stands for", what, [
            (" ".join(name), it.command) for name, it in its.all.items()], wanted)


def refused(tries: Shared) -> None:
    """Each mistake is reported with file, line and reason."""
    lists = driver_module(tries, "lists")
    before, lists.SECONDS = lists.SECONDS, 1.0
    me = driver_module(tries, "beside").name_of(os.geteuid())
    try:
        for what, files, wanted in REFUSED:
            found = mistakes_of(tries, files_of(tries, files))
            tries.is_same("a list that is refused", what, found,
                          [it.replace("USER", me) for it in wanted])
    finally:
        lists.SECONDS = before


def settings_over_lists(tries: Shared) -> None:
    """Settings of a list hold for each command that it makes; the command's own win, and those of
    all commands are the last."""
    kind = "settings over a list"
    folder = files_of(tries, {"JOBS": """
each h: a b www=www.example.org
night: retries 2 wait 5s timeout 1h env A=night env B=night in /night uses tape 1 pool tape 2
night: shell bash
g {h}  ssh {h}
g {h}: timeout 2h after k/{h} env HOST={h}
g b: timeout 3h
g: env A=group
k {h}  true
k: retries 0 in /group background keep
k a: env A=own uses tape 2
other x true
other: via far
"""})
    its = driver_module(tries, "jobs").Jobs(f"{folder}/JOBS").all
    found = {" ".join(it.name): (it.timeout, it.retries, it.wait, it.folder, dict(it.env),
                                 [need.of for need in it.after], it.keeps, it.uses, it.shell)
             for it in its.values()}
    tape, bash = (("tape", 1),), ("bash",)
    wanted: dict[str, object] = {
        f"g {key}": (hours * 3600, 2, 5, "/night", {"A": "group", "B": "night", "HOST": host},
                     [("k", key)], False, tape, bash)
        for key, hours, host in (("a", 2, "a"), ("b", 3, "b"), ("www", 2, "www.example.org"))}
    for key in ("a", "b", "www"):
        wanted[f"k {key}"] = (3600, 0, 0, "/group", {"A": "own" if key == "a" else "night",
                                                     "B": "night"}, [], True,
                              (("tape", 2),) if key == "a" else tape, bash)
    wanted["other x"] = 3600, 2, 5, "/night", {"A": "night", "B": "night"}, [], False, tape, ()
    for name, it in wanted.items():
        tries.is_same(kind, name, found.get(name), it)
    tries.is_same(f"{kind}: no other", folder, sorted(found), sorted(wanted))


def night_over_lists(tries: Shared) -> None:
    """A night over lists, with commands of several lines: what would begin is shown, each has one
    line in the log, and no command counts as changed."""
    kind = "a night over lists"
    room = Room(tries, [
        "each host: file hosts", "night: retries 1",
        "g {host}", "+ echo g.{host} >> begun", "+ for it in 1 2; do", '+   printf "%s\\n" $it',
        "+ done; [ $NIGHT_TRY != 0 ] || exit 3", "h {host} echo h.{host} >> begun; exit 3",
        "h: after g"])
    room.write("hosts", "a b\n")
    text = ("echo g.{0} >> begun\\nfor it in 1 2; do\\n  printf \"%s\\n\" $it\\ndone;"
            " [ $NIGHT_TRY != 0 ] || exit 3")
    tries.is_same(f"{kind}: what would begin", room.path, room.run("s", "JOBS", "--dry-run"), (0, (
        "each host: a b\n" + "".join(f"begin g {it}: {text.format(it)}\n" for it in "ab")
        + "later h a: after g\nlater h b: after g\n")))
    tries.is_same(f"{kind}: nothing is made", room.path, room.has("s"), False)
    found = room.last()
    tries.is_same(kind, room.path, (found, room.begun()), (
        (1, "4 commands: 2 ok, 2 failed; 4 run this time"),
        {"g.a": 2, "g.b": 2, "h.a": 2, "h.b": 2}))
    tries.is_same(f"{kind}: an output", room.path, room.text("s.out/g.a.1"), "1\n2\n")
    tries.is_same(f"{kind}: the log", room.path, sorted(
        tuple(it.split("\t")[at] for at in (0, 1, 2, 6)) for it in room.lines("s.log")[1:]), sorted(
        (number, group, key, text.format(key) if group == "g" else f"echo h.{key} >> begun; exit 3")
        for number in "01" for group in "gh" for key in "ab"))
    for words, count in (("--report", "text"), 2), (("--report", "html"), 2):
        shown = room.run("s", "JOBS", *words)
        tries.holds(f"{kind}: {words[1]}", room.path, shown[0] == 0
                    and shown[1].count("echo h.") == count, shown[1])
    output = room.run()[1]
    tries.holds(f"{kind}: nothing has changed", room.path, "has changed" not in output, output)
    room.agrees(kind)


def lists_during_a_night(tries: Shared) -> None:
    """A list that is wrong during a night costs nothing, and one with more values gives it more."""
    kind = "a list during a night"
    room = Room(tries, ["each h: file hosts", "g {h} echo g.{h} >> begun; until [ -e go ]; do"
                        " sleep 0.1; done; echo g.{h} >> done"])
    room.write("hosts", "a\nb\nc\n")
    run = room.start("s", "JOBS", "-j", "2")
    tries.holds(f"{kind}: it runs", room.path, room.until(lambda: len(room.lines("begun")) == 2))
    kill([run.pid], which=signal.SIGTERM)
    room.ended(run)
    room.write("go", "")
    for text, why in (("", "JOBS: line 1: the list h is empty"),
                       ("a\nB\n", f"JOBS: line 1: hosts: line 2: the value 'B' {NO_KEY}"),
                       (None, "JOBS: line 1: hosts: No such file or directory")):
        if text is None:
            os.remove(f"{room.path}/hosts")
        else:
            room.write("hosts", text)
        before = room.text("s")
        tries.is_same(f"{kind}: it is wrong", text, (room.run(
            "s", "JOBS", "--on-failure", "cat > summary"), room.errors, room.text("summary")), (
                (2, ""), f"night-run: {why}\n", f"night-run: {why}\n"))
        tries.holds(f"{kind}: nothing is written", text, room.text("s") == before)
    room.write("hosts", "d\na\nb\nc\n")
    tries.is_same(kind, room.path, (room.last(), sorted(room.lines("done"))), (
        (0, "4 commands: 4 ok; 4 run this time"), ["g.a", "g.b", "g.c", "g.d"]))
    room.write("hosts", "a\nb\n")
    status, last = room.last()
    tries.holds(f"{kind}: with less", room.path, status == 0 and last.startswith(
        "nothing to do: 2 commands ended by "), (status, last))


def unused_lists(tries: Shared) -> None:
    kind = "a list that nothing uses"
    room = Room(tries, ["each h: a", "each k: b", "g {k} true", "x {h}: timeout 1h"])
    found = room.last()
    tries.is_same(kind, room.path, (found, room.errors), (
        (0, "1 command: 1 ok; 1 run this time"), "night-run: JOBS: line 4: x has no command a\n"))
    room = Room(tries, ["each h: a", "g b true"])
    found = room.last()
    tries.is_same(kind, room.path, (found, room.errors), (
        (0, "1 command: 1 ok; 1 run this time"),
        "night-run: JOBS: line 1: no command is made over the list h\n"))


def signal_during_a_list(tries: Shared) -> None:
    """A signal ends a run whose list's command runs, and that command with it."""
    kind = "a signal as a list's command runs"
    room = Room(tries, ["each h: command touch runs; sleep 63; echo a", "g {h} true"])
    run = room.start("s", "JOBS", "--on-failure", "cat > summary")
    tries.holds(f"{kind}: it runs", room.path, room.until(lambda: room.has("runs")))
    kill([run.pid], which=signal.SIGTERM)
    tries.is_same(kind, room.path, (room.ended(run), room.errors, room.text("summary")), (
        (3, ""), "night-run: ended before it began\n", "night-run: ended before it began\n"))
    tries.holds(f"{kind}: nothing is left", room.path, room.settle(5))
    tries.is_same(f"{kind}: nothing is made", room.path, room.has("s"), False)


# Reads a list whose command is begun at the moment at which a signal comes.
SIGNALED = """import os, signal, subprocess, sys
sys.path.insert(0, sys.argv[1])
from night_run import lists

def signaled(begin):
    def begun(*words, **how):
        it = begin(*words, **how)
        os.kill(os.getpid(), signal.SIGTERM)
        return it
    return begun

def stop(*_):
    raise KeyboardInterrupt

signal.signal(signal.SIGTERM, stop)
os.posix_spawn, subprocess.Popen = map(signaled, (os.posix_spawn, subprocess.Popen))
try:
    print(lists.printed_by("exec sleep 63"))
except KeyboardInterrupt:
    print("it was ended")
"""


def signal_as_a_list_begins(tries: Shared) -> None:
    """A signal that comes at the moment at which a list's command is begun ends that, too."""
    kind = "a signal as a list's command begins"
    room = Room(tries, ["g a true"])
    folder = os.path.dirname(os.path.realpath(tries.driver))
    found = subprocess.run([sys.executable, "-c", SIGNALED, folder], cwd=room.path, text=True,
                           capture_output=True, timeout=300)
    tries.is_same(kind, room.path, found.stdout + found.stderr, "it was ended\n")
    tries.holds(f"{kind}: nothing is left", room.path, room.settle(5))


def open_files(tries: Shared) -> None:
    """A file of commands that the caller has open names files in the folder of night-run."""
    kind = "files that a pipe of commands names"
    room = Room(tries, ["each h: file hosts", "include more"])
    room.write("hosts", "a b")
    room.write("more", "g {h} echo g.{h} >> begun\n")
    for words in ("/dev/stdin < JOBS", "/dev/fd/9 9< JOBS"):
        room.before = ["sh", "-c", f'"$0" "$1" {words}']
        tries.is_same(kind, words, (room.last(words[:8].replace("/", "")), room.begun()["g.a"]), (
            (0, "2 commands: 2 ok; 2 run this time"), 1 if "std" in words else 2))


def linked_files(tries: Shared) -> None:
    """A file that a file of commands names is looked for beside that file, whichever link has led
    to it, and whichever folder night-run is started in."""
    folder = files_of(tries, {"conf/JOBS": "include more\neach h: file hosts", "conf/hosts": "a b",
                              "conf/more": "g {h} x", "hosts": "wrong", "more": "wrong"})
    os.symlink("conf/JOBS", f"{folder}/JOBS")
    os.symlink("conf", f"{folder}/link")
    for path in "JOBS", "link/JOBS", "conf/JOBS":
        its = driver_module(tries, "jobs").Jobs(f"{folder}/{path}")
        tries.is_same("files that a linked file names", path, [
            (" ".join(name), it.command) for name, it in its.all.items()], [("g a", "x"),
                                                                            ("g b", "x")])


LISTS: list[Callable[[Shared], None]] = [
    made, refused, settings_over_lists, night_over_lists, lists_during_a_night, unused_lists,
    signal_during_a_list, signal_as_a_list_begins, open_files, linked_files]
