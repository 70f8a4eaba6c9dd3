"""Tables of what a file of commands means, and of which commands `night plan` lets begin."""

from __future__ import annotations

import datetime
import os
import subprocess
import sys
import tempfile
from typing import Any

from driver_room import Shared

Name = tuple[str, str]
# Commands of a file, and settings of it; how each command that is named ended; then how each
# command stands.
STANDINGS: list[tuple[str, str, dict[str, str], dict[str, str]]] = [
    ("nothing has ended", "g a x\ng b x", {}, {"g a": "waiting", "g b": "waiting"}),
    ("an end", "g a x\ng b x", {"g a": "ok"}, {"g a": "ok", "g b": "waiting"}),
    ("a failure", "g a x\ng b x", {"g a": "exit 3"}, {"g a": "failed", "g b": "waiting"}),
    ("a failure with retries left", "g: retries 2\ng a x", {"g a": "exit 3*2"}, {"g a": "waiting"}),
    ("retries used up", "g: retries 2\ng a x", {"g a": "exit 3*3"}, {"g a": "failed"}),
    ("a command's own retries", "g: retries 2\ng a x\ng a: retries 0", {"g a": "exit 3"},
     {"g a": "failed"}),
    ("an interruption", "g a x", {"g a": "interrupted"}, {"g a": "interrupted"}),
    ("it runs", "g a x", {"g a": "running"}, {"g a": "running"}),
    ("after one that is left", "g a x\ng b x\ng b: after a", {}, {"g b": "waiting"}),
    ("after a failure", "g a x\ng b x\ng b: after a", {"g a": "exit 1"}, {"g b": "not started"}),
    ("after a failure that is tried again", "g a x\ng a: retries 1\ng b x\ng b: after a",
     {"g a": "exit 1"}, {"g a": "waiting", "g b": "waiting"}),
    ("after what isn't begun", "g a x\ng b x\ng b: after a\nh c x\nh c: after g/b",
     {"g a": "exit 1"}, {"g b": "not started", "h c": "not started"}),
    ("after a group with a failure", "g a x\ng b x\nh: after g\nh c x", {"g a": "exit 1"},
     {"g b": "waiting", "h c": "not started"}),
    ("after a canceled one", "g a x\ng b x\ng b: after a", {"g a": "canceled: why"},
     {"g a": "canceled", "g b": "not started"}),
    ("a canceled one isn't tried again", "g: retries 9\ng a x", {"g a": "canceled: why"},
     {"g a": "canceled"}),
    ("stop on failure", "g: stop on failure\ng a x\ng b x\nh c x", {"g b": "exit 1"},
     {"g a": "not started", "g b": "failed", "h c": "waiting"}),
    ("stop on failure: retries first", "g: stop on failure retries 1\ng a x\ng b x",
     {"g b": "exit 1"}, {"g a": "waiting", "g b": "waiting"}),
    ("stop on failure: a cancel stops it, too", "g: stop on failure\ng a x\ng b x",
     {"g a": "canceled: why"}, {"g a": "canceled", "g b": "not started"}),
    ("a done group", "g a x\ng b x\nh c x", {"g a": "ok", "g": "why"},
     {"g a": "ok", "g b": "canceled", "h c": "waiting"}),
    ("after failed: it has yet to end", "g a x\ng b x\ng b: after failed a", {},
     {"g b": "waiting"}),
    ("after failed: it is ok", "g a x\ng b x\ng b: after failed a\ng c x\ng c: after b\ng d x"
     "\ng d: after ended b", {"g a": "ok"},
     {"g b": "not needed", "g c": "not needed", "g d": "waiting"}),
    ("after failed: it has failed", "g a x\ng b x\ng b: after failed a", {"g a": "exit 1"},
     {"g b": "waiting"}),
    ("after failed: it was canceled", "g a x\ng b x\ng b: after failed a", {"g a": "canceled: why"},
     {"g b": "not needed"}),
    ("after failed: one of two", "g a x\ng b x\ng c x\ng c: after failed a b",
     {"g a": "exit 1", "g b": "ok"}, {"g c": "not needed"}),
    ("after failed: each of two", "g a x\ng b x\ng c x\ng c: after failed a b",
     {"g a": "exit 1", "g b": "exit 1"}, {"g c": "waiting"}),
    ("after failed: one of a group", "g a x\ng b x\nh c x\nh c: after failed g\nh d x\nh d: after c"
     " g", {"g a": "ok", "g b": "ok"}, {"h c": "not needed", "h d": "not needed"}),
    ("after ended: it is canceled with its group", "g a x\ng b x\ng b: after ended a\ng c x",
     {"g": "why"}, {"g a": "canceled", "g b": "waiting", "g c": "canceled"}),
    ("after ended, and after another", "g a x\ng b x\ng b: after ended a after c\ng c x",
     {"g": "why"}, {"g b": "canceled"}),
    ("keys called failed and ended", "g failed x\ng ended x\ng a x\ng b x\ng b: after failed a"
     "\ng c x"
     "\ng c: after ended a", {"g failed": "exit 1", "g a": "ok", "g ended": "ok"},
     {"g b": "not started", "g c": "waiting"}),
    ("failure cancel", "g: failure cancel\ng a x\ng b x\ng c x\ng c: after ended a b",
     {"g a": "exit 1"}, {"g a": "failed", "g b": "not started", "g c": "waiting"}),
    ("failure cancel: no failure", "g: failure cancel\ng a x\ng b x", {"g a": "canceled: why"},
     {"g a": "canceled", "g b": "waiting"}),
    ("a done group: no retry", "g: retries 5\ng a x", {"g a": "exit 1", "g": "why"},
     {"g a": "failed"}),
]

# The same; then why a command that never begins doesn't.
WHYS: list[tuple[str, str, dict[str, str], dict[str, str]]] = [
    ("after one that a failure canceled", "g: failure cancel\ng a x\ng b x\nh c x\nh c: after g/a"
     "\nh d x\nh d: after g", {"g b": "exit 3", "g": "exit 3"},
     {"h c": "g/b failed, and that canceled g/a", "h d": "g/b failed"}),
    ("after one that a failure stopped", "g: failure cancel\ng a x\ng b x\nh c x"
     "\nh c: after g/a", {"g a": "canceled: exit 3", "g b": "exit 3", "g": "exit 3"},
     {"h c": "g/b failed, and that canceled g/a"}),
    ("after one that was canceled before a failure", "g: failure cancel\ng a x\ng b x\nh c x"
     "\nh c: after g/a", {"g a": "canceled: why", "g b": "exit 3", "g": "exit 3"},
     {"h c": "g/a was canceled"}),
    ("after one of two failures", "g: failure cancel\ng a x\ng b x\ng d x\nh c x"
     "\nh c: after g/a", {"g b": "exit 4", "g d": "exit 3", "g": "exit 3"},
     {"h c": "g/d failed, and that canceled g/a"}),
    ("after one whose group was canceled by hand", "g: failure cancel\ng a x\nh c x"
     "\nh c: after g/a", {"g": "why"}, {"h c": "g/a was canceled"}),
    ("after a failure alone", "g a x\nh c x\nh c: after g/a", {"g a": "exit 3"},
     {"h c": "g/a failed"}),
]

# The same; then the free places, and what may be begun.
NEXT: list[tuple[str, str, dict[str, str], int, list[str]]] = [
    ("the first ones", "g a x\ng b x\ng c x", {}, 2, ["g a", "g b"]),
    ("no place", "g a x", {}, 0, []),
    ("the file's order", "h a x\ng b x\nh c x", {"h a": "ok"}, 9, ["g b", "h c"]),
    ("an interrupted one in its place", "g: limit 1\ng a x\ng b x", {"g a": "interrupted"}, 9,
     ["g a"]),
    ("a limit", "g: limit 2\ng a x\ng b x\ng c x\nh d x", {"g a": "running"}, 9, ["g b", "h d"]),
    ("after", "g a x\ng b x\ng b: after a\ng c x", {}, 9, ["g a", "g c"]),
    ("after, once it is ok", "g a x\ng b x\ng b: after a", {"g a": "ok"}, 9, ["g b"]),
    ("after a group", "g a x\ng b x\nh: after g\nh c x", {"g a": "ok"}, 9, ["g b"]),
    ("after a whole group", "g a x\ng b x\nh: after g\nh c x", {"g a": "ok", "g b": "ok"}, 9,
     ["h c"]),
    ("a retry that waits", "g: retries 1 wait 30s\ng a x\ng b x", {"g a": "exit 1"}, 9, ["g b"]),
    ("a retry that is due", "g: retries 1 wait 5s\ng a x", {"g a": "exit 1"}, 9, ["g a"]),
    ("a retry at once", "g: retries 1\ng a x", {"g a": "exit 1"}, 9, ["g a"]),
    ("a done group", "g a x\nh b x", {"g": "why"}, 9, ["h b"]),
    ("after failed", "g a x\ng b x\nh c x\nh c: after failed g\nh d x\nh d: after failed g/b",
     {"g a": "exit 1"}, 9, ["g b", "h c"]),
    ("after ended", "g a x\ng b x\nh c x\nh c: after ended g\nh d x\nh d: after ended g/a",
     {"g a": "exit 1"}, 9, ["g b", "h d"]),
    ("after ended: it is canceled with its group", "g: limit 1\ng a x\ng b x\ng b: after ended a",
     {"g": "why"}, 9, ["g b"]),
    ("after ended: not while it runs", "g a x\ng b x\ng b: after ended a",
     {"g": "why", "g a": "running"}, 9, []),
    ("after ended: it is given up", "g a x\ng b x\ng b: after a\nh c x\nh c: after ended g/b",
     {"g a": "exit 1"}, 9, ["h c"]),
    ("a priority", "g a x\ng b x\ng c x\ng b: priority 2\ng c: priority 2", {}, 2,
     ["g b", "g c"]),
    ("a group's priority first", "g a x\ng a: priority 9\nh b x\nh: priority 1", {}, 1, ["h b"]),
    ("keys with names of settings", "g priority x\ng uses x\ng pool x\ng b x\ng b: after pool"
     " priority uses", {"g priority": "ok", "g uses": "ok", "g pool": "ok"}, 1, ["g b"]),
    ("a setting after names", "g a x\ng b x\ng c x\ng c: after a priority 3", {"g a": "ok"}, 1,
     ["g c"]),
    ("a pool", "night: pool tape 2\ng: uses tape 1\ng a x\ng b x\ng c x\ng c: uses tape 2\nh d x"
     "\nh e x\nh e: uses tape 1", {"g a": "running"}, 9, ["g b", "h d"]),
    ("a pool that is in use", "night: pool tape 2\ng a x\ng b x\ng b: uses tape 1\ng a: uses tape"
     " 2", {"g a": "running"}, 9, []),
    ("a wait that grows", "g: retries 9 wait 1s x3 up to 10s\ng a x\nh b x",
     {"g a": "exit 1*3"}, 9, ["g a", "h b"]),
    ("a wait that has grown more", "g: retries 9 wait 2s x3 up to 15s\ng a x\nh b x",
     {"g a": "exit 1*3"}, 9, ["h b"]),
    ("a wait that has grown to its end", "g: retries 9 wait 2s x9 up to 10s\ng a x",
     {"g a": "exit 1*9"}, 9, ["g a"]),
]

# A retry waits for two seconds after 1000: moments at which it is asked for, and when it is due if
# it isn't. A clock that is set back stands still, and a failure to come isn't waited for. A clock
# may also be set by more years than a moment of a plan can say, as by one that began in 1970.
CLOCKS: list[list[tuple[float, float | None]]] = [
    [(1000.0, 1002.0), (1001.5, 1002.0), (1002.0, None), (999.0, None), (-2600.0, None)],
    [(1000.5, 1002.0), (900.0, 901.5), (901.25, 901.5), (901.5, None)], [(999.0, None)],
    [(1001.0, 1002.0), (1.8e9, None), (1.8e9 + 1, None)],
    [(1001.0, 1002.0), (-1.8e9, 1.0 - 1.8e9), (0.5 - 1.8e9, 1.0 - 1.8e9), (1.0 - 1.8e9, None)]]

# What `ask` prints; the text of the end that it reports, and of which kind that is.
ANSWERS = [
    ("ok", "ok", "ok"), ("exit 3", "exit 3", "failed"), ("signal 9", "signal 9", "failed"),
    ("error no room", "no room", "failed"), ("error ok", "error ok", "failed"),
    ("error withdrawn", "error withdrawn", "failed"), ("error exit 3", "exit 3", "failed"),
    ("error interrupted", "error interrupted", "failed"),
    ("error canceled: why", "error canceled: why", "failed"),
    ("error canceled by hand", "canceled by hand", "failed"),
    ("error error x", "error error x", "failed"), ("error running", "running", "failed"),
    ("error " + "x" * 64, "x" * 64, "failed"),
    ("error canceled: " + "x" * 54, "error canceled: " + "x" * 48, "failed"),
    ("none", "", ""), ("running", "", "")]
# Texts of ends, and of which kind each is.
ENDS = [("ok", "ok"), ("withdrawn", "withdrawn"), ("interrupted", "interrupted"),
        ("canceled: why", "canceled"), ("canceled: " + "x" * 54, "canceled"), ("exit 3", "failed"),
        ("timeout 10m", "failed"), ("can't be started: why", "failed"), ("CANCELLED", "failed"),
        ("error ok", "failed"), ("error error ok", "failed"), ("canceled by hand", "failed")]

# A name of the store: its group, the night's number, and which one of that night.
NAMES = [
    ("disks", "disks", 1, 1), ("disks--2", "disks", 2, 1), ("disks--10-3", "disks", 10, 3),
    ("disks--1-2", "disks", 1, 2), ("disks-", "disks-", 1, 1), ("disks---2", "disks-", 2, 1),
    ("disks---10-3", "disks-", 10, 3), ("-", "-", 1, 1), ("---2", "-", 2, 1), ("a-b", "a-b", 1, 1),
    ("2--3", "2", 3, 1), ("1-2--3-4", "1-2", 3, 4)]
# A name, a role, and the name of the scope that has it.
ROLES = [("disks", "UNTIL", "disks--until"), ("disks-", "UNTIL", "disks---until"),
         ("disks--2", "SAID", "disks--2--said"), ("night--12", "ENDED", "night--12--ended"),
         ("x" * 20 + "--999", "UNTIL", "x" * 20 + "--999--until"),
         ("x" * 20 + "--1000", "UNTIL", "x" * 20 + "--1000--u"),
         ("x" * 20 + "--1000", "SAID", "x" * 20 + "--1000--said"),
         ("x" * 20 + "--10000-9", "SAID", "x" * 20 + "--10000-9--s")]

ALL = ("settings are limit N, until MOMENT, within TIME, after X.., retries N [wait TIME [xN] [up"
       " to TIME]], timeout TIME, in FOLDER, env NAME=VALUE, env file FILE, stop on failure,"
       " background keep, via WORDS.., ask WORDS.., stop WORDS.., shell WORDS.., priority N, uses"
       " NAME N, pool NAME N, failure cancel, on DAY.., user NAME, owner ADDRESS, nice N,"
       " ionice CLASS [N], memory 2G, cpu 200%, output 100M")
OF_NIGHT = ("is no setting of all groups together; these are until MOMENT, within TIME, retries N"
            " [wait TIME [xN] [up to TIME]], timeout TIME, in FOLDER, env NAME=VALUE, env file"
            " FILE, background keep, shell WORDS.., uses NAME N, pool NAME N, on DAY.., user NAME,"
            " owner ADDRESS, nice N, ionice CLASS [N], memory 2G, cpu 200%, output 100M")
RETURN = "a carriage return stands within it; write a line feed where the line is to end"
BACKSLASH = ("it ends with a backslash, which doesn't join it to the next line; put a longer"
             " command into a script")
# Files of commands without a mistake, and the command that `g a` has in each.
RIGHT = [("g a echo x\r", "echo x"), ("# a note \\\ng a echo x", "echo x"),
         ("g a echo \\\\", "echo \\\\"), ("\tg \t a  echo  x \t", "echo  x"),
         ("\r\n# a note\r\ng a echo x\r\n", "echo x")]
# Files with several mistakes, and the messages for them.
SEVERAL = [
    ("g: limit 0\ng a true\nG b true\ng a false", [
        "line 1: the limit '0' is not 1 to 64",
        "line 3: the group 'G' is not 1 to 20 of a-z, 0-9, - and _ without --, or it is root",
        "line 4: g has a command a in line 2 already; give one of the two another key"]),
    ("g: after x\ng a true\ng b true\nh: after y\nh c true", [
        "line 1: after 'x': no such key of g, and no such group",
        "line 4: after 'y': no such key of h, and no such group"]),
    ("g: ask x\nh: stop failure\ng a true", [
        "line 1: g has `ask`, and no `via`",
        "line 2: the setting is stop on failure, or stop WORDS.."]),
    ("g a true\ng b\nh c true\nh: speed 1\nh c: after g/b g/d\nu _ true\ng a: after U", [
        "line 2: a line is GROUP KEY COMMAND.., or GROUP: and settings",
        "line 4: no setting is called 'speed'",
        "line 5: after 'g/d': no such key of h, and no such group",
        "line 7: after 'U': no such key of g, and no such group"]),
    ("g a true\nG b\ng a: after G G/b\nh: after k\nh c true\nh d true\nk e\nk h true", [
        "line 2: a line is GROUP KEY COMMAND.., or GROUP: and settings",
        "line 7: a line is GROUP KEY COMMAND.., or GROUP: and settings"]),
    ("a x true\na y true\na x: after y\na y: after x\nb x true\nb y true\nb x: after y c\n"
     "b y: after b/x\nc z true\nc z: after c\nd w true\nd w: after x/y b", [
        "line 3: these wait for each other: a/x, after a/y, after a/x",
        "line 7: these wait for each other: b/x, after b/y, after b/x",
        "line 10: these wait for each other: c/z, after c, after c/z",
        "line 12: after 'x/y': no such key of d, and no such group"]),
    ("g a true\n" + "x\n" * 30, [f"line {it}: a line is GROUP KEY COMMAND.., or GROUP: and"
                                 " settings" for it in range(2, 22)] + ["10 more mistakes"])]
# Lines of a file of commands that are mistakes, with the line's number and why.
MISTAKES = [
    ("g a true\ng a false", 2,
     "g has a command a in line 1 already; give one of the two another key"),
    ("g a true\n\ng a true", 3, "g has a command a in line 1 already; remove one of the two"),
    ("g a", 1, "a line is GROUP KEY COMMAND.., or GROUP: and settings"),
    ("# x\ng A true", 2, "the key 'A' is not 1 to 32 of a-z, 0-9, - and _"),
    ("g " + "k" * 33 + " true", 1,
     "the key '" + "k" * 33 + "' is not 1 to 32 of a-z, 0-9, - and _"),
    ("a--b c true", 1, "the group 'a--b' is not 1 to 20 of a-z, 0-9, - and _ without --,"
     " or it is root"),
    ("root c true", 1, "the group 'root' is not 1 to 20 of a-z, 0-9, - and _ without --,"
     " or it is root"),
    ("night c true", 1, "the group night stands for all groups"),
    ("g:", 1, ALL),
    ("g: limit", 1, f"the limit is missing; {ALL}"),
    ("g: limit 0", 1, "the limit '0' is not 1 to 64"),
    ("g: limit 65", 1, "the limit '65' is not 1 to 64"),
    ("g: limit ٣", 1, "the limit '٣' is not 1 to 64"),
    ("night: limit 3", 1, "the limit of all groups together is the option -j"),
    ("night: priority 3", 1, f"priority N {OF_NIGHT}"),
    ("night: stop on failure", 1, f"stop on failure {OF_NIGHT}"),
    ("night: after one", 1, f"after X.. {OF_NIGHT}"),
    ("night: via x", 1, f"via WORDS.. {OF_NIGHT}"),
    ("night: retries 3 retries 2", 1, "night has a number of retries already"),
    ("g: pool tape 2", 1, "a pool is a setting of all groups together: night: pool NAME N"),
    ("night: pool Tape 2", 1, "the pool 'Tape' is not 1 to 20 of a-z, 0-9, - and _"),
    ("night: pool tape many", 1, "the size of the pool tape 'many' is not 0 to 999"),
    ("night: pool tape 2 pool tape 3", 1, "night has a pool 'tape' already"),
    ("g: uses tape 1", 1, "uses 'tape': no such pool; night: pool tape N makes one"),
    ("night: pool tape 2\ng one: uses tape 3", 2, "uses tape 3: the pool has 2"),
    ("g: priority high", 1, "the priority 'high' is not 0 to 999"),
    ("g: priority 1\ng: priority 2", 2, "g has a priority already"),
    ("g: retries 2 wait 1s x0", 1, "a wait grows by a number from x1 to x99"),
    ("g: retries 2 wait 1s x2 up to", 1, f"the longest wait is missing; {ALL}"),
    ("g: until 25:00", 1, "the moment '25:00' is not written like 05:30 or 2026-11-26T05:30"),
    ("g: until 2026-02-30T05:30", 1,
     "the moment '2026-02-30T05:30' is not written like 05:30 or 2026-11-26T05:30"),
    ("g: within 2", 1, "the time '2' is not written like 2h, 90m, 1h30m or 45s"),
    ("g: within ٣h", 1, "the time '٣h' is not written like 2h, 90m, 1h30m or 45s"),
    ("g: within 2h until 05:30", 1, "g has a deadline already"),
    ("g: limit 2\ng: limit 2", 2, "g has a limit already"),
    ("g: speed 2", 1, "no setting is called 'speed'"),
    ("g: retry 2", 1, "no setting is called 'retry'; did you mean retries?"),
    ("g: prioritie 2", 1, "no setting is called 'prioritie'; did you mean priority?"),
    ("g a printf '\0'", 1, "it has a byte 0, as no text does"),
    ("g limit 2", 1, "a setting stands after a colon, as in g: limit 2"),
    ("g until 05:30", 1, "a setting stands after a colon, as in g: until 05:30"),
    ("g within 1h30m", 1, "a setting stands after a colon, as in g: within 1h30m"),
    ("g timeout 10m", 1, "a setting stands after a colon, as in g: timeout 10m"),
    ("g retries 3 wait 10s", 1, "a setting stands after a colon, as in g: retries 3 wait 10s"),
    ("g " + "k" * 41 + " true", 1,
     "the key '" + "k" * 40 + "..' is not 1 to 32 of a-z, 0-9, - and _"),
    ("g: timeout 0s", 1, "a timeout has a second at least"),
    ("g: timeout 1s\ng: timeout 2s", 2, "g has a timeout already"),
    ("g: retries many", 1, "the number of retries 'many' is not 0 to 999"),
    ("g: retries 1 wait", 1, f"the time to wait is missing; {ALL}"),
    ("g: in", 1, f"the folder is missing; {ALL}"),
    ("g: env A", 1, "'A' is not written like NAME=VALUE"),
    ("g: env NIGHT_KEY=x", 1, "night-run itself sets the variable NIGHT_KEY"),
    ("g: env 'A=b", 1, "a quotation: No closing quotation"),
    ("g: stop on success", 1, "the setting is stop on failure, or stop WORDS.."),
    ("g: stop failure", 1, "the setting is stop on failure, or stop WORDS.."),
    ("g: stop kill", 1, "g has `stop`, and no `via`; to start no more of it after a failure, write"
     " `stop on failure`"),
    ("g: via x\ng: shell bash", 1, "g has `via`, whose words run its commands, and `shell`"),
    ("g: via x\ng one: shell bash", 2, "g has `via`, whose words run its commands, and `shell`"),
    ("g: shell", 1, f"the shell is missing; {ALL}"),
    ("g: shell bash\ng: shell sh", 2, "g has a shell already"),
    ("g a true\n# old\rg z touch hacked", 2, RETURN), ("g a echo x\ry", 1, RETURN),
    ("g: limit 1\r\rg: limit 2", 1, RETURN), ("g a true \\", 1, BACKSLASH),
    ("g: limit \\", 1, BACKSLASH), ("g a \\\\\\", 1, BACKSLASH),
    ("g a\u00a0b true", 1, "the key 'a\\xa0b' is not 1 to 32 of a-z, 0-9, - and _"),
    ("g: background", 1, "keep is missing; " + ALL),
    ("g one: limit 2", 1, "limit, until, within, stop on failure, failure cancel, via, ask and stop"
     " are settings of a group"),
    ("g one: failure cancel", 1, "limit, until, within, stop on failure, failure cancel, via, ask"
     " and stop are settings of a group"),
    ("g: failure stop", 1, "the setting is failure cancel"),
    ("g: nice 20", 1, "nice '20' is not -20 to 19"),
    ("g: nice -21", 1, "nice '-21' is not -20 to 19"),
    ("g: nice ٣", 1, "nice '٣' is not -20 to 19"),
    ("g: nice", 1, f"the number after `nice` is missing; {ALL}"),
    ("g: nice 5 nice 6", 1, "g has a niceness already"),
    ("g: ionice fast", 1, "the class 'fast' is not idle, best-effort or realtime"),
    ("g: ionice best-effort 8", 1, "no setting is called '8'"),
    ("g: ionice idle 3", 1, "no setting is called '3'"),
    ("g: memory 2", 1, "memory '2' is not written like 512K, 100M or 2G"),
    ("g: memory 2.5G", 1, "memory '2.5G' is not written like 512K, 100M or 2G"),
    ("g: memory 2g", 1, "memory '2g' is not written like 512K, 100M or 2G"),
    ("g: memory -1G", 1, "memory '-1G' is not written like 512K, 100M or 2G"),
    ("g: memory 0G", 1, "memory 0G: no shell can run in less than 1M"),
    ("g: memory 1023K", 1, "memory 1023K: no shell can run in less than 1M"),
    ("g: memory 1G\ng: memory 2G", 2, "g has a limit of memory already"),
    ("g: cpu 200", 1, "cpu '200' is not written like 50% or 200%"),
    ("g: cpu 0%", 1, "cpu '0%' is not written like 50% or 200%"),
    ("g: cpu 50% cpu 60%", 1, "g has a limit of cpu already"),
    ("g: output 0M", 1, "output 0M: a try that may print nothing has its output elsewhere, as in"
     " `COMMAND > /dev/null`"),
    ("g: output lots", 1, "output 'lots' is not written like 512K, 100M or 2G"),
    ("g: output 1M output 1M", 1, "g has a limit of output already"),
    ("g: via x\ng one: memory 2G", 2, "g has `via`, so its commands run elsewhere, where nice,"
     " ionice, memory and cpu limit nothing"),
    ("g: failure cancel stop on failure", 1, "g has a failure cancel already"),
    ("g: stop on failure failure cancel", 1, "g has a stop on failure already"),
    ("g one: after failed two", 1, "after 'two': no such key of g, and no such group"),
    ("g one: after ended one", 1, "these wait for each other: g/one, after g/one"),
    ("g: after", 1, f"the key or group after `after` is missing; {ALL}"),
    ("g one: after two", 1, "after 'two': no such key of g, and no such group"),
    ("g one: after h/two", 1, "after 'h/two': no such key of g, and no such group"),
    ("h one true\ng h true\ng one: after h", 3,
     "after h: it is a group, and a key of g: write g/h for the key; to name the group, rename the"
     " key"),
    ("h x true\ng h true\ng h: after failed h", 3,
     "after h: it is a group, and a key of g: write g/h for the key; to name the group, rename the"
     " key"),
    ("g two true\ng one: after two\ng two: after one", 3,
     "these wait for each other: g/two, after g/one, after g/two"),
    ("g one: after g", 1, "these wait for each other: g/one, after g, after g/one"),
    ("h: after g\nh a true\ng one: after h/a", 1,
     "these wait for each other: h/a, after g, after g/one, after h/a"),
]

# In Berlin's zone: a moment in UTC, a time of day, and the next moment with that time in UTC. On 25
# October 2026 it is 02:30 twice, at 00:30 and 01:30, and on 29 March never.
HOURS = [
    ("2026-10-24T20:00", "02:30", "2026-10-25T00:30"),
    ("2026-10-25T00:29", "02:30", "2026-10-25T00:30"),
    ("2026-10-25T00:30", "02:30", "2026-10-25T01:30"),
    ("2026-10-25T00:45", "02:30", "2026-10-25T01:30"),
    ("2026-10-25T01:15", "02:30", "2026-10-25T01:30"),
    ("2026-10-25T01:30", "02:30", "2026-10-26T01:30"),
    ("2026-10-25T00:45", "03:00", "2026-10-25T02:00"),
    ("2026-10-25T00:45", "02:00", "2026-10-25T01:00"),
    ("2026-03-28T20:00", "02:30", "2026-03-29T01:30"),
    ("2026-03-29T00:45", "02:30", "2026-03-29T01:30"),
    ("2026-03-29T02:00", "02:30", "2026-03-30T00:30"),
    ("2026-07-01T12:00", "05:30", "2026-07-02T03:30")]
# Prints the moment, as UTC, of a deadline that is set at one.
ASK_MOMENT = """import datetime, sys
sys.path.insert(0, sys.argv[1])
from night_run.settings import Deadline
now = int(datetime.datetime.fromisoformat(sys.argv[2] + "+00:00").timestamp())
print(datetime.datetime.fromtimestamp(Deadline("until", sys.argv[3]).moment(now),
                                      datetime.timezone.utc).isoformat()[:16])
"""

NOON = int(datetime.datetime(2026, 11, 26, 12, 0).timestamp())
# What a deadline says, and the seconds from noon of the 26th to it.
MOMENTS = [
    ("within 2h", 7200), ("within 90m", 5400), ("within 1h30m", 5400), ("within 45s", 45),
    ("until 13:00", 3600), ("until 12:00", 86400), ("until 11:59", 86340),
    ("until 2026-11-26T12:30", 1800), ("until 2026-11-26T11:30", -1800),
]


def driver_module(tries: Shared, name: str) -> Any:
    """A module of the driver that is tried, whose names may be replaced."""
    folder = os.path.dirname(os.path.realpath(tries.driver))
    if folder not in sys.path:
        sys.path.insert(0, folder)
    return __import__(f"night_run.{name}", fromlist=["night_run"])


def jobs_of(tries: Shared, text: str) -> object:
    with tempfile.NamedTemporaryFile("wb", dir=tries.folder) as file:
        file.write(f"{text}\n".encode())
        file.flush()
        return driver_module(tries, "jobs").Jobs(file.name)


def pair(words: str) -> Name:
    group, _, key = words.partition(" ")
    return group, key


def facts_of(tries: Shared, ends: dict[str, str]) -> object:
    """The facts after these ends, all of a moment ten seconds ago."""
    facts, read_end = driver_module(tries, "facts").Facts(), driver_module(tries, "ends").read_end
    for words, end in ends.items():
        name = pair(words)
        if not name[1]:
            facts.cancel(name[0], end)
        elif end == "running":
            facts.busy.add(name)
        elif end == "interrupted":
            facts.interrupted.add(name)
        else:
            text, _, count = end.partition("*")
            for _ in range(int(count or 1)):
                facts.ended(name, read_end(text), 990.0)
    return facts


def planner_of(tries: Shared, text: str) -> Any:
    """The planner of a file of commands with this text."""
    os.environ["NIGHT"] = tries.program
    return driver_module(tries, "planner").Planner(jobs_of(tries, text))


def stand(tries: Shared) -> None:
    for what, text, ends, wanted in STANDINGS:
        found = planner_of(tries, text).standings(facts_of(tries, ends))
        shown = {it: found[pair(it)].phase for it in wanted}
        tries.is_same("how a command stands", what, shown, wanted)


def reasons(tries: Shared) -> None:
    """The reason names the failure, also that of a command which canceled the needed one."""
    for what, text, ends, wanted in WHYS:
        found = planner_of(tries, text).standings(facts_of(tries, ends))
        shown = {it: found[pair(it)].why for it in wanted}
        tries.is_same("why a command never begins", what, shown, wanted)


def next_ones(tries: Shared) -> None:
    for what, text, ends, places, wanted in NEXT:
        facts: Any = facts_of(tries, ends)
        found = planner_of(tries, text).choose(facts, places + len(facts.busy), 1000.0).names
        tries.is_same("what may be begun", what, [" ".join(it) for it in found], wanted)


def retries_wait(tries: Shared) -> None:
    """A retry waits by the clock, but not for the hours that the clock was set back."""
    for times in CLOCKS:
        planner = planner_of(tries, "g: retries 1 wait 2s\ng a true")
        facts = driver_module(tries, "facts").Facts()
        facts.ended(("g", "a"), driver_module(tries, "ends").failed("exit 3"), 1000.0)
        for now, wanted in times:
            found = planner.choose(facts, 1, now)
            tries.is_same("a retry and the clock", now, (len(found.names), found.later),
                          (0 if wanted else 1, wanted))


def retries_wait_on(tries: Shared) -> None:
    """A retry waits for what was left of its wait after the clock was set back, also where its
    failure is written once more."""
    for what in "to another process", "to the same":
        planner = planner_of(tries, "g: retries 1 wait 60s\ng a true\ng b true")
        facts = driver_module(tries, "facts").Facts()
        facts.ended(("g", "a"), driver_module(tries, "ends").failed("exit 3"), 10_000.0)
        facts.busy.add(("g", "b"))
        for now, wanted in (10_010.0, 10_060.0), (5000.0, 5050.0), (5001.0, 5050.0), (5050.0, None):
            if now == 5001.0 and what == "to the same":
                planner.written[0] = "(not written)"
                facts.changed.add(("g", "a"))
            elif now == 5001.0:
                planner.close()
            found = planner.choose(facts, 2, now)
            tries.is_same(f"a failure that is written {what}", now, (len(found.names), found.later),
                          (0 if wanted else 1, wanted))


def failures_after_a_set_clock(tries: Shared) -> None:
    """A retry waits for its whole wait, also if the clock was set just before the failure. One
    to come, as the clock was set back after it, isn't waited for."""
    for what, then, now in ("ahead", 1.8e9, 0.0), ("back", 5000.0, 0.0), ("not", 10_000.0, 0.0), (
            "back after it", 1.8e9, 10_001.0):
        planner = planner_of(tries, "g: retries 1 wait 60s\ng a true\ng b true")
        facts = driver_module(tries, "facts").Facts()
        facts.busy.update((("g", "a"), ("g", "b")))
        planner.choose(facts, 2, 10_000.0)
        facts.busy.discard(("g", "a"))
        facts.ended(("g", "a"), driver_module(tries, "ends").failed("exit 3"), then)
        now = now or then
        due = now + 60 if now == then else None
        for at, wanted in (now, due), (now + 59.5, due), (now + 60, None):
            found = planner.choose(facts, 2, at)
            tries.is_same(f"a failure as the clock is set {what}", at - now,
                          (len(found.names), found.later), (0 if wanted else 1, wanted))


def mistakes(tries: Shared) -> None:
    """Each mistake is reported with file, line and reason."""
    wrong = driver_module(tries, "jobs").Mistake
    for text, line, why in MISTAKES:
        whole = f"{text}\ng one true"
        try:
            made = jobs_of(tries, whole)
            found = f"no mistake: {made}"
        except wrong as mistake:
            found = str(mistake).partition(": ")[2]
        tries.is_same("a mistake", text, found, f"line {line}: {why}")


def mistakes_together(tries: Shared) -> None:
    """All mistakes of a file are reported together, and nothing else is."""
    wrong = driver_module(tries, "jobs").Mistake
    for text, wanted in SEVERAL:
        found: list[str] = []
        try:
            jobs_of(tries, text)
        except wrong as mistake:
            found = [it.partition(": ")[2] for it in str(mistake).split("\n")]
        tries.is_same("several mistakes", text, found, wanted)
    for text, command in RIGHT:
        made: Any = jobs_of(tries, text)
        tries.is_same("no mistake", text, [it.command for it in made.all.values()], [command])


def repeated_hours(tries: Shared) -> None:
    """A time of day in the hour that autumn repeats, and in that which spring leaves out."""
    folder = os.path.dirname(os.path.realpath(tries.driver))
    for now, said, wanted in HOURS:
        ran = subprocess.run(
            [sys.executable, "-c", ASK_MOMENT, folder, now, said], text=True, capture_output=True,
            env={**os.environ, "TZ": "CET-1CEST,M3.5.0,M10.5.0/3"})
        tries.is_same("a deadline in a repeated hour", (now, said),
                      ran.stdout + ran.stderr[-300:], f"{wanted}\n")


def moments(tries: Shared) -> None:
    deadline = driver_module(tries, "settings").Deadline
    for said, wanted in MOMENTS:
        word, _, value = said.partition(" ")
        tries.is_same("a deadline", said, deadline(word, value).moment(NOON) - NOON, wanted)


def cycles_are_long(tries: Shared) -> None:
    """A chain of thousands of commands is sorted, and a failure at its head is known at its end."""
    count = 5000
    lines = [f"g k{it} x" for it in range(count)]
    lines += [f"g k{it}: after k{it - 1}" for it in range(1, count)]
    planner = planner_of(tries, "\n".join(reversed(lines)))
    found = planner.standings(facts_of(tries, {"g k0": "exit 1"}))
    tries.is_same("a long chain", count, found["g", f"k{count - 1}"].phase, "not started")


def ends(tries: Shared) -> None:
    """A text is read as the end that it was written for, and each failure is one."""
    ends, far = driver_module(tries, "ends"), driver_module(tries, "far")
    for answer, text, kind in ANSWERS:
        end = far.end_of(answer)
        tries.is_same("an answer of ask", answer,
                      (end.text, end.kind.value) if end else ("", ""), (text, kind))
        tries.holds("an answer of ask: its text is that end's", answer,
                    end is None or ends.read_end(end.text) == end and len(end.text) <= 64)
    for text, kind in ENDS:
        end = ends.read_end(text)
        tries.is_same("the text of an end", text, (end.text, end.kind.value), (text, kind))
    for why in "", "x" * 80, "\nx\u00e9":
        for end in ends.failed(why), ends.canceled(why):
            tries.holds("the text of an end: any reason", repr(why), len(end.text) <= 64
                        and end.text.isprintable() and ends.read_end(end.text) == end, end)


def names(tries: Shared) -> None:
    """What a group is called in the store is read back, whatever dashes its name has."""
    rounds = driver_module(tries, "rounds")
    for name, base, number, again in NAMES:
        its = rounds.Round(number, again)
        tries.is_same("a name of the store", name, (rounds.base_of(name), rounds.round_of(name)),
                      (base, its))
        tries.is_same("a name of the store: made", name, rounds.named(base, its), name)
    for name, role, wanted in ROLES:
        made = rounds.role_name(name, rounds.Role[role])
        tries.is_same("a scope beside a group's", (name, role), made, wanted)
        tries.is_same("a scope beside a group's: read", made,
                      (rounds.base_of(made), rounds.round_of(made), len(made) <= 32),
                      (rounds.base_of(name), rounds.round_of(name), True))


TABLES = [stand, reasons, ends, names, next_ones, retries_wait, retries_wait_on,
          failures_after_a_set_clock, mistakes, mistakes_together, moments, repeated_hours,
          cycles_are_long]
