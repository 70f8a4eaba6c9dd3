"""Owners and their mails, files of variables, and settings that name a user."""

from __future__ import annotations

import os
import signal
from collections.abc import Callable

from driver_lists import files_of, mistakes_of
from driver_plan import driver_module
from driver_room import Room, Shared, kill

SECRET = "s3cr3t-of-nobody"
FORM = "is not written like NAME=VALUE"
# Files, of which JOBS is the one of commands, and the mistakes. No message has a part of a value.
REFUSED: list[tuple[str, dict[str, str], list[str]]] = [
    ("no such file", {"JOBS": "g a x\ng: env file vars"},
     ["JOBS: line 2: env file vars: No such file or directory"]),
    ("no variable", {"JOBS": "g a x\nnight: env file vars", "vars": f"A=b\n{SECRET}"},
     [f"JOBS: line 2: env file vars: line 2 {FORM}"]),
    ("a word before it", {"JOBS": "g a x\ng a: env file vars", "vars": f"export A={SECRET}"},
     [f"JOBS: line 2: env file vars: line 1 {FORM}"]),
    ("a blank before it", {"JOBS": "g a x\ng a: env file vars", "vars": f" A={SECRET}"},
     [f"JOBS: line 2: env file vars: line 1 {FORM}"]),
    ("a byte 0", {"JOBS": "g a x\ng a: env file vars", "vars": f"A={SECRET}\0"},
     [f"JOBS: line 2: env file vars: line 1 {FORM}"]),
    ("a variable of night-run", {"JOBS": "g a x\ng: env file vars", "vars": "\n\nNIGHT_KEY=x"},
     ["JOBS: line 2: env file vars: line 3: night-run itself sets the variable 'NIGHT_KEY'"]),
    ("a variable twice", {"JOBS": "g a x\ng: env file vars", "vars": f"A=x\n# x\nA={SECRET}"},
     ["JOBS: line 2: env file vars: line 3: 'A' is set twice"]),
    ("an owner with a line", {"JOBS": "g a x\ng: owner 'a@b\tBcc: c'"},
     ["JOBS: line 2: the owner 'a@b\\tBcc: c' is not written like anna or anna@example.org"]),
    ("an owner that is an option", {"JOBS": "g a x\ng: owner -oQ/tmp"},
     ["JOBS: line 2: the owner '-oQ/tmp' is not written like anna or anna@example.org"]),
    ("two owners", {"JOBS": "g a x\ng: owner a owner b"},
     ["JOBS: line 2: g has an owner already"]),
    ("a user that isn't there", {"JOBS": "g a x\ng: user no-such-user"},
     ["JOBS: line 2: no user of this machine is called 'no-such-user'"]),
    ("a user of commands elsewhere", {"JOBS": "g a x\ng: user nobody\ng: via far"},
     ["JOBS: line 2: g has `via`, whose words run its commands, and `user`"]),
]
NO_ROOT = ["JOBS: line 2: user 'nobody': only root runs commands as another user"]


def refused_of_others(tries: Shared) -> None:
    for what, files, wanted in REFUSED:
        folder = files_of(tries, files)
        if "vars" in files:
            os.chmod(f"{folder}/vars", 0o600)
        if "user" in what and os.geteuid():
            wanted = NO_ROOT
        tries.is_same("an owner or a user that is refused", what, mistakes_of(tries, folder),
                      wanted)
    users = driver_module(tries, "users")
    before, users.os = users.os, type("Os", (), {"geteuid": staticmethod(lambda: 1000)})
    try:
        found = mistakes_of(tries, files_of(tries, {"JOBS": "g a x\ng: user nobody"}))
    finally:
        users.os = before
    tries.is_same("a user, and no root", "", found, NO_ROOT)


def variables(tries: Shared) -> None:
    """What a file of variables says, and which of two settings wins."""
    folder = files_of(tries, {
        "JOBS": "g a x\nnight: env file all env B=night\ng: env file sub/own env C=group\n"
                "g a: env D=key",
        "all": "A=1\r\nB=all\nC=all\nD=all\nE='a \"b\" # c'\n# F=x\n\nG=a=b \nH=\"\nI=\"\"\nJ='a\"",
        "sub/own": "A=zz9\nC=zz9"})
    for it in "all", "sub/own":
        os.chmod(f"{folder}/{it}", 0o600)
    its = driver_module(tries, "jobs").Jobs(f"{folder}/JOBS")
    tries.is_same("a file of variables", folder, dict(its.all["g", "a"].env), {
        "A": "zz9", "B": "night", "C": "group", "D": "key", "E": 'a "b" # c', "G": "a=b ",
        "H": '"', "I": "", "J": "'a\""})
    tries.holds("a file of variables: it isn't shown", folder, "zz9" not in repr(
        its.all["g", "a"]) and "zz9" not in repr(its.groups["g"]))


def secrets(tries: Shared) -> None:
    """The values of a file of variables stand in no file, no command line and no message, while a
    command runs, after a kill, and as it fails."""
    kind = "a secret"
    room = Room(tries, ["g: env file vars", "g a echo $A | md5sum >> begun; until [ -e go ]; do"
                        " sleep 0.1; done; exit 3", "g: owner anna"])
    room.write("vars", f"A={SECRET}\n")
    os.chmod(f"{room.path}/vars", 0o600)
    run = room.start()
    tries.holds(f"{kind}: it runs", room.path, room.until(lambda: room.lines("begun")))
    lines = []
    for it in filter(str.isdigit, os.listdir("/proc")):
        try:
            with open(f"/proc/{it}/cmdline", "rb") as file:
                lines.append(file.read())
        except OSError:
            continue
    tries.is_same(f"{kind}: in a command line", room.path,
                  [it for it in lines if SECRET.encode() in it], [])
    kill([run.pid], which=signal.SIGKILL)
    room.ended(run)
    room.write("go", "")
    texts = [room.run("s", "JOBS", "--mail", "cat >> mails", "--on-failure", "cat >> summary")[1],
             room.errors]
    for words in (("--list", "--json"), ("--list",), ("--dry-run",), ("--report", "text"),
                  ("--report", "html"), ("--report", "prom"), ("--status",)):
        texts.append(room.run("s", "JOBS", *words)[1] + room.errors)
    tries.is_same(f"{kind}: the command had it", room.path, len(room.lines("begun")), 1)
    tries.is_same(f"{kind}: in what is printed", room.path, [it for it in texts if SECRET in it],
                  [])
    found = []
    for where, _, names in os.walk(room.path):
        for name in names:
            with open(f"{where}/{name}", "rb") as file:
                found += [name] if SECRET.encode() in file.read() else []
    tries.is_same(f"{kind}: in a file", room.path, found, ["vars"])


def mails(tries: Shared) -> None:
    """Each owner gets his failures, and no other; a resumed night doesn't send them again."""
    kind = "mails to owners"
    room = Room(tries, ["night: owner all@example.org", "g: owner anna", "g a echo no room; exit 3",
                        "g b true", "g c true", "g c: owner ben", "h d exit 4", "h e true",
                        "h e: after d", "h f exit 5", "h f: owner ben"])
    mail = 'printf "to %s\\n" "$NIGHT_OWNER" >> mails; cat >> mails'
    wanted = [
        "to anna", "s, night 1: 1 of your 2 commands didn't end well.", "",
        "g a: exit 3; s.out/g.a.0", "    no room",
        "to ben", "s, night 1: 1 of your 2 commands didn't end well.", "",
        "h f: exit 5; s.out/h.f.0",
        "to all@example.org", "s, night 1: 2 of your 2 commands didn't end well.", "",
        "h d: exit 4; s.out/h.d.0", "h e: not started, because h/d failed"]
    found = room.last("s", "JOBS", "--mail", mail)
    tries.is_same(kind, room.path, (found, room.lines("mails"), room.errors), (
        (1, "6 commands: 2 ok, 3 failed, 1 not started; 5 run this time"), wanted, ""))
    room.run("s", "JOBS", "--mail", mail, "--resume")
    tries.is_same(f"{kind}: resumed", room.path, room.lines("mails"), wanted)
    room.run("s", "JOBS", "--mail", mail)
    tries.is_same(f"{kind}: run again", room.path, room.lines("mails"), wanted * 2)
    kind = "a mail that isn't sent"
    room = Room(tries, ["g a exit 3", "g: owner anna", "h b exit 4", "h: owner ben"])
    room.run("s", "JOBS", "--mail", 'echo "$NIGHT_OWNER" >> mails; [ "$NIGHT_OWNER" = ben ]')
    tries.is_same(kind, room.path, (room.errors, room.lines("mails")), (
        "night-run: the mail to anna: it ended with status 1\n", ["anna", "ben"]))
    room.run("s", "JOBS", "--resume", "--mail", 'echo "$NIGHT_OWNER" >> mails')
    tries.is_same(f"{kind}: it is sent later", room.path, room.lines("mails"),
                  ["anna", "ben", "anna", "ben"])
    room.set(["g a true", "g: owner anna"])
    tries.is_same("no mail of a good night", room.path, (
        room.run("s", "JOBS", "--again", "--mail", "touch sent")[0], room.has("sent")), (0, False))


def sendmails(tries: Shared) -> None:
    """Without --mail sendmail gets a whole mail."""
    kind, owners = "sendmail", driver_module(tries, "owners")
    room = Room(tries, ["g \ta echo x; exit 3", "g: owner anna@example.org"])
    os.mkdir(f"{room.path}/bin")
    if any(os.access(it, os.X_OK) for it in owners.SENDMAILS):
        tries.skip(kind, "this machine has one")
        return
    room.before = ["env", f"PATH={room.path}/bin:/usr/bin:/bin"]
    tries.is_same(f"{kind}: there is none", room.path, (room.run()[0], room.errors), (
        1, "night-run: the mail to anna@example.org: there is no sendmail; --mail COMMAND names"
        " another program\n"))
    room.program("bin/sendmail", '#!/bin/sh\nprintf "%s|" "$@" > words; cat > mail\n')
    tries.is_same(kind, room.path, (room.run("s", "JOBS", "--resume")[0], room.errors,
                                    room.text("words"), room.lines("mail")), (
        1, "", "-i|--|anna@example.org|", [
            "To: anna@example.org",
            "Subject: night-run: s, night 1: 1 of 1 command not ok",
            "Auto-Submitted: auto-generated", "MIME-Version: 1.0",
            "Content-Type: text/plain; charset=utf-8", "Content-Transfer-Encoding: 8bit", "",
            "s, night 1: your command didn't end well.", "",
            "g a: exit 3; s.out/g.a.0", "    x"]))


OWNERS: list[Callable[[Shared], None]] = [
    refused_of_others, variables, secrets, mails, sendmails]
