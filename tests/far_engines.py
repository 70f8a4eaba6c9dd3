"""Stand-ins for three engines that run commands elsewhere. Each does what the engine does when its
client is killed, or can't be heard; where they run, nobody who kills this machine's processes
comes.

    scope   `systemd-run --scope` and `systemctl`: what has begun in a scope belongs to it, and
            ends with a stop of it; the command takes its client's place
    ssh     a client, and a server whose session ends some time after the connection has gone; it
            ends no command
    slurm   `sbatch -W`, `squeue`, `scancel` and the record of ended jobs, with names of which one
            job runs at a time; a job runs on whatever becomes of its client, and also where it is
            forgotten, as by a slurmctld that is killed

All of them are this file, whose first word is the program. An engine's folder is ENGINE. There
`down` makes the programs of slurm fail, and `lag` has how many seconds ssh's server needs to see
that a connection has gone, and `gap` how many seconds scancel takes for each job that it finds.
`forget` says what becomes of the jobs that run: they are `gone`, they
begin `again`, or they have ended, as with `NODE_FAIL`.
"""

from __future__ import annotations

import contextlib
import json
import os
import select
import signal
import socket
import subprocess
import sys
import time

# How often a stand-in looks.
TICK = 0.02


def here(name: str) -> str:
    return os.path.join(os.environ["ENGINE"], name)


def text(path: str) -> str:
    try:
        with open(path, encoding="utf-8") as file:
            return file.read()
    except FileNotFoundError:
        return ""


def write(path: str, what: str) -> None:
    """All of it at once, or nothing."""
    made = f"{path}.{os.getpid()}"
    with open(made, "w", encoding="utf-8") as file:
        file.write(what)
    os.rename(made, path)


def word_after(words: list[str], option: str) -> str:
    return words[words.index(option) + 1]


# --- scope

def in_scope(name: str) -> list[int]:
    """The processes of a scope."""
    found = []
    for it in filter(str.isdigit, os.listdir("/proc")):
        with contextlib.suppress(OSError), open(f"/proc/{it}/environ", "rb") as file:
            if f"SCOPE={name}".encode() in file.read().split(b"\0"):
                found.append(int(it))
    return found


def systemd_run(words: list[str]) -> None:
    name = word_after(words, "--unit")
    if in_scope(name):
        sys.exit(f"Unit {name} was already loaded or has a fragment file.")
    command = words[words.index("--unit") + 2:]
    os.execvpe(command[0], command, {**os.environ, "SCOPE": name})


def systemctl(words: list[str]) -> None:
    name = words[-1].removesuffix(".scope")
    if "is-active" in words:
        print("active" if in_scope(name) else "inactive")
        sys.exit(0 if in_scope(name) else 3)
    for which, seconds in ((signal.SIGTERM, 0.5), (signal.SIGKILL, 0.5)):
        for it in in_scope(name):
            with contextlib.suppress(ProcessLookupError):
                os.kill(it, which)
        end = time.monotonic() + seconds
        while in_scope(name) and time.monotonic() < end:
            time.sleep(TICK)


# --- ssh

def ssh(words: list[str]) -> None:
    """Joins the words after the host with spaces, as ssh does, and ends as the command does."""
    while words[0] == "-o":
        words = words[2:]
    with socket.socket(socket.AF_UNIX) as line:
        line.connect(here("sshd"))
        line.sendall(" ".join(words[1:]).encode() + b"\0")
        got = b""
        while part := line.recv(65536):
            got += part
        output, is_whole, status = got.rpartition(b"\0")
        sys.stdout.buffer.write(output if is_whole else got)
        sys.exit(int(status) if is_whole else 255)


def sshd() -> None:
    """Begins a session for each connection."""
    with socket.socket(socket.AF_UNIX) as door:
        door.bind(here("sshd.new"))
        door.listen(50)
        os.rename(here("sshd.new"), here("sshd"))
        signal.signal(signal.SIGCHLD, signal.SIG_IGN)
        while True:
            line, _ = door.accept()
            if not os.fork():
                signal.signal(signal.SIGCHLD, signal.SIG_DFL)
                session(line)
                os._exit(0)
            line.close()


def session(line: socket.socket) -> None:
    """Runs the guard over a connection, by a shell that stays beside what it runs, and
    ends some time after the connection has gone."""
    asked = b""
    while not asked.endswith(b"\0"):
        asked += line.recv(65536)
    command = text(here("guard")).partition('command="')[2].partition('"')[0]
    command = command.replace("/usr/local/bin/", here(""))
    it = subprocess.Popen(["sh", "-c", f"{command}; exit"], stdin=subprocess.DEVNULL, cwd=here(""),
                          stdout=subprocess.PIPE, stderr=subprocess.STDOUT, env={
                              **os.environ, "HOME": here(""),
                              "SSH_ORIGINAL_COMMAND": asked[:-1].decode()})
    assert it.stdout
    poll = select.poll()
    poll.register(line, select.POLLIN)
    poll.register(it.stdout, select.POLLIN)
    while True:
        for file, _ in poll.poll():
            if file == line.fileno():
                time.sleep(float(text(here("lag")) or 0))
                return
            part = os.read(file, 65536)
            if not part:
                line.sendall(b"\0%d" % (it.wait() & 255))
                return
            line.sendall(part)


# --- slurm

def sbatch(words: list[str]) -> None:
    """Submits a job, a script with three words or what `--wrap` has, and waits for its end."""
    if text(here("down")):
        sys.exit("sbatch: error: Unable to contact slurm controller (connect failure)")
    job = here(f"jobs/{time.time_ns()}")
    command = ["sh", "-c", words[-1]] if "--wrap" in words else words[-4:]
    write(f"{job}.job", json.dumps([word_after(words, "-J"), command, os.getcwd(),
                                    word_after(words, "--wckey"), dict(os.environ)]))
    print("Submitted batch job", os.path.basename(job), flush=True)
    while not (end := text(f"{job}.end")):
        time.sleep(TICK)
    sys.exit(int(end))


def jobs(kind: str) -> list[str]:
    """The jobs for which there is a file of this kind, in order."""
    return sorted(here(f"jobs/{it.removesuffix(kind)}") for it in os.listdir(here("jobs"))
                  if it.endswith(kind))


def squeue(words: list[str]) -> None:
    if text(here("down")):
        sys.exit("slurm_load_jobs error: Unable to contact slurm controller (connect failure)")
    ended = set(jobs(".end"))
    for it in jobs(".job"):
        if it not in ended and json.loads(text(f"{it}.job"))[0] == word_after(words, "-n"):
            print("RUNNING")


def scancel(words: list[str]) -> None:
    if text(here("down")):
        sys.exit("scancel: error: Unable to contact slurm controller (connect failure)")
    ended, wckey = set(jobs(".end")), word_after(words, "--wckey") if "--wckey" in words else ""
    found = []
    for it in jobs(".job"):
        name, _, _, its, _ = json.loads(text(f"{it}.job"))
        if it not in ended and name == word_after(words, "-n") and wckey in ("", its):
            found.append(it)
            time.sleep(float(text(here("gap")) or 0))
    write(here(f"jobs/{time.time_ns()}.scancel"), json.dumps(found))


def take_cancels() -> None:
    """Takes what was asked of scancel, all jobs of a call at once: or one that waits for another
    would begin between the two."""
    for it in jobs(".scancel"):
        for job in json.loads(text(f"{it}.scancel")):
            write(f"{job}.cancel", "1")
        os.remove(f"{it}.scancel")


def slurmctld() -> None:
    """Runs jobs, one of a name at a time."""
    running: dict[str, tuple[str, subprocess.Popen[bytes]]] = {}
    forgotten = []
    write(here("jobs.txt"), "")
    while True:
        time.sleep(TICK)
        take_cancels()
        if how := text(here("forget")):
            os.remove(here("forget"))
            for job, (name, it) in running.items():
                forgotten.append(it)
                forget(job, name, how)
            running.clear()
        for job, (name, it) in list(running.items()):
            if text(f"{job}.cancel"):
                with contextlib.suppress(ProcessLookupError):
                    os.killpg(it.pid, signal.SIGTERM)
            if it.poll() is not None:
                del running[job]
                record(job, name, it.returncode)
        ended, names = set(jobs(".end")), {name for name, _ in running.values()}
        for job in jobs(".job"):
            name, command, folder, _, given = json.loads(text(f"{job}.job"))
            if job in ended or job in running or name in names:
                continue
            if text(f"{job}.cancel"):
                record(job, name, 0)
                continue
            names.add(name)
            running[job] = name, subprocess.Popen(command, cwd=folder, env=given,
                                                  stdin=subprocess.DEVNULL, start_new_session=True,
                                                  stdout=subprocess.DEVNULL,
                                                  stderr=subprocess.DEVNULL)


def forget(job: str, name: str, how: str) -> None:
    """Forgets a job, or that it runs; its command runs on."""
    if how == "gone":
        write(f"{job}.end", "0")
    elif how != "again":
        record(job, name, 0, how)


def record(job: str, name: str, status: int, state: str = "") -> None:
    """The record of an ended job, as jobcomp/filetxt writes it, and then its end."""
    was_canceled = bool(text(f"{job}.cancel"))
    state = state or ("CANCELLED" if was_canceled else "COMPLETED" if not status else "FAILED")
    code = f"{max(status, 0)}:{max(-status, 0)}"
    wckey = json.loads(text(f"{job}.job"))[3]
    with open(here("jobs.txt"), "a", encoding="utf-8") as file:
        file.write(f"JobId={os.path.basename(job)} UserId=root(0) Name={name} JobState={state}"
                   f" Partition=all WcKey={wckey} DerivedExitCode=0:0 ExitCode={code} \n")
    write(f"{job}.end", str(status if status >= 0 else 1))


PROGRAMS = {"systemd-run": systemd_run, "systemctl": systemctl, "ssh": ssh, "sbatch": sbatch,
            "squeue": squeue, "scancel": scancel}
SERVERS = {"sshd": sshd, "slurmctld": slurmctld}

if __name__ == "__main__":
    if sys.argv[1] in SERVERS:
        SERVERS[sys.argv[1]]()
    else:
        PROGRAMS[sys.argv[1]](sys.argv[2:])
