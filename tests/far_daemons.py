"""The engines of docs/far.md as this machine has them, each with daemons of its own in a folder of
its own, which end with it:

    ssh          sshd, behind a line that can be cut as a power failure cuts it: the far side
                 doesn't learn that the near one has gone
    sbatch       munged, slurmctld and a slurmd for each of the nodes n1 and n2
    systemd-run  a user's manager

The daemons listen on 127.0.0.1 alone, at ports that were free.
"""

from __future__ import annotations

import contextlib
import os
import random
import shutil
import signal
import socket
import subprocess
import threading
import time
from collections.abc import Callable, Iterator

from driver_room import children, kill
from running import HERE

SCRIPTS = f"{HERE}/../drivers/far"
SSHD = """Port {port}
ListenAddress 127.0.0.1
HostKey {folder}/host
AuthorizedKeysFile {folder}/keys
PidFile none
StrictModes no
UsePAM no
PasswordAuthentication no
KbdInteractiveAuthentication no
PermitRootLogin prohibit-password
ClientAliveInterval {alive}
ClientAliveCountMax 2
MaxStartups 500
UseDNS no
"""
SSH = """Host *
    HostName 127.0.0.1
    HostKeyAlias far
    Port {port}
    IdentityFile {folder}/key
    IdentitiesOnly yes
    UserKnownHostsFile {folder}/known
"""
SLURM = """ClusterName=one
SlurmctldHost={host}(127.0.0.1)
SlurmctldPort={port}
CommunicationParameters=NoCtldInAddrAny,NoInAddrAny
AuthType=auth/munge
AuthInfo=socket={folder}/munge
CryptoType=crypto/munge
MpiDefault=none
ProctrackType=proctrack/linuxproc
TaskPlugin=task/none
ReturnToService=2
KillWait=5
SlurmdTimeout=15
SlurmdParameters=config_overrides
SlurmctldPidFile={folder}/ctld.pid
SlurmdPidFile={folder}/d-%n.pid
SlurmdSpoolDir={folder}/spool-%n
StateSaveLocation={folder}/state
SlurmUser=root
SwitchType=switch/none
SchedulerType=sched/backfill
SelectType=select/cons_tres
SelectTypeParameters=CR_Core
AccountingStorageType=accounting_storage/none
JobCompType=jobcomp/filetxt
JobCompLoc={folder}/jobs.txt
JobAcctGatherType=jobacct_gather/none
SlurmctldLogFile={folder}/ctld.log
SlurmdLogFile={folder}/d-%n.log
NodeName=n1 NodeHostname={host} NodeAddr=127.0.0.1 Port={one} CPUs=16 State=UNKNOWN
NodeName=n2 NodeHostname={host} NodeAddr=127.0.0.1 Port={two} CPUs=16 State=UNKNOWN
PartitionName=all Nodes=n1,n2 Default=YES MaxTime=INFINITE State=UP
"""


def free_ports(count: int) -> list[int]:
    doors = [socket.create_server(("127.0.0.1", 0)) for _ in range(count)]
    ports = [int(it.getsockname()[1]) for it in doors]
    for it in doors:
        it.close()
    return ports


def its_processes(word: str) -> Iterator[int]:
    """The processes whose words or environment have this word."""
    for it in filter(str.isdigit, os.listdir("/proc")):
        with contextlib.suppress(OSError):
            for name in ("cmdline", "environ"):
                with open(f"/proc/{it}/{name}", "rb") as file:
                    if int(it) != os.getpid() and word.encode() in file.read():
                        yield int(it)
                        break


def until(holds: Callable[[], object], seconds: float) -> bool:
    end = time.monotonic() + seconds
    while not (found := holds()) and time.monotonic() < end:
        time.sleep(0.05)
    return bool(found)


class Engine:
    """An engine's daemons. `given` is the environment of its clients, `programs` what stands before
    these in the PATH."""

    needs: tuple[str, ...] = ()
    about: tuple[str, ...] = ()  # prints its version

    def __init__(self, folder: str) -> None:
        self.folder = folder
        self.words: dict[str, list[str]] = {}
        self.its: dict[str, subprocess.Popen[bytes]] = {}
        self.given: dict[str, str] = {}
        self.programs: dict[str, str] = {}
        self.jobs = ""
        os.chmod(folder, 0o755)

    def write(self, name: str, text: str) -> str:
        path = f"{self.folder}/{name}"
        with open(path, "w", encoding="utf-8") as file:
            file.write(text)
        return path

    @classmethod
    def lacks(cls) -> str:
        """Why it can't be tried here."""
        missing = [it for it in cls.needs if not shutil.which(it, path=PATH)]
        if missing:
            return f"{', '.join(missing)}: not installed"
        return "" if os.geteuid() == 0 else "this wants root"

    def version(self) -> str:
        found = subprocess.run(self.about, capture_output=True, text=True, env=self.environment())
        return (found.stdout + found.stderr).splitlines()[0]

    def environment(self) -> dict[str, str]:
        return {**os.environ, **self.given, "PATH": PATH}

    def begin(self, name: str, *words: str) -> None:
        """Begins a daemon, or begins it again."""
        self.words[name] = list(words) or self.words[name]
        with open(f"{self.folder}/{name}.out", "ab") as output:
            self.its[name] = subprocess.Popen(
                self.words[name], stdin=subprocess.DEVNULL, stdout=output, stderr=output,
                env=self.environment(), cwd=self.folder, start_new_session=True)

    def end(self, name: str, which: signal.Signals = signal.SIGKILL) -> None:
        kill([self.its[name].pid], which=which)
        try:
            self.its[name].wait(10)
        except subprocess.TimeoutExpired:
            self.its[name].kill()
            self.its[name].wait()

    def start(self) -> None:
        """Begins its daemons, and waits until they answer."""

    def is_down(self, is_so: bool) -> None:
        """Whether it can't be heard."""

    def cut(self, is_so: bool) -> None:
        """Whether the power of this machine's clients is failing."""

    def tend(self) -> None:
        """What its administrator does now and then."""

    def hits(self) -> list[str]:
        """What of it may be killed."""
        return []

    def hit(self, what: str, chance: random.Random) -> None:
        """Kills a part of it, and begins that again."""

    def close(self) -> None:
        for name in reversed(list(self.its)):
            self.end(name, signal.SIGTERM)
        for _ in range(20):
            kill(its_processes(self.folder))
            time.sleep(0.05)
            if not any(its_processes(self.folder)):
                break


class Line(threading.Thread):
    """A line to a port. While it is cut, the far side doesn't learn that the near one has gone."""

    def __init__(self, port: int) -> None:
        super().__init__(daemon=True)
        self.far, self.is_cut = port, False
        self.door = socket.create_server(("127.0.0.1", 0), backlog=200)
        self.port = int(self.door.getsockname()[1])

    def run(self) -> None:
        while True:
            near, _ = self.door.accept()
            try:
                far = socket.create_connection(("127.0.0.1", self.far))
            except OSError:
                near.close()
                continue
            for it in ((near, far, True), (far, near, False)):
                threading.Thread(target=self.carry, args=it, daemon=True).start()

    def carry(self, one: socket.socket, other: socket.socket, is_near: bool) -> None:
        part = b"-"
        while part:
            part = b""
            with contextlib.suppress(OSError):
                part = one.recv(65536)
            with contextlib.suppress(OSError):
                other.sendall(part)
        if is_near and self.is_cut:
            return
        for it in (one, other):
            with contextlib.suppress(OSError):
                it.shutdown(socket.SHUT_RDWR)


class Sshd(Engine):
    needs = ("sshd", "ssh", "ssh-keygen")
    about = ("ssh", "-V")
    is_guarded = True
    has_made = False  # a folder that sshd wants

    def start(self) -> None:
        port, = free_ports(1)
        for name in ("host", "key"):
            subprocess.run(["ssh-keygen", "-q", "-t", "ed25519", "-N", "",
                            "-f", f"{self.folder}/{name}"], check=True)
        shutil.copy(f"{SCRIPTS}/guard", self.folder)
        with open(f"{SCRIPTS}/guard", encoding="utf-8") as file:
            command = file.read().partition('command="')[2].partition('"')[0]
        command = command.replace("/usr/local/bin", self.folder)
        if not self.is_guarded:
            self.write("guard", '#!/bin/sh\nexec sh -c "${SSH_ORIGINAL_COMMAND#* }"\n')
        os.chmod(f"{self.folder}/guard", 0o755)
        with open(f"{self.folder}/key.pub", encoding="utf-8") as file:
            self.write("keys", f'command="export HOME={self.folder}; {command}" {file.read()}')
        with open(f"{self.folder}/host.pub", encoding="utf-8") as file:
            self.write("known", f"far {file.read()}")
        self.has_made = not os.path.isdir("/run/sshd")
        os.makedirs("/run/sshd", 0o755, exist_ok=True)
        config = self.write("sshd", SSHD.format(port=port, folder=self.folder, alive=1))
        self.begin("sshd", shutil.which("sshd", path=PATH) or "", "-D", "-e", "-f", config)
        self.line = Line(port)
        self.line.start()
        ours = self.write("ssh", SSH.format(port=self.line.port, folder=self.folder))
        self.programs = {"ssh": f'#!/bin/sh\nexec {shutil.which("ssh")} -F {ours} "$@"\n'}
        assert until(lambda: not subprocess.run(
            ["ssh", "-F", ours, "-o", "BatchMode=yes", "HOST", "up", "true"],
            capture_output=True).returncode, 20), "sshd doesn't answer"

    def cut(self, is_so: bool) -> None:
        if not is_so:
            time.sleep(0.3)  # (until the line has seen who is gone)
        self.line.is_cut = is_so

    def hits(self) -> list[str]:
        return ["sshd's child"]

    def hit(self, what: str, chance: random.Random) -> None:
        if its := sorted(children(self.its["sshd"].pid)):
            kill([chance.choice(its)])

    def close(self) -> None:
        its = list(children(self.its["sshd"].pid)) if "sshd" in self.its else []
        super().close()
        kill(its)
        if self.has_made:
            with contextlib.suppress(OSError):
                os.rmdir("/run/sshd")


class Slurm(Engine):
    needs = ("slurmctld", "slurmd", "munged", "sbatch", "squeue", "scancel", "sinfo")
    about = ("slurmctld", "-V")

    def start(self) -> None:
        for it in ("state", "spool-n1", "spool-n2"):
            os.mkdir(f"{self.folder}/{it}")
        with open(os.open(f"{self.folder}/key", os.O_WRONLY | os.O_CREAT, 0o400), "wb") as file:
            file.write(os.urandom(1024))
        port, one, two = free_ports(3)
        self.given["SLURM_CONF"] = self.write("slurm.conf", SLURM.format(
            folder=self.folder, host=socket.gethostname().partition(".")[0], port=port, one=one,
            two=two))
        self.jobs = f"{self.folder}/jobs.txt"
        self.begin("munged", "munged", "--foreground", f"--socket={self.folder}/munge",
                   f"--key-file={self.folder}/key", f"--pid-file={self.folder}/munge.pid",
                   f"--log-file={self.folder}/munge.log", f"--seed-file={self.folder}/seed")
        assert until(lambda: os.path.exists(f"{self.folder}/munge"), 20), "munged doesn't answer"
        self.begin("slurmctld", "slurmctld", "-D")
        for it in ("n1", "n2"):
            self.begin(it, "slurmd", "-D", "-N", it)
        assert until(self.is_up, 60), "Slurm's nodes aren't idle"

    def is_up(self) -> bool:
        found = subprocess.run(["sinfo", "-h", "-N", "-o", "%t"], capture_output=True, text=True,
                              env=self.environment())
        return found.stdout.split() == ["idle", "idle"]

    def is_down(self, is_so: bool) -> None:
        if is_so:
            time.sleep(6)  # (or it forgets what it wasn't asked to keep)
            self.end("slurmctld")
        else:
            self.begin("slurmctld")

    def tend(self) -> None:
        # (a node that couldn't begin or end a job is drained)
        found = subprocess.run(["sinfo", "-h", "-N", "-o", "%T"], capture_output=True, text=True,
                              env=self.environment())
        if "drain" in found.stdout:
            subprocess.run(["scontrol", "update", "NodeName=n1,n2", "State=RESUME"],
                           capture_output=True, env=self.environment())

    def hits(self) -> list[str]:
        return ["slurmctld", "n1", "n2", "alone"]

    def hit(self, what: str, chance: random.Random) -> None:
        if what == "alone":
            kill(chance.sample(scripts := self.scripts(), min(1, len(scripts))))
            return
        self.end(what)
        time.sleep(chance.choice((0, chance.uniform(0, 3))))
        self.begin(what)

    def scripts(self) -> list[int]:
        """The scripts of jobs that run."""
        found = []
        for it in its_processes(self.folder):
            with contextlib.suppress(OSError), open(f"/proc/{it}/cmdline", "rb") as file:
                if b"/slurm_script\0" in file.read():
                    found.append(it)
        return found

    def close(self) -> None:
        # (what runs is ended before, or a node waits for it)
        with contextlib.suppress(subprocess.TimeoutExpired):
            subprocess.run(["scancel", "-u", "root"], capture_output=True, timeout=10,
                           env=self.environment())
        super().close()


class Systemd(Engine):
    """A manager of its own, in a group of processes of its own: where it began in the machine's
    root one, it would take all of them."""

    needs = ("systemd-run", "systemctl", "unshare")
    about = ("systemctl", "--version")
    groups: tuple[str, ...] = ()
    # (it begins only where the system seems to be booted by systemd)
    manager = """for it; do echo $$ > "$it/cgroup.procs" || exit; done
mount -t tmpfs none /run/systemd && mkdir /run/systemd/system || exit
exec /lib/systemd/systemd --user --log-target=console
"""

    def start(self) -> None:
        with open("/proc/mounts", encoding="utf-8") as file:
            mounts = [it.split() for it in file]
        self.groups = tuple(f"{it[1]}/{os.path.basename(self.folder)}" for it in mounts
                            if it[2] == "cgroup2" or "name=systemd" in it[3])
        self.given["XDG_RUNTIME_DIR"] = f"{self.folder}/run"
        os.mkdir(f"{self.folder}/run", 0o700)
        for it in self.groups:
            os.mkdir(it)
        self.begin("manager", "unshare", "-m", "sh", "-c", self.manager, "sh", *self.groups)
        assert until(self.is_up, 20), "systemd doesn't answer"

    def is_up(self) -> bool:
        found = subprocess.run(["systemctl", "--user", "is-active", "default.target"],
                              capture_output=True, text=True, env=self.environment())
        return found.stdout == "active\n"

    def close(self) -> None:
        super().close()
        for top in self.groups:
            for it, _, _ in os.walk(top, topdown=False):
                with contextlib.suppress(OSError):
                    os.rmdir(it)


PATH = f"{os.environ['PATH']}:/usr/sbin:/sbin"
ENGINES: dict[str, type[Engine]] = {"systemd-run": Systemd, "ssh": Sshd, "sbatch": Slurm}
