"""Processes as the system shows them in /proc, each by its number, start and boot, which no two
share."""

from __future__ import annotations

import contextlib
import functools
import os
import resource
import signal
from collections.abc import Iterable, Iterator
from dataclasses import dataclass


# A process, and its start, in a line of a file: no number has more digits.
PID, START = "([1-9][0-9]{0,6})", "([0-9]{1,20})"
# These are no command: a signal to their groups goes to the driver's own, and to all there are.
NO_COMMAND = 1
# So often the members of a session are looked for at most.
MOST_LOOKS = 8


@dataclass(frozen=True)
class Process:
    boot: str
    pid: int
    start: int  # in the system's own ticks since the boot


@dataclass(frozen=True)
class Stat:
    pid: int
    phase: str
    group: int
    session: int
    start: int

    @property
    def is_dead(self) -> bool:
        return self.phase in "ZX"


@functools.cache
def boot() -> str:
    """This boot of the machine."""
    with contextlib.suppress(OSError), open("/proc/sys/kernel/random/boot_id",
                                            encoding="ascii") as file:
        return file.read().strip()
    return "-"


def stat_of(pid: int, thread: str = "") -> Stat | None:
    """What /proc shows of a process, or of one of its threads; None if there is none."""
    path = f"/proc/{pid}/task/{thread}/stat" if thread else f"/proc/{pid}/stat"
    try:
        with open(path, "rb") as file:
            # (the name in parentheses may have any byte)
            it = file.read().rpartition(b")")[2].split()
        return Stat(pid, it[0].decode("ascii"), int(it[2]), int(it[3]), int(it[19]))
    except (OSError, IndexError, ValueError):
        return None


def this_process() -> Process:
    return process_of(os.getpid())


def process_of(pid: int) -> Process:
    """The process that has this number now."""
    found = stat_of(pid)
    return Process(boot(), pid, found.start if found else 0)


def lives(it: Process) -> bool:
    """Whether this very process still runs."""
    if it.boot != boot():
        return False
    found = stat_of(it.pid)
    return found is not None and found.start == it.start and (
        not found.is_dead or is_held(it.pid))


def is_held(pid: int) -> bool:
    """Whether a thread of a process waits for a disk, as in a sync. Until that ends, no signal ends
    the process, which looks dead meanwhile if its first thread is."""
    with contextlib.suppress(OSError):
        threads = (stat_of(pid, it) for it in os.listdir(f"/proc/{pid}/task"))
        return any(it is not None and it.phase == "D" for it in threads)
    return False


def most_memory() -> int:
    """The most memory that this program had, in KB. (Where the system doesn't say that, it counts
    what this process had before it became this program, too.)"""
    with contextlib.suppress(OSError, ValueError, IndexError):
        with open("/proc/self/status", encoding="ascii", errors="replace") as file:
            found = [line.split()[1] for line in file if line.startswith("VmHWM:")]
        return int(found[0])
    return resource.getrusage(resource.RUSAGE_SELF).ru_maxrss


def age(it: Process) -> float:
    """How many seconds ago a process of this boot began; 0 if the system doesn't say."""
    try:
        with open("/proc/uptime", encoding="ascii") as file:
            up = float(file.read().split()[0])
    except (OSError, ValueError, IndexError):
        return 0.0
    return max(0.0, up - it.start / os.sysconf("SC_CLK_TCK"))


# A command leads a session, which nobody else can enter. It may make process groups of its own
# there, as `timeout` does, and what is done to it is done to all of them.

def session_exists(pid: int) -> bool:
    """Whether a session has a member. A dead one of the leader's process group that nobody has
    waited for counts, too."""
    return group_exists(pid) or pid > NO_COMMAND and has_proc() and bool(groups_in(pid))


def group_exists(pid: int) -> bool:
    """Whether a process group has a member. A dead one that nobody has waited for counts, too."""
    if pid <= NO_COMMAND:
        return False
    try:
        os.killpg(pid, 0)
    except ProcessLookupError:
        return False
    except PermissionError:
        return True
    return True


def session_lives(pid: int) -> bool:
    """Whether a session has a member that is not dead."""
    return session_exists(pid) and bool(groups_in(pid))


def has_proc() -> bool:
    return os.path.isdir("/proc/self")


def members(session: int) -> Iterator[Stat]:
    """The processes of a session."""
    for it in filter(str.isdecimal, os.listdir("/proc") if has_proc() else ()):
        found = stat_of(int(it)) if may_be_in(session, int(it)) else None
        if found and found.session == session:
            yield found


def may_be_in(session: int, pid: int) -> bool:
    """Whether a process may be one of a session. The system says so in a twentieth of the time in
    which its file in /proc is read, and the processes are all that the machine has."""
    try:
        return os.getsid(pid) == session
    except ProcessLookupError:
        return False
    except OSError:
        return True  # (a security module keeps it secret)


def living(session: int) -> list[Stat]:
    """The members of a session that aren't dead. One that begins while /proc is read, and whose
    parent ends then, isn't in what is read; so it is read again until it has no new one."""
    found: dict[int, Stat] = {}
    for look in range(MOST_LOOKS):
        more = {it.pid: it for it in members(session) if not it.is_dead and it.pid not in found}
        found.update(more)
        if look and not more:
            break
    return list(found.values())


def groups_in(session: int) -> set[int]:
    """The process groups of a session that have a living member; without /proc its leader's, which
    may have none."""
    if not has_proc():
        return {session}
    return {it.group for it in living(session)}


def signal_session(pid: int, which: signal.Signals) -> None:
    """Signals each process group of the session that this process leads."""
    signal_groups({pid, *groups_in(pid)} if pid > NO_COMMAND else (), which)


def signal_groups(groups: Iterable[int], which: signal.Signals) -> None:
    for it in groups:
        if it > NO_COMMAND:
            with contextlib.suppress(ProcessLookupError, PermissionError):
                os.killpg(it, which)


# --- whose a process is

@dataclass(frozen=True)
class Tried:
    """A try, as its processes name it in their environment."""

    store: str
    group: str  # of the file of commands
    key: str
    number: int

    def environment(self) -> dict[str, str]:
        return {"NIGHT_STORE": self.store, "NIGHT_GROUP": self.group, "NIGHT_KEY": self.key,
                "NIGHT_TRY": str(self.number)}


def is_of(pid: int, tried: Tried) -> bool:
    """Whether a process was begun for this try: its environment says so. If the environment can't
    be read, or was emptied, that isn't known."""
    try:
        with open(f"/proc/{pid}/environ", "rb") as file:
            had = set(file.read().split(b"\0"))
    except OSError:
        return False
    return {os.fsencode(f"{name}={value}")
            for name, value in tried.environment().items()} <= had


def ours_in(session: int, tried: Tried) -> int | None:
    """A living process of a session that is known to be of this try. Then the whole session is of
    the try: it was begun for it, and nobody else can enter it."""
    return next((it.pid for it in living(session) if is_of(it.pid, tried)), None)


@contextlib.contextmanager
def pinned(pid: int) -> Iterator[int]:
    """A descriptor of a process: nobody else gets its number while it is looked at."""
    file = os.pidfd_open(pid)
    try:
        yield file
    finally:
        os.close(file)


def signal_ours(session: int, tried: Tried, which: signal.Signals) -> bool:
    """Signals the session of a try, whoever began it, and returns whether one of its processes is
    known to be of the try. No other session is signaled, whatever a list says."""
    pid = ours_in(session, tried)
    if pid is None:
        return False
    with contextlib.suppress(OSError), pinned(pid):
        found = stat_of(pid)
        if found and found.session == session and is_of(pid, tried):
            signal_session(session, which)
            return True
    return False


def kill_ours(it: Process, tried: Tried) -> bool:
    """Kills a process that somebody else began, if it is known to be this one, and returns whether
    it is."""
    with contextlib.suppress(OSError), pinned(it.pid) as file:
        if lives(it) and is_of(it.pid, tried):
            signal.pidfd_send_signal(file, signal.SIGKILL)
            return True
    return False
