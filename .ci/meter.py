"""What checks cost: each that runs below this script is looked at once a second, and what the proof
of a crate took when it was last done is kept.

A check is a process that names its crate. Its seconds are its own and those of all that it started;
its memory is that of its largest process. Up to a second of each processor isn't seen of a check.
Figures are kept in a file of the user's cache. Until a crate was proved on this machine, its figure
is that of figures.json beside this file, which has the same form.
"""
import json
import os
import threading
import time
from collections.abc import Callable, Iterator
from dataclasses import asdict, dataclass
from enum import Enum

FIRST = f"{os.path.dirname(os.path.realpath(__file__))}/figures.json"
GB = 1_000_000_000
PERIOD = 1
TICKS = os.sysconf("SC_CLK_TCK")
PAGE = os.sysconf("SC_PAGE_SIZE")


class Of(Enum):
    """What is checked of a crate."""

    PROOF = "proof"
    MUTANTS = "mutants"
    TESTS = "tests"
    TEXT = "text"  # of a crate below, which isn't proved


# ---- the checks that run


@dataclass(frozen=True)
class Process:
    pid: int
    start: str
    seconds: float
    memory: int


@dataclass(frozen=True)
class Check:
    crate: str
    of: Of
    seconds: float


Processes = dict[int, list[Process]]  # by the process that started them


class Meter(threading.Thread):
    """The checks that were seen below this script, from `start` to `stop`."""

    def __init__(self) -> None:
        super().__init__(daemon=True)
        self.checks: dict[tuple[int, str], Check] = {}  # by process
        self.most: dict[str, int] = {}
        self.seen: dict[str, tuple[float, float]] = {}  # when a crate's proof ran first and last
        self.first_seen: Callable[[str], None] = lambda crate: None  # called with a crate's name
        self.ended = threading.Event()

    def run(self) -> None:
        while not self.ended.wait(PERIOD):
            below = processes()
            for it, crate, of in checks(os.getpid(), below):
                self.checks[it.pid, it.start] = Check(crate, of, seconds(it, below))
                if of is Of.PROOF:
                    self.most[crate] = max(self.memory(crate), memory(it, below))
                    self.see(crate)

    def see(self, crate: str) -> None:
        now = time.monotonic()
        if crate not in self.seen:
            self.first_seen(crate)
        self.seen[crate] = self.seen.get(crate, (now, now))[0], now

    def stop(self) -> None:
        self.ended.set()
        self.join()

    def crates(self) -> list[str]:
        """Returns the crates of which something was checked, in the order of their first checks."""
        return list(dict.fromkeys(it.crate for it in self.checks.values()))

    def seconds(self, crate: str, of: Of) -> float:
        """Returns the processor seconds of a crate's checks."""
        return sum(it.seconds for it in [*self.checks.values()]
                   if it.crate == crate and it.of is of)

    def ran(self, crate: str) -> float:
        """Returns how long the proof of a crate ran, by the clock."""
        first, last = self.seen.get(crate, (0.0, 0.0))
        return last - first

    def memory(self, crate: str) -> int:
        """Returns the most bytes that a process of the crate's proof had."""
        return self.most.get(crate, 0)


def processes() -> Processes:
    """Returns the processes that there are, by the one that started them."""
    below: Processes = {}
    for pid in filter(str.isdigit, os.listdir("/proc")):
        try:
            with open(f"/proc/{pid}/stat", encoding="utf-8", errors="replace") as it:
                fields = it.read().rpartition(")")[2].split()
        except OSError:
            continue
        spent, pages = sum(map(int, fields[11:15])) / TICKS, int(fields[21])
        row = Process(int(pid), fields[19], spent, pages * PAGE)
        below.setdefault(int(fields[1]), []).append(row)
    return below


def checks(pid: int, below: Processes) -> Iterator[tuple[Process, str, Of]]:
    """Yields the checks below a process, with the crate of each and what is checked."""
    for child in below.get(pid, []):
        words, folder = command(child.pid)
        if "--crate-name" in words:
            of = (Of.TESTS if "--test" in words else Of.MUTANTS if "/rt-edit-" in folder
                  else Of.TEXT if "--lib" in words else Of.PROOF)
            yield child, words[words.index("--crate-name") + 1], of
        else:
            yield from checks(child.pid, below)


def command(pid: int) -> tuple[list[str], str]:
    try:
        with open(f"/proc/{pid}/cmdline", encoding="utf-8", errors="replace") as it:
            return it.read().split("\0"), os.readlink(f"/proc/{pid}/cwd")
    except OSError:
        return [], ""


def seconds(check: Process, below: Processes) -> float:
    """Returns the processor seconds of a process and of all below it."""
    return check.seconds + sum(seconds(child, below) for child in below.get(check.pid, []))


def memory(check: Process, below: Processes) -> int:
    """Returns the bytes of the largest of a process and of all below it."""
    return max([check.memory, *(memory(child, below) for child in below.get(check.pid, []))])


# ---- the figures that are kept


@dataclass(frozen=True)
class Figure:
    """What the proof of a crate took."""

    clock: float  # seconds by the clock
    spent: float  # processor seconds
    memory: int  # bytes, with one job

    def times(self, factor: float) -> "Figure":
        return Figure(factor * self.clock, factor * self.spent, round(factor * self.memory))


# Of a crate that no file knows.
UNKNOWN = Figure(120, 120, 3 * GB)


class Figures:
    """This machine's figures for builds of a kind, and those of figures.json `factor` times."""

    def __init__(self, way: str = "statements", factor: float = 1.0) -> None:
        cache = os.environ.get("XDG_CACHE_HOME") or os.path.expanduser("~/.cache")
        self.kept = f"{cache}/pokhnier/build-{way}.json"
        self.own, self.unknown = read(self.kept), UNKNOWN.times(factor)
        self.known = {it: row.times(factor) for it, row in read(FIRST).items()} | self.own

    def of(self, crate: str) -> Figure:
        return self.known.get(crate, self.unknown)

    def note(self, crate: str, figure: Figure) -> None:
        """Keeps a crate's new figure. If the cache can't be written, the figure is lost."""
        self.known[crate] = self.own[crate] = figure
        try:
            os.makedirs(os.path.dirname(self.kept), exist_ok=True)
            with open(f"{self.kept}.new", "w", encoding="utf-8") as file:
                json.dump({it: asdict(row) for it, row in self.own.items()}, file, indent=1)
            os.replace(f"{self.kept}.new", self.kept)
        except OSError:
            pass


def read(path: str) -> dict[str, Figure]:
    """Returns the figures of a file: none if it isn't there, or isn't as `note` writes it."""
    try:
        with open(path, encoding="utf-8") as file:
            return {name: Figure(float(row["clock"]), float(row["spent"]), int(row["memory"]))
                    for name, row in json.load(file).items()}
    except (OSError, ValueError, TypeError, AttributeError, LookupError):
        return {}
