"""Builds of the program and the crates below it: by `rattle` itself, or by commands of `rt`."""
from __future__ import annotations

import contextlib
import errno
import fcntl
import hashlib
import os
import shutil
import signal
import sys
import time
from collections.abc import Iterable, Iterator
from typing import TextIO

import kit as needs
import machine
from crates import PARTS, Crate, crates_of, sum_of, sum_of_text
from kit import Kit
from lanes import Lanes, Step
from meter import GB, Figure, Figures, Meter, Of
from progress import Progress, minutes
from schedule import length

PROGRAM = "night"
MADE = f"crates/{PROGRAM}/out/{PROGRAM}"
STAMP = "build.stamp"  # in a crate's out/, where it is built
# How many of a failed proof's last lines are shown, and how those begin that only count modules.
SHOWN, COUNTS = 12, ("logic ", "statements ", "library ", "crate ")
FULL = "remove what isn't needed there, such as crates/*/out of another checkout"
# A crate of so many seconds for each one below it gets a second processor: each copy of the prover
# reads those anew, and night_program, over 22, took 275 processor seconds with two, 155 with one.
# The number is a guess that wants a measured run.
SECONDS_BELOW = 14
CHANGED = "NOT BUILT: a file of it or of a crate below was changed meanwhile; run this again"


class Missing(Exception):
    """What the caller has to see to before a build can begin."""


class Build:
    """The crates of the program, of which some are built, and the work on the others."""

    way = ""  # its stamps and figures are its own
    disk = 0  # bytes that a crate keeps
    factor = 1.0  # its first figures are those of figures.json so many times

    def __init__(self, kit: Kit, top: str, lanes: int) -> None:
        self.kit, self.top, self.lanes = kit, top, lanes
        found = [it for it in crates_of(top) if it.name == PROGRAM]
        if not found:
            raise Missing(f"crates.txt has no crate {PROGRAM}")
        self.program = found[0]
        self.crates = [*self.program.below(), self.program]
        self.figures = Figures(self.way, self.factor)
        self.took, self.foreseen = 0.0, 0.0  # seconds of the crates that ended, and by the figures

    def begin(self) -> None:
        """Keeps other builds out of this checkout, and finds which crates are left to prove."""
        self.held = [held(self.top, "another ./build")]
        sums: dict[str, str] = {}
        self.left = [it for it in self.crates if not self.is_built(it, sums)]
        self.waits = {it.name: frozenset(low.name for low in it.deps) for it in self.left}
        self.progress = Progress(len(self.left), self.seconds_left)
        self.meter = Meter()

    def stamp(self, crate: Crate, sums: dict[str, str] | None = None) -> list[str]:
        """Returns sums of the texts that a build of the crate goes by, of the libraries, since
        statements fit only those that they were proved over, and of what it left: a power failure
        may leave empty files."""
        text = sum_of_object([self.way, self.kit.name, sum_of_text(crate, sums)])
        over = sum_of_object([sum_of(f"{it.rlib}/format") for it in crate.below()])
        made = sum_of(f"{self.top}/{MADE}") if crate is self.program else lengths(crate)
        return [text, over, sum_of_object(made)]

    def kept(self, crate: Crate) -> list[str]:
        """Returns the sums of its last build, if there was one."""
        try:
            with open(f"{crate.folder}/out/{STAMP}", encoding="utf-8") as file:
                return file.read().splitlines()
        except FileNotFoundError:
            return []

    def is_built(self, crate: Crate, sums: dict[str, str] | None = None) -> bool:
        return self.kept(crate) == self.stamp(crate, sums)

    def note(self, crate: Crate) -> None:
        """Keeps that a crate is built."""
        with open(f"{crate.folder}/out/{STAMP}", "w", encoding="utf-8") as file:
            file.write("".join(f"{it}\n" for it in self.stamp(crate)))

    def forget(self, crate: Crate) -> None:
        """Removes what a build of a crate left, whichever text that was of."""
        for it in (STAMP, crate.name):
            with contextlib.suppress(FileNotFoundError):
                os.remove(f"{crate.folder}/out/{it}")
        shutil.rmtree(f"{crate.folder}/out/rlib", ignore_errors=True)

    def seconds_left(self, ran: dict[str, float]) -> float:
        """Returns how long the rest takes by the last figures, and by how much longer those that
        ended took, some of it having run so long."""
        left = {it: low for it, low in self.waits.items() if it not in self.progress.ended}
        pace = self.took / self.foreseen if self.foreseen else 1.0
        took = {it: max(pace * self.figures.of(it).clock - ran.get(it, 0.0), 1.0) for it in left}
        return float(length(left, took, self.lanes))

    def look(self) -> None:
        """Says at once what is missing, before any proof."""
        most, free = max(self.figures.of(it.name).memory for it in self.left), machine.memory()
        if free < most:
            raise Missing(f"a proof takes {most / GB:.1f} GB of memory, and {free / GB:.1f} are"
                          " free: end other programs")
        wanted, room = self.disk * len(self.left) >> 20, machine.disk(self.top) >> 20
        if room < wanted:
            raise Missing(f"{self.top} takes up to {wanted} MB more, and its disk has {room} left:"
                          f" {FULL}")
        if path := next(links(self.left), None):
            raise Missing(f"{path} is a link: put the file or folder itself there")

    def run(self) -> bool:
        """Proves and builds what is left, and returns whether all of it went well."""
        whole, s = minutes(self.seconds_left({})), "" if self.lanes == 1 else "s"
        self.progress.say(f"{len(self.left)} of {len(self.crates)} crates to prove, on"
                          f" {self.lanes} processor{s}; about {whole} by the last figures")
        self.meter.start()
        self.progress.start()
        well = self.work()
        self.progress.stop()
        self.meter.stop()
        for it in (it for it in self.waits if it not in well):
            print(f"{it}: not tried, since a crate below it isn't proved")
        return all(well.get(it, False) for it in self.waits)

    def work(self) -> dict[str, bool]:
        """Returns of each crate that was tried whether it is built."""
        raise NotImplementedError

    def end(self, crate: Crate, took: float, is_new: bool) -> None:
        """Says that a crate is proved, and keeps its figures if that was from nothing."""
        spent = self.meter.seconds(crate.name, Of.PROOF)
        self.progress.end(crate.name, f"proved in {took:.0f} s ({spent:.0f} processor seconds)")
        if is_new and spent:
            self.took += took
            self.foreseen += self.figures.of(crate.name).clock
            memory = self.meter.memory(crate.name)
            self.figures.note(crate.name, Figure(round(took), round(spent), memory))

    def read_by(self, crate: Crate) -> list[tuple[str, int, int]]:
        """Returns the identity and the time of each file that a proof reads. They show that a file
        was changed, even if it was changed back: the prover may have read it in between."""
        files = [file for it in [*crate.below(), crate] for file in it.files()]
        return [(it, found.st_ino, found.st_mtime_ns)
                for it, found in zip(files, map(os.lstat, files))]

    def why(self, log: str, status: int | None) -> str:
        """Returns the last lines of a failed proof, and what is likely to have ended it."""
        with open(log, encoding="utf-8", errors="replace") as file:
            printed = file.read().splitlines()
        last = [it for it in printed if not it.startswith(COUNTS)][-SHOWN:]
        shown = "".join(f"\n    {it}" for it in last)
        if status == -signal.SIGKILL:
            return ": it was killed, most likely for memory; end other programs, and run this again"
        if "No space left on device" in "\n".join(printed):
            return f": the disk is full; {FULL}, and run this again{shown}"
        ended = "" if status is None else f"status {status}; "
        return f" ({ended}{os.path.relpath(log, self.top)} has all of it):{shown}"


class ByRattle(Build):
    """By `rattle` itself, over libraries of statements: in lanes, the longest chain first."""

    way, disk = "statements", 80_000_000

    def begin(self) -> None:
        super().begin()
        # (as `rt` keeps a second of its commands out of a crate; where a kit does that by other
        # means, none waits for the other)
        self.held += [held(it.folder, "another rt") for it in self.crates]

    def work(self) -> dict[str, bool]:
        steps = {it.name: self.step(it) for it in self.left}
        return Lanes(steps, self.lanes, 0.85 * machine.memory()).run()

    def step(self, crate: Crate) -> Step:
        figure = self.figures.of(crate.name)
        most = 2 if figure.clock >= SECONDS_BELOW * len(crate.below()) else 1
        return Step(self.waits[crate.name], figure.clock, figure.memory, most,
                    lambda jobs: self.prove(crate, jobs))

    def prove(self, crate: Crate, jobs: int) -> bool:
        """Proves and builds one crate, and prints how that ended."""
        log, began = f"{crate.folder}/out/build.log", time.monotonic()
        self.progress.begin(crate.name)
        try:
            if self.is_built(crate):  # (what was left to do was below it)
                self.progress.end(crate.name, "is built")
                return True
            read = self.read_by(crate)
            os.makedirs(f"{crate.folder}/out", exist_ok=True)
            with open(log, "w", encoding="utf-8") as out:
                status = self.build(crate, jobs, out)
                if status == -signal.SIGKILL and jobs > 1:  # (most likely for memory)
                    status = self.build(crate, 1, out)
            if not status:
                if read != self.read_by(crate):
                    self.forget(crate)
                    self.progress.end(crate.name, CHANGED)
                    return False
                self.note(crate)
        except OSError as error:  # (of a disk, or of a prover that can't be run)
            at = error.filename or log
            more = f"; {FULL}" if error.errno == errno.ENOSPC else ""
            self.progress.end(crate.name, f"NOT BUILT: {at}: {error.strerror}{more}")
            return False
        if status:
            self.progress.end(crate.name, f"NOT BUILT{self.why(log, status)}")
        else:
            self.end(crate, time.monotonic() - began, True)
        return not status

    def build(self, crate: Crate, jobs: int, out: TextIO) -> int:
        build = needs.program if crate is self.program else needs.statements
        return build(self.kit, crate, jobs, out)


class ByRt(Build):
    """By `rt all check`, which keeps what `rt check` and `rt run` go on from, and `rt run`."""

    way, disk, factor = "proofs", 250_000_000, 2.0

    def work(self) -> dict[str, bool]:
        self.well: dict[str, bool] = {}
        self.read = {it.name: self.read_by(it) for it in self.left}
        for it in self.left:
            kept, now = self.kept(it), self.stamp(it)
            if kept[:1] == now[:1] and kept[2:] != now[2:]:
                self.forget(it)  # (`rt` looks into no library that it made)
        self.meter.first_seen = self.progress.begin
        try:
            self.check_all()
            if PROGRAM in self.read and all(self.well.get(it, False) for it in self.read):
                self.well[PROGRAM] = self.run_program()
        except OSError as error:
            raise Missing(f"{error.filename or self.kit.rt}: {error.strerror}") from error
        return self.well

    def check_all(self) -> None:
        """Has `rt` check all crates, and prints how each ended: at its verdict, or at the summary,
        since a library that was checked in another checkout gets no verdict here."""
        crates, undecided, loose = {it.name: it for it in self.left}, dict[str, str](), ""
        with needs.check_all(self.kit, self.program, self.lanes_by_memory()) as ran:
            assert ran.stdout
            for name, printed in sections(ran.stdout):
                if name == "summary":
                    self.read_summary(printed, crates, undecided)
                if name not in crates:
                    loose += printed
                elif name not in self.well and "\nlogic=" in f"\n{printed}":
                    self.end_section(crates[name], printed)
                elif name not in self.well:
                    undecided[name] = printed
        if ran.returncode and False not in self.well.values():
            self.end_badly(self.program, "".join([loose, *undecided.values()]))

    def lanes_by_memory(self) -> int:
        """Returns how many crates fit side by side: `rt all check` doesn't look at memory."""
        most = max(self.figures.of(it.name).memory for it in self.left)
        return max(1, min(self.lanes, int(0.85 * machine.memory() / most)))

    def end_section(self, crate: Crate, printed: str) -> None:
        """Reads the lines that `rt` printed about a crate."""
        if "\nlogic=proved" not in f"\n{printed}":
            return self.end_badly(crate, printed)
        if self.read[crate.name] != self.read_by(crate):
            self.forget(crate)
            self.well[crate.name] = False
            return self.progress.end(crate.name, CHANGED)
        self.well[crate.name] = True
        if crate is not self.program:  # (which is yet to be compiled)
            self.note(crate)
            self.end(crate, self.meter.ran(crate.name), True)

    def end_badly(self, crate: Crate, printed: str) -> None:
        log = f"{crate.folder}/out/build.log"
        os.makedirs(os.path.dirname(log), exist_ok=True)
        with open(log, "w", encoding="utf-8") as file:
            file.write(printed)
        self.well[crate.name] = False
        self.progress.end(crate.name, f"NOT BUILT{self.why(log, None)}")

    def read_summary(self, printed: str, crates: dict[str, Crate],
                     undecided: dict[str, str]) -> None:
        """Reads how those crates ended that got no verdict. `rt` may print nothing about them."""
        for line in printed.splitlines():
            name, _, how = line.partition(": ")
            if name in crates and name not in self.well and how == "ok":
                self.end_section(crates[name], "logic=proved")
            elif name in crates and name not in self.well and how.startswith("failed"):
                self.end_badly(crates[name], undecided.get(name, ""))

    def run_program(self) -> bool:
        log = f"{self.program.folder}/out/build.log"
        self.progress.begin(PROGRAM)
        with open(log, "w", encoding="utf-8") as out:
            status = needs.run_program(self.kit, self.program, self.lanes, out)
        if status:
            self.progress.end(PROGRAM, f"NOT BUILT{self.why(log, status)}")
            return False
        if self.read[PROGRAM] != self.read_by(self.program):
            self.forget(self.program)
            self.progress.end(PROGRAM, CHANGED)
            return False
        self.note(self.program)
        self.end(self.program, self.meter.ran(PROGRAM), True)
        return True


def sections(lines: Iterable[str]) -> Iterator[tuple[str, str]]:
    """Yields the name of each crate with the lines that `rt all` prints about it, as soon as they
    are complete, or contain that the crate is proved. The lines before the first crate have no
    name, and those after the last verdict come last."""
    name, printed = "", ""
    for line in lines:
        if line.startswith("== "):
            yield name, printed
            name, printed = line[3:].strip(), ""
        else:
            printed += line
            if line.startswith("logic=proved"):
                yield name, printed
    yield name, printed


def held(folder: str, by: str) -> int:
    """Waits until nobody else holds a folder, and holds it until the script ends."""
    found = os.open(folder, os.O_RDONLY)
    try:
        fcntl.flock(found, fcntl.LOCK_EX | fcntl.LOCK_NB)
    except BlockingIOError:
        print(f"build: waiting for {by} to finish in {folder}", file=sys.stderr, flush=True)
        fcntl.flock(found, fcntl.LOCK_EX)
    except OSError:  # (of a file system without locks)
        pass
    return found


def sum_of_object(it: object) -> str:
    return hashlib.sha256(repr(it).encode()).hexdigest()


def lengths(crate: Crate) -> list[tuple[str, int]]:
    """Returns the files of a library with their lengths."""
    top = os.path.dirname(crate.rlib)
    files = [f"{at}/{it}" for at, _, names in os.walk(top) for it in names]
    return sorted((os.path.relpath(it, top), os.path.getsize(it)) for it in files)


def links(crates: list[Crate]) -> Iterator[str]:
    """Yields the links among the crates' files, and where the prover writes and removes them."""
    for folder in (f"{it.folder}/{part}" for it in crates for part in ("out", *PARTS)):
        if os.path.islink(folder):
            yield folder
        for at, folders, names in os.walk(folder):
            yield from (f"{at}/{it}" for it in [*folders, *names] if os.path.islink(f"{at}/{it}"))
