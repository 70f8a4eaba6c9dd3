"""What the measurements share: the processor's time of a process; rounds in which each row runs
once, in turn, so that a busy machine hits all of them; the programs of benches; and syncs that take
longer."""

import argparse
import contextlib
import os
import statistics
import subprocess
import sys
import tempfile
import time

HERE = os.path.dirname(os.path.realpath(__file__))


class Used:
    """The milliseconds of a process: of the processor, and by the clock."""

    def __init__(self, words, source=os.devnull, sink=os.devnull, env=None):
        began = time.monotonic()
        child = os.posix_spawn(words[0], words, env or os.environ, file_actions=[
            (os.POSIX_SPAWN_OPEN, 0, source, os.O_RDONLY, 0),
            (os.POSIX_SPAWN_OPEN, 1, sink, os.O_WRONLY | os.O_CREAT | os.O_TRUNC, 0o666)])
        _, status, used = os.wait4(child, 0)
        self.clock = 1000 * (time.monotonic() - began)
        self.processor = 1000 * (used.ru_utime + used.ru_stime)
        if status:
            sys.exit(f"{' '.join(words)}: status {os.waitstatus_to_exitcode(status)}")


def in_turn(rows, count):
    """Runs each row, a function, once in each round, and prints the load. Gives what each gave."""
    found, load = {what: [] for what in rows}, os.getloadavg()[0]
    for _ in range(count):
        for what, row in rows.items():
            found[what].append(row())
    print(f"load {load:.1f} before, {os.getloadavg()[0]:.1f} after; {count} rounds")
    return found


def rounds(rows, count):
    """Runs each row, a function that gives a Used, once in each round; prints the load, and for
    each row the least and the middle one of its times. Gives the least of each by the processor."""
    found = in_turn(rows, count)
    for what, used in found.items():
        told = [f"{min(it):.2f} ms at least, {statistics.median(it):.2f} the middle one" for it in
                ([one.processor for one in used], [one.clock for one in used])]
        print(f"{what}: of a processor {told[0]}; by the clock {told[1]}")
    return {what: min(it.processor for it in used) for what, used in found.items()}


def figures(rows, count, best=max):
    """Runs each row, a function that gives figures by their names, once in each round; prints the
    load, and the best and the middle one of each figure. Gives the best, by row and name."""
    found = {}
    for what, each in in_turn(rows, count).items():
        for name in each[0]:
            those = [it[name] for it in each]
            found[what, name] = best(those)
            print(f"{what}, {name}: {best(those):,} at best, {statistics.median(those):,.1f} the"
                  " middle one")
    return found


@contextlib.contextmanager
def program_of(bench):
    """The program of a bench: the one that NAME_BENCH names, as BOOK_BENCH, or one that is proved
    and built in a copy of the repository, which goes again."""
    given = os.environ.get(f"{bench.upper()}_BENCH")
    if given:
        yield os.path.abspath(given)
        return
    with tempfile.TemporaryDirectory(prefix="bench-") as copy:
        subprocess.run([f"{HERE}/lay", bench, copy], check=True)
        crate = f"{copy}/crates/{bench}_bench"
        ran = subprocess.run(["rt", "run"], cwd=crate, stdin=subprocess.DEVNULL, text=True,
                             stdout=subprocess.PIPE, stderr=subprocess.STDOUT, check=False)
        if ran.returncode:
            sys.exit("\n".join(ran.stdout.splitlines()[-40:]))
        yield f"{crate}/out/{bench}_bench"


def stores():
    """A folder for stores, under the one that STORES names, or /tmp; it goes again."""
    return tempfile.TemporaryDirectory(prefix="stores-", dir=os.environ.get("STORES", "/tmp"))


def slowed(folder, milliseconds):
    """The environment of a program whose syncs take so many milliseconds and do nothing else, where
    it is more than 0. The library for it is made in this folder."""
    if not milliseconds:
        return dict(os.environ)
    library = f"{folder}/slow_sync.so"
    if not os.path.exists(library):
        subprocess.run(["cc", "-O2", "-shared", "-fPIC", "-o", library, f"{HERE}/slow_sync.c"],
                       check=True)
    return {**os.environ, "LD_PRELOAD": library, "SLOW_SYNC": str(milliseconds)}


def words_of(text, count):
    """The words of the command line: how many rounds, and the milliseconds of slow syncs."""
    given = argparse.ArgumentParser(description=text,
                                    formatter_class=argparse.RawDescriptionHelpFormatter)
    given.add_argument("--rounds", type=int, default=count)
    given.add_argument("--slow-sync", type=int, action="append", default=[], metavar="MS")
    return given.parse_args()
