"""What `night drive` answers to lines that executors write, and get wrong, by
docs/formats/drive.md: rows of sessions over one store, each with its input and what comes of it.
"""

from __future__ import annotations

import os
import subprocess
from collections.abc import Iterator
from dataclasses import dataclass

SECONDS = 60
PLAN = "group 0 go-on g; command 0 0 0 0 1 0 k"
OPENED = "plan 1; night 1"
BEGUN = "begin 0 0 g k 0; durable"
REFUSED = "night: the plan is refused\n"
LONG = "w" * 65

# What can't be a line of a plan, of the first round, and of a round in which task 0 lives.
NO_PLAN = (
    "group 0 go-on g\r", "group 0 go-on g\0", "x" * 255, "x" * 256, "x" * 257, "x" * 100_000,
    "group 00 go-on g", "group 0  go-on g", " group 0 go-on g", "group 0 go-on g ", "group 0 go-on",
    "group 0 go-on G", "group 0 on g", f"group 0 go-on {'g' * 33}", "group 65536 go-on g", "pool",
    "pool 4294967296", "pool -1", "pool 1 2", "command 0 0 0 0 1 0", "need well command 0",
    "take 0 1", "until 5 at 5", f"all 5 {LONG}", "all 253000000001 late", "next 1", "now 5",
    "ended 0 ok", "gone 0", "lives g k 0", "cancel 0 by hand", "done 0 by hand", "size 0 1",
    "hurry", "standings", "ask 0", "first 0", "plan 1", "g\xe9")
NO_FIRST = (
    "pool", "pool -1", "pool 1 2", "pool 4294967296", "all 5 at 5", "next", "until 5 at 5",
    "need well command 0", "take 0 1",
    "group 0 go-on g", "command 0 0 0 0 1 0 k", "command 1 0 0 0 1 0 l", "ended 0 ok", "gone 0",
    "lives g k 0", "cancel 1 by hand", "cancel 0", f"cancel 0 {LONG}", "done 1 by hand", "size 0 1",
    "ask 1", "ask", "ask 00", "ask 0 0", "ask 0 ", "first 1", "first", "first 0 x", "error 0 x",
    "now 253000000001", "now 5\r", "\r", "now", "later 5", "\0")
NO_ROUND = (
    "lives g k 0", "ended 1 ok", "ended 00 ok", "ended 0", "ended 0 well", "ended 0 error",
    "ended 0 error ", "ended 0 ok ", f"ended 0 error {LONG}", "ended 65536 ok", "gone 1",
    "ended 0 error \x7f")
# Plans that are refused, and the answers.
NO_NIGHT = (
    ("group 0 go-on night", "name 0"), ("group 0 go-on a--b", "name 0"),
    (f"group 0 go-on {'g' * 21}", "name 0"), ("group 0 go-on g; group 1 stop g", "name 1"),
    (f"{PLAN}; command 0 0 0 0 1 0 k", "twice 1"), ("command 0 0 0 0 1 0 k", "unknown 0"),
    (f"pool 1; {PLAN}; take 0 2", "too-much 0"), (f"pool 0; {PLAN}; take 0 1", "too-much 0"),
    (f"{PLAN}; need well command 0", "circle; member 0"))


def parts(*texts: str) -> str:
    """The lines of parts: in a text they have `; ` between them. Each part has an empty line."""
    return "".join(f"{text}\n\n".replace("; ", "\n") if text else "\n" for text in texts)


@dataclass(frozen=True)
class Session:
    """What is written to a run, what it answers, its status, and what it prints of an error."""
    written: str
    answers: str
    status: int = 0
    errors: str = ""


Row = tuple[str, list[Session]]


def ended(*given: tuple[str, str], status: int = 0, errors: str = "") -> Session:
    """A run that is given these parts, and answers them so. An answer can be empty."""
    return Session(parts(*(it for it, _ in given)),
                   "".join(parts(it) for _, it in given if it), status, errors)


def stray(number: int, *given: tuple[str, str], line: str) -> Session:
    """A run that ends at a line that it can't take, whatever comes after it."""
    well = ended(*given)
    return Session(f"{well.written}{line}\nnow 5\n\n", f"{well.answers}bad {number}\n\n", 1,
                   f"night: line {number}: bad line\n")


PLANNED, FIRST = (PLAN, OPENED), ("", BEGUN)


def wrong_rows() -> Iterator[Row]:
    for line in NO_PLAN:
        yield f"the plan's line {line[:40]!r}", [stray(1, line=line)]
    for line in NO_FIRST:
        yield f"the first round's line {line[:40]!r}", [stray(4, PLANNED, line=line)]
    for line in NO_ROUND:
        yield f"a round's line {line[:40]!r}", [stray(5, PLANNED, FIRST, line=line)]
    for plan, answer in NO_NIGHT:
        yield f"the plan {plan[:40]!r}", [ended((plan, answer), status=1, errors=REFUSED)]
    for line in ("ended 0 ok", "ended 0 error x", "gone 0"):
        yield f"{line!r} after the end", [Session(
            ended(PLANNED, FIRST).written + f"ended 0 ok\n{line}\n\n",
            ended(PLANNED, FIRST).answers + "bad 6\n\n", 1, "night: line 6: bad line\n")]
    grown = f"{PLAN.split('; ', maxsplit=1)[1][:-1]}l"
    for detail in ("need well command 1", "need well group 1", "take 0 1"):
        yield f"a command that grows by {detail!r}", [Session(
            f"{ended(PLANNED).written}{grown}\n{detail}\n", f"{ended(PLANNED).answers}bad 5\n\n", 1,
            "night: line 5: bad line\n")]


def half_rows() -> Iterator[Row]:
    yield "no input", [ended(), ended(PLANNED, FIRST)]
    for cut in ("group 0 go-", "group 0 go-on g", "group 0 go-on g\n", parts(PLAN)[:-1]):
        yield f"a plan that ends with {cut[-12:]!r}", [Session(cut, ""), ended(PLANNED, FIRST)]
    for cut in ("now 5", "now 5\n", "now 5\n\r"):
        yield f"a round that ends with {cut!r}", [
            Session(ended(PLANNED).written + cut, ended(PLANNED).answers), ended(PLANNED, FIRST)]
    yield "an empty plan", [ended(("", "plan 0; night 1")),
                            ended(("", "plan 0; night 1"), ("", "durable; over")),
                            ended((PLAN, "plan 1; night 2"), ("", "begin 0 0 g--2 k 0; durable"))]


def night_rows() -> Iterator[Row]:
    """Nights of a store, one after another."""
    well = ("ended 0 ok", "durable; over")
    yield "two evenings", [
        ended(PLANNED, FIRST, well),
        ended((PLAN, "plan 1; night 2"), ("", "begin 0 1 g--2 k 0; durable"),
              ("ended 1 ok", "durable; over"))]
    yield "a night that another one follows", [
        ended(PLANNED, FIRST),
        ended((f"next; {PLAN}", "plan 1; night 2"), ("", "begin 0 1 g--2 k 0; durable"))]
    yield "input after the night", [Session(
        ended(PLANNED, FIRST, well).written + "x\n\n", ended(PLANNED, FIRST, well).answers)]
    yield "a crash, and a good end", [
        ended(PLANNED, FIRST), ended(PLANNED, ("", "begin 0 1 g k 1; durable"),
                                     ("ended 1 ok; standings", "stands 0 ok; durable; over"))]
    yield "a try that nobody knows of", [ended(
        PLANNED, FIRST, ("gone 0; now 7", "begin 0 1 g k 1; durable"),
        ("ended 1 ok", "durable; over"))]
    long = "g" * 20
    yield "a group of 20 bytes", [ended(
        (PLAN.replace("on g", f"on {long}"), OPENED), ("", f"begin 0 0 {long} k 0; durable"))]
    waits = PLAN.replace("0 0 0 1 0", "0 1 30 1 30")
    yield "a clock that is set back", [
        ended((waits, OPENED), ("now 1000", BEGUN)),
        ended((waits, OPENED), ("now 500", "begin 0 1 g k 1; durable"),
              ("now 510; ended 1 error x", "later 1030; durable"),
              ("now 600", "later 1030; durable"), ("now 1030", "begin 0 2 g k 2; durable"))]
    yield "a retry that waits, over a crash", [
        ended((waits, OPENED), ("now 100", BEGUN),
              ("ended 0 error x; now 110", "later 140; durable")),
        ended((waits, OPENED), ("now 139", "later 140; durable"),
              ("now 140", "begin 0 1 g k 1; durable"))]
    yield "a retry that hurries", [ended(
        (waits, OPENED), ("now 100", BEGUN), ("ended 0 error x", "later 130; durable"),
        ("hurry", "begin 0 1 g k 1; durable"))]


def living_rows() -> Iterator[Row]:
    """Tries that go on while no run drives their night."""
    yield "a try that lives", [
        ended(PLANNED, FIRST),
        ended(PLANNED, ("lives g k 0; standings", "rebound 0 1 g k 1; stands 0 busy; durable"),
              ("ended 1 ok", "durable; over"))]
    yield "a try that lives on and on", [
        ended(PLANNED, FIRST), ended(PLANNED, ("lives g k 0", "rebound 0 1 g k 1; durable")),
        stray(4, PLANNED, line="lives g k 0"),
        ended(PLANNED, ("lives g k 1", "rebound 0 2 g k 2; durable"))]
    yield "a try that is named twice", [
        ended(PLANNED, FIRST), Session(
            ended(PLANNED).written + parts("lives g k 0; lives g k 0"),
            ended(PLANNED).answers + "bad 5\n\n", 1, "night: line 5: bad line\n")]
    yield "a try that has ended, and lives", [
        ended(PLANNED, FIRST), Session(
            ended(PLANNED).written + parts("lives g k 0; ended 0 ok"),
            ended(PLANNED).answers + "bad 5\n\n", 1, "night: line 5: bad line\n")]
    two = f"{PLAN}; command 0 0 0 0 1 0 l"
    yield "a try whose end is recorded", [
        ended((two, "plan 2; night 1"), ("", "begin 0 0 g k 0; begin 1 1 g l 0; durable"),
              ("ended 0 ok", "durable")),
        stray(5, (two, "plan 2; night 1"), line="lives g k 0")]
    yield "a try whose command is gone", [
        ended((two, "plan 2; night 1"), ("", "begin 0 0 g k 0; begin 1 1 g l 0; durable")),
        stray(4, PLANNED, line="lives g l 0"), ended(PLANNED, ("lives g k 0",
                                                               "rebound 0 2 g k 1; durable"))]
    swapped = "group 0 go-on h; group 0 go-on g; command 1 0 0 0 1 0 k"
    yield "a try of a plan in another order", [
        ended(("group 0 go-on g; group 0 go-on h; command 0 0 0 0 1 0 k", OPENED), FIRST),
        ended((swapped, OPENED), ("lives g k 0", "rebound 0 1 g k 1; durable"))]
    pools = "pool {0}; " + f"{PLAN}; take 0 1; command 0 0 0 0 1 0 l; take 0 1"
    yield "tries in a pool that is smaller now", [
        ended((pools.format(2), "plan 2; night 1"),
              ("", "begin 0 0 g k 0; begin 1 1 g l 0; durable")),
        ended((pools.format(1), "plan 2; night 1"),
              ("lives g k 0; lives g l 0", "rebound 0 2 g k 1; rebound 1 3 g l 1; durable"),
              ("gone 2", "rebound 1 4 g l 2; durable"), ("ended 4 ok", "begin 0 5 g k 2; durable"))]


def stop_rows() -> Iterator[Row]:
    """Cancels and deadlines."""
    yield "a cancel of a command that waits", [ended(
        PLANNED, ("cancel 0 by hand; standings", "stands 0 canceled; durable; over"))]
    yield "a cancel of a command that runs", [ended(
        PLANNED, FIRST, ("cancel 0 by hand; standings", "stop 0 by hand; stands 0 busy; durable"),
        ("ended 0 error exit 143; standings", "stands 0 canceled; durable; over"))]
    yield "a good end after a cancel", [ended(
        PLANNED, FIRST, ("cancel 0 by hand", "stop 0 by hand; durable"),
        ("ended 0 ok; standings", "stands 0 ok; durable; over"))]
    yield "a try that is gone after a cancel", [ended(
        PLANNED, FIRST, ("cancel 0 by hand", "stop 0 by hand; durable"),
        ("gone 0; standings", "stands 0 canceled; durable; over"))]
    two = f"{PLAN}; command 0 0 0 0 1 0 l"
    yield "a try that has to stop, and gets another task", [ended(
        (two, "plan 2; night 1"), ("", "begin 0 0 g k 0; begin 1 1 g l 0; durable"),
        ("cancel 0 by hand", "stop 0 by hand; durable"),
        ("gone 1", "rebound 0 2 g k 1; begin 1 3 g l 1; durable"),
        ("ended 2 error exit 143; standings", "stands 0 canceled; stands 1 busy; durable"))]
    yield "a cancel, and a crash", [
        ended(PLANNED, FIRST, ("cancel 0 by hand", "stop 0 by hand; durable")),
        ended(PLANNED, ("", "begin 0 1 g k 1; durable"))]
    yield "a canceled group, and a crash", [
        ended(PLANNED, FIRST, ("done 0 by hand", "stop 0 by hand; durable")),
        ended(PLANNED, ("standings", "stands 0 canceled; durable; over"))]
    dated = PLAN.replace("g; ", "g; until 50 at fifty; ")
    until = "begin 0 0 g k 0; later {0}; durable".format
    yield "a deadline", [
        ended((dated, OPENED), ("now 5", until(50)), ("now 49", "later 50; durable"),
              ("now 50", "stop 0 at fifty; durable")),
        ended((dated, OPENED), ("standings", "stands 0 canceled; durable; over"))]
    yield "other words of a deadline", [
        ended((dated, OPENED), ("now 50; standings", "stands 0 canceled; durable; over")),
        ended((dated, "plan 1; night 2"), ("now 51; standings",
                                           "stands 0 canceled; durable; over"))]
    later = dated.replace("50 at fifty", "90 at ninety")
    yield "another deadline in the night", [
        ended((f"{dated}; group 0 go-on h; command 1 0 0 0 1 0 l", "plan 2; night 1"),
              ("now 50; standings",
               "begin 1 0 h l 0; stands 0 canceled; stands 1 busy; durable")),
        ended((f"{later}; group 0 go-on h; command 1 0 0 0 1 0 l", "plan 2; night 1"),
              ("standings; lives h l 0",
               "rebound 1 1 h l 1; begin 0 2 g--1-2 k 0; later 90; "
               "stands 0 busy; stands 1 busy; durable"))]
    yield "a deadline of all groups", [ended(
        (PLAN.replace("g; ", "g; all 70 at seventy; "), OPENED), ("now 5", until(70)),
        ("now 70", "stop 0 at seventy; durable"))]
    yield "two deadlines, of which one has come", [ended(
        (f"{dated}; all 70 at seventy; group 0 go-on h; command 1 0 0 0 1 0 l", "plan 2; night 1"),
        ("now 5", "begin 0 0 g k 0; begin 1 1 h l 0; later 50; durable"),
        ("now 50", "stop 0 at fifty; later 70; durable"))]
    waits = PLAN.replace("0 0 0 1 0", "0 1 30 1 30").replace("g; ", "g; until {0} at that; ")
    yield "a deadline before a retry", [ended(
        (waits.format(120), OPENED), ("now 100", until(120)),
        ("ended 0 error x", "later 120; durable"), ("now 120", "durable; over"))]
    yield "a retry before a deadline", [ended(
        (waits.format(150), OPENED), ("now 100", until(150)),
        ("ended 0 error x", "later 130; durable"),
        ("now 130", "begin 0 1 g k 1; later 150; durable"))]
    yield "a night that is over before its deadline", [ended(
        (dated, OPENED), ("now 5", until(50)), ("ended 0 ok", "durable; over"))]
    both = "group 0 cancel g; command 0 0 0 0 1 0 k; command 0 0 0 0 1 0 l"
    yield "a failure that cancels its group", [ended(
        (both, "plan 2; night 1"), ("", "begin 0 0 g k 0; begin 1 1 g l 0; durable"),
        ("ended 0 error exit 1", "stop 1 exit 1; durable"),
        ("ended 1 error exit 143; standings", "stands 0 failed; stands 1 canceled; durable; over"))]


TWO = f"{PLAN}; command 0 0 0 0 1 0 l"
OPENED_TWO, BEGUN_TWO = "plan 2; night 1", "begin 0 0 g k 0; begin 1 1 g l 0; durable"


def error_rows() -> Iterator[Row]:
    """Questions about the errors of commands and of groups."""
    yield "an error that is asked for", [ended(
        PLANNED, ("ask 0; first 0", BEGUN),
        ("ended 0 error exit 1; ask 0; first 0; standings",
         "stands 0 failed; error 0 exit 1; first 0 exit 1; durable; over"))]
    yield "an error of an earlier session", [
        ended((TWO, OPENED_TWO), ("", BEGUN_TWO), ("ended 0 error exit 1", "durable")),
        ended((TWO, OPENED_TWO), ("first 0; ask 1; ask 0",
                                  "begin 1 2 g l 1; error 0 exit 1; first 0 exit 1; durable"))]
    waits = PLAN.replace("0 0 0 1 0", "0 1 30 1 30")
    yield "the error of the last try, asked for twice", [ended(
        (waits, OPENED), ("now 100", BEGUN),
        ("ended 0 error one; now 110; ask 0; first 0",
         "later 140; error 0 one; first 0 one; durable"),
        ("now 140; ask 0; first 0", "begin 0 1 g k 1; durable"),
        ("ask 0; ended 1 error two; first 0; ask 0; first 0",
         "error 0 two; error 0 two; first 0 two; first 0 two; durable; over"))]
    yield "a command that ended well the second time", [ended(
        (f"{waits}; command 0 0 0 0 1 0 l", OPENED_TWO), ("now 100", BEGUN_TWO),
        ("ended 0 error one", "later 130; durable"), ("hurry", "begin 0 2 g k 1; durable"),
        ("ended 2 ok; ask 0; first 0", "durable"),
        ("ended 1 error two; first 0", "first 0 two; durable; over"))]
    for what, lines in (("fails", "ended 0 error exit 143"), ("is gone", "gone 0")):
        yield f"a canceled try that {what}", [ended(
            PLANNED, FIRST, ("cancel 0 by hand; ask 0", "stop 0 by hand; durable"),
            (f"{lines}; ask 0; first 0", "durable; over"))]
    yield "a cancel before the first try", [ended(
        PLANNED, ("cancel 0 by hand; ask 0; first 0", "durable; over"))]
    closed = f"pool 1; {PLAN}; take 0 1"
    yield "an interrupted try", [
        ended((closed, OPENED), ("", BEGUN), ("size 0 0; gone 0; ask 0; first 0", "durable")),
        ended((closed, OPENED), ("size 0 0; ask 0; first 0", "durable"))]
    yield "a round for which the store is opened again", [ended(
        (TWO, OPENED_TWO), ("", BEGUN_TWO),
        ("ended 0 error x; ask 0; gone 1; ask 1; first 0",
         "begin 1 2 g l 1; error 0 x; first 0 x; durable"))]
    yield "an error of another night", [
        ended(PLANNED, FIRST, ("ended 0 error x", "durable; over")),
        ended((closed, "plan 1; night 2"), ("size 0 0; ask 0; first 0", "durable"))]
    groups = f"{PLAN}; group 0 go-on h; command 1 0 0 0 1 0 k"
    yield "an error of another group", [ended(
        (groups, OPENED_TWO), ("", "begin 0 0 g k 0; begin 1 1 h k 0; durable"),
        ("ended 0 error x; first 1; ask 1", "durable"),
        ("first 0; ask 0", "error 0 x; first 0 x; durable"),
        ("ended 1 error y; ask 1; ask 0; first 1; first 0",
         "error 1 y; error 0 x; first 1 y; first 0 x; durable; over"))]
    yield "the error that came first", [
        ended((TWO, OPENED_TWO), ("", BEGUN_TWO), ("ended 1 error one; first 0",
                                                   "first 0 one; durable")),
        ended((TWO, OPENED_TWO), ("lives g k 0", "rebound 0 2 g k 1; durable"),
              ("ended 2 error two; first 0", "first 0 one; durable; over"))]
    yield "the first error after an interruption", [
        ended((TWO, OPENED_TWO), ("", BEGUN_TWO)),
        ended((TWO, OPENED_TWO), ("", "begin 0 2 g k 1; begin 1 3 g l 1; durable"),
              ("ended 3 error one; first 0", "first 0 one; durable"),
              ("ended 2 error two; first 0", "first 0 two; durable; over"))]
    yield "an error of a command that the plan has no more", [
        ended((TWO, OPENED_TWO), ("", BEGUN_TWO), ("ended 1 error x", "durable")),
        ended(PLANNED, ("first 0; ask 0", "begin 0 2 g k 1; first 0 x; durable"))]
    dated = TWO.replace("g; ", "g; until {} at that time; ")
    yield "an error in an earlier group of the store", [
        ended((dated.format("90").replace("that", "one"), OPENED_TWO),
              ("now 5", BEGUN_TWO.replace("durable", "later 90; durable")),
              ("ended 1 error x", "later 90; durable")),
        ended((dated.format("90").replace("that", "another"), OPENED_TWO),
              ("now 6; first 0", "begin 0 2 g--1-2 k 0; later 90; first 0 x; durable"),
              ("ended 2 error y; first 0; ask 0; ask 1",
               "error 0 y; error 1 x; first 0 x; durable; over"))]
    yield "a question about what the round adds", [ended(
        PLANNED, ("group 0 go-on h; command 1 0 0 0 1 0 l; ask 1; first 1",
                  "begin 0 0 g k 0; begin 1 1 h l 0; durable"),
        ("ended 1 error x; ask 1; first 1", "error 1 x; first 1 x; durable"))]


def pool_rows() -> Iterator[Row]:
    """Pools that a round adds, and their sizes."""
    more = "command 0 0 0 0 1 0 {}; take {} 1"
    yield "a pool of the first round", [ended(
        PLANNED, (f"pool 1; {more.format('l', 0)}; {more.format('m', 0)}",
                  "begin 0 0 g k 0; begin 1 1 g l 0; durable"),
        ("ended 1 ok", "begin 2 2 g m 0; durable"))]
    taken = f"pool 1; {PLAN}; take 0 1"
    yield "a pool of a later round", [ended(
        (taken, OPENED), ("", BEGUN),
        ("pool 2; pool 1; size 1 0; size 2 1; command 0 0 0 0 1 0 l; take 1 1; take 2 1",
         "durable"),
        ("size 1 1", "begin 1 1 g l 0; durable"))]
    for number, line in ((7, "take 1 3"), (7, "take 2 1"), (8, "take 1 2; take 1 1")):
        yield f"a command that grows by {line!r}", [Session(
            ended(PLANNED).written + parts(f"pool 1; pool 2; command 0 0 0 0 1 0 l; {line}"),
            f"{ended(PLANNED).answers}bad {number}\n\n", 1, f"night: line {number}: bad line\n")]
    yield "a take after a pool", [Session(
        ended(PLANNED).written + parts("command 0 0 0 0 1 0 l; pool 1; take 0 1"),
        f"{ended(PLANNED).answers}bad 6\n\n", 1, "night: line 6: bad line\n")]
    yield "a pool that is closed at first", [
        ended((taken, OPENED), ("size 0 0", "durable"), ("size 0 1", BEGUN)),
        ended((taken, OPENED), ("", "begin 0 1 g k 1; durable"))]


def ran(program: str, store: str, session: Session) -> Session:
    """What comes of a session."""
    done = subprocess.run([program, "drive", store], input=session.written.encode("latin-1"),
                          capture_output=True, check=False, timeout=SECONDS)
    return Session(session.written, done.stdout.decode("latin-1"), done.returncode,
                   done.stderr.decode("latin-1"))


def try_lines(program: str, around: str) -> tuple[int, list[str]]:
    """Runs all rows. Returns how many there are, and what was wrong."""
    count, bad = 0, []
    for make in (wrong_rows, half_rows, night_rows, living_rows, stop_rows, error_rows, pool_rows):
        for what, sessions in make():
            count += 1
            store = f"{around}/lines"
            subprocess.run([program, "format", store], check=True, stdout=subprocess.DEVNULL)
            for number, session in enumerate(sessions):
                found = ran(program, store, session)
                if found != session:
                    bad.append(f"{what}, session {number}: {found}, and not {session}")
            os.remove(store)
    return count, bad
