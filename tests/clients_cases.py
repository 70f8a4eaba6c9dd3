"""Tests what a client in Python does, over the program: each case is a function.

    clients_cases.py [CASE]..
"""

from __future__ import annotations

import asyncio
import contextlib
import json
import os
import signal
import subprocess
import sys
import tempfile
import threading
import time
from collections.abc import Callable, Iterator

sys.dont_write_bytecode = True
HERE = os.path.dirname(os.path.realpath(__file__))
sys.path[:0] = [f"{HERE}/../clients/python", HERE]
import pokhnier  # noqa: E402
from clients_waits import heed_breaks, until, until_at_rest, until_begun  # noqa: E402
from pokhnier.calls import Call  # noqa: E402
from pokhnier.names import group_name, key_name, text_of  # noqa: E402
from pokhnier.orders import Order  # noqa: E402
from pokhnier.outcomes import Outcome  # noqa: E402
from pokhnier.program import program  # noqa: E402
from pokhnier.threads import ThreadRunner  # noqa: E402


class Break(Exception):
    """Leaves the block of a store, so that the night goes on."""


class Odd(Exception):
    """It can't be made again from its arguments."""

    def __init__(self, number: int) -> None:
        super().__init__(f"{number} is odd")


def night(path: str, run: Callable[[pokhnier.Store], None]) -> BaseException | None:
    """A run of a night, which isn't finished. Returns what it raised."""
    error = None
    with contextlib.suppress(Break), pokhnier.open(path) as store:
        try:
            run(store)
        except Exception as raised:
            error = None if isinstance(raised, Break) else raised
        raise Break
    return error


def raising(error: Exception) -> None:
    raise error


def is_same(found: object, wanted: object) -> None:
    if found != wanted:
        raise AssertionError(f"{found!r}, and not {wanted!r}")


def holds(condition: object, text: object) -> None:
    if not condition:
        raise AssertionError(f"{text}")


def results(path: str) -> None:
    """A later run gets the same results, and calls nothing."""
    calls, found = [], []

    def give(value: object) -> object:
        calls.append(value)
        return value

    def run(store: pokhnier.Store) -> None:
        with store.group("g") as group:
            tasks = [group.run(str(number), give, value)
                     for number, value in enumerate([None, 1, "é", (1, (2, 3)), {"a": [None]}])]
        found.append([it.result() for it in tasks])
    is_same([night(path, run), night(path, run)], [None, None])
    is_same(found, [[None, 1, "é", [1, [2, 3]], {"a": [None]}]] * 2)
    is_same(len(calls), 5)


def errors(path: str) -> None:
    """Each run raises an error of the same type, with the same text."""
    def run(store: pokhnier.Store) -> None:
        for number, error in enumerate((OSError(28, "no room"), Odd(3), KeyError("k"))):
            try:
                with store.group(f"g{number}") as group:
                    group.run("a", raising, error)
            except Exception as raised:
                found.append((type(raised), str(raised), getattr(raised, "errno", None)))
    for _ in range(2):
        found: list[object] = []
        is_same(night(path, run), None)
        is_same(found, [(OSError, "[Errno 28] no room", 28), (pokhnier.Failed, "3 is odd", None),
                        (KeyError, "'k'", None)])


def errors_within(path: str) -> None:
    """If the error of a task leaves the block of its group, the group ends as it always does, and
    the night is over."""
    called: list[str] = []

    def late() -> None:
        time.sleep(0.5)
        called.append("b")
    for number in (1, 2):
        called.clear()
        try:
            with pokhnier.open(path) as store, store.group("g", on_error="go-on") as group:
                is_same(store.night, number)
                bad = group.run("a", raising, ValueError("a"))
                group.run("b", late)
                bad.result()
        except ValueError as error:
            called.append(str(error))
        is_same(called, ["b", "a"])


def no_json(path: str) -> None:
    """A result that isn't JSON is an error, in each run."""
    def run(store: pokhnier.Store) -> None:
        with store.group("g") as group:
            group.run("a", object)
    with pokhnier.open(path) as store, contextlib.suppress(TypeError):
        run(store)
        raise AssertionError("no error")


def failures(path: str) -> None:
    """What a failure does to the others of its group."""
    for way, wanted in (("cancel", ["a", "b"]), ("stop", ["a", "b"]), ("go-on", ["a", "b", "c"])):
        called: list[str] = []
        began, failed = threading.Event(), threading.Event()

        def good(called: list[str] = called, began: threading.Event = began,
                 failed: threading.Event = failed, way: str = way) -> None:
            called.append("a")
            began.set()
            if way == "cancel":
                pokhnier.current().sleep(60)
            failed.wait(60)

        def bad(called: list[str] = called, began: threading.Event = began) -> None:
            called.append("b")
            began.wait(60)
            raise ValueError("b")

        def run(store: pokhnier.Store, way: str = way, good: Callable[[], None] = good,
                bad: Callable[[], None] = bad, called: list[str] = called,
                failed: threading.Event = failed) -> None:
            with store.group(f"g-{way}", limit=2, on_error=way) as group:  # type: ignore[arg-type]
                # (All are in one round: a later run may begin "a" before it knows of "b".)
                with store._pump.work:
                    group.run("a", good)
                    group.run("b", bad).add_done_callback(lambda _: failed.set())
                    group.run("c", called.append, "c")
        for _ in range(2):
            error = night(path, run)
            is_same((type(error), str(error)), (ValueError, "b"))
            is_same(sorted(called), wanted)


def first_errors(path: str) -> None:
    """The first error is that of the function that failed first, in each run."""
    goes = [threading.Event() for _ in range(3)]

    def fail(number: int) -> None:
        goes[number].wait(60)
        raise ValueError(f"{number}")

    def run(store: pokhnier.Store) -> None:
        with store.group("g", on_error="go-on") as group:
            tasks = [group.run(f"k{number}", fail, number) for number in range(3)]
            for number in (1, 0, 2):
                goes[number].set()
                tasks[number].exception()
    for _ in range(2):
        error = night(path, run)
        is_same((type(error), str(error)), (ValueError, "1"))


def two_failures(path: str) -> None:
    """Of two failures that are reported at the same time, the second one is a cancel, since the
    first one has canceled the group."""
    def run(store: pokhnier.Store) -> None:
        with store.group("g") as group:
            goes, ends = threading.Event(), list[tuple[Call, Outcome, BaseException | None]]()

            def fail(text: str) -> None:
                goes.wait(60)
                raise ValueError(text)

            def keep(call: Call, outcome: Outcome, seen: BaseException | None) -> None:
                ends.append((call, outcome, seen))
            tasks = [group.run(key, fail, key) for key in "ab"]
            for it in tasks:
                until_begun(it)
                assert isinstance(it._call.runner, ThreadRunner)
                it._call.runner.report = keep
            goes.set()
            until("two ends", lambda: len(ends) == 2)
            # (Both are in one round, since the thread of the store waits for the lock.)
            with store._pump.work:
                for end in ends:
                    store._pump.report(*end)
            kinds = [type(it.exception()) for it in tasks]
            is_same(sorted(it.__name__ for it in kinds), ["Canceled", "ValueError"])
    error = night(path, run)
    is_same(type(error), ValueError)
    shown = subprocess.run([program(), "inspect", "--json", path], capture_output=True, text=True,
                           check=True).stdout
    is_same(sorted(it["error"] for it in json.loads(shown)["tasks"]),
            sorted([str(error), f"canceled: {error}"]))


def odd_texts(path: str) -> None:
    """An error is one, also if its text means something else in a store."""
    called: list[str] = []

    def fail(text: str) -> None:
        called.append(text)
        raise ValueError(text)

    def run(store: pokhnier.Store) -> None:
        for number, text in enumerate(texts):
            try:
                with store.group(f"g{number}") as group:
                    group.run("a", fail, text)
            except ValueError as error:
                found.append(str(error))
    texts = ["interrupted", "withdrawn", "canceled: by hand", "canceled", "\n"]
    for _ in range(2):
        found: list[str] = []
        is_same(night(path, run), None)
        is_same((found, called), (texts, texts))


def retries(path: str) -> None:
    """A task is tried again, and the tries are numbered."""
    attempts = []

    def third() -> str:
        attempts.append(pokhnier.current().attempt)
        if len(attempts) < 3:
            raise ValueError("again")
        return "well"
    with pokhnier.open(path) as store, store.group("g", retries=2) as group:
        task = group.run("a", third)
    is_same((task.result(), attempts), ("well", [0, 1, 2]))


def limits(path: str) -> None:
    """At most this many functions run at a time, and this many do."""
    lock, now, most = threading.Lock(), [0], [0]
    meets = threading.Barrier(3, timeout=60)

    def count() -> None:
        with lock:
            now[0] += 1
            most[0] = max(most[0], now[0])
        meets.wait()
        time.sleep(0.05)
        with lock:
            now[0] -= 1
    with pokhnier.open(path) as store, store.group("g", limit=3) as group:
        for number in range(12):
            group.run(str(number), count)
    is_same(most, [3])


def timeouts(path: str) -> None:
    """A timeout counts from the first run, and stops functions of later ones."""
    stopped, called = [], threading.Event()

    def sleep() -> None:
        called.set()
        try:
            pokhnier.current().sleep(60)
        except pokhnier.Error as error:
            stopped.append(type(error))
            raise

    def moment() -> int:
        """The deadline that the store has for the group."""
        shown = subprocess.run([program(), "inspect", "--json", path], capture_output=True,
                               text=True, check=True).stdout
        return next(int(it["deadline"]) for it in json.loads(shown)["scopes"]
                    if it["name"] == "g--until")
    began = time.time()

    def run(store: pokhnier.Store) -> None:
        with store.group("g", timeout=8) as group:
            group.run("a", sleep)
            if not stopped:
                called.wait(60)
                time.sleep(2)  # (A timeout that counted from the next run would be another moment.)
                raise Break
    is_same(night(path, run), None)
    is_same(stopped, [pokhnier.Interrupted])
    kept = moment()
    holds(kept >= began + 8, kept)
    is_same(type(night(path, run)), pokhnier.Canceled)
    is_same(moment(), kept)
    # (On a busy machine the deadline may pass before the second call.)
    holds(stopped[1:] == [pokhnier.Canceled] or time.time() > began + 9, stopped)
    holds(time.time() >= began + 8, time.time() - began)


def rare_rounds(path: str) -> None:
    """While nothing happens, nothing is asked until a deadline comes."""
    with pokhnier.open(path, timeout=3600) as store, store.group("g", timeout=3000) as group:
        goes, parts = threading.Event(), list[list[str]]()
        ask = store._drive.ask

        def noting(part: list[str]) -> list[Order]:
            parts.append(part)
            return ask(part)
        task = group.run("a", goes.wait, 60)
        until_begun(task)
        until_at_rest(store)
        setattr(store._drive, "ask", noting)  # noqa: B010 (mypy would refuse an assignment)
        time.sleep(2.5)
        is_same(parts, [])
        goes.set()
        task.result()
        is_same(len(parts), 1)


def late_rounds(path: str) -> None:
    """A round that reports something, and comes after a deadline, asks what that has canceled."""
    with pokhnier.open(path) as store:
        group = store.group("g", limit=1, timeout=8)
        ends = list[tuple[Call, Outcome, BaseException | None]]()

        def keep(call: Call, outcome: Outcome, seen: BaseException | None) -> None:
            ends.append((call, outcome, seen))
        goes = threading.Event()
        first, second = group.run("a", goes.wait, 60), group.run("b", int)
        until_begun(first)
        until_at_rest(store)
        assert isinstance(first._call.runner, ThreadRunner)
        first._call.runner.report = keep
        goes.set()
        until("an end", lambda: ends)
        with store._pump.work:
            moment = store._pump.board.later
            assert moment
            time.sleep(max(0, moment - time.time() + 0.1))
            store._pump.report(*ends[0])
        is_same((first.result(), type(second.exception(60))), (True, pokhnier.Canceled))
        with contextlib.suppress(pokhnier.Canceled):
            group.wait()


def cancels(path: str) -> None:
    """A canceled group stays so. A canceled task is stopped, and the others go on."""
    called: list[str] = []

    def run(store: pokhnier.Store) -> None:
        with store.group("g") as group:
            group.run("a", called.append, "a").result()
            group.cancel("by hand")
            group.run("b", called.append, "b")

    def one(store: pokhnier.Store) -> None:
        with store.group("h", on_error="go-on") as group:
            slept = group.run("c", lambda: pokhnier.current().sleep(60))
            group.run("d", called.append, "d").result()
            slept.cancel("no use")
            is_same(str(slept.exception()), "no use")
    for _ in range(2):
        error = night(path, run)
        is_same((type(error), called), (pokhnier.Canceled, ["a"]))
    error = night(path, one)
    is_same((type(error), str(error), called), (pokhnier.Canceled, "no use", ["a", "d"]))


def abandoned(path: str) -> None:
    """A task that a run doesn't call any more is reported."""
    def cut(store: pokhnier.Store) -> None:
        with store.group("g") as group:
            group.run("a", lambda: pokhnier.current().sleep(60))
            group.run("b", int).result()
            raise Break

    def run(store: pokhnier.Store, keys: str = "b") -> None:
        with store.group("g") as group:
            for key in keys:
                group.run(key, int)
    is_same(night(path, cut), None)
    error = night(path, run)
    is_same((type(error), str(error)), (pokhnier.Abandoned, "g: this run didn't call a"))
    with contextlib.suppress(pokhnier.Abandoned), pokhnier.open(path) as store:
        store.group("other").run("x", int)
    with pokhnier.open(path) as store:
        is_same(store.night, 1)
        run(store, "ab")
    with pokhnier.open(path) as store:
        is_same(store.night, 2)


def interruptions(path: str) -> None:
    """An interruption is no error of a group, and isn't recorded as one."""
    calls = []

    def cut(store: pokhnier.Store) -> None:
        with store.group("g") as group:
            began = threading.Event()

            def sleep() -> None:
                began.set()
                pokhnier.current().sleep(60)
            task = group.run("a", sleep)
            began.wait(60)
            store.close()
            is_same(type(task.exception()), pokhnier.Interrupted)

    is_same(type(night(path, cut)), pokhnier.Interrupted)
    with pokhnier.open(path) as store, store.group("g") as group:
        group.run("a", lambda: calls.append(pokhnier.current().attempt))
    is_same(calls, [1])


def in_use(path: str) -> None:
    """A second run is refused."""
    with pokhnier.open(path):
        try:
            pokhnier.open(path, patience=0.1)
        except pokhnier.InUse:
            pass
        else:
            raise AssertionError("it opens twice")
    pokhnier.open(path, patience=0).close()


def lost(path: str) -> None:
    """The death of the program ends the run. The store is in use until its functions have ended."""
    stopped, called, goes = [], threading.Event(), threading.Event()

    def sleep() -> None:
        called.set()
        try:
            pokhnier.current().sleep(60)
        except pokhnier.Error as error:
            stopped.append(type(error))
            goes.wait(60)
            raise

    def close(store: pokhnier.Store) -> None:
        with contextlib.suppress(pokhnier.Lost):
            store.close()
    store = pokhnier.open(path)
    group = store.group("g", limit=1)
    task, later = group.run("a", sleep), group.run("b", int)
    called.wait(60)
    store._drive.process.kill()
    # (The program's end is seen by the next round.)
    group.run("c", int)
    is_same(type(later.exception(60)), pokhnier.Lost)
    closing = threading.Thread(target=close, args=(store,))
    closing.start()
    try:
        pokhnier.open(path, patience=0.2)
        raise AssertionError("a function goes on, and the store opens")
    except pokhnier.InUse:
        pass
    goes.set()
    closing.join()
    is_same((stopped, type(task.exception())), ([pokhnier.Lost], pokhnier.Lost))
    with pokhnier.open(path) as store, store.group("g") as group:
        is_same(group.run("a", lambda: pokhnier.current().attempt).result(), 1)
        group.run("b", int)
        group.run("c", int)


def refused(path: str) -> None:
    """Keys and groups that are given twice, and files that are no stores."""
    with pokhnier.open(path) as store:
        group = store.group("g")
        group.run("a", int)
        calls: list[Callable[[], object]] = [lambda: group.run("a", int),
                                             lambda: store.group("g")]
        for call in calls:
            try:
                call()
                raise AssertionError("it isn't refused")
            except pokhnier.Refused:
                pass
    with open(f"{path}.zeros", "wb") as file:
        file.write(bytes(6_291_456))
    try:
        pokhnier.open(f"{path}.zeros", patience=0)
        raise AssertionError("it isn't refused")
    except pokhnier.Refused:
        pass


def nights(path: str) -> None:
    """Which runs go on with a night, and which begin another one."""
    def store_of(fresh: bool = False) -> pokhnier.Store:
        return pokhnier.open(path, fresh=fresh)

    def run(error: Exception) -> int:
        with contextlib.suppress(ValueError, Break), store_of() as store:
            with store.group("g") as group:
                if isinstance(error, ValueError):
                    group.run("a", raising, error)
            if isinstance(error, Break):
                raise error
        return store.night
    found = [run(Break()), run(Break()), run(Exception()), run(Break()), run(ValueError("x")),
             run(Break())]
    is_same(found, [1, 1, 1, 2, 2, 3])
    store = store_of(fresh=True)
    store.close()
    is_same(store.night, 4)


def killed_finish(path: str) -> None:
    """A run that was killed while it finished the night has finished it."""
    is_same(night(path, lambda store: None), None)
    store = pokhnier.open(path)
    kept = store._pump.board.plan
    plan, first = kept.first_part(None, False), kept.first_round()
    store.close()
    # Another command keeps the night from being over in this run.
    parts = [[*plan, "group 0 stop x", "command 1 0 0 0 1 0 y", "take 0 1"],
             [*first, "done 0 finished"]]
    done = subprocess.run([program(), "drive", path], capture_output=True, text=True, check=True,
                          input="".join("\n".join(it) + "\n\n" for it in parts))
    is_same((done.stdout.count("durable"), done.stdout.count("over")), (1, 0))
    with pokhnier.open(path) as store:
        is_same(store.night, 2)


def values(path: str) -> None:
    """Values are those of the first run."""
    found: list[int] = []

    def run(store: pokhnier.Store) -> None:
        found.append(store.value("Ein Wert", len(found)))
    for _ in range(3):
        night(path, run)
    is_same(found, [0, 0, 0])


def coroutines(path: str) -> None:
    """Coroutine functions: results, a first error that cancels others, and a cut."""
    ended: list[str] = []
    called = asyncio.Event()

    async def sleep(key: str, seconds: float) -> str:
        if key == "e":
            called.set()
        try:
            await asyncio.sleep(seconds)
        except asyncio.CancelledError:
            ended.append(key)
            raise
        return key

    async def fail() -> None:
        await asyncio.sleep(0.1)
        raise ValueError("f")

    async def run(store: pokhnier.Store) -> list[str]:
        async with store.group("g") as group:
            tasks = [group.start(key, sleep, key, 0.2) for key in "abc"]
            # (Who gives up waiting for a task doesn't cancel it.)
            with contextlib.suppress(TimeoutError):
                await asyncio.wait_for(tasks[0], 0.01)
            is_same(await tasks[0], "a")
        try:
            async with store.group("h") as group:
                # (Both are in one round: a later run may begin "d" before it knows of "f".)
                with store._pump.work:
                    group.start("d", sleep, "d", 60)
                    group.start("f", fail)
        except ValueError:
            ended.append("f")
        return [await it for it in tasks]

    async def cut(store: pokhnier.Store) -> None:
        async with asyncio.timeout(None) as limit, store.group("i") as group:
            group.start("e", sleep, "e", 60)
            await called.wait()
            limit.reschedule(asyncio.get_running_loop().time())
    with contextlib.suppress(TimeoutError), pokhnier.open(path) as store:
        is_same(asyncio.run(run(store)), ["a", "b", "c"])
        asyncio.run(cut(store))
    is_same(ended, ["d", "f", "e"])
    with pokhnier.open(path) as store:
        is_same(store.night, 1)
        is_same(asyncio.run(run(store)), ["a", "b", "c"])
        is_same(ended, ["d", "f", "e", "f"])
        with store.group("i") as group:
            is_same(group.run("e", lambda: pokhnier.current().attempt).result(), 1)


def deleted(path: str) -> None:
    """A store that was deleted begins from nothing, also if its results weren't deleted."""
    found: list[int] = []

    def run(store: pokhnier.Store) -> None:
        with store.group("g") as group:
            found.append(group.run("a", int, len(found)).result())
    for is_deleted in (True, False, False):
        night(path, run)
        if is_deleted:
            os.remove(path)
    is_same(found, [0, 1, 1])


def full(path: str) -> None:
    """A store without room ends the run."""
    try:
        with pokhnier.open(path) as store:
            for number in range(200):
                with store.group(f"g{number}") as group:
                    group.run("a", int)
        raise AssertionError("it isn't full")
    except pokhnier.Full:
        holds(number > 100, number)


def names(path: str) -> None:
    """Names and texts, as clients/README.md says."""
    is_same([key_name(it) for it in ("a-b_9", "http://host/1", "x" * 33)],
            ["a-b_9", "http-host-1_ac37b0091485", f"{'x' * 19}_11ba55a3a7c1"])
    is_same([group_name(it) for it in ("g", "Été", "night", "_", "a--b", "x" * 20)],
            ["g", "t_adca3dd5be", "night_176473d731", "__d2e2adf717", "a-b_90827a2e56", "x" * 20])
    is_same([text_of(it) for it in ("", "a\nb", "é" * 65)], ["error", "a?b", f"{'?' * 62}.."])


def breaks(path: str) -> None:
    """Ctrl-C lets the functions end, and the next run goes on."""
    code = ("import sys, time, pokhnier\n"
            "with pokhnier.open(sys.argv[1]) as store, store.group('g') as group:\n"
            "    group.run('a', lambda: pokhnier.current().sleep(60))\n"
            "    group.run('b', lambda: (print('b', flush=True), time.sleep(1))[0])\n")
    client = subprocess.Popen([sys.executable, "-c", code, path], stdout=subprocess.PIPE,
                              stderr=subprocess.PIPE, text=True,
                              env={**os.environ, "PYTHONPATH": f"{HERE}/../clients/python"})
    assert client.stdout
    client.stdout.readline()
    client.send_signal(signal.SIGINT)
    _, said = client.communicate(timeout=60)
    holds(client.returncode == -signal.SIGINT and "KeyboardInterrupt" in said, said)
    called: list[str] = []
    with pokhnier.open(path) as store, store.group("g") as group:
        group.run("a", called.append, "a")
        group.run("b", called.append, "b")
    is_same(called, ["a"])


CASES = (results, errors, errors_within, no_json, failures, first_errors, two_failures, odd_texts,
         retries, limits, timeouts, rare_rounds, late_rounds, cancels, abandoned, interruptions,
         in_use, lost, refused, nights, killed_finish, values, coroutines, deleted, full, names,
         breaks)


Case = Callable[[str], None]


def faults(of: tuple[Case, ...], cases: list[str]) -> Iterator[str]:
    for case in of:
        if cases and case.__name__ not in cases:
            continue
        with tempfile.TemporaryDirectory(prefix="clients-") as folder:
            try:
                case(f"{folder}/store")
            except Exception as error:
                at, file = error.__traceback__, case.__code__.co_filename
                while at and at.tb_next and at.tb_next.tb_frame.f_code.co_filename == file:
                    at = at.tb_next
                yield (f"{case.__name__}, line {at.tb_lineno if at else 0}: "
                       f"{type(error).__name__}: {error}")


def main(of: tuple[Case, ...], *cases: str) -> int:
    heed_breaks()
    bad = []
    for it in faults(of, list(cases)):
        print(f"FAILED {it}", flush=True)
        bad.append(it)
    print(f"{len(cases) or len(of)} cases, {len(bad)} failed")
    return 1 if bad else 0


if __name__ == "__main__":
    sys.exit(main(CASES, *sys.argv[1:]))
