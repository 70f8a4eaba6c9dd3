"""Tests what a client in Python does when it is used wrongly, or at a bad moment: each case is a
function. Whatever happens, nobody waits for ever, and no interruption is a failure.

    clients_hostile.py [CASE]..
"""

from __future__ import annotations

import asyncio
import contextlib
import math
import os
import resource
import signal
import subprocess
import sys
import threading
import time
import warnings
from collections.abc import Callable
from concurrent.futures import Future
from typing import Any

sys.dont_write_bytecode = True
HERE = os.path.dirname(os.path.realpath(__file__))
sys.path[:0] = [f"{HERE}/../clients/python", HERE]
import pokhnier  # noqa: E402
from clients_cases import holds, is_same, main, night, raising  # noqa: E402
from clients_waits import stop, until, until_at_rest, until_begun  # noqa: E402
from pokhnier.names import bytes_of, key_name  # noqa: E402
from pokhnier.program import program  # noqa: E402

SECONDS = 60


class Mute(Exception):
    """Its text can't be asked for."""

    def __str__(self) -> str:
        raise ValueError("no text")


class Unequal(Exception):
    """Its arguments can't be compared."""

    def __init__(self, *args: object) -> None:
        super().__init__(Odd())


class Odd(list[int]):
    def __eq__(self, other: object) -> bool:
        raise ValueError("no answer")


def within(what: str, function: Callable[[], Any]) -> Any:
    """What a function returns or raises. It has to end."""
    future: Future[Any] = Future()

    def run() -> None:
        try:
            future.set_result(function())
        except BaseException as error:
            future.set_exception(error)
    threading.Thread(target=run, daemon=True).start()
    try:
        return future.exception(SECONDS) or future.result()
    except TimeoutError:
        raise AssertionError(f"{what}: it hangs") from None


def fail(key: str) -> None:
    if key == "a":
        raise ValueError(key)


def deep() -> object:
    value: list[object] = []
    for _ in range(100_000):
        value = [value]
    return value


def odd_ends(path: str) -> None:
    """Whatever a function raises or returns, its task ends, with the same error in each run."""
    ends: dict[str, tuple[Callable[[], object], type[BaseException], str]] = {
        "mute": (lambda: raising(Mute()), pokhnier.Failed, "Mute"),
        "unequal": (lambda: raising(Unequal()), pokhnier.Failed, "[]"),
        "exit": (lambda: sys.exit(3), pokhnier.Failed, "3"),
        "deep": (deep, TypeError, "the result is no JSON"),
        "keys": (lambda: {(1, 2): 3}, TypeError, "the result is no JSON")}

    def run(store: pokhnier.Store) -> None:
        for number, (name, (function, kind, text)) in enumerate(ends.items()):
            group = store.group(f"g{number}")
            task: pokhnier.Task[object] = group.run("a", function)
            error = within(name, task.exception)
            holds(type(error) is kind and text in str(error), f"{name}: {error!r}")
            is_same(type(within(name, group.wait)), kind)
    for _ in range(2):
        is_same(night(path, run), None)


def full_disks(path: str) -> None:
    """The disk is full in the middle of a line, of a result or of a beginning."""
    def results(store: pokhnier.Store, text: str) -> object:
        with store.group("g") as group:
            task = group.run("a", lambda: text)
            return task.result()
    for number, (most, text) in enumerate(((100, "x" * 1000), (20, ""))):
        store = pokhnier.open(f"{path}{number}")
        soft, hard = resource.getrlimit(resource.RLIMIT_FSIZE)
        resource.setrlimit(resource.RLIMIT_FSIZE, (most, hard))
        try:
            is_same(type(within("a full disk", lambda: results(store, text))), pokhnier.Lost)
            is_same(within("a close", store.close), None)
        finally:
            resource.setrlimit(resource.RLIMIT_FSIZE, (soft, hard))
        with pokhnier.open(f"{path}{number}") as again:
            is_same(results(again, "y"), "y")


def killed_answers(path: str) -> None:
    """The program dies while somebody waits for an answer that has no task."""
    waits: dict[str, Callable[[pokhnier.Store, pokhnier.Group], object]] = {
        "a cancel of a group": lambda _, group: group.cancel(),
        "a cancel of a task": lambda _, group: group.run("c", pokhnier.current).cancel(),
        "the end of a night": lambda store, _: store.finish(),
        "a first error": lambda _, group: group.wait()}
    for number, (what, wait) in enumerate(waits.items()):
        store = pokhnier.open(f"{path}{number}")
        group = store.group("g", on_error="go-on")
        group.run("a", int).result()
        group.run("b", raising, ValueError("b")).exception()
        until_at_rest(store)
        stop(store._drive.process)
        killer = threading.Thread(target=kill_asked, args=(store,))
        killer.start()

        def waiting(store: pokhnier.Store = store, group: pokhnier.Group = group,
                    wait: Callable[[pokhnier.Store, pokhnier.Group], object] = wait) -> object:
            return wait(store, group)
        error = within(what, waiting)
        holds(isinstance(error, pokhnier.Lost), f"{what}: {error!r}")
        is_same(within(what, store.close), None)
        killer.join()


def kill_asked(store: pokhnier.Store) -> None:
    """Kills the program once it is asked for something."""
    try:
        until("a round", lambda: store._pump.made)
    finally:
        store._drive.process.kill()


def no_threads(path: str) -> None:
    """A function whose thread can't be started is left to the next run."""
    start = threading.Thread.start

    def refusing(self: threading.Thread) -> None:
        if self.name == "g/a":
            raise RuntimeError("can't start new thread")
        start(self)
    setattr(threading.Thread, "start", refusing)  # noqa: B010 (mypy would refuse an assignment)
    try:
        def run(store: pokhnier.Store) -> None:
            group = store.group("g")
            task = group.run("a", int)
            is_same(group.run("b", int, 7).result(), 7)
            is_same(type(within("a task", task.exception)), pokhnier.Interrupted)
        is_same(within("a run", lambda: night(path, run)), None)
    finally:
        setattr(threading.Thread, "start", start)  # noqa: B010
    with pokhnier.open(path) as store, store.group("g") as group:
        is_same(group.run("a", lambda: pokhnier.current().attempt).result(), 1)
        group.run("b", int)


def forks(path: str) -> None:
    """A child of the process leaves the store to it, and keeps nothing of it in use."""
    store = pokhnier.open(path)
    group = store.group("g")
    task = group.run("a", lambda: pokhnier.current().sleep(60))
    reads, writes = os.pipe()
    child = os.fork()
    if not child:
        said = []
        calls: list[Callable[[], object]] = [
            task.result, lambda: group.run("b", int).result(), lambda: store.value("v", 1),
            store.finish,
            group.wait, group.cancel, store.close, lambda: store.__exit__(None, None, None)]
        for call in calls:
            try:
                signal.alarm(SECONDS)
                said.append(type(call()).__name__)
            except pokhnier.Error as error:
                said.append(type(error).__name__)
        os.write(writes, " ".join(said).encode())
        time.sleep(60)
        os._exit(0)
    os.close(writes)
    try:
        is_same(os.read(reads, 1000).decode(),
                "Refused Refused Refused Refused Refused Refused NoneType Refused")
        is_same(within("a close", store.close), None)
        is_same(type(task.exception()), pokhnier.Interrupted)
        store = pokhnier.open(path, patience=5)
        with store.group("g") as again:
            again.run("a", int)
        store.close()
    finally:
        os.close(reads)
        os.kill(child, signal.SIGKILL)
        os.waitpid(child, 0)


def closed_loops(path: str) -> None:
    """A loop ends before the coroutine does: it is called again in the next run."""
    loop = asyncio.new_event_loop()
    loop.set_exception_handler(lambda *_: None)
    warnings.simplefilter("ignore", RuntimeWarning)  # (of a coroutine that was never awaited)
    store = pokhnier.open(path)
    began = asyncio.Event()

    async def sleep() -> None:
        began.set()
        await asyncio.sleep(60)

    async def start() -> None:
        group = store.group("g")
        group.start("a", sleep)
        await began.wait()
        until_begun(group.start("b", sleep))
    loop.run_until_complete(start())
    loop.close()
    is_same(within("a close", store.close), None)

    async def attempt() -> int:
        return pokhnier.current().attempt

    async def run(store: pokhnier.Store) -> None:
        async with store.group("g") as group:
            tasks = [group.start(key, attempt) for key in "ab"]
        is_same([await it for it in tasks], [1, 1])
    with pokhnier.open(path) as store:
        asyncio.run(run(store))


def early_cancels(path: str) -> None:
    """A coroutine is cancelled before its first step."""
    async def run(store: pokhnier.Store, is_canceled: bool) -> None:
        group = store.group("g")
        task = group.start("a", asyncio.sleep, 60)
        until_begun(task)  # (It begins, and this loop, which waits here, hasn't begun it.)
        if is_canceled:
            group.cancel("by hand")
            is_same(str(await asyncio.wait_for(ended(task), SECONDS)), "by hand")

    async def ended(task: pokhnier.Task[Any]) -> object:
        try:
            return await task
        except pokhnier.Canceled as error:
            return error
    for is_canceled in (True, False):
        store = pokhnier.open(f"{path}{is_canceled}")

        def played(store: pokhnier.Store = store, is_canceled: bool = is_canceled) -> None:
            asyncio.run(run(store, is_canceled))
        is_same(within("a loop", played), None)
        is_same(within("a close", store.close), None)


def own_loops(path: str) -> None:
    """Who would stop the loop in which a function runs is refused."""
    async def run(store: pokhnier.Store, name: str) -> None:
        group = store.group("g")
        task = group.start("a", asyncio.sleep, 0.5)
        try:
            {"wait": group.wait, "finish": store.finish, "close": store.close}[name]()
            raise AssertionError("it isn't refused")
        except pokhnier.Refused:
            pass
        with contextlib.suppress(pokhnier.Error):
            await task
    for name in ("wait", "finish", "close"):
        store = pokhnier.open(f"{path}-{name}")

        def played(store: pokhnier.Store = store, name: str = name) -> None:
            asyncio.run(run(store, name))
        is_same(within(name, played), None)
        is_same(within("a close", store.close), None)


def breaks_of_loops(path: str) -> None:
    """Ctrl-C in a coroutine, or its program's exit, is an interruption."""
    for number, error in enumerate((KeyboardInterrupt(), SystemExit(4))):
        async def fail(error: BaseException = error) -> None:
            await asyncio.sleep(0.01)
            raise error

        async def run(store: pokhnier.Store, fail: Callable[..., Any] = fail) -> None:
            async with store.group("g") as group:
                group.start("a", fail)
        try:
            with pokhnier.open(f"{path}{number}") as store:
                asyncio.run(run(store))
            raise AssertionError("it goes on")
        except (KeyboardInterrupt, SystemExit) as seen:
            is_same(type(seen), type(error))
        with pokhnier.open(f"{path}{number}") as store, store.group("g") as group:
            is_same((store.night, group.run("a", lambda: pokhnier.current().attempt).result()),
                    (1, 1))


def at_once(path: str) -> None:
    """Threads that ask for one thing at the same time: one of them gets it."""
    store = pokhnier.open(path)
    with contextlib.closing(store):
        gate, ends = threading.Barrier(12), list[str]()

        def ask(number: int) -> None:
            for turn in range(20):
                gate.wait()
                try:
                    if number % 3 == 0:
                        ends.append(f"value {store.value(f'v{turn}', number)} {turn}")
                    elif number % 3 == 1:
                        store.group(f"g{turn}")
                        ends.append(f"group {turn}")
                    else:
                        group.run(f"k{turn}", int)
                        ends.append(f"task {turn}")
                except pokhnier.Refused:
                    pass
        group = store.group("many")
        threads = [threading.Thread(target=ask, args=(it,)) for it in range(12)]
        for it in threads:
            it.start()
        for it in threads:
            it.join(SECONDS)
        is_same(len(set(ends)), 60)
        is_same(sorted(it.partition(" ")[0] for it in ends), ["group"] * 20 + ["task"] * 20
                + ["value"] * 80)
        closers = [threading.Thread(target=store.close) for _ in range(4)]
        for it in closers:
            it.start()
        for it in closers:
            it.join(SECONDS)
        holds(not any(it.is_alive() for it in closers), "a close hangs")
        holds(store._is_closed, "it isn't closed")


def odd_numbers(path: str) -> None:
    """A number that a store doesn't take is refused by the call, or is the nearest one."""
    with pokhnier.open(path, deadline=1e300) as store:
        bad: list[Callable[[], object]] = [
            lambda: store.group("a", limit=2.5),  # type: ignore[arg-type]
            lambda: store.group("b", limit=True), lambda: store.group("c", limit=0),
            lambda: pokhnier.Retries(2.5),  # type: ignore[arg-type]
            lambda: store.group("d", timeout=math.nan),
            lambda: store.group("e", retries=-1),
            lambda: store.group("f", on_error="never"),  # type: ignore[arg-type]
            lambda: store.value("g", object())]
        for number, call in enumerate(bad):
            try:
                call()
                raise AssertionError(f"{number} isn't refused")
            except (ValueError, TypeError):
                pass
        for number, seconds in enumerate((math.inf, 1e300, 253_402_300_799.0)):
            with store.group(f"far{number}", timeout=seconds) as group:
                is_same(group.run("a", int, 7).result(), 7)
        is_same(store.value("g", 8), 8)
        past = store.group("past", deadline=-5.5)
        past.run("a", int)
        is_same(type(within("a past one", past.wait)), pokhnier.Canceled)


def odd_names(path: str) -> None:
    """Names that aren't in UTF-8, as files may have, and any other text."""
    names = [os.fsdecode(b"/home/\xff\xfe"), "\ud800", "\0", "a\nb", "", "\U0001f600"]
    is_same(bytes_of(names[0]), b"/home/\xff\xfe")
    is_same(len({key_name(it) for it in names}), len(names))
    with pokhnier.open(path) as store:
        for number, name in enumerate(names):
            with store.group(f"{name}{number}") as group:
                is_same(group.run(name, str, name).result(), name)
            with contextlib.suppress(ValueError), store.group(f"{name} fails") as group:
                group.run(name, raising, ValueError(name))


def no_nights(path: str) -> None:
    """There is no program, or it is none, or an old one: that is said, and nothing stays open."""
    pokhnier.open(path).close()
    was, folder = os.environ["NIGHT"], os.path.dirname(path)
    for name, mode, text in (("plain", 0o600, ""), ("none", 0o700, "#!/none\n"),
                             ("old", 0o700, "#!/bin/sh\necho usage >&2\nexit 2\n")):
        with open(f"{folder}/{name}", "w", encoding="ascii") as file:
            file.write(text)
        os.chmod(f"{folder}/{name}", mode)
    files = len(os.listdir("/proc/self/fd"))
    try:
        for name in ("missing", "", "plain", "none", "old"):
            os.environ["NIGHT"] = f"{folder}/{name}"
            try:
                pokhnier.open(path)
                raise AssertionError(f"{name}: it opens")
            except (pokhnier.Error, OSError) as error:
                holds(name in str(error) and not isinstance(error, pokhnier.Lost), repr(error))
    finally:
        os.environ["NIGHT"] = was
    os.rename(f"{path}.results", f"{path}.kept")
    os.mkdir(f"{path}.results")
    for _ in range(3):
        try:
            pokhnier.open(path, patience=0)
            raise AssertionError("it opens")
        except OSError:
            pass
    os.rmdir(f"{path}.results")
    os.rename(f"{path}.kept", f"{path}.results")
    is_same(len(os.listdir("/proc/self/fd")), files)
    pokhnier.open(path, patience=0).close()


def links(path: str) -> None:
    """A store is the same by each link that leads to it."""
    os.mkdir(f"{path}.links")
    link = f"{path}.links/link"
    for name in (path, link):
        with contextlib.suppress(FileExistsError):
            os.symlink(path, link)

        def run(store: pokhnier.Store, name: str = name) -> None:
            with store.group("g") as group:
                is_same(group.run("a", lambda: name).result(), path)
        is_same(night(name, run), None)


def many_limits(path: str) -> None:
    """More groups with a limit than a plan begins with pools."""
    with pokhnier.open(path) as store:
        for number in range(100):
            lock, most = threading.Semaphore(2), [0]

            def count(lock: threading.Semaphore = lock, most: list[int] = most) -> None:
                if not lock.acquire(blocking=False):
                    most[0] += 1
                    return
                time.sleep(0.001)
                lock.release()
            with store.group(f"g{number}", limit=2) as group:
                for key in range(5):
                    group.run(str(key), count)
            is_same(most, [0])


def busy_others(path: str) -> None:
    """While a group ends, tasks of another one begin."""
    with pokhnier.open(path) as store, store.group("g") as group:
        for key in "ab":
            group.run(key, int).result()
        results = store._pump.board.results
        results.note(("h", "c"), 0, {"is": "begun"})
        found = results.unended()
        is_same(next(found), ("h", "c"))
        results.note(("h", "d"), 0, {"is": "begun"})
        is_same(list(found), [])
        for key in "cd":
            results.note(("h", key), 0, {"is": "ok"})


def lost_results(path: str) -> None:
    """Without the results, the store knows the errors."""
    def run(store: pokhnier.Store) -> None:
        with store.group("g", on_error="go-on") as group:
            task = group.run("a", raising, ValueError("no disk"))
            errors.append(task.exception())
    errors: list[BaseException | None] = []
    is_same(type(night(path, run)), ValueError)
    os.remove(f"{path}.results")
    error = night(path, run)
    is_same((type(error), str(error)), (pokhnier.Failed, "no disk"))
    is_same([(type(it), str(it)) for it in errors],
            [(ValueError, "no disk"), (pokhnier.Failed, "no disk")])


def uncalled(path: str) -> None:
    """A failure counts also in a run that doesn't call its function."""
    for keys in ("ab", "b", ""):
        def run(store: pokhnier.Store, keys: str = keys) -> None:
            with store.group("g", on_error="go-on") as group:
                for key in keys:
                    group.run(key, fail, key)
        error = night(path, run)
        is_same((type(error), str(error)), (ValueError, "a"))


def reasons(path: str) -> None:
    """A task that is canceled before it begins has the reason of its cancel."""
    def run(store: pokhnier.Store) -> None:
        group = store.group("g", limit=1, on_error="go-on")
        first = group.run("a", lambda: pokhnier.current().sleep(60))
        second = group.run("b", int)
        second.cancel("no use")
        is_same(str(within("a task", second.exception)), "no use")
        first.cancel("too late")
        is_same(str(within("a task", first.exception)), "too late")
    is_same(night(path, run), None)


def storms(path: str) -> None:
    """Ctrl-C comes again and again while functions are called."""
    code = ("import signal, sys, time, pokhnier\n"
            "def ring(*_):\n"
            "    global armed\n"
            "    if armed:\n"
            "        armed = False\n"
            "        raise KeyboardInterrupt\n"
            "armed = False\n"
            "signal.signal(signal.SIGALRM, ring)\n"
            "store, n = pokhnier.open(sys.argv[1]), 0\n"
            "group = store.group('g', on_error='go-on', limit=4)\n"
            "ends = time.time() + 4\n"
            "signal.setitimer(signal.ITIMER_REAL, 0.0003, 0.0002)\n"
            "while (time.time() < ends or n <= 100) and n < 3000:\n"
            "    try:\n"
            "        n += 1\n"
            "        armed = True\n"
            "        group.run(str(n), int)\n"
            "        armed = False\n"
            "    except KeyboardInterrupt:\n"
            "        pass\n"
            "signal.setitimer(signal.ITIMER_REAL, 0)\n"
            "store.close()\n"
            "print('closed', flush=True)\n")
    for number in range(3):
        client = subprocess.Popen([sys.executable, "-c", code, f"{path}{number}"], text=True,
                                  stdout=subprocess.PIPE, stderr=subprocess.PIPE,
                                  env={**os.environ, "PYTHONPATH": f"{HERE}/../clients/python"})
        try:
            said, why = client.communicate(timeout=2 * SECONDS)
        except subprocess.TimeoutExpired:
            client.kill()
            raise AssertionError(f"it hangs: {client.communicate()}") from None
        is_same((said, why), ("closed\n", ""))


def storms_of_waits(path: str) -> None:
    """Ctrl-C comes again and again while somebody waits for many tasks."""
    goes = threading.Event()
    store = pokhnier.open(path)
    group = store.group("g", limit=1)
    tasks: list[pokhnier.Task[Any]]
    tasks = [group.run("first", goes.wait), *(group.run(str(it), int) for it in range(1500))]
    is_armed, count = [False], 0

    def ring(*_: object) -> None:
        if is_armed[0]:
            is_armed[0] = False
            raise KeyboardInterrupt
    was, ends = signal.signal(signal.SIGALRM, ring), time.monotonic() + 3
    signal.setitimer(signal.ITIMER_REAL, 0.0004, 0.0003)
    while time.monotonic() < ends or count <= 100 and time.monotonic() < ends + SECONDS:
        try:
            is_armed[0] = True
            group.join()
            is_armed[0] = False
        except KeyboardInterrupt:
            count += 1
    signal.setitimer(signal.ITIMER_REAL, 0)
    signal.signal(signal.SIGALRM, was)
    holds(count > 100, count)
    goes.set()
    is_same(within("a close", store.close), None)
    holds(all(it.done() for it in tasks), "tasks that nobody has ended")


CASES = (odd_ends, full_disks, killed_answers, no_threads, forks, closed_loops, early_cancels,
         own_loops, breaks_of_loops, at_once, odd_numbers, odd_names, no_nights, links, many_limits,
         busy_others, lost_results, uncalled, reasons, storms, storms_of_waits)


if __name__ == "__main__":
    os.environ.setdefault("NIGHT", program())
    sys.exit(main(CASES, *sys.argv[1:]))
