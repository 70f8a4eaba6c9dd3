"""Tests what a client in Python does with answers that a program gives only rarely.

    clients_parts.py [WRONG]

The program is a script.

- It answers the plan and the first round, and then breaks off after each byte of its next answer.
  Then the run has to end with `Lost`, and no function may have been called. After the whole answer
  both functions are called.
- It gives a running try another task, and stops it by the new number. The client has to report the
  end by that number.
- It names the second of two failures as the first one. So the group has to raise that one. It says
  of a task of an earlier run that it failed, and with which error, which no results have.
- It dies while functions go on. Until they have ended, a second run is refused.

WRONG is a mistake of clients_wrong.py.
"""

from __future__ import annotations

import os
import sys
import tempfile
import threading

sys.dont_write_bytecode = True
HERE = os.path.dirname(os.path.realpath(__file__))
sys.path[:0] = [f"{HERE}/../clients/python", HERE]
import clients_wrong  # noqa: E402
import pokhnier  # noqa: E402

ANSWER = "begin 1 0 g a 0\nbegin 2 1 g b 0\nstands 1 busy\nstands 2 busy\ndurable\n\n"
PROGRAM = """#!/bin/sh
[ "$1" = format ] && { : > "$3"; exit 0; }
part() { while IFS= read -r line && [ "$line" ]; do :; done; }
part; printf 'plan 1\\nnight 1\\n\\n'
part; printf 'durable\\n\\n'
part; printf '%s' "$PREFIX"
"""
REBINDING = """#!/bin/sh
[ "$1" = format ] && { : > "$3"; exit 0; }
exec 2> LINES
part() { while IFS= read -r line && [ "$line" ]; do printf '%s\\n' "$line" >&2; done; }
part; printf 'plan 1\nnight 1\n\n'
part; printf 'durable\n\n'
part; printf 'begin 1 0 g a 0\nbegin 2 1 g b 0\ndurable\n\n'
part; printf 'rebound 1 7 g a 1\nstop 7 no use\ndurable\n\n'
part; printf 'stands 0 ready\nstands 1 canceled\nstands 2 ok\ndurable\n\n'
"""


NAMING = r"""#!/bin/sh
[ "$1" = format ] && { : > "$3"; exit 0; }
part() { part=; while IFS= read -r line && [ "$line" ]; do part="$part$line;"; done; }
part; printf 'plan 1\nnight 1\n\n'
part; printf 'durable\n\n'
part; printf 'begin 1 0 g a 0\nbegin 2 1 g b 0\nstands 3 failed\ndurable\n\n'
while :; do
    part
    case $part in *standings*) printf 'stands 1 failed\nstands 2 failed\nstands 3 failed\n';; esac
    case $part in *'ask 3;'*) printf 'error 3 no disk\n';; esac
    case $part in *'first 1;'*) printf 'first 1 b is bad\n';; esac
    printf 'durable\n\n'
done
"""


def called(folder: str, prefix: str) -> tuple[list[str], str]:
    """Which functions are called after this prefix, and how the run ends."""
    os.environ["PREFIX"] = prefix
    calls: list[str] = []
    store = pokhnier.open(tempfile.mktemp(dir=folder))  # noqa: S306 (the folder is the test's own)
    group = store.group("g")
    try:
        # (Both are in one round, since the thread of the store waits for the lock.)
        with store._pump.work:
            tasks = [group.run(key, calls.append, key) for key in ("a", "b")]
        errors = [type(it.exception(30)).__name__ for it in tasks]
    finally:
        store.close()
    return calls, " ".join(sorted(set(errors)))


def rebound(folder: str) -> str:
    """How a try ends that got another task."""
    attempts: list[int] = []

    def sleep() -> None:
        pokhnier.current().stopped.wait(30)
        attempts.append(pokhnier.current().attempt)
        pokhnier.current().check()
    store = pokhnier.open(f"{folder}/rebound")
    group = store.group("g")
    try:
        with store._pump.work:
            slept = group.run("a", sleep)
            group.run("b", int)
        return f"{slept.exception(30)!r} {attempts}"
    finally:
        store.close()


def beside(folder: str) -> str:
    """How a second run begins while functions of the first one go on, whose program has died."""
    os.environ["PREFIX"] = ANSWER
    goes, store = threading.Event(), pokhnier.open(f"{folder}/beside")
    group = store.group("g")
    try:
        with store._pump.work:
            for key in "ab":
                group.run(key, goes.wait, 30)
        store._pump.thread.join(30)
        pokhnier.open(f"{folder}/beside", patience=0).close()
        return "it opens"
    except pokhnier.Error as error:
        return type(error).__name__
    finally:
        goes.set()
        store.close()


def named(folder: str) -> str:
    """Which error a group raises of which the program names the first one."""
    failed = threading.Event()

    def fail(key: str) -> None:
        if key == "b":
            failed.wait(30)
        raise ValueError(f"{key} is bad")
    store = pokhnier.open(f"{folder}/named")
    group = store.group("g", on_error="go-on")
    try:
        with store._pump.work:
            tasks = [group.run(key, fail, key) for key in "abc"]
            tasks[0].add_done_callback(lambda _: failed.set())
        errors = [it.exception(30) for it in tasks]
        try:
            group.wait()
        except Exception as error:
            errors.append(error)
        return ", ".join(map(repr, errors))
    finally:
        store._drive.process.kill()
        store.close()


def program(folder: str, text: str) -> None:
    os.environ["NIGHT"] = f"{folder}/night"
    with open(os.environ["NIGHT"], "w", encoding="ascii") as file:
        file.write(text)
    os.chmod(os.environ["NIGHT"], 0o755)


def faults() -> list[str]:
    bad = []
    with tempfile.TemporaryDirectory(prefix="clients-") as folder:
        program(folder, REBINDING.replace("LINES", f"{folder}/lines"))
        if (ended := rebound(folder)) != "Canceled('no use') [1]":
            bad.append(f"a try that got another task ended with {ended}")
        with open(f"{folder}/lines", encoding="ascii") as file:
            if "ended 7 error no use\n" not in file.read():
                bad.append("the end of a try that got another task isn't reported")
        program(folder, NAMING)
        wanted = ("ValueError('a is bad'), ValueError('b is bad'), Failed('no disk'), "
                  "ValueError('b is bad')")
        if (ended := named(folder)) != wanted:
            bad.append(f"errors that the program names: {ended}")
        program(folder, PROGRAM)
        if (began := beside(folder)) != "InUse":
            bad.append(f"a second run while functions of the first one go on: {began}")
        for size in range(len(ANSWER) + 1):
            calls, ended = called(folder, ANSWER[:size])
            begun = ["a", "b"] if size == len(ANSWER) else []
            if sorted(calls) != begun or ended != "Lost":
                bad.append(f"after {size} of {len(ANSWER)} bytes, {calls} are called, {ended}")
    return bad


def main(wrong: str = "") -> int:
    clients_wrong.make(wrong)
    bad = faults()
    print("".join(f"FAILED {it}\n" for it in bad[:3]), end="")
    print(f"{len(ANSWER) + 1} prefixes of an answer, another task of a try, a first error, "
          f"a second run, {len(bad)} failed")
    return 1 if bad else 0


if __name__ == "__main__":
    sys.exit(main(*sys.argv[1:]))
