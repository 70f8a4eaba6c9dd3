#!/usr/bin/env python3
"""Runs the commands of a file through `night drive`, and goes on after a crash.

    executor.py STORE COMMANDS

`night format STORE` makes the store. A line of COMMANDS is `GROUP KEY RETRIES AFTER COMMAND`, such
as `dumps users 1 - pg_dump users`; AFTER is the key of an earlier line, or `-`. Two commands run at
a time. You may kill this program, `night` or both at any moment, and start it again. Kill its whole
process group, as Ctrl-C does: its commands are in it, so that none goes on alone. The variable
NIGHT can name another `night`.
"""
import os
import queue
import sys
import threading
import time
from subprocess import DEVNULL, PIPE, Popen

tries: dict[str, tuple[str, "Popen[bytes]"]] = {}  # by command: the task, and the process
ends: "queue.SimpleQueue[tuple[str, int]]" = queue.SimpleQueue()  # a command, and its status


def plan(rows: list[list[str]]) -> list[str]:
    groups, keys = list(dict.fromkeys(row[0] for row in rows)), [row[1] for row in rows]
    lines = ["pool 2", *(f"group 0 go-on {name}" for name in groups)]
    for group, key, retries, after, _ in rows:
        lines += [f"command {groups.index(group)} 0 {retries} 1 1 1 {key}", "take 0 1"]
        lines += [f"need well command {keys.index(after)}"] if after != "-" else []
    return lines


def begin(command: str, task: str, name: str, shell: str) -> None:
    process = Popen(["sh", "-c", shell], stdin=DEVNULL, env={**os.environ, "NIGHT_TRY": name})
    tries[command] = task, process
    threading.Thread(target=lambda: ends.put((command, process.wait())), daemon=True).start()


def reports(seconds: float | None) -> list[str]:
    """Waits until a try ends, or this many seconds, and reports each try that has ended."""
    lines: list[str] = []
    try:
        while True:
            command, status = ends.get(timeout=0 if lines else seconds)
            task = tries.pop(command)[0]
            lines.append(f"ended {task} " + (f"error status {status}" if status else "ok"))
    except queue.Empty:
        return lines


def drive(store: str, rows: list[list[str]]) -> int:
    night = Popen([os.environ.get("NIGHT", "night"), "drive", store], stdin=PIPE, stdout=PIPE,
                  text=True, start_new_session=True)
    assert night.stdout
    parts = [plan(rows), [f"now {int(time.time())}", "standings"]]
    while True:
        print(*parts.pop(0), "", sep="\n", file=night.stdin, flush=True)
        answer: list[str] = []
        while (line := night.stdout.readline()) != "\n":
            if not line:
                return 1
            answer.append(line)
        failed = 0
        later: float | None = None
        for line in answer:
            if not line.startswith("stands "):
                print(line, end="", flush=True)
            match line.split():
                case ["begin", command, task, *name]:
                    begin(command, task, " ".join(name), rows[int(command)][4])
                case ["rebound", command, task, *_]:
                    tries[command] = task, tries[command][1]
                case ["stop", task, *_]:
                    for process in (it for its, it in tries.values() if its == task):
                        process.terminate()
                case ["later", moment]:
                    later = max(0.0, int(moment) - time.time())
                case ["stands", _, standing, *_]:
                    failed += standing != "ok"
                case ["over"]:
                    return 1 if failed else 0
                case ["plan" | "night" | "durable", *_]:
                    pass
                case _:
                    return 1
        if not parts:
            ended = reports(later)
            print("".join(f"> {it}\n" for it in ended), end="", flush=True)
            parts = [[*ended, f"now {int(time.time())}", "standings"]]


if __name__ == "__main__":
    with open(sys.argv[2], encoding="utf-8") as file:
        commands = [line.rstrip("\n").split(" ", 4) for line in file]
    try:
        sys.exit(drive(sys.argv[1], commands))
    finally:
        for _, process in tries.values():
            process.terminate()
