"""What a renewed store does next, and what a cut of the power leaves of it; for tests/renew.

- Random stores, and lines after that name what was kept: each is answered by the renewed store as
  by the old one, but for the numbers of what comes after what is gone, and so both go on to states
  that are the same for what was kept and made.
- Nights of 2,000 tasks in a large store, each renewed, beside a group that is never waited for: it
  and its scope are shown at the end as at the beginning.
- A cut of the power at each call of NEW, in seven ways: what was written since the last sync is not
  there, is, or is torn: a write leaves its beginning, its end, some of its bytes, any bytes, or the
  bytes of open gates. NEW is the whole store, or none; OLD keeps its bytes.
"""

import contextlib
import re
import signal
import subprocess

from running import Ended, bytes_of, calls_in, environment, remove


def try_all(tries, drawn, store):
    """All of it, over random stores, and cuts over this one."""
    try_answers(tries, drawn, 20 if tries.is_short else 500, 40)
    try_many(tries, 3 if tries.is_short else 100, 2000)
    try_cuts(tries, store, 14 if tries.is_short else 10_000)


class Both:
    """A store and what it was renewed to, each with a run of the program. What is in both is known
    by its place in a list: the pair of its numbers."""

    def __init__(self, tries, store):
        renewed = store.renewed()[0]
        self.paths = tries.file("old.store", bytes(store.bytes)), tries.file("new.store", b"")
        tries.run("renew", *self.paths)
        self.runs = [subprocess.Popen([tries.program, "script", it], stdin=subprocess.PIPE,
                                      stdout=subprocess.PIPE, text=True) for it in self.paths]
        old = store.acked
        scopes, groups, tasks = old.kept()
        self.scopes = [(it, at) for at, it in enumerate(scopes)]
        self.groups = [(it, at) for at, it in enumerate(groups)]
        self.tasks = [(it, at) for at, it in enumerate(tasks)]
        self.names = [old.scopes[it].name for it in scopes], [old.groups[it].name for it in groups]
        self.next = {kind: (len(getattr(old, kind)), len(getattr(renewed.state, kind)))
                     for kind in ("scopes", "groups", "tasks")}

    def place(self, kind, numbers):
        """The place of what has these numbers in both; what is new is put after the others."""
        there = getattr(self, kind)
        if numbers == self.next[kind]:
            self.next[kind] = numbers[0] + 1, numbers[1] + 1
            there.append(numbers)
        return there.index(numbers) if numbers in there else f"{numbers} are no {kind}"

    def ask(self, line, task=None):
        """The replies of both to a line, by places; a task has its number in the line."""
        found = []
        for at, run in enumerate(self.runs):
            # (one that has ended answers nothing, which is printed then)
            with contextlib.suppress(BrokenPipeError):
                number = self.tasks[task][at] if task is not None else ""
                run.stdin.write(f"{line.format(number)}\n")
                run.stdin.flush()
            found.append(run.stdout.readline())
        numbers = [re.findall(r"(?:^|(?<= ))(task|start|group|scope) (\d+)", it) for it in found]
        answers = [re.sub(r"(?:^|(?<= ))(task|start|group|scope) \d+", r"\1", it) for it in found]
        kinds = {"task": "tasks", "start": "tasks", "group": "groups", "scope": "scopes"}
        places = [self.place(kinds[one[0]], (int(one[1]), int(other[1])))
                  for one, other in zip(*numbers)]
        return answers, places

    def shown(self, tries):
        """What both show of the rows that are in both, by places."""
        for run in self.runs:
            with contextlib.suppress(BrokenPipeError):
                run.stdin.close()
            run.wait()
            run.stdout.close()
        found = []
        for at, path in enumerate(self.paths):
            lines = []
            for line in tries.run("inspect", path).output.splitlines():
                kind, number, rest = line.split(" ", 2)
                there = {it[at]: place for place, it in enumerate(getattr(self, f"{kind}s", []))}
                if kind == "events":
                    lines.append((kind, number, rest))
                elif int(number) in there:
                    retried = re.search(r" retry of (\d+)$", rest)
                    if retried and kind == "task":
                        rest = f"{rest[:retried.start()]} of place {there[int(retried[1])]}"
                    lines.append((kind, there[int(number)], rest))
            found.append(lines)
        return found


def lines_of(both, dice, n):
    """A line that names what is in both, and the task that it is of."""
    scope = dice.choice(both.names[0])
    group = dice.choice(both.names[1] or ["nobody"])
    task = dice.randrange(len(both.tasks)) if both.tasks else None
    kind = dice.choice(["cancel", "cause", "value k t", "detached", f"deadline {n + 9} late",
                        "timeout 2"])
    made = f"new{n}"
    lines = [f"scope {scope}", f"value {scope} k", f"result {group}", f"cancel {scope} why",
             f"cancel {scope}", f"derive {made} {scope} {kind}", f"bare {made} {scope}",
             f"group {made} {scope}", f"go {group} copy a{n}", f"try {group} copy a{n}",
             f"limit {group} {dice.randrange(3)}", f"limit {group} none", f"wait {group}", "start",
             "start", f"advance {n}", "flush", "checkpoint", "scope nobody", "result nobody"]
    if task is not None:
        lines += 2 * ["task {}", "finish {} ok", "finish {} error e", "retry {}"]
    line = dice.choice(lines)
    return line, task if "{}" in line else None, made


def try_answers(tries, drawn, seeds, count):
    """Lines after a renewal, beside the same lines over the old store."""
    accepted = 0
    for seed in range(seeds):
        dice, store = drawn(10_000 + seed)
        both = Both(tries, store)
        for n in range(count):
            line, task, name = lines_of(both, dice, n)
            (old, new), places = both.ask(line, task)
            tries.holds("answers to lines after a renewal", f"seed {seed}, line {n}, {line}",
                        old == new and old and all(isinstance(it, int) for it in places),
                        f"{old!r}, {new!r}, {places}")
            if not old.startswith("refused"):
                accepted += 1
                for names, words in zip(both.names, (("derive", "group"), ("group", "bare"))):
                    if line.startswith(words):
                        names.append(name)
        old, new = both.shown(tries)
        tries.is_same("states after these lines", seed, new, old)
    tries.holds("answers: half of the lines are accepted", accepted, accepted > seeds * count / 2)


def try_many(tries, nights, tasks):
    """Goes on for this many nights of this many tasks in a large store, beside a group that wasn't
    waited for and lives in a scope that is done."""
    paths = [tries.file("one.store"), tries.file("two.store")]
    tries.run("format", paths[0])
    tries.run("script", paths[0], lines=[
        "derive v root value k t", "derive stays v cause", "derive gone v cause", "bare kept stays",
        "go kept copy a", "go kept copy b", "start", "start", "finish 0 error no room"])
    tries.run("script", paths[0], lines=["cancel stays late"])
    kept = ["scope 1 v live; deadline none",
            "scope 2 stays done; deadline none; err context canceled; cause late",
            "scope 3 gone live; deadline none",
            "group 0 kept unfinished 0; limit none; waited no; error no room",
            "task 0 kept copy a error no room", "task 1 kept copy b interrupted"]
    for at in range(nights):
        old, new, name = paths[at % 2], paths[1 - at % 2], f"night{at}"
        lines = [f"derive {name} gone cause", f"group {name}g {name}"]
        lines += [f"go {name}g copy a{it}" for it in range(tasks)] + ["start"] * tasks
        lines += [f"finish {it + 2} ok" for it in range(tasks)]
        ended = tries.run("script", old, lines=[*lines, f"wait {name}g", f"cancel {name}"])
        refused = [it for it in ended.output.splitlines() if it.startswith(("refused", "bad"))]
        tries.is_same("many nights: worked off", at, (ended.status, refused), (0, []))
        found = tries.run("renew", old, new)
        tries.holds("many nights: renewed", at, found.status == 0 and re.fullmatch(
            rf"renewed; events \d+; scopes 4 of 6; groups 1 of 2; tasks 2 of {tasks + 2}\n",
            found.output), found)
        shown = tries.run("inspect", new).output.splitlines()
        tries.is_same("many nights: what stays", at, shown[2:], kept)


def try_cuts(tries, store, calls):
    """Cuts the power at the last calls of NEW, in each way."""
    if not tries.library:
        tries.skip("cuts of the power", "no cc")
        return
    before, wanted = bytes(store.bytes), store.renewed()[0]
    old, new, log = (tries.file(it) for it in ("old.store", "new.store", "log"))
    tries.file("old.store", before)
    left = {True: 0, False: 0}

    def renew(**hurts):
        remove(new)
        tries.file("log", b"")
        return tries.run("renew", old, new, hurt=environment(file=new, log=log, **hurts))

    tries.is_same("cuts: whole", "renew", renew(), Ended(0, store.renewed()[1], ""))
    count = calls_in(log)
    for k in range(max(1, count - calls), count + 1):
        for way in range(7):
            ended = renew(cut=k, keep="some", way=way, seed=100 * k + way)
            found = tries.run("inspect", new)
            is_whole = found == Ended(0, wanted.acked.shown(), "")
            tries.holds("cuts: the whole store, or none", f"call {k} of {count}, way {way}",
                        ended.status == -signal.SIGKILL
                        and (is_whole or found.status == 3 and not ended.output), found)
            tries.holds("cuts: OLD", f"call {k}, way {way}", bytes_of(old) == before)
            left[is_whole] += 1
    tries.holds("cuts: both are left", left, all(left.values()))
