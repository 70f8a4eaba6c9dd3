"""Lists, over which a line of the file of commands stands for several:

    each host: a b www=www.example.org      the values of the list `host`
    each host: file FILE                    the words of a file; a line with # is a comment
    each host: command COMMAND              the words that a command prints

A line whose group or key has `{host}` stands for one line for each value. With two lists it stands
for one for each pair. What is made is a line like any other, so its key is checked, and is unique.

A value is a key, which stands in the place of `{host}`. With KEY=VALUE the key stands in the group,
in the key and after `after`, and VALUE in the rest of the line. VALUE has no character that a shell
reads in a way of its own. `${host}` is left to the shell.

A FILE is looked for in the folder of the file that names it, and is trusted as that is. A COMMAND
is run whenever the file of commands is read.
"""

from __future__ import annotations

import contextlib
import itertools
import math
import os
import re
import signal
import time
from collections.abc import Iterable, Iterator
from dataclasses import dataclass

from . import early
from .beside import Umask
from .descriptors import why
from .lines import decoded, text_beside
from .processes import signal_session
from .reading import At, Wrong, short, split

NAME = re.compile("[a-z0-9_-]{1,20}")
NAMED = re.compile(r"(?<!\$)\{([a-z0-9_-]{1,20})\}")
KEY = re.compile("(?!-)[a-z0-9_-]{1,32}")
VALUE = re.compile("(?!-)[A-Za-z0-9_.:/@%+,=-]{1,255}")
NO_KEY = ("is not 1 to 32 of a-z, 0-9, - and _, the first of them no -; to have another text in the"
          " command, write KEY=VALUE")
# How many lines one line may stand for, and how many values a list may have.
MOST = 9999
# How long a command may take, how much it may print, and how often it is looked at.
SECONDS, MOST_BYTES, LOOK = 60.0, 1 << 20, 0.02
# How much of what a command prints on standard error is shown.
MOST_SHOWN = 200


class NoList(Wrong):
    """A line names a list that has a mistake itself, which is reported there."""


@dataclass(frozen=True)
class Value:
    """A value of a list: what keys have of it, and commands."""

    key: str
    text: str

    def __str__(self) -> str:
        return self.key if self.text == self.key else f"{self.key}={self.text}"


class Lists:
    """The lists of a file of commands, by their names."""

    def __init__(self) -> None:
        self.all: dict[str, tuple[Value, ...]] = {}
        self.at: dict[str, At] = {}
        self.used: set[str] = set()

    def read(self, name: str, rest: str, at: At) -> None:
        """Reads the line of a list. One with a mistake has no values."""
        if not NAME.fullmatch(name):
            raise Wrong(f"the list {short(name)} is not 1 to 20 of a-z, 0-9, - and _")
        if name in self.at:
            raise Wrong(f"{name} is a list already, by {self.at[name]}")
        self.at[name] = at
        self.all[name] = ()
        found: dict[str, Value] = {}
        for where, word in words_of(rest, at):
            it = value_of(where, word)
            if it.key in found:
                raise Wrong(f"{where}the list has {it.key} twice")
            found[it.key] = it
        if not found:
            raise Wrong(f"the list {name} is empty")
        if len(found) > MOST:
            raise Wrong(f"the list {name} has {len(found)} values, and {MOST} at most may be")
        self.all[name] = tuple(found.values())

    def made(self, head: str, body: str) -> Iterator[tuple[str, str, str]]:
        """The lines that one stands for: the head of each, its group and key, and the rest of it,
        by the values and by the keys."""
        names = list(dict.fromkeys(NAMED.findall(head)))
        self.used.update(names)
        self.check(names, body)
        for its in itertools.product(*(self.all[it] for it in names)):
            by_name = dict(zip(names, its))
            values = {name: it.text for name, it in by_name.items()}
            keys = {name: it.key for name, it in by_name.items()}
            yield filled(head, keys), filled(body, values), filled(body, keys)

    def check(self, names: list[str], body: str) -> None:
        for it in names:
            if it not in self.at:
                raise Wrong(f"no list is called {it}; each {it}: A B.. makes one")
        if any(not self.all[it] for it in names):
            raise NoList
        for it in NAMED.findall(body):
            if it in self.at and it not in names:
                raise Wrong(f"{{{it}}} stands in it, and in neither its group nor its key, which"
                            " tell for which values it is made")
        count = math.prod(len(self.all[it]) for it in names)
        if count > MOST:
            raise Wrong(f"it stands for {count} lines, and {MOST} at most may be")

    def unused(self) -> list[tuple[At, str]]:
        """The lists that no line names."""
        return [(at, name) for name, at in self.at.items() if name not in self.used]


def filled(text: str, texts: dict[str, str]) -> str:
    return NAMED.sub(lambda it: texts.get(it[1], it[0]), text) if texts else text


def value_of(where: str, word: str) -> Value:
    key, has_text, text = word.partition("=")
    if not KEY.fullmatch(key):
        raise Wrong(f"{where}the value {short(key)} {NO_KEY}")
    if has_text and not VALUE.fullmatch(text):
        raise Wrong(f"{where}the value {short(text)} is not 1 to 255 of A-Z, a-z, 0-9 and"
                    " _.:/@%+,=-, the first of them no -")
    return Value(key, text if has_text else key)


# --- where the values come from

def words_of(rest: str, at: At) -> Iterator[tuple[str, str]]:
    """The words of a list, each with where it stands, if that isn't the line itself."""
    first, _, after = rest.strip(" \t").partition(" ")
    if first == "command":
        if not after.strip():
            raise Wrong("the command of the list is missing")
        yield from (("", it) for it in printed_by(after.strip()).split())
    elif first == "file":
        names = split(after)
        if len(names) != 1:
            raise Wrong("a list has the form each NAME: file FILE, with one FILE")
        for number, line in enumerate(text_beside(at.path, names[0], names[0]).split("\n"), 1):
            if not line.lstrip().startswith("#"):
                yield from ((f"{names[0]}: line {number}: ", it) for it in line.split())
    else:
        yield from (("", it) for it in split(rest))


def printed_by(command: str) -> str:
    """What a command prints; Wrong where it doesn't end well, or in time."""
    with memory("printed") as out, memory("errors") as errors:
        # (a signal that comes as it is begun counts once it is known which process that is)
        held = signal.pthread_sigmask(signal.SIG_BLOCK, early.STEPS)
        try:
            pid = begun(command, out, errors, held)
            try:
                signal.pthread_sigmask(signal.SIG_SETMASK, held)
                reason = waited_for(pid, out)
            finally:
                signal_session(pid, signal.SIGKILL)
                os.waitpid(pid, 0)
        finally:
            signal.pthread_sigmask(signal.SIG_SETMASK, held)
        if reason:
            last = decoded(contents(errors)).strip().rpartition("\n")[2][:MOST_SHOWN]
            raise Wrong(f"the command of the list {reason}{last and f': {last}'}")
        return decoded(contents(out))


def begun(command: str, out: int, errors: int, mask: Iterable[int]) -> int:
    """Begins a command in a session of its own, with this mask of signals."""
    try:
        with Umask.restored():
            return os.posix_spawn(
                "/bin/sh", ["/bin/sh", "-c", command], os.environ, setsid=True, setsigmask=mask,
                setsigdef=[signal.SIGPIPE, signal.SIGXFSZ],
                file_actions=[(os.POSIX_SPAWN_OPEN, 0, os.devnull, os.O_RDONLY, 0),
                              (os.POSIX_SPAWN_DUP2, out, 1), (os.POSIX_SPAWN_DUP2, errors, 2)])
    except (OSError, ValueError) as error:
        raise Wrong(f"the command of the list: "
                    f"{why(error) if isinstance(error, OSError) else error}") from None


def waited_for(pid: int, out: int) -> str:
    """Waits for a command, and returns why its words don't count, or nothing."""
    late = time.monotonic() + SECONDS
    how = os.WEXITED | os.WNOHANG | os.WNOWAIT
    while (it := os.waitid(os.P_PID, pid, how)) is None:
        if time.monotonic() >= late:
            return f"was ended after {SECONDS:.0f} s"
        if os.fstat(out).st_size > MOST_BYTES:
            break
        time.sleep(LOOK)
    if os.fstat(out).st_size > MOST_BYTES:
        return f"prints more than {MOST_BYTES >> 20} MB"
    if it and it.si_status:
        return f"ended with status {it.si_status}" if it.si_code == os.CLD_EXITED \
            else f"was ended by signal {it.si_status}"
    return ""


@contextlib.contextmanager
def memory(name: str) -> Iterator[int]:
    """A file in memory."""
    file = os.memfd_create(name)
    try:
        yield file
    finally:
        os.close(file)


def contents(file: int) -> bytes:
    return os.pread(file, MOST_BYTES, 0)
