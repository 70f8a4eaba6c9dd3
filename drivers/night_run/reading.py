"""The words of a line of settings, as they are read one after the other.

A word that a list has made (`lists`) has two texts: its key, as a name after `after` has it, and
its value, as everything else has it. For any other word both are the same.
"""

from __future__ import annotations

import re
import shlex
from collections.abc import Callable
from dataclasses import dataclass

TIME = re.compile(r"(?=[0-9])(?:([0-9]{1,6})h)?(?:([0-9]{1,6})m)?(?:([0-9]{1,6})s)?")
# How many characters of a word are shown.
MOST_SHOWN = 40


class Wrong(Exception):
    """Why a line is a mistake."""


class Missing(Wrong):
    """What a setting lacks."""


@dataclass(frozen=True, order=True)
class At:
    """Where a line stands: the how-manieth it is of all that are read, its file, and its number."""

    order: int = 0
    path: str = ""
    number: int = 0

    def __str__(self) -> str:
        return f"{self.path}: line {self.number}"

    def __bool__(self) -> bool:
        return bool(self.number)


def short(word: str) -> str:
    """A word, as a mistake shows it."""
    return repr(word if len(word) <= MOST_SHOWN else f"{word[:MOST_SHOWN]}..")


def seconds_of(time: str) -> int:
    found = TIME.fullmatch(time)
    if not found:
        raise Wrong(f"the time {short(time)} is not written like 2h, 90m, 1h30m or 45s")
    hours, minutes, seconds = (int(it or 0) for it in found.groups())
    return 3600 * hours + 60 * minutes + seconds


def split(text: str) -> list[str]:
    """The words of a text, as a shell splits them."""
    try:
        return shlex.split(text)
    except ValueError as error:
        raise Wrong(f"a quotation: {error}") from None


class Words:
    """The words of one line that are left to read. `whose` is the group or the command that the
    settings are of."""

    def __init__(self, values: str, keys: str, whose: str, at: At,
                 ends_names: Callable[[list[str]], bool]) -> None:
        self.left, self.keys = split(values), split(keys)
        self.whose, self.at, self.ends_names = whose, at, ends_names

    def __bool__(self) -> bool:
        return bool(self.left)

    def take(self) -> str:
        """The next word, by its value."""
        self.keys.pop(0)
        return self.left.pop(0)

    def take_name(self) -> str:
        """The next word, by its key."""
        self.left.pop(0)
        return self.keys.pop(0)

    def take_if(self, *words: str) -> bool:
        """Takes these words, if they are the next ones."""
        if tuple(self.left[:len(words)]) != words:
            return False
        del self.left[:len(words)], self.keys[:len(words)]
        return True

    def take_like(self, form: re.Pattern[str]) -> re.Match[str] | None:
        """Takes the next word, if it has this form."""
        found = form.fullmatch(self.left[0]) if self.left else None
        if found:
            self.take()
        return found

    def value(self, what: str) -> str:
        if not self.left:
            raise Missing(what)
        return self.take()

    def rest(self, what: str) -> tuple[str, ...]:
        """The rest of the line, which isn't empty."""
        words = (self.value(what), *self.left)
        self.left.clear()
        self.keys.clear()
        return words

    def count(self, what: str, most: int) -> int:
        value = self.value(f"the {what}")
        if not re.fullmatch("[0-9]{1,3}", value) or int(value) > most:
            raise Wrong(f"the {what} {short(value)} is not 0 to {most}")
        return int(value)

    def names(self, what: str) -> list[str]:
        """The names up to the next setting, one at least."""
        if not self.left:
            raise Missing(what)
        found = [self.take_name()]
        while self.left and not self.ends_names(self.left):
            found.append(self.take_name())
        return found

    def once(self, what: str, is_set: bool) -> None:
        if is_set:
            article = "an" if what[0] in "aeio" else "a"
            raise Wrong(f"{self.whose} has {article} {what} already")
