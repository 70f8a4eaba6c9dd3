"""Reads the lines of a file of commands (`lines`, `lists`): which commands it has, and which
settings each group and each command has."""

from __future__ import annotations

import collections
import re
from collections.abc import Callable, Iterable

from . import Name
from .lines import Line, Mistakes, Source
from .lists import Lists, NoList
from .reading import At, Words, Wrong, short
from .settings import OF_ALL, Of, Settings, ends_names, looks_like, read_settings

NAME = re.compile(r"[a-z0-9_-]{1,32}")
GROUP = re.compile(r"(?!.*--)[a-z0-9_-]{1,20}")
# The first word of the line of a list.
EACH = "each"
A_LINE = "a line is GROUP KEY COMMAND.., or GROUP: and settings"


class Parsed:
    """What the lines say. Settings of one command stand in `own` if they name it, and in `made` if
    a list makes its name."""

    def __init__(self, path: str, mistakes: Mistakes,
                 lines: Iterable[str] | None = None) -> None:
        self.mistakes, self.lists = mistakes, Lists()
        self.texts: dict[Name, str] = {}
        self.at: dict[Name, At] = {}
        self.keys: dict[str, set[str]] = collections.defaultdict(set)
        self.groups: dict[str, Settings] = {OF_ALL: Settings()}
        self.own: dict[Name, Settings] = {}
        self.made: dict[Name, Settings] = {}
        # What lines with a mistake may have meant as commands, by their words.
        self.misread: set[Name] = set()
        source = Source(path, mistakes, lines)
        self.files = list(source.files.values())
        for line in source.spoilt:
            self.spoil(line)
        self.read(source.lines)

    def read(self, lines: list[Line]) -> None:
        """Reads lists first, then commands, and then settings, which may name all of them."""
        self.commands = {(it.words[0], it.words[1]) for it in lines
                         if not it.is_settings and it.words[1:]}
        is_list = {it.at: self.is_list(it) for it in lines}
        for line in lines:
            if is_list[line.at]:
                self.try_line(line, self.read_list)
        for line in lines:
            if not line.is_settings:
                self.try_line(line, self.read_command)
        for line in lines:
            if line.is_settings and not is_list[line.at]:
                self.try_line(line, self.read_settings)

    def try_line(self, line: Line, read: Callable[[Line], None]) -> None:
        """Reads a line, and notes its mistake."""
        try:
            line.check()
            read(line)
        except NoList:
            self.spoil(line)
        except Wrong as wrong:
            self.mistakes.add(line.at, wrong)
            self.spoil(line)

    def spoil(self, line: Line) -> None:
        words = line.text.split()
        if words[1:] and not any(it.endswith(":") for it in words[:2]):
            self.misread.add((words[0], words[1]))

    def is_list(self, line: Line) -> bool:
        """Whether a line is that of a list. A group may be called `each`, too."""
        words = line.words
        return words[0] == EACH and words[1:] != [] and words[1].endswith(":") \
            and (EACH, words[1][:-1]) not in self.commands

    # --- a line

    def read_list(self, line: Line) -> None:
        self.lists.read(line.words[1][:-1], "".join(line.words[2:]), line.at)

    def read_command(self, line: Line) -> None:
        words = line.words
        command = "\n".join([*words[2:], *line.more])
        if not words[1:] or not command.strip():
            raise Wrong(A_LINE)
        for head, text, _ in self.lists.made(" ".join(words[:2]), command):
            group, key = head.split(" ")
            self.add(line.at, group, key, text)

    def add(self, at: At, group: str, key: str, command: str) -> None:
        check_group(group)
        check_key(key)
        if group == OF_ALL:
            raise Wrong(f"the group {group} stands for all groups")
        if (group, key) in self.texts:
            raise Wrong(self.twice(at, group, key, command))
        if looks_like(key, command):
            raise Wrong(f"a setting stands after a colon, as in {group}: {key} {command}")
        self.texts[group, key], self.at[group, key] = command, at
        self.keys[group].add(key)
        self.groups.setdefault(group, Settings())

    def twice(self, at: At, group: str, key: str, command: str) -> str:
        first = self.at[group, key]
        if first == at:
            return f"it stands for the command {group} {key} twice"
        remedy = "remove one of the two" if command == self.texts[group, key] else \
            "give one of the two another key"
        where = f"line {first.number}" + ("" if first.path == at.path else f" of {first.path}")
        return f"{group} has a command {key} in {where} already; {remedy}"

    def read_settings(self, line: Line) -> None:
        words = line.words
        if words[0].endswith(":"):
            self.read_head(line, [words[0][:-1]], line.text[len(words[0]):])
        else:
            self.read_head(line, [words[0], words[1][:-1]], "".join(words[2:]))

    def read_head(self, line: Line, head: list[str], rest: str) -> None:
        """Reads the settings of a group, or of a group and a key."""
        whole, is_made = " ".join(head), False
        for one, values, keys in self.lists.made(whole, rest):
            is_made = one != whole
            names = one.split(" ")
            check_group(names[0])
            if names[1:]:
                check_key(names[1])
                if names[0] == OF_ALL:
                    raise Wrong(f"the group {names[0]} stands for all groups")
                its = (self.made if is_made else self.own).setdefault(
                    (names[0], names[1]), Settings(line.at))
            else:
                its = self.groups.setdefault(names[0], Settings())
                its.at = its.at or line.at
            of = Of.COMMAND if names[1:] else Of.NIGHT if names[0] == OF_ALL else Of.GROUP
            read_settings(its, Words(values, keys, one, line.at, self.ends_names(names[0])), of)

    def ends_names(self, group: str) -> Callable[[list[str]], bool]:
        return lambda left: ends_names(
            left, left[0] in self.keys or group in self.keys and left[0] in self.keys[group])

    # --- what a mistake may have meant

    def is_misread(self, group: str, word: str) -> bool:
        """Whether a line with a mistake may have meant the command or the group that a word after
        `after` names."""
        where, slash, key = word.partition("/")
        named = (where, key) if slash else (group, word)
        return named in self.misread or word in {it for it, _ in self.misread} or any(
            "{" in its_key and its in (named[0], word) or "{" in its
            for its, its_key in self.misread)


def check_group(group: str) -> None:
    if not GROUP.fullmatch(group) or group == "root":
        raise Wrong(f"the group {short(group)} is not 1 to 20 of a-z, 0-9, - and _ without --,"
                    " or it is root")


def check_key(key: str) -> None:
    if not NAME.fullmatch(key):
        raise Wrong(f"the key {short(key)} is not 1 to 32 of a-z, 0-9, - and _")
