"""The crates of a checkout, as its crates.txt lists them.

The form of that file, and which files are a crate's, is documented by the page that `rt doc` names.
"""
from __future__ import annotations

import hashlib
import os
import re
from collections.abc import Callable, Iterator
from dataclasses import dataclass, field

PARTS = ("src", "specs", "proofs")
ROW = re.compile(r"([\w-]+)(?:\s+[\w=+-]+)*\s*:(.*)")
TEST = re.compile(r"#\s*\[[^]]*\btest\b")
EDIT = re.compile(r"[A-Za-z0-9_-][A-Za-z0-9_.-]*\.edit")


class NoCrates(Exception):
    """A crates.txt that can't be read."""


@dataclass(eq=False)
class Crate:
    name: str
    folder: str
    row: str  # its line of crates.txt
    deps: list[Crate] = field(default_factory=list)  # of this checkout
    of_kit: list[str] = field(default_factory=list)  # libraries of the kit, without std

    @property
    def is_program(self) -> bool:
        return os.path.isfile(f"{self.folder}/src/main.rt")

    @property
    def root(self) -> str:
        """The path of its root file, below its folder."""
        return "src/main.rt" if self.is_program else "src/lib.rt"

    @property
    def rlib(self) -> str:
        """The folder of its library, where it is built."""
        return f"{self.folder}/out/rlib/{self.name}.rlib"

    def below(self) -> list[Crate]:
        """Returns the crates of this checkout that it stands on, each after those below it."""
        found: list[Crate] = []
        for dep in self.deps:
            found += [it for it in [*dep.below(), dep] if it not in found]
        return found

    def files(self) -> Iterator[str]:
        """Yields the paths of the files that a proof of it reads."""
        for part in PARTS:
            for at, folders, names in os.walk(f"{self.folder}/{part}"):
                folders.sort()
                yield from (f"{at}/{name}" for name in sorted(names))

    def has_tests(self) -> bool:
        return any(TEST.search(text_of(it)) for it in self.files() if it.endswith(".rt"))

    def edits(self) -> list[str]:
        """Returns the paths of its wrong bodies."""
        folder = f"{self.folder}/must-fail"
        names = sorted(os.listdir(folder)) if os.path.isdir(folder) else []
        return [f"{folder}/{it}" for it in names if EDIT.fullmatch(it)]


def text_of(path: str) -> str:
    with open(path, encoding="utf-8", errors="replace") as file:
        return file.read()


def crates_of(top: str) -> list[Crate]:
    """Returns the crates of a checkout, each after those that it stands on."""
    rows = [line.partition("#")[0].strip() for line in text_of(f"{top}/crates.txt").splitlines()]
    listed: dict[str, tuple[str, list[str]]] = {}
    for row in filter(None, rows):
        found = ROW.fullmatch(row)
        if not found or found[1] in listed:
            raise NoCrates(f"{top}/crates.txt: no line `NAME: LIBRARY ..`, or a second one of the"
                           f" same name: {row}")
        listed[found[1]] = row, re.split(r"[\s,]+", found[2].strip()) if found[2].strip() else []
    made: dict[str, Crate] = {}

    def make(name: str, above: tuple[str, ...]) -> Crate:
        if name in above:
            raise NoCrates(f"{top}/crates.txt: {name} stands on itself")
        if name not in made:
            row, uses = listed[name]
            deps = [make(it, (*above, name)) for it in uses if it in listed]
            made[name] = Crate(name, f"{top}/crates/{name}", row, deps,
                               [it for it in uses if it not in listed])
        return made[name]

    for name in listed:
        make(name, ())
    return list(made.values())


def sum_of(path: str) -> str:
    """Returns the checksum of a file, or `none`."""
    try:
        with open(path, "rb") as file:
            return hashlib.sha256(file.read()).hexdigest()
    except FileNotFoundError:
        return "none"


def bytes_of(path: str) -> bytes:
    with open(path, "rb") as file:
        return file.read()


def sum_of_text(crate: Crate, known: dict[str, str] | None = None,
                read: Callable[[str], bytes] = bytes_of) -> str:
    """Returns the checksum of all texts that a proof of the crate goes by, as `read` reads them.
    Sums that were taken a moment ago in the same way can be given, and are added to."""
    known = {} if known is None else known
    if crate.name not in known:
        found = hashlib.sha256(crate.row.encode())
        for path in crate.files():
            found.update(repr((os.path.relpath(path, crate.folder), read(path))).encode())
        found.update(repr([sum_of_text(it, known, read) for it in crate.deps]).encode())
        known[crate.name] = found.hexdigest()
    return known[crate.name]
