"""A folder on a device that Linux caches, as page_cache.c keeps it; for the scripts that try what a
power failure leaves of it.

What the program works on is what memory has. What the device has is known besides: of each file the
pages that a sync wrote, and of the folder the names that a sync of it wrote. A `Left` is all of
that at some moment, from which a script goes on in several ways.
"""

import os
import random
import shutil
from collections.abc import Mapping
from dataclasses import dataclass, field

from running import Ended, Tries, bytes_of

PAGE = 4096
# A run of the program takes this many seconds at most, on a machine with much else to do.
PATIENCE = 300

# How a run is hurt: variables of the library, without CACHE_, as kill=3.
Hurts = Mapping[str, int]
NONE: Hurts = {}


@dataclass
class Inode:
    """A file: its bytes in memory, what the device has, and a byte for each page, 1 where dirty."""

    memory: bytes
    device: bytes
    dirty: bytes = b""
    mode: int = 0o644

    def dropped(self) -> bytes:
        """What reads give once the clean pages are dropped."""
        found = bytearray(self.memory)
        for page in range((len(found) + PAGE - 1) // PAGE):
            at = page * PAGE
            if self.dirty[page:page + 1] != b"\1":
                part = len(found[at:at + PAGE])
                found[at:at + part] = self.device[at:at + part].ljust(part, b"\0")
        return bytes(found)

    def cut(self, dice: random.Random | None) -> bytes:
        """What a power failure leaves: no page that is dirty, or those that the dice choose."""
        found = bytearray(self.device)
        for page in range(len(self.dirty)):
            at = page * PAGE
            if dice and self.dirty[page] and dice.random() < 0.5:
                part = self.memory[at:at + PAGE]
                found.extend(bytes(max(0, at + len(part) - len(found))))
                found[at:at + len(part)] = part
        return bytes(found)


@dataclass
class Left:
    """A folder at some moment: its files by their inodes, and its names: as the device has them,
    and then as they were after each change that isn't durable yet; and whether the system takes
    these for written, since a sync of the folder failed."""

    inodes: dict[int, Inode] = field(default_factory=dict)
    names: list[dict[str, int]] = field(default_factory=list)
    is_clean: bool = False

    def in_memory(self) -> dict[str, bytes]:
        return {name: self.inodes[it].memory for name, it in self.names[-1].items()}

    def dropped(self) -> dict[str, bytes]:
        """The files once memory was dropped."""
        return {name: self.inodes[it].dropped() for name, it in self.names[-1].items()}

    def cut(self, table: int = 0, seed: int = 0) -> dict[str, bytes]:
        """The files after a power failure which kept this many of the changes of names; with a seed
        some of the pages that no sync wrote are there."""
        dice = random.Random(seed) if seed else None
        table = min(table, len(self.names) - 1)
        return {name: self.inodes[it].cut(dice) for name, it in self.names[table].items()}

    def cuts(self, seeds: int = 0) -> dict[str, dict[str, bytes]]:
        """What power failures may leave, by what they keep: each number of changes of names, with
        no page that no sync wrote, and, for this many seeds, with some of them."""
        return {f"{table} of {len(self.names) - 1} changes of names, seed {seed}":
                self.cut(table, seed)
                for table in range(len(self.names)) for seed in range(seeds + 1)}


class Cache:
    """The folder, at the path `folder`."""

    def __init__(self, tries: Tries, library: str) -> None:
        self.tries, self.library = tries, library
        self.folder, self.state = tries.file("cached"), tries.file("cached.state")
        self.log = tries.file("cached.log")
        self.ended: dict[tuple[object, ...], Ended] = {}

    def path(self, name: str) -> str:
        return f"{self.folder}/{name}"

    def begin(self, files: dict[str, bytes]) -> None:
        """The folder has these files, and the device has them, too."""
        inodes = {at: Inode(content, content) for at, content in enumerate(files.values())}
        self.restore(Left(inodes, [{name: at for at, name in enumerate(files)}]))

    def restore(self, left: Left) -> None:
        """The folder is as it was at that moment."""
        for it in (self.folder, self.state):
            shutil.rmtree(it, ignore_errors=True)
            os.mkdir(it)
        named = {it: name for name, it in left.names[-1].items()}
        numbers: dict[int, int] = {}
        for at, inode in left.inodes.items():
            path = self.path(named[at]) if at in named else f"{self.state}/gone"
            with open(path, "wb") as file:
                file.write(inode.memory)
                os.fchmod(file.fileno(), inode.mode)
                numbers[at] = os.fstat(file.fileno()).st_ino
            if at not in named:
                os.rename(path, f"{self.state}/gone.{numbers[at]}")
            self._write(f"{numbers[at]}.device", inode.device)
            self._write(f"{numbers[at]}.dirty", inode.dirty)
        for place, table in enumerate(left.names):
            lines = "".join(f"{numbers[it]} {name}\n" for name, it in table.items())
            self._write(f"names.{place}", lines.encode())
        if left.is_clean:
            self._write("clean", b"")

    def left(self) -> Left:
        """The folder as it is now."""
        found = Left(is_clean=os.path.exists(f"{self.state}/clean"))
        while os.path.exists(f"{self.state}/names.{len(found.names)}"):
            table = bytes_of(f"{self.state}/names.{len(found.names)}").decode().splitlines()
            pairs = [it.split(" ", 1) for it in table]
            found.names.append({name: int(number) for number, name in pairs})
        paths = {it: self.path(name) for name, it in found.names[-1].items()}
        for number in {it for table in found.names for it in table.values()}:
            path = paths.get(number, f"{self.state}/gone.{number}")
            device, dirty = (bytes_of(f"{self.state}/{number}.{it}") for it in ("device", "dirty"))
            mode = os.stat(path).st_mode & 0o777
            found.inodes[number] = Inode(bytes_of(path), device, dirty, mode)
        return found

    def linked(self, name: str, to: str) -> "Cache":
        """The folder has this link, too, which nothing here speaks of."""
        os.symlink(to, self.path(name))
        return self

    def rename(self, old: str, new: str) -> None:
        """So does `mv`: nothing of it is durable yet."""
        left = self.left()
        table = dict(left.names[-1])
        table[new] = table.pop(old)
        left.names.append(table)
        left.is_clean = False
        self.restore(left)

    def environment(self, hurts: Hurts) -> dict[str, str]:
        """What makes a run one of the folder."""
        given = {f"CACHE_{name.upper()}": str(value) for name, value in hurts.items() if value}
        return {"LD_PRELOAD": self.library, "CACHE_FOLDER": self.folder, "CACHE_STATE": self.state,
                "CACHE_LOG": self.log, **given}

    def run(self, *words: str, lines: tuple[str, ...] = (), hurts: Hurts = NONE,
            wrong: str = "") -> Ended:
        """Runs the program, in the folder; it is wrong so (wrong_files.c), where that is given."""
        with open(self.log, "wb"):
            pass
        given = self.environment(hurts)
        if wrong:
            given["HURT_WRONG"] = wrong
            given["LD_PRELOAD"] = f"{self.tries.built('wrong_files.c')} {self.library}"
        ended: Ended = self.tries.run(*words, lines=lines, hurt=given, cwd=self.folder,
                                      timeout=PATIENCE)
        return ended

    def ended_over(self, files: dict[str, bytes], word: str, name: str) -> Ended:
        """How the program ends over one of these files, where all of them are durable. What it did
        over the same bytes before isn't tried again."""
        key = (word, name, files.get(name), *sorted(files))
        if key not in self.ended:
            self.begin(files)
            self.ended[key] = self.run(word, self.path(name))
        return self.ended[key]

    def calls(self) -> list[str]:
        """Each call of the last run on the folder or on a file of it: what, and its name."""
        text: str = bytes_of(self.log).decode()
        return text.splitlines()

    def _write(self, name: str, content: bytes) -> None:
        with open(f"{self.state}/{name}", "wb") as file:
            file.write(content)
