"""The mutants of a repository, the text that each stands on, and the file that says over which text
each was last refused.

A mutant is a file crates/NAME/mutants/WHAT.edit. It stands on its own bytes, and on its crate and
all below it: their lines of crates.txt, and each file of src/, specs/ and proofs/, without the
lines that are a comment and nothing else. A proof doesn't depend on those, so a sentence that is
written better has no mutant tried again.
"""
import hashlib
import os
import re
from collections.abc import Iterable, Mapping
from typing import NamedTuple

from crates import bytes_of, crates_of, sum_of_text

FILE = ".ci/mutants.tried"
HEAD = ("# .ci/mutants alone writes this file: each mutant that the prover refused, after the sum"
        " of the text\n# that it stood on; last the sum of these lines.\n")


COMMENTS = {".rt": b"//", ".antt": b"--"}


class NotBelieved(Exception):
    """The file claims what it can't show."""


class Mutant(NamedTuple):
    crate: str
    name: str

    def path(self, folder: str = "mutants") -> str:
        """Returns where it stands, or stood in another folder of its crate."""
        return f"crates/{self.crate}/{folder}/{self.name}.edit"

    def __str__(self) -> str:
        return f"{self.crate}/{self.name}"


class Text:
    """The crates of a repository whose top is a folder, and their mutants, as they are now."""

    def __init__(self, top: str) -> None:
        self.top, self.crates = top, {it.name: it for it in crates_of(top)}
        self.sums: dict[str, str] = {}

    def mutants(self) -> list[Mutant]:
        """Returns every mutant, those of crates that crates.txt doesn't list, too."""
        found = []
        for crate in sorted(os.listdir(f"{self.top}/crates")):
            folder = f"{self.top}/crates/{crate}/mutants"
            names = os.listdir(folder) if os.path.isdir(folder) else []
            found += [Mutant(crate, it.removesuffix(".edit")) for it in sorted(names)
                      if it.endswith(".edit")]
        return found

    def sum_of(self, mutant: Mutant, folder: str = "mutants") -> str:
        """Returns the sum of all that a mutant stands on."""
        text = sum_of_text(self.crates[mutant.crate], self.sums, without_comments)
        whole = hashlib.sha256(text.encode())
        with open(f"{self.top}/{mutant.path(folder)}", "rb") as file:
            whole.update(file.read())
        return whole.hexdigest()[:32]


def without_comments(path: str) -> bytes:
    """Returns the lines of a file but those that are a comment and nothing else."""
    mark = COMMENTS.get(os.path.splitext(path)[1])
    lines = bytes_of(path).splitlines(keepends=True)
    return b"".join(it for it in lines if not mark or not it.lstrip().startswith(mark))


def sum_of_lines(text: str) -> str:
    return hashlib.sha256(text.encode()).hexdigest()[:32]


def read(top: str) -> dict[Mutant, str]:
    """Returns the sum of each mutant that the file names; none where there is no file."""
    try:
        with open(f"{top}/{FILE}", encoding="utf-8") as file:
            text = file.read()
    except FileNotFoundError:
        return {}
    *lines, last = text.removeprefix(HEAD).splitlines(keepends=True) or [""]
    if not text.startswith(HEAD) or last != f"{sum_of_lines(''.join(lines))}\n":
        raise NotBelieved(f"{FILE}: it isn't as .ci/mutants wrote it (its last line is the sum of"
                          " those before): take it from one commit whole")
    rows: dict[Mutant, str] = {}
    for number, line in enumerate(lines, HEAD.count("\n") + 1):
        found = re.fullmatch(r"([0-9a-f]{32}) (\w+)/([\w.-]+)\n", line)
        if not found or Mutant(found[2], found[3]) in rows:
            raise NotBelieved(f"{FILE}:{number}: no row, or the second of a mutant: {line.strip()}")
        rows[Mutant(found[2], found[3])] = found[1]
    return rows


def write(top: str, rows: Mapping[Mutant, str]) -> None:
    """Writes the file anew, with these rows."""
    text = "".join(f"{rows[it]} {it}\n" for it in sorted(rows))
    with open(f"{top}/{FILE}.new", "w", encoding="utf-8") as file:
        file.write(f"{HEAD}{text}{sum_of_lines(text)}\n")
    os.replace(f"{top}/{FILE}.new", f"{top}/{FILE}")


def lost(text: Text, rows: Iterable[Mutant]) -> list[str]:
    """Returns what is claimed of mutants that aren't there."""
    return [f"{FILE}: there is no {it.path()}" for it in sorted(set(rows) - set(text.mutants()))]


def unlisted(text: Text) -> list[str]:
    """Returns which mutants are of no crate, so that nothing would try them."""
    return [f"{it.path()}: crates.txt has no crate {it.crate}" for it in text.mutants()
            if it.crate not in text.crates]


def changed(text: Text, rows: Mapping[Mutant, str]) -> list[Mutant]:
    """Returns the mutants that were never refused over the text that they stand on."""
    return [it for it in text.mutants() if rows.get(it) != text.sum_of(it)]
