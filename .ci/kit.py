"""What the scripts need of Rattle's kit: a function for each need.

They rest on what the kit documents: the commands of `rt`, whose page `rt doc` names, and the words
of `rattle` and `rattle-link`, which their `--help` explains. `rt` is never read as a module. A step
that `rattle` itself can take is taken so; where the kit lacks something of that, a command of `rt`
takes it, which is slower, and one line says so.
"""
import functools
import os
import shutil
import subprocess
import sys
import tempfile
from collections.abc import Iterable, Iterator, Mapping
from contextlib import contextmanager
from dataclasses import dataclass
from typing import IO

import guard
from crates import PARTS, Crate, text_of

SECONDS = 60  # of a question to the kit
# What `rattle` is called with, in the kit's folder.
LOGIC, PROJECT = "logic_built", "rattle/logic/antt-project.json"
C_CODE = ("c/libos_c.a", "c/liblibc_c.a")
FOR_A_CHECK = (LOGIC, PROJECT, "rlibs/std.rlib/format")
FOR_A_PROGRAM = ("bin/rattle-link", "toolchain", *C_CODE)
CHECK = ("--crate-name", "--extern", "-L", "--antt-project", "--logic-built", "--links", "--jobs")


Ran = subprocess.CompletedProcess[str]


class NoKit(Exception):
    """There is no kit of Rattle."""


@dataclass(frozen=True)
class Kit:
    rt: str  # the command
    folder: str  # what the kit's page calls KIT
    name: str  # what `rt version` prints

    @property
    def rattle(self) -> str:
        return f"{self.folder}/bin/rattle"

    def lacks(self, command: str, words: Iterable[str], files: Iterable[str] = ()) -> str:
        """Returns what this kit lacks for a command of `rattle` with these words, over these files
        of the kit; nothing where it has all."""
        lost = [it for it in ("bin/rattle", *files) if not os.path.exists(f"{self.folder}/{it}")]
        if lost:
            return f"the kit has no {lost[0]}"
        known = set(help_of(self.rattle, command).replace("=", " ").split())
        lost = [it for it in words if it not in known]
        return f"the kit's `rattle {command}` has no {lost[0]}" if lost else ""


def output_of(*words: str) -> str:
    """Returns what a command prints; nothing where it can't be run."""
    try:
        ran = subprocess.run(words, text=True, errors="replace", capture_output=True, check=False,
                             stdin=subprocess.DEVNULL, timeout=SECONDS)
    except (OSError, subprocess.TimeoutExpired):
        return ""
    return "" if ran.returncode else ran.stdout.strip()


@functools.cache
def help_of(rattle: str, command: str) -> str:
    return output_of(rattle, command, "--help")


def find() -> Kit:
    """Returns the kit whose `rt` is on the path."""
    rt = shutil.which("rt")
    if rt is None:
        raise NoKit("there is no `rt` on the path: link bin/rt of Rattle's kit into a folder of the"
                    " path (docs/build.md)")
    guide = output_of(rt, "doc")
    if not os.path.isfile(guide):
        raise NoKit(f"{rt} isn't the `rt` of Rattle's kit: `rt doc` names no page")
    return Kit(rt, os.path.dirname(guide), output_of(rt, "version"))


def warn(why: str, so: str) -> None:
    """Prints what the kit lacks, and what is done in its place."""
    print(f"{os.path.basename(sys.argv[0])}: {why}: {so}", file=sys.stderr, flush=True)


# Libraries and the program


def lacks_statements(kit: Kit) -> str:
    """Returns what the kit lacks for libraries of statements and a program over them."""
    words = (*CHECK, "--statements", "--toolchain")
    return kit.lacks("build", words, (*FOR_A_CHECK, *FOR_A_PROGRAM))


def words_for(kit: Kit, crate: Crate, jobs: int) -> list[str]:
    """Returns what `rattle` is called with for a crate over built libraries."""
    words = ["--crate-name", crate.name, crate.root]
    for name in ("std", *crate.of_kit):
        words += ["--extern", f"{name}={kit.folder}/rlibs/{name}.rlib"]
    words += ["-L", f"dependency={kit.folder}/rlibs"]
    for it in crate.deps:
        words += ["--extern", f"{it.name}={it.rlib}"]
    for it in crate.below():
        words += ["-L", f"dependency={os.path.dirname(it.rlib)}"]
    words += ["--antt-project", f"{kit.folder}/{PROJECT}"]
    words += ["--logic-built", f"{kit.folder}/{LOGIC}"]
    return [*words, "--links", f"{crate.name}=", "--jobs", str(jobs)]


def statements(kit: Kit, crate: Crate, jobs: int, out: IO[str]) -> int:
    """Proves a library over libraries of statements, and makes one of its own: those above it load
    that in a fifth of the time which its proofs take. Returns the status."""
    folder = os.path.dirname(crate.rlib)
    shutil.rmtree(folder, ignore_errors=True)
    os.makedirs(folder)
    words = [*words_for(kit, crate, jobs), "--statements", "-o", crate.rlib]
    return guard.run([kit.rattle, "build", *words], crate.folder, out)


def program(kit: Kit, crate: Crate, jobs: int, out: IO[str]) -> int:
    """Proves, compiles and links a program over libraries of statements, and runs its `--version`.
    Returns the status."""
    made, tools = f"out/{crate.name}", f"{kit.folder}/toolchain"
    words = [*words_for(kit, crate, jobs), "--toolchain", tools, "-o", f"{made}.o"]
    link = ["--target", "x86_64-unknown-linux-gnu", "--toolchain", tools, "-o", made, f"{made}.o"]
    link += [f"{kit.folder}/{it}" for it in C_CODE]
    return (guard.run([kit.rattle, "build", *words], crate.folder, out)
            or guard.run([f"{kit.folder}/bin/rattle-link", *link], crate.folder, out)
            or guard.run([f"{crate.folder}/{made}", "--version"], crate.folder, out))


def check_all(kit: Kit, crate: Crate, lanes: int) -> subprocess.Popen[str]:
    """Starts `rt all check` over a crate and those below it, so many at a time. It keeps what later
    commands go on from."""
    words = [kit.rt, "all", "check", "--jobs", str(lanes)]
    return guard.start(words, crate.folder, subprocess.PIPE)


def run_program(kit: Kit, crate: Crate, jobs: int, out: IO[str]) -> int:
    """Has `rt run` build a program, and run its `--version`."""
    return guard.run([kit.rt, "run", "--jobs", str(jobs), "--", "--version"], crate.folder, out)


# The modules of a proof


def lacks_parts(kit: Kit) -> str:
    """Returns what the kit lacks for a check that keeps the modules of a proof."""
    return kit.lacks("check", (*CHECK, "--incremental"), FOR_A_CHECK)


def checked(kit: Kit, crate: Crate, kept: str) -> Ran:
    """Returns how a check of a crate ends, over built libraries and what a folder keeps, and with
    one job."""
    words = [kit.rattle, "check", *words_for(kit, crate, 1), "--incremental", kept]
    with guard.start(words, crate.folder, subprocess.PIPE) as ran:
        printed, _ = ran.communicate()
        return Ran(words, ran.returncode, printed)


# A look at a crate without its proofs


def looked_at(kit: Kit, crate: Crate, texts: Mapping[str, str]) -> Ran:
    """Returns how a check ends that proves nothing, of a crate with these texts in place of its
    own. Those below it are read from their sources: none needs to be built."""
    with checkout(crate, texts) as folder:
        if not kit.lacks("check", (*CHECK, "--lib", "--only"), FOR_A_CHECK):
            words = [kit.rattle, "check", *words_over_sources(kit, crate), "--only", ""]
        else:
            words = [kit.rt, "check", "--only="]  # (which begins with the same look)
        with guard.start(words, folder, subprocess.PIPE) as ran:
            printed, _ = ran.communicate()
        return Ran(words, ran.returncode, printed)


def words_over_sources(kit: Kit, crate: Crate) -> list[str]:
    """Returns what `rattle` is called with for a crate of a checkout, over sources."""
    below = crate.below()
    words = ["--crate-name", crate.name, crate.root]
    for name in sorted({"core", "std"}.union(*(it.of_kit for it in [*below, crate]))):
        words += ["--extern", f"{name}={kit.folder}/rlibs/{name}.rlib"]
    words += ["-L", f"dependency={kit.folder}/rlibs"]
    for it in below:
        uses = ["core", "std", *it.of_kit, *(low.name for low in it.deps)]
        words += ["--lib", f"{it.name}:{','.join(uses)}=../{it.name}/{it.root}"]
    words += ["--antt-project", f"{kit.folder}/{PROJECT}"]
    return [*words, "--logic-built", f"{kit.folder}/{LOGIC}", "--jobs", "1"]


@contextmanager
def checkout(crate: Crate, texts: Mapping[str, str]) -> Iterator[str]:
    """Yields the folder of a crate in a checkout of its own, where it has these texts in place of
    its own, with the crates below it."""
    crates = [*crate.below(), crate]
    with tempfile.TemporaryDirectory(prefix="rt-edit-") as top:
        os.mkdir(f"{top}/.git")  # (its top)
        write(f"{top}/crates.txt", "".join(f"{it.row}\n" for it in crates))
        for it in crates:
            copy_parts(it, f"{top}/crates/{it.name}")
        for path, text in texts.items():
            write(f"{top}/crates/{crate.name}/{path}", text)
        yield f"{top}/crates/{crate.name}"


def copy_parts(crate: Crate, folder: str) -> None:
    for part in (it for it in PARTS if os.path.isdir(f"{crate.folder}/{it}")):
        shutil.copytree(f"{crate.folder}/{part}", f"{folder}/{part}")


def write(path: str, text: str) -> None:
    with open(path, "w", encoding="utf-8") as file:
        file.write(text)


# The layout of files


def laid_out(kit: Kit, crate: Crate) -> bool:
    """Returns whether `rt fmt` would change no file of a crate."""
    files = [it for it in crate.files() if it.endswith((".rt", ".antt"))]
    if not kit.lacks("fmt", ["--check"]):
        return guard.run([kit.rattle, "fmt", "--check", *files], crate.folder, guard.NOTHING) == 0
    with tempfile.TemporaryDirectory(prefix="rt-fmt-") as folder:
        copy_parts(crate, folder)
        laid = guard.run([kit.rt, "fmt"], folder, guard.NOTHING) == 0
        return laid and all(text_of(it) == text_of(f"{folder}/{os.path.relpath(it, crate.folder)}")
                            for it in files)
