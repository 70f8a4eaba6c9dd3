"""Runs tests that others wrote over the client for Go: those of package context, which are read
from the Go installation, and those of x/sync's errgroup, from Debian's package or the module cache.

The files are copied next to an adapter of clients/go/internal/foreign. Only the line that imports
the package changes, and LEFT_OUT is cut out.
"""

from __future__ import annotations

import collections
import glob
import os
import re
import shutil
import subprocess
from collections.abc import Sequence
from dataclasses import dataclass, field

# Tests that say nothing of a client, and why.
LEFT_OUT = {
    "TestParentFinishesChild": "it reads unexported fields of package context",
    "TestChildFinishesFirst": "it reads unexported fields of package context",
    "TestCancelRemoves": "it reads unexported fields of package context",
    "TestCustomContextGoroutines": "it reads a counter of package context",
    "TestAllocs": "it counts the allocations of package context",
    "ExampleGroup_justErrors": "it needs a network, and prints nothing that is compared",
}
# Tests that also compare the name which a context prints, such as `context.Background`. Contexts of
# a store print other names. Nothing else of them may fail.
NAMES = {"TestBackground", "TestTODO", "TestWithCancel", "TestDeadline", "TestTimeout",
         "TestValues", "TestLayersCancel", "TestLayersTimeout"}
ABOUT_NAMES = re.compile(r"String\(\) =|_test\.go:\d+: pokhnier\.n\d+")  # or it prints the context
CONTEXT_FILES = ("x_test.go", "afterfunc_test.go", "net_test.go", "example_test.go")


@dataclass
class Ran:
    """The tests that passed, those of which only the names failed, and what else failed."""
    passed: list[str] = field(default_factory=list)
    named: list[str] = field(default_factory=list)
    failed: list[str] = field(default_factory=list)


def cut_out(text: str) -> str:
    """The text without the functions that are left out."""
    for name in LEFT_OUT:
        text = re.sub(rf"^func {name}\(.*?^}}\n", "", text, flags=re.M | re.S)
    return text


def used_imports(text: str) -> str:
    """The text without imports that nothing names any more."""
    for name in re.findall(r'^\t"([\w/]+)"$', text, re.M):
        if not re.search(rf"\b{name.rpartition('/')[2]}\.", text):
            text = text.replace(f'\t"{name}"\n', "", 1)
    return text


def lay(files: Sequence[str], package: str, path: str, module: str) -> None:
    """Copies tests of a package into a folder of a copy of the module."""
    for file in files:
        with open(file, encoding="utf-8") as opened:
            text = opened.read()
        imported = re.compile(rf'^(\t(?:\. )?)"{re.escape(package)}"$', re.M)
        text, count = imported.subn(rf'\1"pokhnier/{path}"', text)
        if count or package == "context":
            text = used_imports(cut_out(text))
            with open(f"{module}/{path}/{os.path.basename(file)}", "w", encoding="utf-8") as opened:
                opened.write(text)


def errgroup_folder(modules: str) -> str | None:
    """Where errgroup's tests are."""
    found = glob.glob(f"{modules}/golang.org/x/sync@*/errgroup")
    for folder in (*sorted(found), "/usr/share/gocode/src/golang.org/x/sync/errgroup"):
        if glob.glob(f"{folder}/*_test.go"):
            return folder
    return None


def judge(printed: str) -> Ran:
    """What `go test -v` printed: a test whose name alone failed counts as one that passed."""
    ran, said, test = Ran(), collections.defaultdict[str, list[str]](list), ""
    for line in printed.splitlines():
        head = re.match(r"=== (?:RUN|NAME|CONT|PAUSE)\s+(\w+)", line)
        end = re.match(r"--- (PASS|FAIL): (\w+)", line)
        if line.startswith(("panic:", "WARNING: DATA RACE", "fatal error:")):
            ran.failed.append(line)
        elif head or end:
            test = head[1] if head else end[2] if end else ""
        else:
            said[test].append(line)
        if end and end[1] == "PASS":
            ran.passed.append(test)
        elif end:
            its = [it for it in said[test] if re.match(r"\s+\w+_test\.go:\d+: ", it)]
            if test in NAMES and its and all(ABOUT_NAMES.search(it) for it in its):
                ran.named.append(test)
            else:
                ran.failed.append("\n".join([line, *said[test][-8:]]))
    return ran


def run(go: str, module: str, path: str, env: dict[str, str], race: bool) -> Ran:
    """Runs the tests of a folder."""
    words = [go, "test", "-count=1", "-v", "-timeout", "500s", *(["-race"] if race else []),
             f"./{path}"]
    ran = subprocess.run(words, cwd=module, env=env, capture_output=True, text=True, check=False)
    judged = judge(ran.stdout)
    if not judged.passed:
        judged.failed.append(f"no test of {path} passed: {(ran.stdout + ran.stderr)[-800:]}")
    return judged


def foreign(go: str, source: str, folder: str, env: dict[str, str], race: bool) -> dict[str, Ran]:
    """Runs all of them in a copy of the module, and returns what became of each package's."""
    module = f"{folder}/module"
    shutil.copytree(source, module)
    root, modules = subprocess.run([go, "env", "GOROOT", "GOMODCACHE"], capture_output=True,
                                   text=True, check=True).stdout.split()
    paths = {"context": "internal/foreign/context", "errgroup": "internal/foreign/errgroup"}
    lay([f"{root}/src/context/{it}" for it in CONTEXT_FILES], "context", paths["context"], module)
    tests = errgroup_folder(modules)
    if tests:
        files = glob.glob(f"{tests}/*_test.go")
        lay(files, "golang.org/x/sync/errgroup", paths["errgroup"], module)
    else:
        print("skipped: errgroup's tests, since there is no golang-golang-x-sync-dev")
        del paths["errgroup"]
    os.makedirs(f"{folder}/stores")
    env = {**env, "STORES": f"{folder}/stores"}
    return {name: run(go, module, path, env, race) for name, path in paths.items()}
