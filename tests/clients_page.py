"""Tests the programs of clients/python/README.md, installed as the page says.

    clients_page.py

The first one is killed when it has copied four disks, and run again, as on the page. A third run
begins another night. The second one is run once. The package is installed by pip, from the folder.
"""

from __future__ import annotations

import os
import re
import subprocess
import sys
import tempfile
from collections.abc import Iterator

HERE = os.path.dirname(os.path.realpath(__file__))
PACKAGE = f"{HERE}/../clients/python"
DISKS = "abcdef"


def programs() -> list[str]:
    with open(f"{PACKAGE}/README.md", encoding="utf-8") as file:
        return re.findall(r"^```python\n(.*?)^```", file.read(), re.M | re.S)


def installed(folder: str) -> str | None:
    """Installs the package into a folder. Returns why it can't be, if it can't."""
    done = subprocess.run([sys.executable, "-m", "pip", "install", "--quiet", "--no-index",
                           "--target", folder, PACKAGE], stdin=subprocess.DEVNULL, text=True,
                          stdout=subprocess.PIPE, stderr=subprocess.STDOUT, check=False)
    return done.stdout if done.returncode else None


class Page:
    def __init__(self, folder: str) -> None:
        self.folder = folder
        self.env = {**os.environ, "PYTHONPATH": f"{folder}/site", "PYTHONDONTWRITEBYTECODE": "1"}
        for number, text in enumerate(programs()):
            with open(f"{folder}/program{number}.py", "w", encoding="utf-8") as file:
                file.write(text)

    def begin(self, number: int) -> subprocess.Popen[str]:
        return subprocess.Popen([sys.executable, f"program{number}.py"], cwd=self.folder,
                                env=self.env, stdin=subprocess.DEVNULL, stdout=subprocess.PIPE,
                                stderr=subprocess.STDOUT, text=True)

    def run(self, number: int) -> str:
        said, _ = self.begin(number).communicate(timeout=200)
        return said

    def killed(self) -> str:
        """What the first program says until it has copied four disks, and is killed."""
        program, said = self.begin(0), ""
        assert program.stdout
        for line in program.stdout:
            said += line
            if len(copied(said)) >= 4:
                program.kill()
        program.wait()
        return said

    def faults(self) -> Iterator[str]:
        first, second, third = self.killed(), self.run(0), self.run(0)
        before, after = copied(first), copied(second)
        if sorted({*before, *after}) != [*DISKS]:
            yield f"not every disk was copied: {first}, {second}"
        # (The third and the fourth copy began after the first two were recorded.)
        if len(before) < 4 or set(before[:2]) & set(after):
            yield f"a disk was copied again: {first}, {second}"
        if sorted(copied(third)) != [*DISKS]:
            yield f"no other night began: {third}"
        for said in (second, third):
            if not re.search(r"\nmail: \d\d \w+: 600 GB\n\Z", said):
                yield f"the mail is wrong: {said}"
        fetched = self.run(1)
        if sorted(fetched.splitlines()) != [*(f"fetched http://{it}/" for it in "abc"), "sum 27"]:
            yield f"the pages are wrong: {fetched}"


def copied(said: str) -> list[str]:
    """Which disks were copied. (Lines of two threads may come in one.)"""
    return re.findall(r"copied (\w)", said)


def main() -> int:
    with tempfile.TemporaryDirectory(prefix="clients-") as folder:
        why = installed(f"{folder}/site")
        bad = [f"pip: {why}"] if why else list(Page(folder).faults())
    print("".join(f"FAILED {it}\n" for it in bad), end="")
    print(f"2 programs of the page, {len(bad)} failed")
    return 1 if bad else 0


if __name__ == "__main__":
    sys.exit(main())
