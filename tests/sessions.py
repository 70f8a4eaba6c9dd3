"""The sessions that pages and manuals show: commands, each with the lines that it prints."""

from __future__ import annotations

import re

Shown = list[tuple[str, list[str]]]
# What no session of a page begins with: a file, a crontab's line, or text that is no command.
OTHERS = re.compile(r"# the file |[\d@*]|ask\(")


def blocks_of(page: str) -> list[list[str]]:
    """The lines of each indented block of a page."""
    found = re.findall(r"(?:^(?:    .*|)\n)+", page, re.M)
    return [lines for it in found if (lines := [line[4:] for line in it.strip("\n").split("\n")])
            and lines[0]]


def examples_of(manual: str) -> list[list[str]]:
    """The lines of each example of a manual."""
    found = re.findall(r"^\.Bd -literal.*?\n(.*?)^\.Ed", manual, re.M | re.S)
    return [it.replace("\\e", "\\").replace("\\-", "-").splitlines() for it in found]


def pasted_of(block: list[str]) -> Shown:
    """The commands of a page's block, which a shell takes as it is: what a command prints stands
    after it in comments, and a here-document goes on to the word that ends it."""
    shown: Shown = []
    end = ""
    for line in [] if OTHERS.match(block[0]) else block:
        if end:
            shown[-1] = (f"{shown[-1][0]}\n{line}", [])
            end = "" if line == end else end
        elif line.startswith("#"):
            shown[-1][1].append(line[2:])
        else:
            shown.append((line, []))
            end = here[1] if (here := re.search(r"<<'(\w+)'$", line)) else ""
    return shown


def typed_of(lines: list[str]) -> Shown:
    """The commands of a manual's example: each stands after a `$ `, and goes on after a `>`; the
    other lines are what it prints."""
    shown: Shown = []
    for line in lines:
        if line.startswith("$ "):
            shown.append((line[2:], []))
        elif line.startswith(">"):
            shown[-1] = (f"{shown[-1][0]}\n{line[1:]}", [])
        elif shown:
            shown[-1][1].append(line)
    return shown
