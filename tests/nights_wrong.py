"""Wrong drivers: changes of the driver's text, each of which a night has to find.

`wrong_drivers/NAME.edit` has lines `file:`, `old:` and `new:`, as a must-fail edit has, `breaks:`
with the number of an invariant, or the setting, and `nights:` with the shapes of the nights that
are to find that it doesn't hold. A driver that breaks `far` is for tests/far to find, and one that
breaks `thirty` for tests/thirty_nights, in nights with these accidents. An `old:` stands exactly
once in its file.
"""

import os
import shutil
import time
from dataclasses import dataclass, replace

from nights_play import play
from nights_room import HERE, Tools, copied, workers

# So many nights are played over a wrong driver before it passes, and so many drivers at a time. A
# single night may miss what a kill or a deadline has to hit. On a machine with five processes for
# each processor 15 of 17 were found by their first night, one by the second, one by the thirteenth:
# it is late, and what must come in time may come later there.
NIGHTS, BESIDE = 96, 4
# What others than tests/nights find.
OTHERS = ("far", "thirty")

# A text of a file, and what stands there instead.
Change = tuple[str, str, str]


@dataclass(frozen=True)
class Wrong:
    name: str
    breaks: str
    shapes: tuple[str, ...]
    changes: tuple[Change, ...]


def read_wrong(path: str) -> Wrong:
    """Reads an edit. All spaces after `old: ` and `new: ` count."""
    said = {"breaks": "", "nights": "", "file": "", "old": ""}
    changes = []
    with open(path, encoding="utf-8") as lines:
        for line in lines:
            what, _, text = line.rstrip("\n").partition(": ")
            if what in said:
                said[what] = text
            elif what == "new":
                changes.append((said["file"], said["old"], text))
    name = os.path.basename(path).removesuffix(".edit")
    return Wrong(name, said["breaks"], tuple(said["nights"].split()), tuple(changes))


def try_one(wrong: Wrong, tools: Tools) -> bool:
    """Plays nights over a wrong driver until one fails. Whether it was found."""
    began, others = time.monotonic(), list[str]()
    try:
        driver = copied(tools.driver, f"{tools.folder}/{wrong.name}", *wrong.changes)
        wrongly = replace(tools, driver=driver)
    except (OSError, ValueError) as error:
        print(f"FAILED the wrong driver {wrong.name}: {error}", flush=True)
        return False
    for at in range(NIGHTS):
        it = play(wrongly, at, wrong.shapes[at % len(wrong.shapes)])
        shutil.rmtree(it.folder, ignore_errors=True)
        why = next((bad for bad in it.bad if bad.startswith(f"{wrong.breaks}: ")), None)
        if why:
            print(f"found: {wrong.name}, by night {at + 1}: {why.splitlines()[0][:150]};"
                  f" {time.monotonic() - began:.0f} s", flush=True)
            return True
        others += it.bad[:1]
    print(f"FAILED the wrong driver {wrong.name} passes {NIGHTS} nights; {others[:2]}", flush=True)
    return False


def try_wrong_drivers(tools: Tools, name: str) -> int:
    """Tries every one, or that of this name; how many weren't found."""
    folder = f"{HERE}/wrong_drivers"
    every = [read_wrong(f"{folder}/{it}") for it in sorted(os.listdir(folder))
             if it.endswith(".edit") and name in ("every", it.removesuffix(".edit"))]
    every = [it for it in every if it.breaks not in OTHERS]
    with workers(BESIDE) as pool:
        found = list(pool.map(try_one, every, [tools] * len(every)))
    print(f"ran: wrong drivers: {len(every)}, {found.count(False)} passed")
    return found.count(False) if every else 1
