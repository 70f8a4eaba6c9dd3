"""Copies of the kit that lack something: names of `rt` and of its modules, or options of `rattle`.

No file of the kit is named but `rt`, `rattle` and the page that `rt doc` names. Kits differ in the
scripts that lie beside `rt`; all of them are copied, since `rt` finds them by its own folder.
"""
import os
import shutil
from collections.abc import Iterable

# `rt` runs as a command as ever; whoever reads it as a module doesn't find these names.
LACKING = """
if __name__ != "__main__":
    for _it in {names!r}:
        if _it.startswith("rtlib.") and "rtlib" in globals():
            rtlib.__dict__.pop(_it.removeprefix("rtlib."), None)
    for _it in {names!r}:
        globals().pop(_it, None)
"""
MAIN = '\nif __name__ == "__main__":'
# An `rt` that is a command, and no module of Python.
COMMAND = """\
#!/bin/sh
exec python3 "$(dirname "$(readlink -f "$0")")/rt-itself" "$@"
"""
# A prover whose help doesn't name some words.
WITHOUT = """\
#!/bin/sh
for it; do
    if [ "$it" = --help ]; then
        {rattle} "$@" | sed -E 's/({words})\\>/--other/g'
        exit
    fi
done
exec {rattle} "$@"
"""


def lay(kit: str, folder: str) -> str:
    """Lays a copy of a kit into a new folder, mostly as links, and returns the folder of `rt`."""
    copy_scripts(kit, folder)
    for below in ("", "bin/"):
        for it in os.listdir(f"{kit}/{below}"):
            if not os.path.exists(f"{folder}/{below}{it}"):
                os.symlink(f"{kit}/{below}{it}", f"{folder}/{below}{it}")
    return f"{folder}/bin"


def copy_scripts(kit: str, folder: str) -> None:
    """Copies the scripts of a kit, which go by the folder that they are in."""
    os.makedirs(f"{folder}/bin")
    for it in os.listdir(f"{kit}/bin"):
        if is_script(f"{kit}/bin/{it}"):
            shutil.copy(f"{kit}/bin/{it}", f"{folder}/bin/{it}")


def is_script(path: str) -> bool:
    with open(path, "rb") as file:
        return path.endswith(".py") or file.read(2) == b"#!"


def drop_names(tools: str, names: Iterable[str]) -> None:
    """Has the `rt` of a folder lack these names."""
    with open(f"{tools}/rt", encoding="utf-8") as file:
        before, main, after = file.read().partition(MAIN)
    write(f"{tools}/rt", before + LACKING.format(names=[*names]) + main + after)


def hide_module(tools: str) -> None:
    """Has the `rt` of a folder be no module."""
    os.rename(f"{tools}/rt", f"{tools}/rt-itself")
    write(f"{tools}/rt", COMMAND)


def drop_words(tools: str, *words: str) -> None:
    """Has the help of the `rattle` of a folder, which is a link so far, not name some words."""
    rattle = os.readlink(f"{tools}/rattle")
    os.remove(f"{tools}/rattle")
    write(f"{tools}/rattle", WITHOUT.format(rattle=rattle, words="|".join(words)))


def write(path: str, text: str) -> None:
    with open(path, "w", encoding="utf-8") as made:
        made.write(text)
    os.chmod(path, 0o755)
