"""A file of variables, which `env file FILE` names:

    NAME=VALUE      a variable. Quotes around the whole VALUE are left out; else it is as it stands
    # ..            a comment; it is ignored, and so is an empty line

Its values may be passwords. So nobody but the user who runs the night, root, and the file's group
may read it; no message has a part of a line of it; and its values stand in the environment of its
commands alone.
"""

from __future__ import annotations

import re

from .beside import open_private
from .lines import text_beside
from .reading import Wrong, short

VARIABLE = re.compile(r"[A-Za-z_][A-Za-z0-9_]*")
QUOTED = re.compile("(['\"])(.*)\\1")


def variables_of(path: str, name: str) -> dict[str, str]:
    """The variables of a file that this file of commands names."""
    found: dict[str, str] = {}
    shown = f"env file {name}"
    for number, line in enumerate(text_beside(path, name, shown, open_private).split("\n"), 1):
        line = line.rstrip("\r")
        if not line.strip() or line.lstrip().startswith("#"):
            continue
        variable, is_set, value = line.partition("=")
        if not is_set or not VARIABLE.fullmatch(variable) or "\0" in value:
            raise Wrong(f"{shown}: line {number} is not written like NAME=VALUE")
        if variable.startswith("NIGHT_"):
            raise Wrong(f"{shown}: line {number}: night-run itself sets the variable"
                        f" {short(variable)}")
        if variable in found:
            raise Wrong(f"{shown}: line {number}: {short(variable)} is set twice")
        quoted = QUOTED.fullmatch(value)
        found[variable] = quoted[2] if quoted else value
    return found
