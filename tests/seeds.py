"""The seeds of the scripts that draw at random."""

from __future__ import annotations

import random
from collections.abc import Sequence

# Where no seed is given, a short form draws from this one. The gate runs the short forms, and what
# it tries must not be a lottery: by another draw a change that nothing is wrong with would be kept
# out, and the same change would land the next day. So each gate draws what the gates before it drew
# (but moments go by how busy the machine is). Whoever runs a script without --short draws anew.
OF_GATE = 20_261_130


def first_seed(is_short: bool, given: str | int | None = None) -> int:
    """The seed of a run: the one that is given, or else that of its form."""
    if given is not None:
        return int(given)
    return OF_GATE if is_short else random.randrange(1 << 30)


def given_seed(words: Sequence[str]) -> str | None:
    """The seed that `--seed=N` gives among these words."""
    return next((it.removeprefix("--seed=") for it in words if it.startswith("--seed=")), None)
