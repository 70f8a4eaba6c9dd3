"""How a try ended, and the one text that the store, STORE.log and STORE.ended have for that:

    ok                it succeeded
    canceled: WHY     a cancel or a deadline stopped it, or kept it from starting
    interrupted       it was cut off, and runs again
    withdrawn         a task that was submitted and never started: it counts as if it weren't there
    WHY               it failed: `exit 3`, `signal 9`, `timeout 10m`, `can't be started: ..`, or
                      what its group's `ask` printed after `error`
    error WHY         it failed, and WHY alone would be read as another end

A text is 1 to 64 bytes of printable ASCII, as the store requires. A longer one is cut.
"""

from __future__ import annotations

import enum
import re
from dataclasses import dataclass

MOST = 64
CANCELED, ERROR = "canceled: ", "error "


class Kind(enum.Enum):
    """What an end means for its command."""

    OK = "ok"
    FAILED = "failed"
    CANCELED = "canceled"
    INTERRUPTED = "interrupted"
    WITHDRAWN = "withdrawn"


@dataclass(frozen=True)
class End:
    """How a try ended, and, if it failed or was canceled, why. Two ends with the same text are
    equal."""

    kind: Kind
    why: str = ""

    @property
    def is_ok(self) -> bool:
        return self.kind is Kind.OK

    @property
    def is_canceled(self) -> bool:
        return self.kind is Kind.CANCELED

    @property
    def text(self) -> str:
        """Its text; `read_end` makes the same end of it."""
        if self.kind is Kind.CANCELED:
            return f"{CANCELED}{self.why}"
        if self.kind is not Kind.FAILED:
            return str(self.kind.value)
        return self.why if read_end(self.why) == self else f"{ERROR}{self.why}"

    @property
    def words(self) -> str:
        """How a line `finish` says it."""
        return "ok" if self.is_ok else f"{ERROR}{self.text}"


OK, INTERRUPTED, WITHDRAWN = End(Kind.OK), End(Kind.INTERRUPTED), End(Kind.WITHDRAWN)
PLAIN = {it.kind.value: it for it in (OK, INTERRUPTED, WITHDRAWN)}


def text_of(words: str, most: int = MOST) -> str:
    """Words as a text of a store: printable ASCII, and at most this many bytes."""
    return re.sub(r"[^ -~]", "?", words)[:most] or "?"


def canceled(why: str) -> End:
    return End(Kind.CANCELED, why and text_of(why, MOST - len(CANCELED)))


def failed(why: str) -> End:
    """A failure. If its text needs `error` before it, the text loses as many bytes at its end."""
    made = End(Kind.FAILED, text_of(why))
    return made if len(made.text) <= MOST else End(Kind.FAILED, made.why[:MOST - len(ERROR)])


def read_end(text: str) -> End:
    """The end that a text stands for."""
    if text in PLAIN:
        return PLAIN[text]
    if text.startswith(CANCELED):
        return canceled(text.removeprefix(CANCELED))
    return End(Kind.FAILED, text_of(text.removeprefix(ERROR)))
