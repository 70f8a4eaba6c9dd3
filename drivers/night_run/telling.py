"""What is printed on standard error. With `--quiet` notices are held back until something isn't
well.
"""

from __future__ import annotations

from .descriptors import why
from .escapes import plain_lines
from .terminal import CLEAR, Progress, Writer

_writer = Writer(2)
progress = Progress(_writer)
_held: list[str] | None = None
_once: set[str] = set()


def hold_back() -> None:
    """From now on notices are kept, for `let_go`."""
    global _held
    _held = []


def let_go() -> None:
    """Prints what was held back, and from now on everything at once."""
    global _held
    lines, _held = _held or [], None
    for it in lines:
        tell(it)


def tell(text: object) -> None:
    _writer.write(f"{CLEAR}night-run: {plain_lines(str(text))}\n")


def say(text: str) -> None:
    """Writes lines as they are, without the program's name before them."""
    _writer.write(f"{CLEAR}{plain_lines(text)}\n")


def note(text: str) -> None:
    """Prints what is no fault."""
    if _held is None:
        tell(text)
    else:
        _held.append(text)


def note_once(text: str) -> None:
    """Prints it the first time only."""
    if text not in _once:
        _once.add(text)
        note(text)


def tell_once(text: str) -> None:
    """Prints it the first time only, with `--quiet`, too."""
    if text not in _once:
        _once.add(text)
        tell(text)


def error_text(error: OSError) -> str:
    """An error of the system, with the file that it is about."""
    return f"{error.filename}: {why(error)}" if error.filename else why(error)


def flush() -> None:
    """Waits a while until all messages are written."""
    _writer.flush()
