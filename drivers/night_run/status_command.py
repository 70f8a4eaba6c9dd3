"""What `--status` prints, once or again and again, and as JSON.

With `--watch` a terminal shows one screen, which is drawn again every two seconds and whenever the
terminal gets another size, also while the machine is late with an answer (`status_looker`). No mode
of the terminal is changed, so nothing has to be put right after an end of any kind. Where standard
output is no terminal each screen follows the last one.
"""

from __future__ import annotations

import contextlib
import dataclasses
import json
import os
import shutil
import signal
import time
from collections.abc import Callable, Iterator

from .beside import write_all
from .escapes import plain_lines
from .files import Files
from .jobs import Jobs
from .status import Status, Watcher
from .status_forecast import Forecast
from .status_looker import Looker, Seen
from .status_screen import Size, as_of, screen, wrapped

# Seconds between two looks; so often whether a look is over is seen.
OFTEN, SOON = 2.0, 0.05
# Moves to the first column of the first line; clears the rest of a line, and all below it.
HOME, REST, BELOW = "\x1b[H", "\x1b[K", "\x1b[J"
CLEAR = f"{HOME}\x1b[2J"


def status_lines(files: Files, jobs: Jobs | None, as_json: bool) -> list[str]:
    """A status, as a screen or as JSON."""
    with contextlib.closing(Watcher(files, jobs)) as watcher:
        it = watcher.look()
    return [json.dumps(as_object(it), indent=1)] if as_json else screen(it, size_of(once=True))


def size_of(once: bool) -> Size:
    """The size of the terminal, with a line left for what follows; no lines are counted where
    standard output is none."""
    if not os.isatty(1):
        return Size(max(1, shutil.get_terminal_size((80, 24)).columns))
    found = shutil.get_terminal_size((80, 24))
    return Size(max(1, found.columns), max(1, found.lines - (2 if once else 1)))


# --- as JSON

def as_object(it: Status) -> dict[str, object]:
    made = dataclasses.asdict(it)
    made["is_over"] = it.is_over
    made["total"] = it.total
    made["forecast"] = None if it.forecast is None else as_forecast(it.forecast)
    return made


def as_forecast(it: Forecast) -> dict[str, object]:
    return {"at": it.at, "is_least": it.is_least,
            "unknown": ["/".join(name) for name in it.unknown],
            "late": ["/".join(name) for name in it.late],
            "last": "/".join(it.last) if it.last else None}


# --- again and again

def watch(files: Files, jobs: Jobs | None) -> None:
    """Shows the status until Ctrl-C, or until nobody reads it any more."""
    signal.pthread_sigmask(signal.SIG_BLOCK, {signal.SIGWINCH})
    with interrupted(), contextlib.suppress(BrokenPipeError):
        looker, is_first = Looker(files, jobs), True
        while True:
            looker.ask()
            wait(looker.left(), looker.is_idle)
            show(lines_now(looker.seen, looker.is_late(), size_of(once=False)), is_first)
            is_first = False
            wait(OFTEN)


def lines_now(seen: Seen, is_late: bool, size: Size) -> list[str]:
    """The screen of the last look. If another one is late, the first line says so."""
    above = wrapped(as_of(seen.at, time.time()), size.columns) if is_late else []
    if isinstance(seen.it, str):
        return above + wrapped(seen.it, size.columns)
    left = None if size.lines is None else max(1, size.lines - len(above))
    return above + screen(seen.it, Size(size.columns, left))


def show(lines: list[str], is_first: bool) -> None:
    text = [plain_lines(it) for it in lines]
    if not os.isatty(1) or os.environ.get("TERM", "dumb") == "dumb":
        drawn = "".join(f"{it}\n" for it in ([] if is_first else [""]) + text)
    else:
        drawn = (CLEAR if is_first else HOME) + "".join(f"{it}{REST}\n" for it in text) + BELOW
    write_all(1, drawn.encode("utf-8", "backslashreplace"))


def wait(seconds: float, is_over: Callable[[], bool] | None = None) -> None:
    """Sleeps until then, or until this is so or the terminal gets another size."""
    end = time.monotonic() + seconds
    while (left := end - time.monotonic()) > 0 and not (is_over and is_over()):
        if signal.sigtimedwait({signal.SIGWINCH}, min(left, SOON if is_over else 0.5)):
            return


@contextlib.contextmanager
def interrupted() -> Iterator[None]:
    """Within it Ctrl-C ends what is done, and all is well after it."""
    if signal.getsignal(signal.SIGINT) == signal.SIG_DFL:
        signal.signal(signal.SIGINT, signal.default_int_handler)
    with contextlib.suppress(KeyboardInterrupt):
        yield
