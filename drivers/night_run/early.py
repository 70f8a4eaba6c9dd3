"""Signals that come before a run listens (`signals`): while the modules are read, and the words.

They are kept, and the run that follows ends by them as if they had come a moment later: with a
line, a status and its alarm. A second one ends the process at once, by itself, as before the first
line of Python each one does; nothing of a night is begun or made by then.

Nothing else is imported here, so that this listens as soon as it can.
"""

from __future__ import annotations

import signal

# How much each of them asks for: 1 is that nothing more begins, 2 that what runs is stopped.
STEPS = {signal.SIGINT: 1, **dict.fromkeys((
    signal.SIGTERM, signal.SIGHUP, signal.SIGQUIT, signal.SIGUSR1, signal.SIGUSR2, signal.SIGALRM,
    signal.SIGVTALRM, signal.SIGXCPU), 2)}
heard: list[int] = []


def keep(number: int, _: object = None) -> None:
    """Keeps the first one; the second one ends the process."""
    heard.append(number)
    if len(heard) > 1:
        end_by(number)


def end_by(number: int) -> None:
    """Ends the process by a signal, as one that nobody listens to does."""
    signal.signal(number, signal.SIG_DFL)
    signal.raise_signal(number)


def listen(may_interrupt: bool) -> None:
    """Keeps from now on what comes, unless it was ignored before; but Ctrl-C is ignored until now
    in any case."""
    for it in STEPS:
        if signal.getsignal(it) != signal.SIG_IGN or it == signal.SIGINT and may_interrupt:
            signal.signal(it, keep)


def let_be() -> None:
    """Lets each of them end the process from now on, also one that was kept: for what is no
    night."""
    for it in STEPS:
        if signal.getsignal(it) is keep:
            signal.signal(it, signal.SIG_DFL)
    if heard:
        end_by(heard[0])


def taken() -> list[int]:
    """Those that were kept, for who listens now."""
    its = list(heard)
    heard.clear()
    return its
