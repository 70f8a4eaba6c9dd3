"""Waits of the tests of the client in Python. They wait for something that happens, and not for
some time: the machine may be slow, and its processors busy."""

from __future__ import annotations

import os
import signal
import subprocess
import time
from collections.abc import Callable
from typing import Any

import pokhnier
from pokhnier.calls import Runs

LONGEST = 60


def until(what: str, is_so: Callable[[], object]) -> None:
    """Waits until something is so."""
    end = time.monotonic() + LONGEST
    while not is_so():
        if time.monotonic() > end:
            raise AssertionError(f"it never comes: {what}")
        time.sleep(0.005)


def until_begun(task: pokhnier.Task[Any]) -> None:
    """Waits until the program has said that a task begins."""
    until(f"the begin of {task.key}", lambda: isinstance(task._call.state, Runs))


def until_at_rest(store: pokhnier.Store) -> None:
    """Waits until no round is under way, if nobody asks for anything more."""
    pump = store._pump
    until("the end of a round", lambda: pump.made is None and not pump.wishes)


def stop(program: subprocess.Popen[bytes]) -> None:
    """Stops a program, so that it answers nothing more. It has several threads. The signal stops
    one of them, which stops the others once a processor runs it, and until then they go on."""
    program.send_signal(signal.SIGSTOP)
    os.waitid(os.P_PID, program.pid, os.WSTOPPED | os.WNOWAIT)


def heed_breaks() -> None:
    """Programs that this one starts heed Ctrl-C, also if a shell has started this one by `&`."""
    signal.signal(signal.SIGINT, signal.default_int_handler)
