"""Runs commands such that they, and all that they start, end with the script, however it ends."""
import functools
import os
import signal
import subprocess
import threading
from collections.abc import Sequence
from typing import IO

NOTHING = subprocess.DEVNULL


@functools.cache
def group() -> int:
    """Returns the process group of what the script runs. A shell of it waits until the script's end
    of a pipe closes, and then kills the group."""
    ends, _held = os.pipe()
    shell = subprocess.Popen(["sh", "-c", "read _; kill -9 0"], stdin=ends, process_group=0,
                             stdout=subprocess.DEVNULL, stderr=subprocess.DEVNULL)
    os.close(ends)

    def pause(_number: int, _frame: object) -> None:
        os.killpg(shell.pid, signal.SIGSTOP)
        os.kill(shell.pid, signal.SIGCONT)  # (it has to see that the script is killed meanwhile)
        os.kill(os.getpid(), signal.SIGSTOP)
        os.killpg(shell.pid, signal.SIGCONT)

    # (a terminal's Ctrl-Z reaches the script's own group alone; a thread may set no handler)
    is_main = threading.current_thread() is threading.main_thread()
    if is_main and signal.getsignal(signal.SIGTSTP) is signal.SIG_DFL:
        signal.signal(signal.SIGTSTP, pause)
    return shell.pid


def start(words: Sequence[str], folder: str, out: IO[str] | int) -> subprocess.Popen[str]:
    """Starts a command in a folder, both of whose outputs go to one file."""
    return subprocess.Popen(words, cwd=folder, stdin=subprocess.DEVNULL, stdout=out,
                            stderr=subprocess.STDOUT, encoding="utf-8", errors="replace",
                            process_group=group(), env=os.environ | {"PYTHONIOENCODING": "utf-8"})


def run(words: Sequence[str], folder: str, out: IO[str] | int) -> int:
    """Runs a command in a folder, and returns its status."""
    if not isinstance(out, int):
        out.flush()
    return start(words, folder, out).wait()
