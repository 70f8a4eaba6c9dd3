"""Where a bench of the clients puts its files, so that none of them stays behind."""

from __future__ import annotations

import argparse
import os
import signal
import sys

TOP = os.path.dirname(os.path.dirname(os.path.dirname(os.path.realpath(__file__))))


def add_folder(words: argparse.ArgumentParser) -> None:
    words.add_argument("--folder", type=around, default="/var/tmp")


def around(folder: str) -> str:
    """The path of a folder for files. One in the checkout is refused, since a bench that is killed
    leaves its files, and somebody commits them."""
    path = os.path.realpath(folder)
    if os.path.commonpath([path, TOP]) == TOP:
        raise argparse.ArgumentTypeError(f"{folder} is in the checkout")
    return path


def end_by_signals() -> None:
    """Lets SIGTERM and SIGHUP end this program as Ctrl-C does, which removes its files."""
    for number in (signal.SIGTERM, signal.SIGHUP):
        signal.signal(number, lambda *_: sys.exit(f"{os.path.basename(sys.argv[0])}: ended"))
