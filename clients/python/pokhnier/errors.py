"""What this package raises. Each exception says what the next run of the program does."""

from __future__ import annotations


class Error(Exception):
    """The base of all others."""


class InUse(Error):
    """Another run has the store open, or functions of an earlier one are still running."""


class Lost(Error):
    """The program `night` ended, or the results can't be written. The next run goes on."""


class Interrupted(Error):
    """This run ended before the task did. The next run calls the task again."""


class Abandoned(Error):
    """An earlier run began these tasks, and this one didn't call them. Mostly a key has changed."""


class Full(Error):
    """The store has no room for the rest of the night."""


class Refused(Error):
    """The store is no store, or a group or a key was given twice."""


class Canceled(Error):
    """The task was canceled, or its group was, or is past its deadline. The text says why."""


class Failed(Error):
    """A function failed with an error that can't be made again. The text is that of the error."""
