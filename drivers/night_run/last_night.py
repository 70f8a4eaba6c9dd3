"""The `night` of a killed driver, which may still have the store as the next driver begins."""

from __future__ import annotations

import time

from . import Fault
from .beside import Part
from .files import Files, leave_mark
from .night import WHOLE_SECONDS, of_session
from .processes import is_held, kill_ours, lives
from .telling import note, note_once
from .tries import Tries

# How many seconds it may take to end after its driver has.
PATIENCE = 10.0


def end_night(files: Files, tries: Tries) -> None:
    """Waits for the `night` of a killed driver, which ends with its input; one that doesn't, as
    where it is stopped, is killed; one that the disk holds in a sync only after longer."""
    it, driver = tries.last_night()
    began = time.monotonic()
    while it and lives(it):
        if driver and lives(driver):
            raise Fault(f"{files.shown}: in use by another night-run, process {driver.pid}, whose"
                        f" {files.shown_of(Part.LOCK)} somebody has removed")
        held, waited = is_held(it.pid), time.monotonic() - began
        if waited >= PATIENCE and held:
            note_once(f"waiting for the disk: the `night` of the last run, process {it.pid}, is in"
                      f" a sync of {files.shown}")
        if waited >= (WHOLE_SECONDS if held else PATIENCE):
            leave_mark(files.path)
            is_killed = kill_ours(it, of_session(files.path))
            note(f"the `night` of the last run didn't end: process {it.pid} " + (
                "is killed" if is_killed else "may be another program, and is left running"))
            return
        time.sleep(0.01)
