"""A morning's report of a night: for a reader of mail, for a browser, and for Prometheus; and the
history of the last nights in these forms."""

from __future__ import annotations

from collections.abc import Callable
from dataclasses import replace

from .files import Files
from .history import History, history, medians
from .history_html import html as history_html
from .history_json import as_json
from .history_text import text as history_text
from .report_html import html
from .report_prom import prom
from .report_text import text
from .rows import Report

__all__ = ["FORMS", "HISTORIES", "html", "made", "prom", "text"]

# The forms, by the words of `--report`: those of a night, and those of the last nights.
FORMS: dict[str, Callable[[Report], str]] = {"html": html, "text": text, "prom": prom}
HISTORIES: dict[str, Callable[[History], str]] = {
    "history": history_text, "history-html": history_html, "history-json": as_json}


def made(form: str, files: Files, night: Report) -> str:
    """A night in a form. The metrics have the usual times of the nights before, too."""
    if form in HISTORIES:
        return HISTORIES[form](history(files, night))
    if form == "prom":
        night = replace(night, usual=medians(history(files, night)))
    return FORMS[form](night)
