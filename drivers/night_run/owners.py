"""Owners of commands, and the mail that each of them gets of his failures as a night ends.

A mail is given to the command of `--mail`, on its standard input and with the owner's address as
NIGHT_OWNER. Without that option sendmail gets it, with a head.
"""

from __future__ import annotations

import collections
import os
import re
import shutil
from collections.abc import Iterable
from dataclasses import dataclass, replace

from . import rows
from .escapes import plain
from .jobs import Jobs
from .phases import Phase
from .report_words import commands
from .summary import failures

OWNER = "NIGHT_OWNER"
BAD = (Phase.FAILED, Phase.CANCELED, Phase.NOT_STARTED)
SENDMAILS = ("/usr/sbin/sendmail", "/usr/lib/sendmail")
SEND = f'exec "$SENDMAIL" -i -- "${OWNER}"'
HEAD = """To: {owner}
Subject: {subject}
Auto-Submitted: auto-generated
MIME-Version: 1.0
Content-Type: text/plain; charset=utf-8
Content-Transfer-Encoding: 8bit

"""


@dataclass(frozen=True)
class Mail:
    """What is reported to an owner."""

    owner: str
    subject: str
    lines: tuple[str, ...]

    def text(self, has_head: bool) -> str:
        subject = re.sub(r"[^ -~]", "?", self.subject)
        head = HEAD.format(owner=self.owner, subject=subject) if has_head else ""
        return head + "".join(f"{it}\n" for it in self.lines)


def mails_of(jobs: Jobs, report: rows.Report) -> tuple[Mail, ...]:
    """A mail for each owner of a command that failed, was canceled, or is never started."""
    owned: dict[str, list[rows.Row]] = collections.defaultdict(list)
    for it in report.rows:
        job = jobs.all.get((it.group, it.key))
        if job and job.owner:
            owned[job.owner].append(it)
    return tuple(mail(owner, report, its) for owner, its in owned.items()
                 if any(it.phase in BAD for it in its))


def mail(owner: str, report: rows.Report, its: list[rows.Row]) -> Mail:
    bad = tuple(it for it in its if it.phase in BAD)
    subject = (f"night-run: {plain(report.store)}, night {report.night}: {len(bad)} of"
               f" {commands(len(its))} not ok")
    which = f"{len(bad)} of your {commands(len(its))}" if len(its) > 1 else "your command"
    return Mail(owner, subject, (
        f"{plain(report.store)}, night {report.night}: {which} didn't end well.", "",
        *failures(replace(report, rows=bad))))


def sendmail() -> str:
    """The program that sends a mail, or nothing."""
    its: Iterable[str] = (it for it in SENDMAILS if os.access(it, os.X_OK))
    return next(iter(its), "") or shutil.which("sendmail") or ""
