"""Another user, as whom root runs the commands of a group: `user NAME`.

Its command has the rights of that user: his number, his group, and his other groups, and none of
root's. Its environment is his, too (HOME, USER, LOGNAME and SHELL), and of root's has no more than
what a look at another user's night needs. The shell that waits for it, its output and whatever lies
beside the store stay root's.
"""

from __future__ import annotations

import os
import pwd
from collections.abc import Mapping
from dataclasses import dataclass

from .files import KEPT
from .reading import Wrong, short

# Where a program is that begins a command as another user.
FOLDERS = ("/usr/bin", "/bin", "/usr/sbin", "/sbin")


@dataclass(frozen=True)
class User:
    """A user of this machine."""

    name: str
    number: int
    group: int
    home: str
    shell: str

    def words(self) -> list[str]:
        """The words before a command that begin it as this user."""
        if found := program("setpriv"):
            return [found, f"--reuid={self.number}", f"--regid={self.group}", "--init-groups",
                    "--inh-caps=-all", "--"]
        return [program("runuser"), "-u", self.name, "--"]

    def environment(self, roots: Mapping[str, str]) -> dict[str, str]:
        """What his command has of root's environment, and of his own."""
        kept = {name: value for name, value in roots.items()
                if name in KEPT and not name.startswith("NIGHT") or name.startswith("LC_")}
        return {**kept, "HOME": self.home, "USER": self.name, "LOGNAME": self.name,
                "SHELL": self.shell}


def user_of(name: str) -> User:
    """The user of this name; Wrong where this process can't begin a command as he."""
    if os.geteuid():
        raise Wrong(f"user {short(name)}: only root runs commands as another user")
    try:
        it = pwd.getpwnam(name)
    except KeyError:
        raise Wrong(f"no user of this machine is called {short(name)}") from None
    if not program("setpriv") and not program("runuser"):
        raise Wrong(f"user {short(name)} takes the program setpriv or runuser, of util-linux")
    return User(it.pw_name, it.pw_uid, it.pw_gid, it.pw_dir, it.pw_shell or "/bin/sh")


def program(name: str) -> str:
    """The program of this name, but not one of busybox, which knows too few words; or nothing."""
    its = (f"{folder}/{name}" for folder in FOLDERS)
    return next((it for it in its if os.access(it, os.X_OK)
                 and os.path.basename(os.path.realpath(it)) != "busybox"), "")
