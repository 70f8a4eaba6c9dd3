"""Finds the tools of Go."""

from __future__ import annotations

import glob
import re
import shutil
import subprocess


def find_go() -> str | None:
    """A `go` of 1.21 or later."""
    for path in (shutil.which("go"), *sorted(glob.glob("/usr/lib/go-1.*/bin/go"), reverse=True)):
        if path:
            said = subprocess.run([path, "version"], capture_output=True, text=True, check=False)
            found = re.search(r"go1\.(\d+)", said.stdout)
            if found and int(found[1]) >= 21:
                return path
    return None
