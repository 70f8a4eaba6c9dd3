"""The folder in which a night runs: its files, and the processes that are in it."""

from __future__ import annotations

import fcntl
import hashlib
import os
import signal
import subprocess

from by_hand import Store


class Folder:
    """A folder with a store, a file of commands, and what these wrote."""

    def __init__(self, path: str) -> None:
        self.path = path

    def fill(self, count: int, program: str) -> None:
        """Makes a small store, in which this many tasks of a night have ended."""
        store = Store(False)
        store.made()
        with open(f"{self.path}/s", "wb") as file:
            file.write(bytes(store.bytes))
        os.chmod(f"{self.path}/s", 0o600)
        lines = ["derive night root cause", "derive f night cause", "bare f f"]
        for it in range(count):
            lines += [f"go f sh f{it}", "start", f"finish {it} ok"]
        subprocess.run([program, "script", f"{self.path}/s"], check=True,
                       input="".join(f"{it}\n" for it in lines), text=True, capture_output=True)

    def write(self, name: str, text: str) -> None:
        with open(f"{self.path}/.new", "w", encoding="utf-8") as file:
            file.write(text)
        os.rename(f"{self.path}/.new", f"{self.path}/{name}")

    def text(self, name: str) -> str:
        try:
            with open(f"{self.path}/{name}", encoding="utf-8", errors="replace") as file:
                return file.read()
        except (FileNotFoundError, IsADirectoryError):  # (that of a damaged log)
            return ""

    def trace_size(self) -> int:
        return size_of(f"{self.path}/trace")

    def snapshot(self) -> dict[str, tuple[int, int, str]]:
        """Each file of the store's, with its times and its bytes."""
        found = {}
        for folder, _, files in os.walk(self.path):
            for name in (*files, "."):
                path = os.path.join(folder, name)
                at = os.stat(path, follow_symlinks=False)
                is_ours = name.startswith("errors") or path == f"{self.path}/."
                if not is_ours:
                    found[path] = at.st_mtime_ns, at.st_ino, digest(path)
        return found

    def are_free(self) -> bool:
        """Whether no command runs: each lock is free."""
        for it in os.listdir(f"{self.path}/locks"):
            if it.startswith("key."):
                file = os.open(f"{self.path}/locks/{it}", os.O_RDONLY)
                try:
                    fcntl.flock(file, fcntl.LOCK_EX | fcntl.LOCK_NB)
                except BlockingIOError:
                    return False
                finally:
                    os.close(file)
        return True

    def processes(self) -> list[int]:
        """The commands of this room that are there, and what they left."""
        return [it for it in processes() if f"{self.path}\0" in command_line(it)]

    def clear(self) -> None:
        """Ends what is left of it."""
        for it in self.processes():
            kill(it)


def digest(path: str) -> str:
    if not os.path.isfile(path):
        return ""
    with open(path, "rb") as file:
        return hashlib.sha256(file.read()).hexdigest()


def size_of(path: str) -> int:
    """The bytes of a file, 0 if there is none."""
    try:
        return os.path.getsize(path)
    except FileNotFoundError:
        return 0


def processes() -> list[int]:
    return [int(it) for it in os.listdir("/proc") if it.isdigit()]


def command_line(pid: int) -> str:
    try:
        with open(f"/proc/{pid}/cmdline", encoding="utf-8", errors="replace") as file:
            return file.read()
    except OSError:
        return ""


def kill(pid: int, how: int = signal.SIGKILL) -> None:
    try:
        os.kill(pid, how)
    except ProcessLookupError:
        pass
