"""Opens every file beside a store, and the file of commands. No other module opens them.

Whoever runs a night trusts root, and nobody else. So a file counts only if nobody else can have
made it, written it, or put it in its place:

- **each folder** on the way to it belongs to that user or to root, and nobody else may write there,
  unless it is sticky, as /tmp is, where nobody can remove the files of others;
- **the file** is a regular one, no link, has one name, belongs to that user or to root, and nobody
  else may write it.

Otherwise NotOurs is raised, which names the file, its owner, its mode, and what to do. A group
whose only member is the owner counts as the owner.

A file is opened in the descriptor of its folder, with O_NOFOLLOW and O_NONBLOCK, and checked before
anything is done with it: it isn't emptied before the check, and a pipe in its place makes nobody
wait. Files are made with the mode 0600 and folders with 0700. If an older driver made a file with a
wider mode, the mode is tightened when the file is opened for writing.
"""

from __future__ import annotations

import collections
import contextlib
import errno
import grp
import os
import pwd
import re
import stat
from collections.abc import Callable, Iterator
from enum import Enum
from typing import BinaryIO

from . import Fault

# The modes of what is made.
FILE, FOLDER = 0o600, 0o700
# How each file is opened.
ALWAYS = os.O_NOFOLLOW | os.O_NONBLOCK | os.O_CLOEXEC
# So often a file that somebody makes and takes away meanwhile is opened again.
TIMES = 20
# A file that is read whole has this many bytes at most.
MOST_BYTES = 64 << 20
# How many links may lie on the way to a file.
MOST_LINKS = 40
KINDS = {stat.S_IFDIR: "a folder", stat.S_IFLNK: "a link", stat.S_IFIFO: "a pipe",
         stat.S_IFSOCK: "a socket", stat.S_IFCHR: "a device", stat.S_IFBLK: "a device"}


class NotOurs(PermissionError):
    """A file or a folder that somebody else can have made, or can write. Its `strerror` says whose
    it is, its mode, and what to do."""

    def __init__(self, shown: str, why: str) -> None:
        super().__init__(errno.EPERM, why, shown)


class Part(Enum):
    """What lies beside a store, by what its name has after the store's."""

    STORE = ""
    LOCK = ".lock"
    TRIES = ".tries"
    PIDS = ".pids"
    OUT = ".out"
    LOG = ".log"
    CANCEL = ".cancel"
    ENDED = ".ended"
    NIGHTS = ".nights"
    TONIGHT = ".tonight"
    FAR = ".far"
    FAILED = ".failed"
    MAKING = ".making"


# What else may have the name of a store before its own.
BESIDE = re.compile(rf"(?:{'|'.join(re.escape(it.value) for it in Part)}|\.renewing|\.log\.[0-9]+)"
                    r"(?:\.new)?")


def is_beside(name: str, store: str) -> bool:
    """Whether a file of this name belongs to the store of that one."""
    return name.startswith(store) and BESIDE.fullmatch(name[len(store):]) is not None


# --- whose it is

def name_of(uid: int) -> str:
    """A user's name, or the number where there is none."""
    try:
        return pwd.getpwuid(uid).pw_name
    except KeyError:
        return f"user {uid}"


def is_trusted(uid: int) -> bool:
    return uid in (0, os.geteuid())


def mode_of(found: os.stat_result) -> str:
    return f"{stat.S_IMODE(found.st_mode):04o}"


def others_may_write(found: os.stat_result, at: int | str) -> bool:
    """Whether somebody may write it who is neither its owner nor root."""
    if found.st_mode & stat.S_IWOTH:
        return True
    return bool(found.st_mode & stat.S_IWGRP) and not is_of_one(found.st_gid, found.st_uid, at)


def is_of_one(group: int, user: int, at: int | str) -> bool:
    """Whether a group has nobody in it but this user; what has an access control list may let
    others write."""
    with contextlib.suppress(OSError):
        if os.getxattr(at, "system.posix_acl_access"):
            return False
    try:
        members = set(grp.getgrgid(group).gr_mem)
        members |= {it.pw_name for it in pwd.getpwall() if it.pw_gid == group}
        return members == {pwd.getpwuid(user).pw_name}
    except KeyError:
        return False


def judge_file(found: os.stat_result, shown: str, at: int | str) -> None:
    """NotOurs where this is no file to be trusted."""
    whose = f"it belongs to {name_of(found.st_uid)}, mode {mode_of(found)}"
    if not stat.S_ISREG(found.st_mode):
        kind = KINDS.get(stat.S_IFMT(found.st_mode), "something else")
        raise NotOurs(shown, f"it is no regular file, but {kind} ({whose}): move it away")
    if found.st_nlink > 1:
        raise NotOurs(shown, f"it is one file under {found.st_nlink} names ({whose}): put a copy in"
                             " its place, or move it away")
    judge_owner(found, shown, whose)
    if others_may_write(found, at):
        raise NotOurs(shown, f"{whose}, so others may write it: if nobody has changed it,"
                             f" chmod go-w {shown}")


def judge_folder(found: os.stat_result, path: str) -> None:
    """NotOurs where somebody else may put things in this folder, or take them away."""
    whose = f"it belongs to {name_of(found.st_uid)}, mode {mode_of(found)}"
    if not stat.S_ISDIR(found.st_mode):
        raise NotADirectoryError(errno.ENOTDIR, os.strerror(errno.ENOTDIR), path)
    if not is_unmapped(found.st_uid):
        judge_owner(found, path, whose)
    if others_may_write(found, path) and not found.st_mode & stat.S_ISVTX:
        raise NotOurs(path, f"{whose}, so others may put files there: chmod go-w {path}, or take"
                            " a folder that only you may write")


def judge_owner(found: os.stat_result, shown: str, whose: str) -> None:
    if not is_trusted(found.st_uid):
        me = name_of(os.geteuid())
        trusted = me if me == "root" else f"{me} or root"
        raise NotOurs(shown, f"{whose}, and you are {me}: run night-run as"
                             f" {name_of(found.st_uid)}, or give it to {trusted} (chown)")


def is_unmapped(uid: int) -> bool:
    """Whether this stands for every user that this process's user namespace doesn't have; a folder
    of the machine's root is shown so in a container."""
    with contextlib.suppress(OSError, ValueError):
        with open("/proc/sys/kernel/overflowuid", encoding="ascii") as file:
            if uid != int(file.read()):
                return False
        with open("/proc/self/uid_map", encoding="ascii") as file:
            ranges = [tuple(map(int, it.split())) for it in file]
        return not any(first <= uid < first + count for first, _, count in ranges)
    return False


# --- the way to it

def way_to(path: str) -> str:
    """The real path. Each folder and each link on the way is looked at, from the root on, so that
    nobody else can lead it elsewhere later. The last part need not be there."""
    at = "/"
    left = collections.deque(from_root(path).split("/"))
    links = 0
    while left:
        part = left.popleft()
        if part in ("", "."):
            continue
        if part == "..":
            at = os.path.dirname(at)
            continue
        here = os.path.join(at, part)
        try:
            found = os.lstat(here)
        except FileNotFoundError:
            if any(it not in ("", ".") for it in left):
                raise
            return here
        if at == f"/proc/{os.getpid()}/fd":
            return here  # (what the caller has open: it leads wherever that is)
        if stat.S_ISLNK(found.st_mode):
            links += 1
            if links > MOST_LINKS:
                raise OSError(errno.ELOOP, os.strerror(errno.ELOOP), path)
            judge_owner(found, here, f"it is a link of {name_of(found.st_uid)}'s")
            link = os.readlink(here)
            at = "/" if link.startswith("/") else at
            left.extendleft(reversed(link.split("/")))
            continue
        if stat.S_ISDIR(found.st_mode):
            judge_folder(found, here)
        elif left:
            raise NotADirectoryError(errno.ENOTDIR, os.strerror(errno.ENOTDIR), here)
        at = here
    return at


def from_root(path: str) -> str:
    """A path from the root on, with each `..` in its place: after a link it is the folder above
    that which the link leads to."""
    try:
        return path if path.startswith("/") else f"{os.getcwd()}/{path}"
    except FileNotFoundError:
        raise Fault(f"{path}: the folder in which night-run was started is gone") from None


def open_commands(given: str) -> int:
    """The file of commands of this path; or what the caller has open, as /dev/stdin, or a pipe that
    a shell calls /dev/fd/63."""
    path = way_to(given)
    is_open = path.startswith(f"/proc/{os.getpid()}/fd/")
    file = os.open(path, os.O_RDONLY | (os.O_CLOEXEC if is_open else ALWAYS))
    try:
        found = os.fstat(file)
        if stat.S_ISREG(found.st_mode) or not is_open:
            judge_file(found, given, file)
    except BaseException:
        os.close(file)
        raise
    return file


def is_passed_on(given: str) -> bool:
    """Whether a path leads to what the caller has open."""
    try:
        return way_to(given).startswith(f"/proc/{os.getpid()}/fd/")
    except OSError:
        return False


def open_trusted(given: str) -> int:
    """A file that a file of commands names: a regular one, which nobody else may write."""
    file = os.open(way_to(given), os.O_RDONLY | ALWAYS)
    try:
        judge_file(os.fstat(file), given, file)
    except BaseException:
        os.close(file)
        raise
    return file


def open_private(given: str) -> int:
    """The same; a file that not everybody may read, either."""
    file = open_trusted(given)
    found = os.fstat(file)
    if found.st_mode & stat.S_IROTH:
        os.close(file)
        raise NotOurs(given, f"it belongs to {name_of(found.st_uid)}, mode {mode_of(found)}, so"
                             f" others may read it: chmod o-r {given}")
    return file


# --- what is made

class Umask:
    """What this process makes is for its user alone; what the commands make is the caller's."""

    of_caller = 0o022

    @staticmethod
    def keep_others_out() -> None:
        Umask.of_caller = os.umask(0o077)

    @staticmethod
    @contextlib.contextmanager
    def restored() -> Iterator[None]:
        """In it processes are begun with the caller's umask."""
        own = os.umask(Umask.of_caller)
        try:
            yield
        finally:
            os.umask(own)


# --- a folder and its files

class Folder:
    """A folder by its descriptor: whatever takes its name later, this is what was looked at."""

    def __init__(self, file: int, path: str, shown: str) -> None:
        self.file, self.path, self.shown = file, path, shown

    @staticmethod
    def at(path: str, shown: str) -> Folder:
        """The folder of this real path, `way_to` of which was asked for."""
        file = os.open(path, os.O_RDONLY | os.O_DIRECTORY | ALWAYS)
        try:
            judge_folder(os.fstat(file), path)
        except OSError:
            os.close(file)
            raise
        return Folder(file, path, shown)

    def close(self) -> None:
        os.close(self.file)

    def shown_of(self, name: str) -> str:
        return os.path.join(self.shown, name)

    # --- what is there

    def stat(self, name: str) -> os.stat_result | None:
        """What has this name, a link itself; None where nothing has."""
        try:
            return os.stat(name, dir_fd=self.file, follow_symlinks=False)
        except (FileNotFoundError, NotADirectoryError):
            return None

    def names(self) -> list[str]:
        return sorted(os.listdir(self.file))

    def files(self) -> Iterator[str]:
        """The names of the regular files in it."""
        with os.scandir(self.file) as found:
            yield from (it.name for it in found if it.is_file(follow_symlinks=False))

    @contextlib.contextmanager
    def named(self, name: str) -> Iterator[None]:
        """Errors name the file as it is shown, and who may do what with it."""
        try:
            yield
        except NotOurs:
            raise
        except OSError as error:
            shown, why = self.shown_of(name), error.strerror or str(error)
            found = None
            with contextlib.suppress(OSError):
                found = self.stat(name)
            if found and error.errno == errno.ELOOP:
                raise NotOurs(shown, f"it is a link of {name_of(found.st_uid)}'s: no file beside"
                                     " a store may be a link; remove it") from None
            if found and (error.errno == errno.ENXIO or not is_trusted(found.st_uid)):
                judge_file(found, shown, self.file)
            if found and error.errno in (errno.EACCES, errno.EPERM):
                why += f"; it belongs to {name_of(found.st_uid)}, mode {mode_of(found)}"
            raise type(error)(error.errno, why, shown) from None

    # --- files

    def open(self, name: str, flags: int = os.O_RDONLY, as_found: bool = False) -> int:
        """A descriptor of a file that is trusted. It is made where the flags have O_CREAT, and
        emptied, after it was looked at, where they have O_TRUNC. What is written is for its user
        alone from now on, unless it is left as it was found."""
        for _ in range(TIMES):
            with self.named(name):
                file = self.opened(name, flags)
                try:
                    os.set_blocking(file, True)
                    if self.look_at(file, name, flags, as_found):
                        return file
                except BaseException:
                    os.close(file)
                    raise
                os.close(file)
        raise NotOurs(self.shown_of(name), "its name is given to other files again and again")

    def opened(self, name: str, flags: int) -> int:
        wanted = flags & ~(os.O_CREAT | os.O_TRUNC | os.O_EXCL) | ALWAYS
        for _ in range(TIMES):
            with contextlib.suppress(FileNotFoundError):
                if not flags & os.O_EXCL:
                    return os.open(name, wanted, dir_fd=self.file)
            if not flags & os.O_CREAT:
                break
            try:
                return os.open(name, wanted | os.O_CREAT | os.O_EXCL, FILE, dir_fd=self.file)
            except FileExistsError:
                if flags & os.O_EXCL:
                    raise
        raise FileNotFoundError(errno.ENOENT, os.strerror(errno.ENOENT), name)

    def look_at(self, file: int, name: str, flags: int, as_found: bool) -> bool:
        """Looks at a file that was opened by this name; whether it has that still. (Who had a
        second name of it, and none now, didn't open it by the first.)"""
        found = os.fstat(file)
        judge_file(found, self.shown_of(name), file)
        named = self.stat(name)
        if named is None or not os.path.samestat(found, named):
            return False
        judge_file(named, self.shown_of(name), file)
        if flags & (os.O_WRONLY | os.O_RDWR) and not as_found:
            tighten(file, found, FILE)
        if flags & os.O_TRUNC and found.st_size:
            os.ftruncate(file, 0)
        return True

    def read(self, name: str) -> bytes:
        """All of a file; OSError where it is larger than any file of a night."""
        with open(self.open(name), "rb") as file, self.named(name):
            return read_all(file)

    def put(self, name: str, data: bytes, may: Callable[[], bool] = lambda: True) -> None:
        """Puts a file with this instead of what has the name, whole and durable, or not at all:
        only if it may be once it is durable."""
        making = f"{name}.new"
        self.remove(making)
        file = self.open(making, os.O_WRONLY | os.O_CREAT | os.O_EXCL)
        try:
            with self.named(making):
                try:
                    write_all(file, data)
                    os.fsync(file)
                finally:
                    os.close(file)
            if not may():
                self.remove(making)
                return
            self.move(making, name)
        except OSError:
            with contextlib.suppress(OSError):
                self.remove(making)
            raise
        self.sync()

    def move(self, name: str, other: str) -> None:
        """Gives a file another name, whatever had that."""
        with self.named(name):
            os.rename(name, other, src_dir_fd=self.file, dst_dir_fd=self.file)

    def remove(self, name: str) -> None:
        """Takes a file away, or a link itself; nothing where there is none."""
        with self.named(name), contextlib.suppress(FileNotFoundError):
            os.unlink(name, dir_fd=self.file)

    def tighten(self, name: str) -> None:
        """Takes what others may do with a file of ours, if it is there."""
        with contextlib.suppress(FileNotFoundError):
            file = self.open(name)
            try:
                tighten(file, os.fstat(file), FILE)
            finally:
                os.close(file)

    def sync(self) -> None:
        """Makes the names in it durable."""
        with self.named("."):
            os.fsync(self.file)

    # --- folders in it

    def folder(self, name: str, make: bool = False) -> Folder:
        """A folder in it that is trusted; it is made, with the mode 0700, where it isn't there."""
        with self.named(name):
            if make:
                with contextlib.suppress(FileExistsError):
                    os.mkdir(name, FOLDER, dir_fd=self.file)
            file = os.open(name, os.O_RDONLY | os.O_DIRECTORY | ALWAYS, dir_fd=self.file)
            try:
                found = os.fstat(file)
                judge_folder_beside(found, self.shown_of(name), file)
                if make:
                    tighten(file, found, FOLDER)
            except BaseException:
                os.close(file)
                raise
        return Folder(file, f"{self.path}/{name}", self.shown_of(name))


def judge_folder_beside(found: os.stat_result, shown: str, at: int) -> None:
    """NotOurs where a folder beside a store is somebody else's, or others may write there."""
    whose = f"it belongs to {name_of(found.st_uid)}, mode {mode_of(found)}"
    judge_owner(found, shown, whose)
    if others_may_write(found, at):
        raise NotOurs(shown, f"{whose}, so others may put files there: if nobody has done so,"
                             f" chmod go-w {shown}; else move it away")


def tighten(file: int, found: os.stat_result, mode: int) -> None:
    """Leaves others nothing of what is ours, as an older driver left it."""
    if found.st_uid == os.geteuid() and stat.S_IMODE(found.st_mode) & ~mode:
        os.fchmod(file, mode)


def read_all(file: BinaryIO) -> bytes:
    """All of a file, unless it is so large that nobody meant it."""
    data = file.read(MOST_BYTES + 1)
    if len(data) > MOST_BYTES:
        raise OSError(errno.EFBIG, f"it has more than {MOST_BYTES >> 20} MB, and so is no file of"
                                   " a night")
    return data


def write_all(file: int, data: bytes) -> None:
    """Writes all of it, in as many pieces as the system takes."""
    while data:
        data = data[os.write(file, data):]
