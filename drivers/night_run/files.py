"""A store and what lies beside it, under its real path. `beside` opens each of them.

    STORE            the store
    STORE.lock       locked by the one driver that may run, or by a cancel (`lock`)
    STORE.tries/     what was begun and isn't recorded yet, GROUP.KEY.TRY: its process, and how it
                     ended (`tries`)
    STORE.pids       the processes of an older driver's commands
    STORE.out/       the output of each task, GROUP.KEY.TRY
    STORE.log        what ran when, how long, and how it ended (`log`)
    STORE.cancel/    which groups somebody wants to have cancelled, and the answers (`cancels`)
    STORE.ended      how commands ended whose groups a renewal has given back (`past`)
    STORE.far        which commands may run elsewhere (`far`)
    STORE.nights     when the last nights began, and when one was well (`nights`)
    STORE.tonight    what operators want of a night (`tonight`)
    STORE.log.N      the log of night N (`keeping`)
    STORE.failed     a sync of the store failed, or its `night` was killed in one; the next opening
                     mends it
"""

from __future__ import annotations

import codecs
import contextlib
import functools
import os
import pwd
import re
import stat
import subprocess
import time
from collections.abc import Callable

from . import Fault, Mistake
from .beside import Folder, NotOurs, Part, is_beside, is_trusted, name_of, way_to
from .escapes import plain
from .lock import Lock
from .outputs import Outputs
from .sight import Sight

# Those of a small and of a large store.
SIZES = 1_572_864, 6_291_456
# Why a file is no store, and what to do.
NO_STORE = "so it is not a store; give STORE first, and then JOBS"
# How many seconds a look at a store may take to sync it, and the sync of a folder.
LOOK, OF_FOLDER = 0.3, 2.0
# What of root's environment a look at a user's night needs.
KEPT = {"PATH", "NIGHT", "NIGHT_DEBUG", "LANG", "TZ", "TERM"}
# What the name of an earlier night's log has after the store's, and how many files are named.
OLD_LOG, MOST_NAMES = re.compile(r"\.log\.([1-9][0-9]{0,8})"), 4
# How often the system is advised to drop a store's pages, and how many seconds apart: a page that
# something else holds for a moment stays.
ADVISED, BETWEEN = 4, 0.005


def leave_mark(store: str) -> None:
    """Leaves the mark of a failed sync beside the store of this real path, as `night` does. Whoever
    kills a `night` in a sync does so before: the system reports its failure to nobody else. The
    mark is durable where a sync of the folder answers, which may hang, too."""
    name = f"{os.path.basename(store)}{Part.FAILED.value}"
    with contextlib.suppress(OSError), \
            contextlib.closing(Folder.at(os.path.dirname(store), "")) as folder:
        os.close(folder.open(name, os.O_WRONLY | os.O_CREAT | os.O_EXCL))
        sync = subprocess.Popen(["sync", folder.path], stdin=subprocess.DEVNULL,
                                stdout=subprocess.DEVNULL, stderr=subprocess.DEVNULL,
                                start_new_session=True)
        with contextlib.suppress(subprocess.TimeoutExpired):
            sync.wait(OF_FOLDER)


class Files:
    """The files of a store. `shown` is how the store is called in messages."""

    def __init__(self, given: str) -> None:
        self.lost: OSError | None = None  # why the store has no folder
        given = given.rstrip("/") or "/"
        try:
            self.path = way_to(given)
        except (FileNotFoundError, NotADirectoryError) as error:
            self.path, self.lost = os.path.abspath(given), error
        is_given = self.path == os.path.abspath(given)
        self.shown = plain(given if is_given else self.path)
        self.lock = Lock(self)
        self.outputs = Outputs(self)
        self.sight = Sight(self.path, self.shown)

    @functools.cached_property
    def folder(self) -> Folder:
        """The folder of the store, which `way_to` found to be one that nobody else can write."""
        if self.lost:
            raise self.lost
        return Folder.at(os.path.dirname(self.path), os.path.dirname(self.shown))

    def name(self, part: Part) -> str:
        return f"{os.path.basename(self.path)}{part.value}"

    def shown_of(self, part: Part) -> str:
        return f"{self.shown}{part.value}"

    # --- the files

    def stat(self, part: Part) -> os.stat_result | None:
        """What has the name of this part; None where nothing has."""
        try:
            return self.folder.stat(self.name(part))
        except (FileNotFoundError, NotADirectoryError):
            return None

    def open(self, part: Part, flags: int = os.O_RDONLY, as_found: bool = False) -> int:
        return self.folder.open(self.name(part), flags, as_found)

    def read(self, part: Part) -> bytes:
        return self.folder.read(self.name(part))

    def put(self, part: Part, data: bytes, may: Callable[[], bool] = lambda: True) -> None:
        """Puts this in the place of a part, whole and durable, if it may be by then."""
        self.folder.put(self.name(part), data, may)

    def remove(self, part: Part) -> None:
        self.folder.remove(self.name(part))

    def below(self, part: Part, make: bool = False) -> Folder:
        """A part that is a folder."""
        return self.folder.folder(self.name(part), make)

    def may_have_room(self, size: int) -> bool:
        """Whether the disk may have room for a file of this size. Of one that counts no blocks, or
        counts them for each user, that isn't known."""
        found = os.fstatvfs(self.folder.file)
        free = found.f_bavail if os.geteuid() else found.f_bfree
        return not found.f_blocks or free * found.f_frsize >= size

    # --- the store

    def exists(self) -> bool:
        return self.stat(Part.STORE) is not None

    def look(self) -> None:
        """A file that can be no store is a mistake of the words, and nothing is made beside it.
        One that somebody else can have made is a fault, and so is each that lies beside it."""
        found = self.stat(Part.STORE)
        if found is None:
            return
        if not stat.S_ISREG(found.st_mode):
            raise Mistake(f"{self.shown}: it is not a regular file, {NO_STORE}")
        os.close(self.open(Part.STORE))
        had = self.lock.size()
        if had and found.st_size < had:
            raise Fault(f"{self.shown} has {found.st_size} bytes, and had {had}: it was cut off;"
                        " restore a whole copy of it")
        if found.st_size not in SIZES:
            raise Mistake(f"{self.shown}: it has {found.st_size} bytes, {NO_STORE}")

    def keep_others_out(self) -> None:
        """Takes from others what an older driver let them read; what is theirs is a fault. (What is
        ours, and no file, ends no night here: who needs it says so.)"""
        store = self.name(Part.STORE)
        for name in (it for it in self.folder.names() if is_beside(it, store)):
            found = self.folder.stat(name)
            is_file = found and (stat.S_ISREG(found.st_mode) or stat.S_ISLNK(found.st_mode))
            if found and (is_file or not is_trusted(found.st_uid)):
                self.folder.tighten(name)
        self.below(Part.OUT, make=True).close()

    def is_marked(self) -> bool:
        """Whether a sync of the store has failed; the next opening by `night` mends it. The mark
        under which a look makes its own sync is soon gone."""
        if self.stat(Part.FAILED) is not None:
            time.sleep(LOOK)
        return self.stat(Part.FAILED) is not None

    def forget_pages(self) -> None:
        """Lets the system forget what it holds of the store in memory: after a failed sync that may
        be more than the disk has, and the next reader is to see the disk."""
        with contextlib.suppress(OSError):
            file = self.open(Part.STORE)
            try:
                for _ in range(ADVISED):
                    os.posix_fadvise(file, 0, 0, os.POSIX_FADV_DONTNEED)
                    time.sleep(BETWEEN)
            finally:
                os.close(file)

    def look_for_log(self) -> None:
        """A store that is gone isn't made again while what it did is known. (Whoever put a log of
        an earlier night there that isn't ours is named.)"""
        its = [self.shown_of(it) for it in (Part.LOG, Part.ENDED) if self.stat(it) is not None]
        for it in self.old_logs():
            self.folder.tighten(f"{self.name(Part.LOG)}.{it}")
            its.append(f"{self.shown_of(Part.LOG)}.{it}")
        if its:
            raise Fault(f"{self.shown} is not there, but {are_there(its)}: bring the store back, or"
                        f" move {its[0] if not its[1:] else 'them'} away if you want a new store")

    def old_logs(self) -> list[int]:
        """The nights of which a log lies beside the store."""
        name = self.name(Part.STORE)
        with contextlib.suppress(FileNotFoundError, NotADirectoryError):
            its = (OLD_LOG.fullmatch(it[len(name):]) for it in self.folder.names()
                   if it.startswith(name))
            return sorted(int(it[1]) for it in its if it)
        return []


def are_there(names: list[str]) -> str:
    """That these are there; the first of them, where they are many."""
    shown, more = names[:MOST_NAMES], names[MOST_NAMES:]
    if more:
        return f"{', '.join(shown)} and {len(more)} more are"
    return f"{', '.join(shown[:-1])} and {shown[-1]} are" if shown[1:] else f"{shown[0]} is"


def become_owner(given: str) -> None:
    """As root: goes on as the user whose store this is, for good. So what root only looks at, or
    cancels, is done with no more rights than its owner has, whatever lies there."""
    if os.geteuid():
        return
    path = os.path.realpath(given)
    for it in (path, os.path.dirname(path)):
        try:
            uid = os.lstat(it).st_uid
        except OSError:
            continue
        if uid:
            go_on_as(uid)
        return


def forget_environment() -> None:
    """Forgets what root's environment has beside what a look needs: a user reads that of each
    process that runs as him."""
    for it in set(os.environ) - KEPT:
        if not it.startswith("LC_"):
            del os.environ[it]


def go_on_as(uid: int) -> None:
    for it in ("ascii", "utf-8", "latin-1"):
        codecs.lookup(it)  # (Python reads it from where that user may not be able to)
    try:
        found = pwd.getpwuid(uid)
        group, name = found.pw_gid, found.pw_name
    except KeyError:
        group, name = uid, ""
    try:
        if name:
            os.initgroups(name, group)
        else:
            os.setgroups([])
        os.setresgid(group, group, group)
        os.setresuid(uid, uid, uid)
        forget_environment()
    except OSError as error:
        raise NotOurs(name_of(uid), f"root can't go on as this user: {error.strerror}") from None
