"""What the scripts over real files share: the program's runs, the libraries that hurt a file or
refuse memory, two nights, and the count of what was tried."""

import errno
import os
import shutil
import subprocess
import sys
import tempfile
import threading

from by_hand import Store

HERE = os.path.dirname(os.path.abspath(__file__))
FAULT = "night: fault 2 DiskFailed\n"

# Why a file isn't had, or why a call of it failed: the system's words, and the program's own.
MISSING, EXISTS, FOLDER, DENIED, READ_ONLY, TOO_LARGE, FULL, FAILED = map(os.strerror, (
    errno.ENOENT, errno.EEXIST, errno.EISDIR, errno.EACCES, errno.EROFS, errno.EFBIG,
    errno.ENOSPC, errno.EIO))
EARLY = "it ended early"
IN_USE = "in use by another program"
# What a file holds that is no store, or no OLD of a migration, by the fault.
WRONG = {"3 NotAStore": "not a store",
         "4 WrongSize": "not the size of a store: 1,572,864 or 6,291,456 bytes",
         "5 BadSlot": "damaged: a slot can't be read",
         "6 BadImage": "damaged: the image in a slot can't be read",
         "7 BadBatch": "damaged: a batch can't be read",
         "8 BadRecord": "damaged: a record can't be read",
         "9 BadEvent": "damaged: an event isn't allowed at its place"}
LARGE_OLD = "is a large store already; OLD has to be a small one"
# An opening syncs the file before it is read, which no page of the formats counts.
SETTLES = ("sync",)

# What --wrong= makes wrong of the files, by wrong_files.c; the other kinds are those of a disk.
WRONG_FILES = ("mark", "look", "folder", "here", "lock", "device", "names", "rights", "group",
               "data")

# Two nights, the second after a restart of what the first one left. Each save comes in both slots,
# and over a slot whose gate is closed and one whose gate is open.
FIRST = ["derive a root cause", "derive b a cancel", "cancel a disk", "flush",
         "derive v root value region eu west", "group g root", "limit g 1", "go g copy a", "flush",
         "go g copy b", "checkpoint", "start", "flush", "finish 0 ok", "start"]
SECOND = ["retry 1", "bare h root", "try h spin 3", "flush", "derive d root deadline 100 late",
          "derive e d detached", "checkpoint", "advance 200", "start", "flush",
          "finish 2 error no room", "wait g", "checkpoint", "start"]

# The night of README that a reader types.
README = [
    "derive night root value region eu", "derive backup night cause",
    "derive copy backup deadline 3600 copy took too long", "derive report backup detached",
    "derive mail report cancel", "advance 3600", "cancel backup disk full", "group disks report",
    "go disks copy a", "start", "finish 0 error no room", "wait disks"]
# Among the lines of a night: the store is opened again.
RESTART = "restart"


def environment(wrong="", **hurts):
    """The library's variables, by their names without HURT_."""
    made = {f"HURT_{name.upper()}": str(value) for name, value in hurts.items()}
    if wrong:
        made["HURT_WRONG"] = wrong
    return made


class Ended:
    """How a run of the program ended."""

    def __init__(self, status, output, errors):
        self.status, self.output, self.errors = status, output, errors

    def __eq__(self, other):
        return vars(self) == vars(other)

    def __repr__(self):
        return f"status {self.status}, printed {self.output!r}, errors {self.errors!r}"


def failed(name, why, output=""):
    """A run that a failed call of the file of this name ended."""
    return Ended(3, output, f"{FAULT}night: {name}: {why}\n")


def fault(text, name, why=None):
    """A run that what the file of this name holds ended."""
    return Ended(3, "", f"night: fault {text}\nnight: {name}: {why or WRONG[text]}\n")


class Tries:
    """What a script tries: this many tries of each kind, those that failed, and what it skipped."""

    def __init__(self, about, source="hurt_file.c"):
        self.about, self.ran, self.bad, self.skipped = about, {}, {}, []
        words = [it for it in sys.argv[1:] if not it.startswith("--")]
        program = words[0] if words else f"{HERE}/../crates/night/out/night"
        if not os.path.isfile(program):
            sys.exit(f"{about}: no program {os.path.normpath(program)}; ./build makes it")
        self.words, self.is_short = words[1:], "--short" in sys.argv
        self.wrong = next((it[8:] for it in sys.argv[1:] if it.startswith("--wrong=")), "")
        self.made = tempfile.TemporaryDirectory(prefix="night-", dir=fast_room())
        self.folder = self.made.name
        os.chmod(self.folder, 0o755)
        # (a copy, so that another user can run it)
        self.program = shutil.copy(program, f"{self.folder}/night")
        os.chmod(self.program, 0o755)
        self.library = self.built(source)
        if self.wrong and not self.library:
            sys.exit(f"{about}: a wrong disk is made by the library, which wants `cc`")
        self.before = [self.built("wrong_files.c")] if self.wrong in WRONG_FILES else []

    def built(self, source):
        """The library that stands between the program and the system, or none where there is no
        compiler."""
        library = f"{self.folder}/{source}.so"
        if not shutil.which("cc"):
            return None
        # (several threads may ask for it, while programs of others load it)
        made = f"{library}.{threading.get_ident()}"
        words = ["cc", "-shared", "-fPIC", "-O1", "-o", made, f"{HERE}/{source}"]
        built = subprocess.run(words, capture_output=True, text=True)
        if built.returncode:
            sys.exit(f"{self.about}: cc can't build {source}:\n{built.stderr}")
        os.replace(made, library)
        return library

    def file(self, name, content=None):
        """A file of the script's own folder, which gets these bytes."""
        path = f"{self.folder}/{name}"
        if content is not None:
            # (one that has its length is written over, which is faster than to make it again)
            is_there = os.path.isfile(path) and os.path.getsize(path) == len(content)
            with open(path, "r+b" if is_there else "wb") as file:
                file.write(content)
        return path

    def given(self, hurt):
        """The environment of a run: with the library, where a file is hurt or a part is wrong."""
        if not hurt and not self.wrong:
            return {}
        given = {"LD_PRELOAD": self.library, **environment(self.wrong), **(hurt or {})}
        return {**given, "LD_PRELOAD": " ".join([*self.before, given["LD_PRELOAD"]])}

    def run(self, *words, lines=(), text="", hurt=None, before=(), **how):
        """Runs the program; a file that is hurt is named by `hurt`."""
        text = text or "".join(f"{it}\n" for it in lines)
        how = {"timeout": 60, "stdout": subprocess.PIPE, **how}
        done = subprocess.run([*before, self.program, *words], input=text, text=True,
                              stderr=subprocess.PIPE, env=self.given(hurt), **how)
        return Ended(done.returncode, done.stdout, done.stderr)

    def shown(self, store):
        """An inspection of the store."""
        return self.run("inspect", store, hurt=environment(file=store) if self.wrong else None)

    def holds(self, kind, what, is_so, found=""):
        """Counts a try of this kind."""
        self.ran[kind] = self.ran.get(kind, 0) + 1
        if not is_so:
            self.bad[kind] = self.bad.get(kind, 0) + 1
            if sum(self.bad.values()) <= 10:
                print(f"FAILED {kind}: {what}: {found}", flush=True)

    def is_same(self, kind, what, found, wanted):
        self.holds(kind, what, found == wanted, f"{found!r}, and not {wanted!r}")

    def is_file(self, kind, what, path, wanted):
        """Compares a file's bytes with these, or with None where it isn't to be there."""
        found = bytes_of(path) if os.path.exists(path) else None
        difference = "it is there, or it isn't"
        if found != wanted and None not in (found, wanted):
            pairs = enumerate(zip(found, wanted))
            place = next((it for it, (one, other) in pairs if one != other), len(found))
            difference = f"it has {len(found)} bytes, and the first other one is at {place}"
        self.holds(kind, what, found == wanted, difference)

    def skip(self, kind, why):
        self.skipped.append(f"{kind} ({why})")

    def end(self):
        """Says what was tried and what was skipped; the exit status, 77 where all was skipped."""
        for kind, count in self.ran.items():
            failed = f", {self.bad[kind]} FAILED" if kind in self.bad else ""
            print(f"ran: {kind}: {count}{failed}")
        for it in self.skipped:
            print(f"skipped: {it}")
        print(f"{self.about}: {sum(self.ran.values())} tries, {sum(self.bad.values())} failed")
        sys.exit(1 if self.bad else 0 if self.ran else 77)


def fast_room():
    """A folder in memory with room for the files, and where programs can run, or none."""
    try:
        found = os.statvfs("/dev/shm")
    except OSError:
        return None
    is_roomy = found.f_bavail * found.f_frsize > 500_000_000
    is_open = os.access("/dev/shm", os.W_OK) and not found.f_flag & os.ST_NOEXEC
    return "/dev/shm" if is_roomy and is_open else None


def calls_in(log):
    """How many calls the library wrote to this log."""
    words = [it.split()[0] for it in bytes_of(log).decode().splitlines()]
    return sum(it in ("read", "write", "sync", "close") for it in words)


def remove(path):
    if os.path.lexists(path):
        os.remove(path)


def bytes_of(path):
    with open(path, "rb") as file:
        return file.read()


class Step:
    """A step of a night by hand: what is typed, none at the opening and at the end; the reply, the
    calls that are made, and the states that are acknowledged before and after it."""

    def __init__(self, typed, reply, calls, before, after):
        self.typed, self.reply, self.calls = typed, reply, calls
        self.before, self.after = before, after


def steps(store, lines):
    """A night by hand: the opening is its first step, the flush at the end its last."""
    before = store.acked
    made = [Step(None, "", [SETTLES, *store.opened()], before, store.acked)]
    for line in lines + ["flush"]:
        before = store.acked
        reply, calls = store.line(line)
        made.append(Step(line, f"{reply}\n", calls, before, store.acked))
    made[-1].typed = None
    return made


def step(store, line):
    """Runs a line over a store by hand, or opens it again."""
    if line == RESTART:
        store.checkpoint()
        store.opened()
    else:
        store.line(line)


def made(lines, is_large):
    """A store by hand over which these lines were run."""
    store = Store(is_large)
    store.made()
    store.opened()
    for line in lines:
        step(store, line)
    store.checkpoint()
    return store


def replies(made):
    return "".join(it.reply for it in made)


def steps_over(state, lines):
    """So are those of a night over this state, with no calls."""
    store = Store(True)
    store.acked = state
    return steps(store, lines)


def calls_of(made):
    return [call for it in made for call in it.calls]


def stores():
    """Stores to begin from, each with its name, itself by hand, and the lines of its next night."""
    for is_large in (False, True):
        size = "large" if is_large else "small"
        fresh = Store(is_large)
        fresh.made()
        yield f"a fresh {size} store", fresh, FIRST
        used = Store(is_large)
        used.made()
        steps(used, FIRST)
        if not is_large:
            old = Store(is_large)
            old.state = used.acked.copy()
            old.made(version=1)
            yield "a store of version 1", old, SECOND
        yield f"a used {size} store", used, SECOND


def own_name() -> str:
    """The name of this process among those that ask for a cancel: BOOT.PID.START."""
    with open("/proc/self/stat", encoding="utf-8", errors="replace") as file:
        start = file.read().rpartition(")")[2].split()[19]
    with open("/proc/sys/kernel/random/boot_id", encoding="ascii") as file:
        return f"{file.read().strip()}.{os.getpid()}.{start}"
