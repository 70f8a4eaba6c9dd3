"""A folder with a file of commands, a store and drivers over it, and what is done to them."""

import compileall
import multiprocessing
import os
import random
import shutil
import subprocess
import tempfile
import time
from collections.abc import Callable, Iterable
from concurrent.futures import ProcessPoolExecutor
from dataclasses import dataclass

from nights_folder import Folder
from nights_hits import hit
from nights_oracle import Cancel, Run, Seen, Stop, read_acked, read_trace
from nights_pace import Pace
from nights_plan import SECRET, Plan
from nights_wants import Want

HERE = os.path.dirname(os.path.abspath(__file__))
# How long a driver that nothing disturbs may take, and one that was asked to end.
SECONDS, SECONDS_TO_END = 45.0, 20.0
# What a driver prints on a fault of its own.
TRACEBACK = "Traceback (most recent call last)"


@dataclass(frozen=True)
class Tools:
    """The programs of the nights: what stands for `night`, a command, and the library."""

    folder: str
    driver: str
    knows: bool
    knows_wants: bool = True

    @property
    def night(self) -> str:
        return f"{self.folder}/night"

    @property
    def job(self) -> str:
        return f"{self.folder}/job"


def make_tools(folder: str, program: str, driver: str) -> Tools:
    """Builds the programs; the driver is asked what it knows."""
    shutil.copy(program, f"{folder}/night.real")
    os.chmod(f"{folder}/night.real", 0o755)
    for source, name, words in (("job", "job", ""), ("between", "night", ""),
                                ("clock", "clock.so", "-shared -fPIC -ldl")):
        built = subprocess.run(["cc", "-O1", "-o", f"{folder}/{name}",
                                f"{HERE}/nights_{source}.c", *words.split()],
                               capture_output=True, text=True)
        if built.returncode:
            raise SystemExit(f"nights: cc can't build nights_{source}.c:\n{built.stderr}")
    driver = copied(driver, f"{folder}/drivers")
    shown = subprocess.run([driver, "--help"], capture_output=True, text=True,
                          env={**os.environ, "NIGHT": f"{folder}/night"})
    return Tools(folder, driver, "--again" in shown.stdout, "--skip" in shown.stdout)


def copied(driver: str, folder: str, *changes: tuple[str, str, str]) -> str:
    """A copy of a driver, in which texts of its files are changed. Its modules are compiled: else
    each start does that, which takes half of its time."""
    shutil.copytree(os.path.dirname(driver), folder,
                    ignore=shutil.ignore_patterns("__pycache__"))
    for name, old, new in changes:
        with open(f"{folder}/{name}", encoding="utf-8") as file:
            text = file.read()
        if text.count(old) != 1:
            raise ValueError(f"`{old}` stands {text.count(old)} times in {name}")
        with open(f"{folder}/{name}", "w", encoding="utf-8") as file:
            file.write(text.replace(old, new))
    compileall.compile_dir(folder, quiet=1)
    return f"{folder}/{os.path.basename(driver)}"


# How slow the machine is, as each process that plays nights sees it.
PACE = Pace()


def workers(count: int) -> ProcessPoolExecutor:
    """Processes that play nights."""
    return ProcessPoolExecutor(count, multiprocessing.get_context("fork"), PACE.start)


class Room(Folder):
    """A night's folder, and what runs in it and is seen there."""

    def __init__(self, tools: Tools, plan: Plan, dice: random.Random) -> None:
        super().__init__(tempfile.mkdtemp(prefix="room-", dir=tools.folder))
        self.tools, self.plan, self.dice = tools, plan, dice
        self.begun = 0  # how much was written as the night that is played began
        for it in ("locks", "tries", "in", "x"):
            os.mkdir(f"{self.path}/{it}")
        os.symlink("../s", f"{self.path}/x/s")
        os.symlink("../JOBS", f"{self.path}/x/JOBS")
        for name, text in plan.files(dice, tools.job, self.path).items():
            self.write(name, text)
        self.write("slow", str(plan.slow))
        with open(os.open(f"{self.path}/variables", os.O_WRONLY | os.O_CREAT, 0o600), "w",
                  encoding="ascii") as file:
            file.write(f"WORD={SECRET}\n")
        self.environment = {**os.environ, "NIGHT": tools.night}
        self.seen = Seen(plan, slack=PACE.slack)
        self.bad: list[str] = []
        self.notes: list[str] = []
        self.most = plan.most
        self.limits = {it.name: it.limit for it in plan.groups.values() if it.limit is not None}
        self.bound()
        if plan.filled:
            self.fill(plan.filled, f"{tools.folder}/night.real")

    def has_begun(self) -> bool:
        """Whether something of this night has begun, so that it is what a cancel is of."""
        return self.trace_size() > self.begun

    def bound(self) -> None:
        """Writes down for the commands how many of them may run at a time."""
        limits = "".join(f" {group} {limit}" for group, limit in self.limits.items())
        self.write("bounds", f"{self.most}{limits}\n")

    def bound_by(self, wants: Iterable[Want]) -> None:
        """The same where other limits are asked for. (A command may see the new ones before they
        hold, so none gets smaller here: the oracle looks at that.)"""
        for it in wants:
            name, _, value = it.word.partition("=")
            group = name.removesuffix(".limit")
            if it.verb == "set" and name == "j":
                self.most = max(self.most, int(value))
            elif it.verb == "set" and group in self.limits:
                self.limits[group] = max(self.limits[group], int(value))
        self.bound()

    # --- drivers

    def note(self, what: str) -> None:
        self.notes.append(f"{time.monotonic():.3f} {what}")

    def holds(self, is_so: bool, complaint: str) -> bool:
        if not is_so:
            self.bad.append(complaint)
        return is_so

    def words(self, *more: str) -> list[str]:
        """The words of a driver over this store; it is opened by one of its names."""
        store = self.dice.choice(("s", "s", "./s", f"{self.path}/s", "x/s"))
        if not self.tools.knows and not os.path.exists(f"{self.path}/s"):
            store = "s"
        jobs = self.dice.choice(("JOBS", "JOBS", "x/JOBS"))
        mail = ["--mail", "cat > mail.$NIGHT_OWNER"] if self.tools.knows else []
        return [self.tools.driver, store, jobs, "-j", str(self.plan.most), "--grace",
                str(self.plan.grace), *mail, *more]

    def start(self, *more: str, errors: str = "errors") -> subprocess.Popen[str]:
        words = self.words(*more)
        self.note(f"start {' '.join(words[1:])}")
        return self.spawn(words, errors)

    def spawn(self, words: list[str], errors: str) -> subprocess.Popen[str]:
        with open(f"{self.path}/{errors}", "w", encoding="utf-8") as file:
            return subprocess.Popen(words, cwd=self.path, stdin=subprocess.DEVNULL, text=True,
                                    errors="replace", stdout=subprocess.PIPE, stderr=file,
                                    start_new_session=True, env=self.environment)

    def end(self, driver: subprocess.Popen[str], began: float, opened: str,
            seconds: float = SECONDS) -> tuple[int | None, str]:
        """How a driver ended and what it printed; None where it hangs."""
        status: int | None
        try:
            output = self.output_of(driver, seconds)
            status = driver.returncode
        except subprocess.TimeoutExpired:
            self.show_hanging(driver)
            hit(driver, "rest")
            output, status = driver.communicate()[0], None
            self.seen.stops.append(Stop(time.monotonic(), "it hung", self.most))
            self.bad.append(f"3: a driver didn't end in {seconds:.0f} s")
        self.note(f"ended with status {status}")
        errors = self.text("errors")
        self.holds(TRACEBACK not in errors, f"8: a traceback: {errors[-600:]}")
        self.seen.runs.append(Run(began, time.monotonic(), status, opened))
        return status, output

    def output_of(self, driver: subprocess.Popen[str], seconds: float) -> str:
        """What a driver printed, once it has ended; it may take longer where all does."""
        began = time.monotonic()
        while True:
            try:
                return driver.communicate(timeout=2)[0]
            except subprocess.TimeoutExpired:
                now = time.monotonic()
                if now - began > seconds * (0.5 + PACE.slack(began, now)):
                    raise

    def show_hanging(self, driver: subprocess.Popen[str]) -> None:
        shown = subprocess.run(["ps", "-o", "pid,ppid,pgid,stat,wchan,etimes,args", "--ppid",
                                str(driver.pid), "-p", str(driver.pid)],
                               capture_output=True, text=True)
        self.note(f"it hangs: {self.text('errors')[-500:]}\n{shown.stdout}")

    def run(self, *words: str,
            beside: Callable[[], None] | None = None) -> tuple[int, str, str]:
        """Runs a driver that only looks, or is to end at once; a hanging one is a fault."""
        driver = self.spawn([self.tools.driver, *words], "errors.aside")
        while beside and driver.poll() is None:
            beside()
            time.sleep(0.003)
        try:
            output = self.output_of(driver, SECONDS_TO_END)
        except subprocess.TimeoutExpired:
            driver.kill()
            output = driver.communicate()[0]
            self.bad.append(f"3: night-run {' '.join(words)} hangs")
        errors = self.text("errors.aside")
        self.holds(TRACEBACK not in errors, f"8: night-run {' '.join(words)}: {errors[-600:]}")
        return driver.returncode, output, errors

    def cancel(self, group: str, had_driver: Callable[[], bool]) -> None:
        """Cancels a group from a second process."""
        asked, had = time.monotonic(), had_driver()
        written: list[float] = []
        status, output, errors = self.run("s", "--cancel", group, "not", "tonight",
                                        beside=lambda: self.watch(written))
        done = time.monotonic()
        self.note(f"cancel {group}: status {status} {output.strip()} {errors.strip()}")
        # (a group that comes into the file later isn't canceled with the night)
        groups = tuple(self.plan.groups) if group == "night" else (group,)
        self.seen.cancels.append(Cancel(group, groups, asked, done, status, had and had_driver(),
                                        "its deadline has passed: " in output, *written))

    def watch(self, written: list[float]) -> None:
        """Notes when a cancel is asked for. (Its file has another name until it is durable.)"""
        try:
            if not written and any(not it.endswith(".new")
                                   for it in os.listdir(f"{self.path}/s.cancel")):
                written.append(time.monotonic())
        except OSError:
            pass

    # --- what is seen

    def look(self) -> Seen:
        """All that is known by now."""
        seen = Seen(self.plan, stops=list(self.seen.stops), hits=list(self.seen.hits),
                    runs=list(self.seen.runs), cancels=list(self.seen.cancels),
                    asked=list(self.seen.asked), slack=self.seen.slack)
        read_trace(seen, f"{self.path}/trace")
        read_acked(seen, f"{self.path}/acked")
        return seen
