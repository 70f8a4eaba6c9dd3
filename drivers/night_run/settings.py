"""The settings of a group or a command:

    limit N                 (a group) at most N of its commands at a time, 1 to 64
    until MOMENT            (a group, night) a deadline
    within TIME             (a group, night) a deadline this long after the group was made
    after X..               begun once these are ok: keys of the group, GROUP/KEY, or groups
    after failed X..        begun once each of these has failed for good (a group by one of its
                            commands); else it isn't needed
    after ended X..         begun once these have ended, however that was, also where they never
                            begin; a command with nothing else in its `after` is a cleanup, which
                            begins and runs on though its group is canceled or past its deadline
    retries N [wait TIME [xN] [up to TIME]]
                            after a failure up to N more tries, each TIME after the last; with xN
                            each wait is N times as long as the one before, up to a TIME
    priority N              begun before what has a lower one: groups by theirs, then commands
    pool NAME N             (night) how much there is of something
    uses NAME N             how much of a pool it takes while it runs
    timeout TIME            how long a try may take; then it is stopped, and has failed
    in FOLDER               the folder that it runs in
    env NAME=VALUE          a variable of its environment
    env file FILE           variables of a file (`envfiles`)
    user NAME               the user as whom root runs it (`users`)
    owner ADDRESS           who gets a mail if it doesn't end well (`owners`)
    stop on failure         (a group) after a failure no more of its commands are begun
    failure cancel          (a group) the first failure cancels the group
    background keep         processes that a command leaves in its session may live on
    on DAY..                the days of the nights in which it is due: mon..fri, 1, last (`days`)
    via WORDS..             (a group) the program that takes each command over; WORDS are the rest
                            of the line
    ask WORDS..             (a group) the program that reports how a try ended; the same
    stop WORDS..            (a group) the program that asks for the end of a try; the same
    shell WORDS..           the program that runs the command, by -c, not /bin/sh; the same
    nice N, ionice CLASS [N], memory 2G, cpu 200%, output 100M
                            what it may take of the machine (`limits`)

SETTINGS has a row for each. To add one: a field of Settings, a function that reads it, and a row.
"""

from __future__ import annotations

import datetime
import enum
import re
from collections.abc import Callable
from dataclasses import dataclass, field, replace

from .days import BEGINS, OF_WEEK, Days, read_days
from .envfiles import VARIABLE, variables_of
from .guesses import like
from .limits import FORMS, READ, Limits
from .reading import TIME, At, Missing, Words, Wrong, seconds_of, short
from .users import User, user_of

MOMENT = re.compile(r"[0-9]+:[0-9]+(:[0-9]+)?|[0-9]+-[0-9]+-[0-9]+T\S+")
POOL = re.compile("[a-z0-9_-]{1,20}")
OWNER = re.compile(r"(?!-)[A-Za-z0-9._%+-]{1,64}(?:@[A-Za-z0-9.-]{1,190})?")
GROWTH = re.compile("x([0-9]{1,2})")
OF_ALL = "night"
LAST_MOMENT = 253_000_000_000
MOST_RETRIES = MOST_PRIORITY = MOST_OF_POOL = 999
MOST_FACTOR = 99


@dataclass(frozen=True)
class Deadline:
    """A deadline, as the file says it."""

    word: str
    text: str

    def moment(self, now: int) -> int:
        """The first whole second at which it has passed, for a group that is made now."""
        if self.word == "within":
            return now + seconds_of(self.text)
        if ":" in self.text[:3]:
            return next_time(datetime.time.fromisoformat(self.text), now)
        when = datetime.datetime.fromisoformat(re.sub(r"[Zz]$", "+00:00", self.text))
        return int(when.timestamp())

    def __str__(self) -> str:
        return f"{self.word} {self.text}"


@dataclass(frozen=True)
class Retries:
    """How often a command is tried again, and when."""

    count: int = 0
    wait: int = 0  # seconds before the first retry
    factor: int = 1  # how many times as long each wait is as the one before
    most_wait: int | None = None  # seconds, at most


@dataclass(frozen=True)
class Timeout:
    """How long a try may take, and how the file says that."""

    seconds: int
    text: str


@dataclass(frozen=True)
class Way:
    """The programs with which a group's commands run elsewhere. Without `via` they run here."""

    via: tuple[str, ...] = ()
    ask: tuple[str, ...] = ()
    stop: tuple[str, ...] = ()


@dataclass
class Settings:
    """What lines `GROUP: ..` or `GROUP KEY: ..` say; `at` is the first of them."""

    at: At = At()
    limit: int | None = None
    deadline: Deadline | None = None
    after: list[list[str]] = field(default_factory=list)  # the words of each `after`
    after_at: At = At()
    retries: Retries | None = None
    priority: int | None = None
    pools: dict[str, int] = field(default_factory=dict)
    uses: dict[str, int] = field(default_factory=dict)
    uses_at: At = At()
    timeout: Timeout | None = None
    folder: str | None = None
    env: dict[str, str] = field(default_factory=dict)
    stops: bool = False
    cancels: bool = False
    keeps: bool = False
    way: Way = Way()
    shell: tuple[str, ...] = ()
    days: Days | None = None
    secrets: dict[str, str] = field(default_factory=dict, repr=False)  # of files of variables
    user: User | None = None
    owner: str | None = None
    limits: Limits = Limits()


class Of(enum.Flag):
    """Whose a setting may be: of a group, of a single command, or of all groups together."""

    GROUP = enum.auto()
    COMMAND = enum.auto()
    NIGHT = enum.auto()


BOTH, EACH = Of.GROUP | Of.COMMAND, Of.GROUP | Of.COMMAND | Of.NIGHT


@dataclass(frozen=True)
class Setting:
    """A setting, by its first word."""

    word: str
    shown: str  # as a mistake shows it
    read: Callable[[Words, Settings], None]
    of: Of
    # What looks like it without its colon, as a command of that key.
    looks: re.Pattern[str] | None = None
    # A later word ends the names after `after` only with this after it: before, it could be a key.
    follows: re.Pattern[str] | None = None


# --- what reads each of them

def read_limit(words: Words, its: Settings) -> None:
    value = words.value("the limit")
    words.once("limit", its.limit is not None)
    if not re.fullmatch("[0-9]{1,2}", value) or not 1 <= int(value) <= 64:
        raise Wrong(f"the limit {short(value)} is not 1 to 64")
    its.limit = int(value)


def read_until(words: Words, its: Settings) -> None:
    read_deadline(words, its, "until")


def read_within(words: Words, its: Settings) -> None:
    read_deadline(words, its, "within")


def read_deadline(words: Words, its: Settings, word: str) -> None:
    value = words.value("the deadline")
    words.once("deadline", its.deadline is not None)
    if word == "within":
        seconds_of(value)
    made = Deadline(word, value)
    try:
        if not MOMENT.fullmatch(value) and word == "until":
            raise ValueError
        if not 0 <= made.moment(0 if word == "within" else 1_000_000) <= LAST_MOMENT:
            raise ValueError
    except (ValueError, OverflowError, OSError):
        raise Wrong(f"the moment {short(value)} is not written like 05:30 or"
                    " 2026-11-26T05:30") from None
    its.deadline = made


def read_after(words: Words, its: Settings) -> None:
    its.after_at = its.after_at or words.at
    its.after.append(words.names("the key or group after `after`"))


def read_retries(words: Words, its: Settings) -> None:
    value = words.value("the number of retries")
    words.once("number of retries", its.retries is not None)
    if not re.fullmatch("[0-9]{1,3}", value) or int(value) > MOST_RETRIES:
        raise Wrong(f"the number of retries {short(value)} is not 0 to {MOST_RETRIES}")
    its.retries = Retries(int(value))
    if words.take_if("wait"):
        wait = seconds_of(words.value("the time to wait"))
        its.retries = replace(read_growth(words), count=int(value), wait=wait)


def read_growth(words: Words) -> Retries:
    """By how much each wait is longer than the one before."""
    factor, most = 1, None
    if found := words.take_like(GROWTH):
        factor = int(found[1])
        if factor < 1:
            raise Wrong(f"a wait grows by a number from x1 to x{MOST_FACTOR}")
    if words.take_if("up", "to"):
        most = seconds_of(words.value("the longest wait"))
    return Retries(factor=factor, most_wait=most)


def read_priority(words: Words, its: Settings) -> None:
    words.once("priority", its.priority is not None)
    its.priority = words.count("priority", MOST_PRIORITY)


def read_pool(words: Words, its: Settings) -> None:
    name = words.value("the name of the pool")
    words.once(f"pool {short(name)}", name in its.pools)
    if not POOL.fullmatch(name):
        raise Wrong(f"the pool {short(name)} is not 1 to 20 of a-z, 0-9, - and _")
    its.pools[name] = words.count(f"size of the pool {name}", MOST_OF_POOL)


def read_uses(words: Words, its: Settings) -> None:
    name = words.value("the name of the pool")
    words.once(f"use of {short(name)}", name in its.uses)
    its.uses_at = its.uses_at or words.at
    its.uses[name] = words.count(f"use of {short(name)}", MOST_OF_POOL)


def read_timeout(words: Words, its: Settings) -> None:
    value = words.value("the timeout")
    words.once("timeout", its.timeout is not None)
    its.timeout = Timeout(seconds_of(value), value)
    if not its.timeout.seconds:
        raise Wrong("a timeout has a second at least")


def read_in(words: Words, its: Settings) -> None:
    value = words.value("the folder")
    words.once("folder", its.folder is not None)
    its.folder = value


def read_env(words: Words, its: Settings) -> None:
    if words.take_if("file"):
        its.secrets.update(variables_of(words.at.path, words.value("the file of variables")))
        return
    name, is_set, value = words.value("NAME=VALUE").partition("=")
    if not is_set or not VARIABLE.fullmatch(name):
        raise Wrong(f"{short(name)} is not written like NAME=VALUE")
    if name.startswith("NIGHT_"):
        raise Wrong(f"night-run itself sets the variable {name}")
    its.env[name] = value


def read_stop(words: Words, its: Settings) -> None:
    if words.left and words.left[0] not in ("on", "failure", "on-failure"):
        read_way(words, its, "stop")
        return
    if not words.take_if("on", "failure"):
        raise Wrong("the setting is stop on failure, or stop WORDS..")
    words.once("failure cancel", its.cancels)
    its.stops = True


def read_failure(words: Words, its: Settings) -> None:
    words.once("stop on failure", its.stops)
    if words.value("cancel") != "cancel":
        raise Wrong("the setting is failure cancel")
    its.cancels = True


def read_via(words: Words, its: Settings) -> None:
    read_way(words, its, "via")


def read_ask(words: Words, its: Settings) -> None:
    read_way(words, its, "ask")


def read_way(words: Words, its: Settings, what: str) -> None:
    found = words.rest(what)
    words.once(what, bool(getattr(its.way, what)))
    its.way = replace(its.way, **{what: found})


def read_shell(words: Words, its: Settings) -> None:
    found = words.rest("the shell")
    words.once("shell", bool(its.shell))
    its.shell = found


def read_background(words: Words, its: Settings) -> None:
    if words.value("keep") != "keep":
        raise Wrong("the setting is background keep")
    its.keeps = True


def read_user(words: Words, its: Settings) -> None:
    words.once("user", its.user is not None)
    its.user = user_of(words.value("the name of the user"))


def read_owner(words: Words, its: Settings) -> None:
    value = words.value("the owner")
    words.once("owner", its.owner is not None)
    if not OWNER.fullmatch(value):
        raise Wrong(f"the owner {short(value)} is not written like anna or anna@example.org")
    its.owner = value


def read_on(words: Words, its: Settings) -> None:
    words.once("list of days", its.days is not None)
    its.days = read_days(words)


def limit(word: str, shown: str) -> Setting:
    """A setting of what a command may take."""
    def read(words: Words, its: Settings) -> None:
        its.limits = READ[word](words, its.limits)

    return Setting(word, shown, read, EACH, follows=FORMS[word])


# In the order in which a mistake lists them. (`stop` stands there twice.)
SETTINGS = (
    Setting("limit", "limit N", read_limit, Of.GROUP, looks=re.compile("[0-9]+")),
    Setting("until", "until MOMENT", read_until, Of.GROUP | Of.NIGHT, looks=MOMENT),
    Setting("within", "within TIME", read_within, Of.GROUP | Of.NIGHT, looks=TIME),
    Setting("after", "after X..", read_after, BOTH),
    Setting("retries", "retries N [wait TIME [xN] [up to TIME]]", read_retries, EACH,
            looks=re.compile(r"[0-9]+( wait \S+)?")),
    Setting("timeout", "timeout TIME", read_timeout, EACH, looks=TIME),
    Setting("in", "in FOLDER", read_in, EACH),
    Setting("env", "env NAME=VALUE, env file FILE", read_env, EACH),
    Setting("stop", "stop on failure", read_stop, Of.GROUP, looks=re.compile("on failure")),
    Setting("background", "background keep", read_background, EACH, looks=re.compile("keep")),
    Setting("via", "via WORDS..", read_via, Of.GROUP),
    Setting("ask", "ask WORDS.., stop WORDS..", read_ask, Of.GROUP),
    Setting("shell", "shell WORDS..", read_shell, EACH),
    Setting("priority", "priority N", read_priority, BOTH, follows=re.compile("[0-9]+")),
    Setting("uses", "uses NAME N", read_uses, EACH, follows=re.compile(r"\S+ [0-9]+")),
    Setting("pool", "pool NAME N", read_pool, Of.NIGHT, follows=re.compile(r"\S+ [0-9]+")),
    Setting("failure", "failure cancel", read_failure, Of.GROUP, follows=re.compile("cancel")),
    Setting("on", "on DAY..", read_on, EACH, looks=OF_WEEK, follows=BEGINS),
    Setting("user", "user NAME", read_user, EACH, follows=re.compile(r"\S")),
    Setting("owner", "owner ADDRESS", read_owner, EACH, follows=re.compile(r"\S")),
    limit("nice", "nice N"), limit("ionice", "ionice CLASS [N]"), limit("memory", "memory 2G"),
    limit("cpu", "cpu 200%"), limit("output", "output 100M"),
)
BY_WORD = {it.word: it for it in SETTINGS}
ALL = f"settings are {', '.join(it.shown for it in SETTINGS)}"


def looks_like(word: str, rest: str) -> bool:
    """Whether this looks like a setting without its colon."""
    looks = BY_WORD[word].looks if word in BY_WORD else None
    return looks is not None and looks.fullmatch(rest) is not None


def ends_names(left: list[str], is_name: bool) -> bool:
    """Whether the next word isn't one more name after `after`. A word that came later than the
    others is one, if something is called so."""
    it = BY_WORD.get(left[0])
    if it is None:
        return False
    return it.follows is None or not is_name and bool(it.follows.match(" ".join(left[1:3])))


def read_settings(its: Settings, words: Words, of: Of) -> None:
    """Reads the settings of one command, of a group, or of all groups together, from the words of
    a line."""
    if not words:
        raise Wrong(ALL)
    while words:
        word = words.take()
        setting = BY_WORD.get(word)
        if setting is None:
            raise Wrong(f"no setting is called {short(word)}{like(word, BY_WORD)}")
        try:
            setting.read(words, its)
        except Missing as what:
            raise Wrong(f"{what} is missing; {ALL}") from None
        if not setting.of & of:
            raise Wrong(not_here(setting, of))


def not_here(it: Setting, of: Of) -> str:
    """Why a setting can't be one of these."""
    if it.word == "pool":
        return "a pool is a setting of all groups together: night: pool NAME N"
    if of is Of.COMMAND:
        return ("limit, until, within, stop on failure, failure cancel, via, ask and stop are"
                " settings of a group")
    if it.word == "limit":
        return "the limit of all groups together is the option -j"
    return (f"{it.shown} is no setting of all groups together; these are "
            + ", ".join(one.shown for one in SETTINGS if Of.NIGHT in one.of))


def next_time(time: datetime.time, now: int) -> int:
    """The next moment after now at which the clock of this machine's zone shows this time. In the
    hour that autumn repeats, it shows the time twice. In the hour that spring leaves out, it never
    does: then the result lies as long after the gap began."""
    day = datetime.datetime.fromtimestamp(now).date()
    for later in range(3):
        when = datetime.datetime.combine(day + datetime.timedelta(later), time)
        moments = [int(when.replace(fold=it).timestamp()) for it in (0, 1)]
        is_shown = any(datetime.datetime.fromtimestamp(it) == when for it in moments)
        for it in sorted(moments) if is_shown else moments[:1]:
            if it > now:
                return it
    raise ValueError("no such time")
