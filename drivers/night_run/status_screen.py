"""The screen of a status: a night on as many lines as a terminal has, each no wider than that. Only
the path of an output may be wider, so that it can be copied whole.

What runs comes first, then what isn't well, then what waits. If there isn't room for all of it, the
paths of outputs are left out first, but for one of each kind, and then commands, whose number is
shown.
"""

from __future__ import annotations

import textwrap
import time
import unicodedata
from collections.abc import Callable, Iterator, Sequence
from dataclasses import dataclass

from . import rows
from .escapes import plain
from .phases import FINAL, Phase
from .report_words import clock, commands, in_words, line_shown, span
from .status import Running, Status
from .status_forecast import Forecast
from .status_times import Usual
from .status_waits import Waiting
from .wants import By
from .status_wanted import listed, lists

# Below this width the columns of a command that runs stand below its name.
NARROW = 60
# The widths of the columns after the name: how long, usually, since, process.
WIDTHS = (8, 9, 10, 9)
# How many commands are shown of each kind where the lines aren't counted.
MOST_SHOWN = 20
DAY = 86_400


@dataclass(frozen=True)
class Size:
    """A screen: its columns, and its lines if they count."""

    columns: int = 80
    lines: int | None = None


@dataclass(frozen=True)
class Block:
    """The lines of a command, without the path of its output and with it."""

    short: list[str]
    path: list[str]


@dataclass(frozen=True)
class Section:
    """Commands of one kind: how many there are, and the first of them."""

    title: str
    columns: str  # the names of their columns, after the title
    count: int
    blocks: Sequence[Block]


@dataclass(frozen=True)
class Shown:
    """How many commands of a section are shown, and how many of them with their paths."""

    count: int = 0
    whole: int = 0


# A way to show more of a section.
More = Callable[[Shown, Section], Shown]


def screen(it: Status, size: Size) -> list[str]:
    """The lines of a status."""
    head = [line for text in heads(it) for line in wrapped(text, size.columns)]
    head += [listed(title, its, size.columns) for title, its in lists(it.wanted) if its]
    most, width = size.lines or MOST_SHOWN, name_width(it, size.columns)
    sections = [it for it in (
        Section("RUNNING", columns_head(width, size.columns), len(it.running),
                [running_block(one, width, size) for one in it.running[:most]]),
        Section("NOT WELL", "", len(it.unwell),
                [unwell_block(one, size) for one in it.unwell[:most]]),
        Section("WAITING", "", len(it.waiting), waiting_blocks(it.waiting[:most], size)))
        if it.count]
    shown = head + fitted(sections, size, len(head))
    return shown if size.lines is None else shown[:size.lines]


def fitted(sections: Sequence[Section], size: Size, above: int) -> list[str]:
    """As many commands of each kind as there is room for, taken in turn, and then their paths."""
    shown = [Shown()] * len(sections)
    while True:
        more = grown(sections, shown, (first, one_more), size, above)
        if more == shown:
            more = grown(sections, shown, (one_path,), size, above)
        if more == shown:
            break
        shown = more
    return [line for section, it in zip(sections, shown) for line in lines_of(section, it)]


def grown(sections: Sequence[Section], shown: Sequence[Shown], ways: Sequence[More], size: Size,
          above: int) -> list[Shown]:
    """More of each kind, by the first way for which there is room."""
    found = list(shown)
    for at, section in enumerate(sections):
        for way in ways:
            more = [*found[:at], way(found[at], section), *found[at + 1:]]
            if more != found and fits(sections, more, size, above):
                found = more
                break
    return found


def first(it: Shown, _: Section) -> Shown:
    """The first command, with its path."""
    return it if it.count else Shown(1, 1)


def one_more(it: Shown, section: Section) -> Shown:
    return Shown(min(it.count + 1, len(section.blocks)), it.whole)


def one_path(it: Shown, section: Section) -> Shown:
    return Shown(it.count, min(it.whole + 1, it.count))


def fits(sections: Sequence[Section], shown: Sequence[Shown], size: Size, above: int) -> bool:
    if size.lines is None:
        return max(it.count for it in shown) <= MOST_SHOWN
    return above + sum(height(line, size.columns) for section, it in zip(sections, shown)
                       for line in lines_of(section, it)) <= size.lines


def lines_of(section: Section, it: Shown) -> Iterator[str]:
    if not it.count:
        yield f"{section.title}: {section.count}"
        return
    yield ""
    yield f"{section.title}{section.columns}"
    for at, block in enumerate(section.blocks[:it.count]):
        yield from block.short
        if at < it.whole:
            yield from block.path
    more = section.count - it.count
    if more:
        yield f"and {more} more"


# --- the head

def as_of(at: float | None, now: float) -> str:
    """That a screen is of an earlier moment, since nothing newer is known."""
    if at is None:
        return "no answer yet"
    ago = f", {span(now - at)} ago" if now > at else ""
    return f"as of {clock(at)}{ago}; no newer state yet"


def heads(it: Status) -> Iterator[str]:
    """What is so of the whole night, in a few sentences."""
    store = plain(it.store)
    if not it.total:
        yield f"{store}: no night has begun"
        return
    final = {phase: count for phase, count in it.counts.items() if phase in FINAL}
    rest = {phase: count for phase, count in it.counts.items() if phase not in FINAL}
    shown = [f"{sum(final.values())} of {it.total} ended" + (
        f": {in_words(final)}" if final else ""), *([in_words(rest)] if rest else [])]
    yield f"{store}, night {it.night}: {'; '.join(shown)}"
    yield began_words(it)
    if it.paused and not it.is_over:
        yield paused_words(it, it.paused)
    yield end_words(it)
    if not it.path:
        yield ("The command file isn't known, so commands that haven't begun aren't shown: name it"
               " after the store")


def began_words(it: Status) -> str:
    its = [] if it.began is None else [f"began {day(it.began, it.now)}{ago(it)}"]
    if it.driver is not None:
        most = f", -j {it.most}" if it.most is not None else ""
        its.append(f"night-run is process {it.driver}{most}")
    elif not it.is_over:
        its.append("no night-run is active")
    return "; ".join([*its, f"now {clock(it.now)}"])


def paused_words(it: Status, by: By) -> str:
    """Who paused it, and what ends the pause."""
    return (f"paused by {by.who} at {day(by.at, it.now)}, so nothing is started; to go on:"
            f" night-run {plain(it.store)} --resume")


def ago(it: Status) -> str:
    """How long ago the night began; nothing if the clock was set back since."""
    seconds = it.now - (it.began or it.now)
    return f", {span(seconds)} ago" if seconds > 0 and not it.is_over else ""


def end_words(it: Status) -> str:
    """When it ended or will end, or why that isn't known."""
    if it.is_over:
        return "it has ended" if it.ended is None else f"ended {day(it.ended, it.now)}"
    if it.most is None:
        return "when it will end isn't known: the run of an older night-run isn't described"
    found = it.forecast
    if found is None:
        return "when it will end isn't known: no earlier night has times of what is left"
    is_alone = it.driver is None or it.paused is not None
    if found.may_end(it.now):
        return f"{'what is left ' if is_alone else ''}{ending(found, it.now)}: {late_words(it)}"
    if found.is_vague(it.now):
        return f"when it will end isn't known: {uncounted(found)}"
    by = f", going by the last {nights(it.nights)}"
    if is_alone:
        how = "at least" if found.is_least else "about"
        return f"what is left takes {how} {span(found.at - it.now)}{by}{least_words(found)}"
    last = f", with {'/'.join(found.last)}" if found.last else ""
    left = f", in {span(max(0.0, found.at - it.now))}"
    return f"{ending(found, it.now)}{left}{last}{by}{least_words(found)}"


def ending(it: Forecast, now: float) -> str:
    """When a night will end."""
    if it.may_end(now):
        return "may end at any moment"
    return f"{'ends after' if it.is_least else 'ends at about'} {day(it.at, now)}"


def late_words(it: Status) -> str:
    """Which commands run longer than ever."""
    late = it.forecast.late if it.forecast else ()
    names = "/".join(late[0]) if len(late) == 1 else commands(len(late))
    return f"{names} {'has' if len(late) == 1 else 'have'} run {longer_than(it.nights)}"


def longer_than(count: int) -> str:
    """That something took longer than in this many nights."""
    return f"longer than in {'any of the last' if count > 1 else 'the last'} {nights(count)}"


def least_words(it: Forecast) -> str:
    """Which times the forecast lacks."""
    return f"; not counted: {uncounted(it)}" if it.is_least else ""


def uncounted(it: Forecast) -> str:
    """The commands whose times a forecast lacks."""
    its = [f"{commands(len(it.unknown))} without a time in earlier nights"] if it.unknown else []
    its += [f"{commands(len(it.late))} running longer than ever"] if it.late else []
    return " and ".join(its)


def nights(count: int) -> str:
    return "night" if count == 1 else f"{count} nights"


def day(when: float, now: float) -> str:
    """A moment; with its date if that isn't within half a day."""
    form = "%H:%M" if abs(when - now) < DAY / 2 else "%Y-%m-%d %H:%M"
    return time.strftime(form, time.localtime(when))


# --- commands

def columns_head(width: int, columns: int) -> str:
    """The names of the columns of what runs."""
    if columns < NARROW:
        return ""
    names = ("for", "usually", "since", "process")
    return " " * (width - len("RUNNING")) + "".join(
        name.rjust(width) for name, width in zip(names, WIDTHS))


def name_width(it: Status, columns: int) -> int:
    """The width of the column of names."""
    most = max((len(f"{one.group}/{one.key}") for one in it.running), default=0)
    return min(max(most, 20), columns - sum(WIDTHS))


def running_block(one: Running, width: int, size: Size) -> Block:
    name = f"{one.group}/{one.key}"
    its = (unknown_span(one.seconds), usual_words(one.usual),
           "-" if one.began is None else clock(one.began), str(one.process or "-"))
    row = "".join(text.rjust(most) for text, most in zip(its, WIDTHS))
    if size.columns < NARROW:
        lines = wrapped(name, size.columns) + wrapped(
            f"  for {its[0]}, usually {its[1]}, since {its[2]}, process {its[3]}", size.columns)
    elif len(name) > width:
        lines = [name, " " * width + row]
    else:
        lines = [name.ljust(width) + row]
    usual = one.usual
    if usual and one.seconds is not None and one.seconds > usual.longest:
        lines += wrapped(f"  {longer_than(usual.nights)}", size.columns)
    tries = f"try {one.tries}: " if one.tries > 1 else ""
    return Block(lines, [f"  {tries}{plain(one.output)}"] if one.output else [])


def unknown_span(seconds: float | None) -> str:
    return "-" if seconds is None else span(seconds)


def usual_words(usual: Usual | None) -> str:
    return "-" if usual is None else span(usual.seconds)


def unwell_block(it: rows.Row, size: Size) -> Block:
    """A command that didn't end well: how, its last line, and the path of all of them."""
    why = plain(it.end)
    if it.phase == Phase.FAILED:
        tries = f" in {len(it.tries)} tries" if len(it.tries) > 1 else ""
        shown = f"{why or it.phase}{tries}"
    else:
        shown = why if why.startswith(it.phase) else f"{it.phase}: {why}" if why else it.phase
    lines = wrapped(f"{it.group}/{it.key}  {shown}", size.columns)
    if it.phase == Phase.FAILED and it.tail:
        lines.append(cut(f"  | {line_shown(it.tail[-1]).expandtabs()}", size.columns))
    return Block(lines, [f"  {plain(it.output)}"] if it.output and it.phase == Phase.FAILED else [])


def waiting_blocks(its: Sequence[Waiting], size: Size) -> list[Block]:
    names = [f"{it.group}/{it.key}" for it in its]
    width = min(max(map(len, names), default=0), size.columns // 3)
    return [Block([cut(f"{name.ljust(width)}  {plain(it.why)}", size.columns)], [])
            for name, it in zip(names, its)]


# --- widths

def width_of(text: str) -> int:
    """How many columns a terminal takes for a text."""
    if text.isascii():
        return len(text)
    return sum(0 if unicodedata.combining(it) else
               2 if unicodedata.east_asian_width(it) in "WF" else 1 for it in text)


def height(line: str, columns: int) -> int:
    """How many lines a terminal takes for a line."""
    return max(1, -(-width_of(line) // columns))


def cut(text: str, columns: int) -> str:
    """A text, cut to this width."""
    if width_of(text) <= columns:
        return text
    made, used = "", 0
    for it in text:
        used += width_of(it)
        if used > columns - 3:
            return f"{made} .." if columns > 3 else made[:columns]
        made += it
    return made


def wrapped(text: str, columns: int) -> list[str]:
    """A text in lines of this width, broken between words where that is possible."""
    indent = len(text) - len(text.lstrip(" "))
    lines = textwrap.wrap(text.strip(" "), max(1, columns), initial_indent=" " * indent,
                          subsequent_indent="  " if columns > NARROW // 3 else "",
                          expand_tabs=False, replace_whitespace=False, break_on_hyphens=False)
    return [cut(it, columns) for it in lines]
