"""The history as one page: no server, no script, nothing from elsewhere.

At the top stand the nights, with a bar for the time, the failures and the output of each. Below
them stands each command with a bar a night: as high as it took long, in the colour of its end.
Flaky commands come first.
"""

from __future__ import annotations

from collections.abc import Callable, Iterator

from .history import Cell, Command, History, Night
from .history_style import STYLE as OWN
from .history_words import cell_said, day, head, moment, night_said, nights, period, said
from .phases import PHASES, Phase
from .report_html import Html, phase_class, tag
from .report_style import STYLE
from .report_words import span
from .used import amount

# A bar is so high at least that it is seen, in hundredths.
LEAST = 4.0


def html(its: History) -> str:
    """The whole page."""
    policy = Html('<meta charset="utf-8">'
                  '<meta name="viewport" content="width=device-width, initial-scale=1">'
                  '<meta http-equiv="Content-Security-Policy"'
                  " content=\"default-src 'none'; style-src 'unsafe-inline'\">")
    body = [banner(its), tag("main", *sums(its), *sections(its),
                             style=f"--nights: {len(its.nights)}"),
            tag("footer", tag("p", f"As of {moment(its.now)}, by night-run.", class_="soft"))]
    style = tag("style", Html(STYLE + OWN))
    page = tag("html", tag("head", policy, tag("title", head(its)), style), tag("body", *body),
               lang="en")
    return f"<!DOCTYPE html>\n{page}\n"


def banner(its: History) -> Html:
    """What is to be looked at, in a few words."""
    flaky, failing = len(its.flaky), len(its.failing)
    found = [f"{flaky} flaky"] if flaky else []
    found += [f"{failing} failing each time"] if failing else []
    kind = "bad" if failing else "open" if flaky or not its.nights else "good"
    words = ", ".join(found) or ("All steady" if its.nights else "No night yet")
    below = [it for it in (head(its), period(its)) if it]
    return tag("header", tag("div", tag("div", tag("h1", words), *(tag("p", it) for it in below))),
               class_=f"verdict {kind}")


# --- the nights

def sums(its: History) -> Iterator[Html]:
    if not its.nights:
        return
    yield tag("h2", "Nights")
    last = its.nights[-1]
    charts = [
        sum_chart(its, "Time", lambda it: it.seconds, span, last.seconds),
        sum_chart(its, "Failures", lambda it: it.failed, lambda it: f"{it:.0f}", last.failed),
        sum_chart(its, "Printed", lambda it: it.output, amount, last.output)]
    each = [tag("li", f"{it.number}: {moment(it.began)}, {night_said(it)}")
            for it in reversed(its.nights)]
    yield tag("section", tag("div", *charts, class_="sums"),
              tag("details", tag("summary", f"{nights(len(each))} in numbers"),
                  tag("ul", *each, class_="listed")), class_="card")


def sum_chart(its: History, name: str, value: Callable[[Night], float | None],
              words: Callable[[float], str], last: float | None) -> Html:
    """A bar a night for one of its numbers."""
    known = [it for it in map(value, its.nights) if it is not None]
    most = max(known, default=0.0)
    kind = "failed" if name == "Failures" else "plain"
    bars = [slot(share(found, most) if (found := value(it)) else None,
                 f"night {it.number}, {moment(it.began)}: {number(it, value, words)}", kind)
            for it in its.nights]
    about = f"{name}: tonight {words(last)}" if last is not None else f"{name}: not known"
    more = f", at most {words(most)}" if known[1:] else ""
    return tag("div", tag("p", f"{about}{more}"),
               tag("div", *bars, class_="chart", role="img", aria_label=f"{about}{more}"),
               ends(its))


def number(it: Night, value: Callable[[Night], float | None], words: Callable[[float], str]) -> str:
    found = value(it)
    return "not known" if found is None else words(found)


def ends(its: History) -> Html:
    """The first and the last night, below a chart."""
    shown = [day(it.began) if it.began is not None else f"night {it.number}"
             for it in (its.nights[0], its.nights[-1])]
    return tag("div", *(tag("span", it) for it in (shown if its.nights[1:] else shown[:1])),
               class_="ends")


# --- the commands

def sections(its: History) -> Iterator[Html]:
    if any(it.cells for it in its.commands):
        yield legend(its)
    for name, found in (("Flaky", its.flaky), ("Failing", its.failing), ("Commands", its.others),
                        ("No longer in the command file", its.gone)):
        if found:
            yield tag("h2", name)
            yield from (command(its, it) for it in found)


def legend(its: History) -> Html:
    """What the colours are, of those that there are."""
    cells = [cell for it in its.commands for cell in it.cells]
    found = {it.phase for it in cells}
    shown = [(phase_class(it), str(it)) for it in PHASES if it in found]
    if any(mark(it) == "again" for it in cells):
        shown.insert(1, ("again", "ok after a failure"))
    if any(it.median is not None for it in its.commands):
        shown.append(("median", "median of the nights before in which it was ok"))
    return tag("ul", *(tag("li", tag("i", class_=kind), words) for kind, words in shown),
               class_="legend")


def command(its: History, it: Command) -> Html:
    parts = [tag("div", tag("h3", f"{it.group} {it.key}"), tag("span", said(it), class_="said"),
                 class_="head")]
    if it.cells:
        parts += [chart(its, it), ends(its)]
    return tag("section", *parts, class_="card past")


def chart(its: History, it: Command) -> Html:
    """A bar for each night, and a line at the usual time."""
    cells = {cell.night: cell for cell in it.cells}
    most = max((cell.seconds for cell in it.cells if cell.seconds is not None), default=0.0)
    most = max(most, it.median or 0.0)
    bars: list[Html] = [cell_bar(cells.get(night.number), night, most) for night in its.nights]
    if it.median is not None and most > 0:
        bars.append(tag("div", class_="usual",
                        style=f"bottom:calc((100% - 7px) * {it.median / most:.3f})"))
    return tag("div", *bars, class_="chart", role="img", aria_label=said(it))


def cell_bar(cell: Cell | None, night: Night, most: float) -> Html:
    if cell is None:
        when = f", {day(night.began)}" if night.began is not None else ""
        return slot(None, f"night {night.number}{when}: not run", "", "none")
    return slot(share(cell.seconds or 0.0, most), cell_said(cell, night), phase_class(cell.phase),
                mark(cell))


def mark(cell: Cell) -> str:
    """What stands above a bar: that it failed, or was ok after a failure."""
    if cell.phase is Phase.FAILED:
        return "failed"
    return "again" if cell.phase is Phase.OK and cell.failures else ""


def share(value: float, most: float) -> float:
    """How high a bar is, in hundredths of the highest."""
    return max(LEAST, 100 * value / most) if most > 0 else LEAST


def slot(height: float | None, title: str, kind: str, around: str = "") -> Html:
    """The place of a night, with a bar of this height if it has one."""
    bars = [] if height is None else [tag("span", class_=kind, style=f"height:{height:.1f}%")]
    return tag("div", *bars, class_=f"night {around}-night" if around else "night", title=title)
