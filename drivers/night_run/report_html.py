"""The report as one page: no server, no script, nothing from elsewhere.

From top to bottom it shows whether all is well; the failures, each with its last lines; the other
commands that aren't done, by reason; and each group, with a bar of how its commands stand and a
line in time for each of them.
"""

from __future__ import annotations

import collections
import html as escaping
from collections.abc import Iterator

from .escapes import one_line, plain
from .phases import Phase
from .report_axis import Axis
from .report_style import STYLE
from .report_words import (by_group, clock, commands, counts, facts, in_words, in_words_why,
                           kind_of, line_shown, moment, of_all, period, span, tries_in_words,
                           used_in_words, verdict, why_done)
from .rows import Group, Report, Row, Try
from .used import in_words as used

SIGNS = {"good": "\u2713", "bad": "\u2717", "open": "\u25d1", "busy": "\u25b6"}
# What didn't end well, besides failures, or was left out.
OTHERS = (Phase.CANCELED, Phase.NOT_STARTED, Phase.INTERRUPTED, Phase.LEFT_OUT)
# A group of more commands shows its lines in time once they are asked for.
MOST_OPEN = 60
# How many failures stand there; those after them once they are asked for.
MOST_CARDS = 20


class Html(str):
    """Text that is HTML already. Any other text is escaped when it is put in."""


def inside(part: str) -> str:
    return part if isinstance(part, Html) else escaping.escape(plain(part))


def tag(name: str, *parts: str, **attributes: str) -> Html:
    """An element. An attribute's name may have a `_` at its end, and `_` in it stands for `-`."""
    given = "".join(f' {key.rstrip("_").replace("_", "-")}="{escaping.escape(plain(value))}"'
                   for key, value in attributes.items())
    return Html(f"<{name}{given}>{''.join(map(inside, parts))}</{name}>")


def html(report: Report) -> str:
    """The whole page."""
    head = Html('<meta charset="utf-8">'
                '<meta name="viewport" content="width=device-width, initial-scale=1">'
                '<meta http-equiv="Content-Security-Policy"'
                " content=\"default-src 'none'; style-src 'unsafe-inline'\">")
    title = tag("title", f"{verdict(report)[1]} - {report.store}")
    axis = Axis(report)
    body = [banner(report), tag("main", *failures(report), *others(report), *groups(report, axis)),
            tag("footer", tag("p", f"As of {moment(report.now)}, by night-run.", class_="soft"))]
    style = tag("style", Html(STYLE + axis.style()))
    page = tag("html", tag("head", head, title, style), tag("body", *body), lang="en")
    return f"<!DOCTYPE html>\n{page}\n"


def banner(report: Report) -> Html:
    kind, words = verdict(report)
    found = counts(report.rows)
    below = [in_words(found)] if len(found) > 1 else []
    below.append(f"{report.store}, night {report.night}, {period(report)}")
    whole = of_all(report)
    if whole:
        below += [f"all groups: {it}" for it in (*facts(whole), *why_done(whole))]
    return tag("header", tag("div", tag("span", SIGNS[kind], class_="sign", aria_hidden="true"),
                             tag("div", tag("h1", words), *(tag("p", it) for it in below))),
               class_=f"verdict {kind}")


# --- what didn't end well


def failures(report: Report) -> Iterator[Html]:
    cards = [failure(it) for it in report.rows if it.phase is Phase.FAILED]
    if cards:
        yield tag("h2", "Failed")
        yield from cards[:MOST_CARDS]
    if cards[MOST_CARDS:]:
        more = cards[MOST_CARDS:]
        yield tag("details", tag("summary", f"{len(more)} more failed"), *more, class_="more")


def failure(row: Row) -> Html:
    parts = [tag("div", tag("h3", f"{row.group} {row.key}"), tag("b", row.end, class_="why"),
                 tag("span", tries_in_words(row), class_="soft"), class_="head"),
             tag("p", tag("code", f"$ {line_shown(one_line(row.command))}"))]
    if figures := used_in_words(row):
        parts.append(tag("p", figures, class_="soft"))
    if row.tail:
        parts.append(tag("pre", Html("\n".join(inside(line_shown(it)) for it in row.tail))))
    if row.output:
        parts.append(tag("p", "Output: ", tag("code", row.output, class_="path"), class_="soft"))
    return tag("section", *parts, class_="card failure")


def others(report: Report) -> Iterator[Html]:
    """The other commands that aren't done; those that share a reason stand together."""
    found = collections.defaultdict(list)
    for row in report.rows:
        if row.phase in OTHERS:
            found[row.phase, row.end].append(f"{row.group} {row.key}")
    if found:
        yield tag("h2", "Not done")
    for (phase, end), names in found.items():
        why = in_words_why(phase, end)
        yield tag("section", tag("h3", f"{len(names)} {why}"),
                  tag("p", ", ".join(names), class_="soft"), class_="card")


# --- the groups


def groups(report: Report, axis: Axis) -> Iterator[Html]:
    if not report.rows:
        return
    yield tag("h2", "Groups")
    yield tag("section", bar(report.rows), legend(report.rows), class_="card")
    whole = of_all(report)
    for group, rows in by_group(report):
        about = [*(tag("span", it, class_="soft") for it in facts(group, whole)),
                *(tag("span", it, class_="why") for it in why_done(group))]
        yield tag("section", tag("div", tag("h3", group.name), tag("span", in_words(counts(rows))),
                                 *about, class_="head"),
                  bar(rows), times(report, group, rows, axis), class_="card group")


def phase_class(phase: Phase) -> str:
    return phase.replace(" ", "-")


def bar(rows: collections.abc.Sequence[Row]) -> Html:
    """A bar with a part for each phase, as wide as its count."""
    found = counts(rows)
    parts = [tag("span", class_=phase_class(phase), style=f"flex:{count}",
                 title=f"{count} {phase}") for phase, count in found.items()]
    return tag("div", *parts, class_="bar", role="img", aria_label=in_words(found))


def legend(rows: collections.abc.Sequence[Row]) -> Html:
    return tag("ul", *(tag("li", tag("i", class_=phase_class(phase)), f"{count} {phase}")
                       for phase, count in counts(rows).items()), class_="legend")


def times(report: Report, group: Group, rows: list[Row], axis: Axis) -> Html:
    """A line in time for each command of a group."""
    ticks = tag("div", *(tag("span", label, style=f"left:{at:.2f}%") for at, label in axis.ticks),
                class_="axis")
    made = [tag("div", tag("span", class_="key"), ticks, tag("span", class_="said"),
                class_="time")]
    made += [line(report, group, row, axis) for row in rows]
    is_open = {"open": "open"} if len(rows) <= MOST_OPEN else {}
    return tag("details", tag("summary", f"{commands(len(rows))} in time"), *made, class_="times",
               **is_open)


def line(report: Report, group: Group, row: Row, axis: Axis) -> Html:
    parts = [piece for it in row.tries for piece in tried(it, report.now, axis)]
    if group.deadline is not None and axis.has(group.deadline):
        parts.append(tag("span", class_="deadline", title="deadline",
                         style=f"left:{axis.at(group.deadline):.2f}%"))
    return tag("div", tag("span", row.key, class_="key"), tag("div", *parts, class_="track"),
               tag("span", end_shown(row), class_="said"), class_="time")


def tried(it: Try, now: float, axis: Axis) -> Iterator[Html]:
    """A try as a bar from its begin to its end; none if its times aren't known."""
    if it.began is None or it.took is None and it.end:
        return
    took = now - it.began if it.took is None else it.took
    left, right = axis.at(it.began), axis.at(it.began + took)
    title = ", ".join([f"try {it.number}: {clock(it.began)}", span(took), it.end or "running",
                       *used(it.used)])
    yield tag("span", class_=phase_class(kind_of(it)), title=title,
              style=f"left:{left:.2f}%;width:{right - left:.2f}%")


def end_shown(row: Row) -> str:
    """How a command stands, next to its line."""
    again = f", {len(row.tries)} tries" if len(row.tries) > 1 else ""
    if row.phase is Phase.WAITING:
        return f"waiting after {row.end}{again}" if row.end else "waiting"
    last = row.tries[-1] if row.tries else None
    took = f" {span(last.took)}" if last and last.took is not None else ""
    return f"{row.phase}{took}{again}"
