"""The report in Prometheus' text format, for the folder of the node exporter's textfile collector.

A sample has no time of its own, because that collector takes none. A value that isn't known has no
sample.
"""

from __future__ import annotations

from collections.abc import Iterator

from .escapes import escaped
from .phases import PHASES, SELDOM, WHOLE
from .report_words import by_group, counts, end_of, last_end
from .rows import Report, Row, Try
from .used import Used

Labels = dict[str, str]
Sample = tuple[Labels, float]


def prom(report: Report) -> str:
    """All families, each with its help (HELP), its type and its samples."""
    store = {"store": report.store}
    commands = [({**store, "group": it.group, "key": it.key}, it) for it in report.rows]
    families = (
        ("night", "Number of the night, from 1.", [(store, float(report.night))]),
        ("begin_timestamp_seconds", "When the night began.",
         known(store, report.opened if report.began is None else report.began)),
        ("last_end_timestamp_seconds", "When the last command ended, of this night or before.",
         known(store, ended(report))),
        ("last_success_timestamp_seconds",
         "When the last command ended of the last night in which all are ok.",
         known(store, success(report))),
        ("commands", "Commands of a group, by how they stand.", list(standing(report))),
        ("group_deadline_timestamp_seconds", "When the group's deadline passes.",
         [sample for group, _ in by_group(report)
          for sample in known({**store, "group": group.name}, group.deadline)]),
        ("group_canceled", "Whether the group is canceled or its deadline has passed.",
         [({**store, "group": group.name}, float(group.is_done))
          for group, _ in by_group(report)]),
        ("command_tries", "Tries of the command in this night.",
         [(labels, float(len(row.tries))) for labels, row in commands]),
        ("command_end_timestamp_seconds", "When the command's last try ended.",
         [it for labels, row in commands for it in known(labels, last_end([row]))]),
        ("command_duration_seconds", "How long the command's last ended try took.",
         [it for labels, row in commands for it in known(labels, duration(row))]),
        ("command_last_success_timestamp_seconds", "When the command ended ok in this night.",
         [it for labels, row in commands for it in known(labels, success_of(row))]),
        ("command_cpu_seconds", "Processor seconds of the command's last ended try.",
         [it for labels, row in commands for it in known(labels, last_used(row).cpu)]),
        ("command_memory_bytes", "Memory that the largest process of that try had at most.",
         [it for labels, row in commands for it in known(labels, last_used(row).memory)]),
        ("command_output_bytes", "Bytes that this try printed.",
         [it for labels, row in commands for it in known(labels, last_used(row).output)]),
        ("seconds", "Seconds that all ended tries of the command took in this night.",
         [it for labels, row in commands for it in known(labels, in_all(row))]),
        ("median_seconds",
         "The median of that in the last nights before this one in which the command was ok.",
         [it for labels, row in commands
          for it in known(labels, report.usual.get((row.group, row.key)))]),
    )
    return "".join(family(f"night_run_{name}", text, samples)
                   for name, text, samples in families if samples)


def known(labels: Labels, value: float | None) -> list[Sample]:
    return [] if value is None else [(labels, value)]


def standing(report: Report) -> Iterator[Sample]:
    """How many commands of each group are in each phase; phases without any count, too, but for
    what isn't needed or due, or is left out."""
    for group, rows in by_group(report):
        found = counts(rows)
        for phase in (it for it in PHASES if it not in SELDOM or found.get(it)):
            yield ({"store": report.store, "group": group.name, "phase": phase},
                   float(found.get(phase, 0)))


def ended(report: Report) -> float | None:
    """When the last command ended. A night that hangs at its first command still has the value from
    before."""
    found = last_end(report.rows)
    return report.last_before if found is None else found


def success(report: Report) -> float | None:
    """When the last command ended of the last night in which every command was ok."""
    found = last_end(report.rows) if all(it.phase in WHOLE for it in report.rows) else None
    return report.last_well if found is None else found


def success_of(row: Row) -> float | None:
    ends = [end_of(it) for it in row.tries if it.end == "ok"]
    return ends[-1] if ends else None


def duration(row: Row) -> float | None:
    ended: list[Try] = [it for it in row.tries if it.took is not None]
    return ended[-1].took if ended else None


def last_used(row: Row) -> Used:
    """What the last try that has ended took."""
    return next((it.used for it in reversed(row.tries) if it.end), Used())


def in_all(row: Row) -> float | None:
    its = [it.took for it in row.tries if it.took is not None]
    return sum(its) if its else None


def family(name: str, text: str, samples: list[Sample]) -> str:
    lines = [f"# HELP {name} {text}", f"# TYPE {name} gauge"]
    for labels, value in samples:
        shown = ",".join(f'{key}="{label(it)}"' for key, it in labels.items())
        lines.append(f"{name}{{{shown}}} {number(value)}")
    return "".join(f"{it}\n" for it in lines)


def label(text: str) -> str:
    """A label's value: UTF-8, with a backslash before a quote, a backslash and a line's end."""
    whole = "".join(escaped(it) if "\ud800" <= it <= "\udfff" else it for it in text)
    return whole.replace("\\", "\\\\").replace('"', '\\"').replace("\n", "\\n")


def number(value: float) -> str:
    return f"{value:.3f}".rstrip("0").rstrip(".")
