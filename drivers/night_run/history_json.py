"""The history as JSON: each night, and each command with its nights. A value that isn't known is
null."""

from __future__ import annotations

import dataclasses
import json

from .history import Command, History


def as_json(its: History) -> str:
    return json.dumps({"store": its.store, "now": its.now,
                       "nights": [rounded(dataclasses.asdict(it)) for it in its.nights],
                       "commands": [command(it) for it in its.commands]}, indent=1)


def command(it: Command) -> dict[str, object]:
    return {"group": it.group, "key": it.key, "is_listed": it.is_listed, "is_flaky": it.is_flaky,
            "ok": it.well, "troubled": it.troubles,
            **rounded({"median": it.median, "tonight": it.tonight.seconds if it.tonight else None}),
            "nights": [rounded(dataclasses.asdict(cell)) for cell in it.cells]}


def rounded(its: dict[str, object]) -> dict[str, object]:
    """Seconds and moments to the millisecond, as in the log."""
    return {key: round(value, 3) if isinstance(value, float) else value
            for key, value in its.items()}
