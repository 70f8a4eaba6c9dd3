"""How a try ended, as a line of the results has it."""

from __future__ import annotations

import builtins
import importlib
import json
from dataclasses import dataclass
from typing import Any

from .errors import Canceled, Failed


@dataclass(frozen=True)
class Ok:
    """It returned this value, which is one of JSON."""
    value: Any

    def members(self) -> dict[str, Any]:
        return {"is": "ok", "value": self.value}


@dataclass(frozen=True)
class Wrong:
    """It raised an error. `kind` and `args` can make it again, if there is a kind."""
    text: str
    kind: str | None = None
    args: tuple[Any, ...] = ()

    def members(self) -> dict[str, Any]:
        again = {"type": self.kind, "args": self.args} if self.kind else {}
        return {"is": "error", "text": self.text, **again}


@dataclass(frozen=True)
class Stopped:
    """It ended with an error after it had to stop for this reason."""
    text: str

    def members(self) -> dict[str, Any]:
        return {"is": "canceled", "text": self.text}


Outcome = Ok | Wrong | Stopped
NO_TEXT = "nothing says how it failed"


def outcome_of(members: dict[str, Any]) -> Outcome | None:
    """The outcome in a line, if there is one."""
    match members:
        case {"is": "ok"}:
            return Ok(members.get("value"))
        case {"is": "error", "text": str(text)}:
            return Wrong(text, members.get("type"), tuple(members.get("args", ())))
        case {"is": "canceled", "text": str(text)}:
            return Stopped(text)
        case _:
            return None


# What follows runs code of others, such as a `__str__` that raises. Whatever it raises, there is an
# outcome: somebody waits for it.

def good(value: object) -> Outcome:
    """The outcome of a function that returned a value."""
    try:
        return Ok(json_of(value))
    except BaseException as error:
        return wrong(error)


def json_of(value: object) -> Any:
    """What a reader of the JSON text of a value returns."""
    try:
        return json.loads(json.dumps(value, allow_nan=False))
    except Exception as error:
        raise TypeError(f"the result is no JSON: {said(error)}") from error


def wrong(error: BaseException) -> Wrong:
    """The outcome of a function that raised an error."""
    kind, text = f"{type(error).__module__}:{type(error).__qualname__}", said(error)
    try:
        args = tuple(json.loads(json.dumps(error.args, allow_nan=False)))
        again = made_again(kind, args)
        is_same = type(again) is type(error) and str(again) == str(error) and args == error.args
    except BaseException:
        return Wrong(text)
    return Wrong(text, kind, args) if is_same else Wrong(text)


def said(error: BaseException) -> str:
    """The text of an error."""
    try:
        return str(error) or type(error).__name__
    except BaseException:
        return type(error).__name__


def made_again(kind: str, args: tuple[Any, ...]) -> Exception | None:
    """An exception of this kind, if there is such a one."""
    module, _, name = kind.partition(":")
    try:
        found: Any = builtins if module == "builtins" else importlib.import_module(module)
        for part in name.split("."):
            found = getattr(found, part)
        return found(*args) if issubclass(found, Exception) else None
    except BaseException:
        return None


def raised(outcome: Outcome | None, seen: BaseException | None = None) -> BaseException:
    """What is raised for an end. It is of the same type in each run: `seen` is the error that this
    run has seen."""
    match outcome:
        case Wrong(text, None):
            failed = Failed(text)
            failed.__cause__ = seen
            return failed
        case Wrong(text, str(kind), args):
            return seen or made_again(kind, args) or Failed(text)
        case Stopped(text):
            return Canceled(text)
        case _:
            return Failed(NO_TEXT)
