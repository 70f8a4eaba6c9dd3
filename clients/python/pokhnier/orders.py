"""The lines that `night drive` writes."""

from __future__ import annotations

from dataclasses import dataclass

from .errors import Error, Full, Lost, Refused


@dataclass(frozen=True)
class Begin:
    """A command begins, as this task. `attempt` counts its earlier tries."""
    command: int
    task: int
    attempt: int


@dataclass(frozen=True)
class Rebound:
    """The running try of a command has another task from now on."""
    command: int
    task: int
    attempt: int


@dataclass(frozen=True)
class Stop:
    """A try has to stop."""
    task: int
    why: str


@dataclass(frozen=True)
class Stands:
    """How a command stands."""
    command: int
    standing: str


@dataclass(frozen=True)
class ErrorOf:
    """The error with which the last try of a command has failed."""
    command: int
    text: str


@dataclass(frozen=True)
class First:
    """The first error of a group."""
    group: int
    text: str


@dataclass(frozen=True)
class Later:
    """The moment at which to ask again."""
    moment: int


@dataclass(frozen=True)
class Night:
    """The number of the night."""
    number: int


@dataclass(frozen=True)
class Durable:
    """All that was reported up to here is recorded."""


@dataclass(frozen=True)
class Over:
    """The night has ended."""


@dataclass(frozen=True)
class Planned:
    """The plan is accepted."""


Order = (Begin | Rebound | Stop | Stands | ErrorOf | First | Later | Night | Durable | Over
         | Planned)


def order_of(line: str) -> Order:
    """Reads a line. One that ends the run is raised."""
    match line.split(" "):
        case ["begin", command, task, _, _, attempt]:
            return Begin(int(command), int(task), int(attempt))
        case ["rebound", command, task, _, _, attempt]:
            return Rebound(int(command), int(task), int(attempt))
        case ["stop", task, *why]:
            return Stop(int(task), " ".join(why))
        case ["stands", command, standing, *_]:
            return Stands(int(command), standing)
        case ["error", command, *text]:
            return ErrorOf(int(command), " ".join(text))
        case ["first", group, *text]:
            return First(int(group), " ".join(text))
        case ["later", moment]:
            return Later(int(moment))
        case ["night", number]:
            return Night(int(number))
        case ["durable"]:
            return Durable()
        case ["over"]:
            return Over()
        case ["plan", _]:
            return Planned()
        case _:
            raise ending(line)


def ending(line: str) -> Error:
    """Why the run ends with this line."""
    match line.split(" ")[0]:
        case "full":
            return Full("the store has no room for the rest of the night")
        case "bad" | "unknown" | "too-much" | "circle" | "name" | "twice" | "other":
            return Refused(f"night drive: {line}")
        case _:
            return Lost(f"night drive: {line}")
