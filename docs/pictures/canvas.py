"""A picture of boxes, lines and texts, in a light and a dark form, that refuses to be ill laid out.

A colour has one meaning in all pictures: green is safe (durable, ok, proved), blue is in use now
(running, live, current), orange is unsure (not synced, interrupted, tested but not proved), red is
failed or canceled, and grey is anything else. The map of the layers has three colours of its own.
"""

from __future__ import annotations

import re
from collections.abc import Iterator
from dataclasses import dataclass, field
from itertools import combinations
from xml.sax.saxutils import escape

# How wide a picture is unless it says otherwise: a telephone shows it 400 wide, and the smallest
# text, of size 11, has to be legible there.
WIDTH = 640
# A class has a fill and a stroke, light and dark; a text has its ink alone.
SHADES = {
    "back": ("#ffffff", "none", "#0d1117", "none"),
    "plain": ("#f6f8fa", "#8c959f", "#161b22", "#6e7681"),
    "safe": ("#dafbe1", "#1a7f37", "#0f3d1c", "#3fb950"),
    "used": ("#ddf4ff", "#0969da", "#0c2d6b", "#58a6ff"),
    "unsure": ("#fff1e5", "#bc4c00", "#4b2900", "#f0883e"),
    "failed": ("#ffebe9", "#cf222e", "#67060c", "#ff7b72"),
    "model": ("#fbefff", "#8250df", "#3c1e70", "#a371f7"),
    "disk": ("#f5efe0", "#8a6d3b", "#3b2f1a", "#c9a35b"),
    "both": ("#ffeff7", "#bf3989", "#5e103e", "#f778ba"),
    "edge": ("none", "#57606a", "none", "#9ea7b3"),
    "spread": ("none", "#cf222e", "none", "#ff7b72"),
    "ink": ("#1f2328", "none", "#f0f6fc", "none"),
    "dim": ("#57606a", "none", "#b1bac4", "none"),
}
# How wide a letter of each font is at most, on average over a text, in its size.
LETTER = {"sans": 0.60, "mono": 0.62}


class Illaid(Exception):
    """Why a picture is ill laid out."""


@dataclass(frozen=True)
class Area:
    left: float
    top: float
    right: float
    bottom: float
    what: str

    def meets(self, other: Area) -> bool:
        return (self.left < other.right and other.left < self.right
                and self.top < other.bottom and other.top < self.bottom)


@dataclass
class Picture:
    """What is drawn so far, and where it lies."""

    name: str
    height: int
    title: str
    wide: int = WIDTH
    parts: list[str] = field(default_factory=list)
    boxes: list[Area] = field(default_factory=list)
    texts: list[Area] = field(default_factory=list)
    lines: list[Area] = field(default_factory=list)

    def text(self, x: float, y: float, said: str, shade: str = "ink", size: int = 13,
             font: str = "sans", anchor: str = "start") -> Area:
        """A text whose middle line is y, without a box."""
        area = self.written(x, y, said, shade, size, font, anchor)
        self.texts.append(area)
        return area

    def written(self, x: float, y: float, said: str, shade: str, size: int, font: str,
                anchor: str, more: str = "") -> Area:
        self.parts.append(f'<text class="{shade} {font}" x="{x:g}" y="{y + size * 0.36:g}" '
                          f'font-size="{size}" text-anchor="{anchor}"{more}>{escape(said)}</text>')
        wide = len(said) * size * LETTER[font]
        left = {"start": x, "middle": x - wide / 2, "end": x - wide}[anchor]
        return Area(left, y - size * 0.6, left + wide, y + size * 0.6, said)

    def typed(self, x: float, y: float, line: str, size: int = 13) -> None:
        """A line of a terminal, whose middle is y. Each part of it between two spaces or more
        stands in its columns, whatever font is there."""
        wide = size * LETTER["mono"]
        for it in re.finditer(r"\S+(?: \S+)*", line):
            area = self.written(x + it.start() * wide, y, it[0], "ink", size, "mono", "start",
                                f' textLength="{len(it[0]) * wide:g}"')
            self.texts.append(area)

    def box(self, x: float, y: float, wide: float, high: float, shade: str, said: str,
            small: str = "", font: str = "sans", dashed: bool = False) -> Area:
        """A box with one line of text, or two."""
        area = Area(x, y, x + wide, y + high, said)
        dash = ' stroke-dasharray="4 3"' if dashed else ""
        self.parts.append(f'<rect class="{shade}" x="{x:g}" y="{y:g}" width="{wide:g}" '
                          f'height="{high:g}" rx="3"{dash}/>')
        middle = y + high / 2
        rows = [(said, "ink", 13, font, middle - 8 if small else middle)]
        rows += [(small, "dim", 11, "sans", middle + 9)] if small else []
        for row, ink, size, kind, at in rows:
            text = self.written(x + wide / 2, at, row, ink, size, kind, "middle")
            if text.left < x + 2 or text.right > x + wide - 2:
                raise Illaid(f"{self.name}: {row} is {text.right - text.left:g} wide, in a box of"
                             f" {wide:g}")
        self.boxes.append(area)
        return area

    def line(self, *points: tuple[float, float], arrow: bool = False, shade: str = "edge",
             dashed: bool = False) -> None:
        """A line along these points, each part of it level or upright."""
        path = " ".join(f"{x:g},{y:g}" for x, y in points)
        end = ' marker-end="url(#tip)"' if arrow else ""
        dash = ' stroke-dasharray="4 3"' if dashed else ""
        self.parts.append(f'<polyline class="{shade}" points="{path}"{dash}{end}/>')
        for (ax, ay), (bx, by) in zip(points, points[1:]):
            if ax != bx and ay != by:
                raise Illaid(f"{self.name}: a slanted line at {ax:g},{ay:g}")
            self.lines.append(Area(min(ax, bx), min(ay, by), max(ax, bx), max(ay, by),
                                   f"the line at {ax:g},{ay:g}"))

    def wrong(self) -> Iterator[str]:
        """What is ill laid out."""
        whole = Area(0, 0, self.wide, self.height, self.name)
        for it in [*self.boxes, *self.texts, *self.lines]:
            if (min(it.left, it.top) < 8 or it.right > whole.right - 8
                    or it.bottom > whole.bottom - 8):
                yield f"{it.what} isn't inside"
        for one, other in combinations([*self.boxes, *self.texts], 2):
            if one.meets(other):
                yield f"{one.what} lies over {other.what}"
        for line in self.lines:
            wide = Area(line.left - 1, line.top - 1, line.right + 1, line.bottom + 1, line.what)
            for it in self.boxes:
                if wide.meets(Area(it.left + 2, it.top + 2, it.right - 2, it.bottom - 2, it.what)):
                    yield f"{line.what} goes through {it.what}"
            for it in self.texts:
                if wide.meets(it):
                    yield f"{line.what} goes through {it.what}"

    def svg(self) -> str:
        for it in self.wrong():
            raise Illaid(f"{self.name}: {it}")
        light = "\n".join(f".{it} {{ fill: {fill}; stroke: {stroke} }}"
                          for it, (fill, stroke, _, _) in SHADES.items())
        dark = "\n".join(f".{it} {{ fill: {fill}; stroke: {stroke} }}"
                         for it, (_, _, fill, stroke) in SHADES.items())
        tips = ('<marker id="tip" viewBox="0 0 8 8" refX="8" refY="4" markerWidth="8" '
                'markerHeight="8" orient="auto"><path class="dim" d="M0 0L8 4L0 8z"/></marker>')
        return "\n".join([
            f'<svg xmlns="http://www.w3.org/2000/svg" viewBox="0 0 {self.wide} {self.height}" '
            f'width="{self.wide}" height="{self.height}" role="img">',
            f"<title>{escape(self.title)}</title>",
            f"<style>\n{light}\n.sans {{ font-family: system-ui, sans-serif }}\n"
            ".mono { font-family: ui-monospace, monospace }\n"
            f"@media (prefers-color-scheme: dark) {{\n{dark}\n}}\n</style>",
            f"<defs>{tips}</defs>",
            f'<rect class="back" width="{self.wide}" height="{self.height}"/>', *self.parts,
            "</svg>", ""])
