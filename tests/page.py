"""A page of HTML as a tree of elements, and what is wrong with its form: each element that isn't
closed in its order, and each element and attribute that a page without scripts doesn't need."""

from __future__ import annotations

import dataclasses
from collections.abc import Iterator
from html.parser import HTMLParser

# What a page may be made of; only `meta` has no end.
ELEMENTS = {"html", "head", "meta", "title", "style", "body", "header", "main", "footer",
            "section", "details", "summary", "div", "span", "h1", "h2", "h3", "p", "b", "i", "ul",
            "li", "code", "pre"}
ATTRIBUTES = {"lang", "charset", "name", "content", "http-equiv", "class", "style", "title",
              "role", "aria-label", "aria-hidden", "open"}


@dataclasses.dataclass
class Element:
    name: str
    attributes: dict[str, str]
    parts: list[Element | str]

    def elements(self) -> Iterator[Element]:
        """All that are below it, in the page's order."""
        for it in self.parts:
            if isinstance(it, Element):
                yield it
                yield from it.elements()

    def all(self, name: str) -> list[Element]:
        """Those of this name, `.class` or `name.class` below it."""
        element, _, kind = name.partition(".")
        return [it for it in self.elements() if element in ("", it.name)
                and (not kind or kind in it.attributes.get("class", "").split())]

    def one(self, name: str) -> Element:
        found = self.all(name)
        return found[0] if found else Element("missing", {}, [f"no {name}"])

    def text(self) -> str:
        return "".join(it if isinstance(it, str) else it.text() for it in self.parts)


class Page(HTMLParser):
    """A page as a tree; what is wrong with its form."""

    def __init__(self, text: str) -> None:
        super().__init__(convert_charrefs=True)
        self.root, self.wrong = Element("", {}, []), list[str]()
        self.open = [self.root]
        self.feed(text)
        self.close()
        self.wrong += [f"{it.name} isn't closed" for it in self.open[1:]]

    def handle_starttag(self, tag: str, attrs: list[tuple[str, str | None]]) -> None:
        made = Element(tag, {key: value or "" for key, value in attrs}, [])
        self.open[-1].parts.append(made)
        self.wrong += [f"an element {tag}"] if tag not in ELEMENTS else []
        self.wrong += [f"an attribute {it}" for it in made.attributes if it not in ATTRIBUTES]
        is_twice = len(made.attributes) < len(attrs)
        self.wrong += [f"{tag} has an attribute twice"] if is_twice else []
        if tag != "meta":
            self.open.append(made)

    def handle_endtag(self, tag: str) -> None:
        if self.open[-1].name == tag:
            self.open.pop()
        else:
            self.wrong.append(f"{tag} ends in {self.open[-1].name}")

    def handle_data(self, data: str) -> None:
        self.open[-1].parts.append(data)

    def handle_comment(self, data: str) -> None:
        self.wrong.append(f"a comment {data}")

    def handle_pi(self, data: str) -> None:
        self.wrong.append(f"an instruction {data}")
