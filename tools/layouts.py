"""Category files and expansion files as trees, for scripts of this repository. Only files that the program accepts are read; of another
file BadLayout names the first token that can't be read."""

import pathlib
import re
from collections.abc import Callable, Iterator
from dataclasses import dataclass, field
from typing import TypeVar, Union

TOKEN = re.compile(r'"[^"\n]*"|[{}]|[^\s{}"#]+|#[^\n]*')
T = TypeVar("T")


class BadLayout(Exception):
    """A text that is no category file, or no expansion file."""


@dataclass(frozen=True)
class Content:
    """What an element's number means: `words` are the tokens of the content but the entries of a table, which `texts` has."""

    words: tuple[str, ...]
    texts: dict[int, str] = field(default_factory=dict)


@dataclass(frozen=True)
class Element:
    """One number."""

    width: int
    content: Content


@dataclass(frozen=True)
class Group:
    """Members: a name and a kind, or an empty name and spare bits."""

    members: tuple[tuple[str, "Fixed"], ...]


Fixed = Union[Element, Group]


@dataclass(frozen=True)
class Parts:
    """An extended or closed item: each part is its members. The last part of a closed item has no FX."""

    parts: tuple[Group, ...]
    is_closed: bool


@dataclass(frozen=True)
class Counted:
    """REP of one or two octets, and occurrences."""

    octets: int
    body: "Kind"


@dataclass(frozen=True)
class ByFx:
    """Occurrences with FX."""

    body: Fixed


@dataclass(frozen=True)
class Explicit:
    """A length octet and octets."""


@dataclass(frozen=True)
class Compound:
    """A presence field and subitems; None is a slot that is spare. The field has FX, or is a number of octets without (an RE's)."""

    slots: tuple[tuple[str, "Kind"] | None, ...]
    octets: int | None = None


Kind = Union[Fixed, Parts, Counted, ByFx, Explicit, Compound]


@dataclass(frozen=True)
class Layout:
    """A category file: the slots of its UAP, with the name and the kind of each item."""

    category: str
    edition: str
    slots: tuple[tuple[str, Kind] | None, ...]


def bits_of(kind: Fixed) -> int:
    """The width of a fixed kind."""
    return kind.width if isinstance(kind, Element) else sum(bits_of(member) for _, member in kind.members)


def elements_of(layout: Layout) -> Iterator[tuple[str, Element]]:
    """Each element of a category file with its path, without spare bits. The elements of a part and of an occurrence have the item's
    path and their own names."""
    for slot in layout.slots:
        if slot:
            yield from elements_in(f"{layout.category}/{slot[0]}", slot[1])


def elements_in(path: str, kind: Kind) -> Iterator[tuple[str, Element]]:
    """Each element of a kind at a path, with its own path."""
    if isinstance(kind, Element):
        yield path, kind
    elif isinstance(kind, Group):
        for name, member in kind.members:
            if name:
                yield from elements_in(f"{path}/{name}", member)
    elif isinstance(kind, Parts):
        for part in kind.parts:
            yield from elements_in(path, part)
    elif isinstance(kind, (Counted, ByFx)):
        yield from elements_in(path, kind.body)
    elif isinstance(kind, Compound):
        for slot in kind.slots:
            if slot:
                yield from elements_in(f"{path}/{slot[0]}", slot[1])


class Reader:
    """Reads the tokens of a text."""

    def __init__(self, text: str) -> None:
        self.tokens = [token for token in TOKEN.findall(text) if not token.startswith("#")]
        self.at = 0

    def next(self) -> str:
        """The next token."""
        if self.at == len(self.tokens):
            raise BadLayout("the text ends too early")
        self.at += 1
        return self.tokens[self.at - 1]

    def bad(self) -> BadLayout:
        """That the last token can't be read."""
        return BadLayout(f"token {self.at - 1} is {self.tokens[self.at - 1]}")

    def want(self, *words: str) -> str:
        """The next token, which is one of these words."""
        word = self.next()
        if word not in words:
            raise self.bad()
        return word

    def text(self) -> str:
        """The next token, a text, without its quotes."""
        word = self.next()
        if not word.startswith('"'):
            raise self.bad()
        return word[1:-1]

    def number(self) -> int:
        """The next token, a number."""
        word = self.next()
        if not word.isdecimal():
            raise self.bad()
        return int(word)

    def inside(self, read: Callable[[], T]) -> Iterator[T]:
        """What `read` gives, again and again, between two braces."""
        self.want("{")
        while self.at < len(self.tokens) and self.tokens[self.at] != "}":
            yield read()
        self.want("}")

    def content(self) -> Content:
        """A content."""
        word = self.want("raw", "octal", "icao", "ascii", "integer", "quantity", "table")
        if word == "table":
            texts: dict[int, str] = {}
            for number, text in self.inside(lambda: (self.number(), self.text())):
                texts.setdefault(number, text)
            return Content((word,), texts)
        return Content((word, *(self.next() for _ in range({"integer": 1, "quantity": 4}.get(word, 0)))))

    def fixed(self) -> Fixed:
        """An element or a group."""
        if self.want("element", "group") == "element":
            return Element(self.number(), self.content())
        return self.group()

    def group(self) -> Group:
        """The members of a group or a part."""
        return Group(tuple(self.inside(self.member)))

    def member(self) -> tuple[str, Fixed]:
        """A member."""
        name = self.next()
        return ("", Element(self.number(), Content(("raw",)))) if name == "spare" else (name, self.fixed())

    def part(self) -> Group:
        """A part."""
        self.want("part")
        return self.group()

    def slot(self) -> tuple[str, Kind] | None:
        """A slot of a compound or of an expansion file."""
        name = self.next()
        return None if name == "-" else (name, self.kind())

    def kind(self) -> Kind:
        """A kind."""
        word = self.next()
        if word in ("element", "group"):
            self.at -= 1
            return self.fixed()
        if word in ("extended", "closed"):
            return Parts(tuple(self.inside(self.part)), word == "closed")
        if word in ("counted", "wide"):
            self.want("{")
            body = self.kind()
            self.want("}")
            return Counted(1 if word == "counted" else 2, body)
        if word == "byfx":
            return ByFx(self.fixed())
        if word == "explicit":
            return Explicit()
        if word == "compound":
            return Compound(tuple(self.inside(self.slot)))
        raise self.bad()

    def item(self) -> tuple[str, Kind]:
        """An item."""
        self.want("item")
        name = self.next()
        self.text()
        return name, self.kind()


def layout_of(text: str) -> Layout:
    """A category file."""
    reader = Reader(text)
    reader.want("category")
    category = reader.next()
    reader.want("edition")
    edition = reader.text()
    reader.want("items")
    items = dict(reader.inside(reader.item))
    reader.want("uap")
    names = list(reader.inside(reader.next))
    return Layout(category, edition, tuple((name, items[name]) if name in items else None for name in names))


def layout_in(file: pathlib.Path) -> Layout:
    """A category file, by its path. BadLayout names the file; OSError is that it can't be read."""
    return read_in(file, layout_of)


def expansion_in(file: pathlib.Path) -> tuple[str, Compound]:
    """An expansion file, by its path, with the errors of `layout_in`."""
    return read_in(file, expansion_of)


def read_in(file: pathlib.Path, of: Callable[[str], T]) -> T:
    """What is made of a file's text."""
    try:
        return of(file.read_text(encoding="utf-8"))
    except (BadLayout, ValueError) as error:
        raise BadLayout(f"{file}: {error}") from error


def expansion_of(text: str) -> tuple[str, Compound]:
    """An expansion file: its category and its slots."""
    reader = Reader(text)
    reader.want("expansion")
    category = reader.next()
    reader.want("edition")
    reader.text()
    octets = reader.number() if reader.want("fixed", "fx") == "fixed" else None
    return category, Compound(tuple(reader.inside(reader.slot)), octets)
