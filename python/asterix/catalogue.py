"""What category files say of items: titles, bits, scales, units and tables.

A file is read as far as its grammar holds. The program judges files, this module doesn't: read a file with it that the program accepts.
"""

from __future__ import annotations

import os
import re
from collections.abc import Iterator
from dataclasses import dataclass, field
from fractions import Fraction

_TOKEN = re.compile(r'"([^"\n]*)"|([{}]|[^\s"{}#]+)|#[^\n]*')
# The program reads no category file of more octets.
_LARGEST = 1_048_576


@dataclass(frozen=True)
class Element:
    """An element of a category file.

    Attributes:
        path: the path, as the listing has it without the numbers of occurrences: `048/040/RHO`.
        title: the title of its item.
        bits: its width in bits.
        content: `raw`, `integer`, `quantity`, `table`, `octal`, `icao` or `ascii`.
        signed: whether its number is in two's complement.
        scale: what a quantity's number is multiplied with; 1 for the others.
        unit: a quantity's unit; empty for the others.
        table: a table's texts by their numbers; of two entries for a number the first counts.
    """

    path: str
    title: str
    bits: int
    content: str
    signed: bool = False
    scale: Fraction = Fraction(1)
    unit: str = ""
    table: dict[int, str] = field(default_factory=dict)


@dataclass(frozen=True)
class Category:
    """A category file.

    Attributes:
        number: the category, 0 to 255.
        edition: the text of the edition.
        titles: the title of each item, by its path `048/040`.
        elements: each element by its path.
        repeated: the paths of the items and subitems that have occurrences.
        paths: the paths of all items, subitems, groups and elements.
    """

    number: int
    edition: str
    titles: dict[str, str]
    elements: dict[str, Element]
    repeated: frozenset[str]
    paths: frozenset[str]


def read_category(spec: str | os.PathLike[str]) -> Category:
    """Reads a category file.

    Raises:
        OSError: the file can't be read.
        ValueError: it isn't a category file as far as this reader knows the grammar.
    """
    with open(spec, "rb") as file:
        text = file.read(_LARGEST).decode("latin-1")
    try:
        return _Reader(text).category()
    except (StopIteration, ValueError, IndexError) as error:
        raise ValueError(f"{os.fspath(spec)}: not a category file") from error


def edition_of(spec: str | os.PathLike[str]) -> tuple[str, str] | None:
    """The category in three digits and the edition of a category file; `None` where its head isn't one, or it can't be read."""
    try:
        with open(spec, "rb") as file:
            tokens = _tokens(file.read(_LARGEST).decode("latin-1"))
            head = [next(tokens, "") for _ in range(4)]
    except OSError:
        return None
    return (head[1], head[3][1:]) if head[0] == "category" and head[2] == "edition" else None


def _tokens(text: str) -> Iterator[str]:
    """The tokens of a file, one after another; a text begins with a double quote and has none at its end."""
    for found in _TOKEN.finditer(text):
        if found[1] is not None:
            yield '"' + found[1]
        elif found[2]:
            yield found[2]


class _Reader:
    """A category file's tokens, read by the rules of the grammar, each method one rule."""

    def __init__(self, text: str) -> None:
        self.tokens = list(_tokens(text))
        self.at = 0
        self.titles: dict[str, str] = {}
        self.elements: dict[str, Element] = {}
        self.repeated: set[str] = set()
        self.paths: set[str] = set()
        self.title = ""

    def word(self) -> str:
        self.at += 1
        return self.tokens[self.at - 1]

    def want(self, *words: str) -> None:
        for word in words:
            if self.word() != word:
                raise ValueError(word)

    def ends(self) -> bool:
        """Whether a closing brace comes, which is taken then."""
        if self.tokens[self.at] != "}":
            return False
        self.at += 1
        return True

    def category(self) -> Category:
        self.want("category")
        digits = self.word()
        self.want("edition")
        edition = self.word()[1:]
        self.want("items", "{")
        while not self.ends():
            self.want("item")
            path = f"{digits}/{self.word()}"
            self.title = self.titles[path] = self.word()[1:]
            self.kind(path)
        return Category(int(digits), edition, self.titles, self.elements, frozenset(self.repeated), frozenset(self.paths))

    def kind(self, path: str) -> None:
        self.paths.add(path)
        word = self.word()
        if word in ("counted", "wide"):
            self.repeated.add(path)
            self.want("{")
            self.kind(path)
            self.want("}")
        elif word == "byfx":
            self.repeated.add(path)
            self.fixed(path, self.word())
        elif word == "compound":
            self.slots(path)
        elif word in ("extended", "closed"):
            self.parts(path)
        elif word != "explicit":
            self.fixed(path, word)

    def slots(self, path: str) -> None:
        self.want("{")
        while not self.ends():
            name = self.word()
            if name != "-":
                self.kind(f"{path}/{name}")

    def parts(self, path: str) -> None:
        self.want("{")
        while not self.ends():
            self.want("part")
            self.members(path)

    def members(self, path: str) -> None:
        self.want("{")
        while not self.ends():
            name = self.word()
            if name == "spare":
                self.word()
            else:
                self.fixed(f"{path}/{name}", self.word())

    def fixed(self, path: str, word: str) -> None:
        self.paths.add(path)
        if word == "group":
            self.members(path)
        elif word == "element":
            self.elements[path] = self.element(path)
        else:
            raise ValueError(word)

    def element(self, path: str) -> Element:
        bits, content = int(self.word()), self.word()
        if content == "integer":
            return Element(path, self.title, bits, content, signed=self.word() == "signed")
        if content == "quantity":
            signed, scale = self.word() == "signed", Fraction(int(self.word()), int(self.word()))
            return Element(path, self.title, bits, content, signed, scale, self.word()[1:])
        if content == "table":
            return Element(path, self.title, bits, content, table=self.table())
        return Element(path, self.title, bits, content)

    def table(self) -> dict[int, str]:
        self.want("{")
        texts: dict[int, str] = {}
        while not self.ends():
            number = int(self.word())
            texts.setdefault(number, self.word()[1:])
        return texts
