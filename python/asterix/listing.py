"""Records as dicts, from the lines of `asterix show`."""

from __future__ import annotations

import re
from collections.abc import Callable, Iterable, Iterator, Mapping
from fractions import Fraction
from typing import Any

from .errors import AsterixError

Record = dict[str, Any]
Value = Any

# Paths and texts of values that are remembered: most come again and again, and no recording may make these grow without bound.
_REMEMBERED = 1 << 16

_QUANTITY = re.compile(r'(-?\d+)/(\d+) "')


def meaning(text: str) -> Value:
    """What the text behind ` = ` means: a text in double quotes, a float for a quantity, else a whole number.

    >>> meaning('5 "Mode S roll-call alone"'), meaning('128 1/2 "s"'), meaning("254 -2"), meaning("7")
    ('Mode S roll-call alone', 0.5, -2, 7)
    """
    number, _, remark = text.partition(" ")
    if not remark:
        return int(number)
    if remark[0] == '"':
        return remark[1:-1]
    if found := _QUANTITY.match(remark):
        return int(found[1]) / int(found[2])
    return int(remark)


def exact_meaning(text: str) -> Value:
    """As `meaning`, but a quantity is a `Fraction`."""
    if found := _QUANTITY.match(text.partition(" ")[2]):
        return Fraction(int(found[1]), int(found[2]))
    return meaning(text)


def number_of_bits(text: str) -> Value:
    """The unsigned number of the element's bits."""
    return int(text.partition(" ")[0])


def split_path(path: str) -> tuple[str, str | None]:
    """What a path stands in, and its name there; `None` for an occurrence of a list.

    >>> split_path("048/250[3]/MBDATA"), split_path("048/250[3]")
    (('048/250[3]', 'MBDATA'), ('048/250', None))
    """
    if path.endswith("]"):
        return path[: path.rindex("[")], None
    parent, _, name = path.rpartition("/")
    return parent, name


class Remembering(dict[str, Any]):
    """Answers of a function of a text, each found once, and at most so many of them."""

    def __init__(self, function: Callable[[str], Any]) -> None:
        super().__init__()
        self.function = function

    def __missing__(self, text: str) -> Any:
        if len(self) >= _REMEMBERED:
            self.clear()
        answer = self[text] = self.function(text)
        return answer


class RecordReader:
    """Lines of a listing, put together to records.

    Args:
        editions: the edition of each category that has a file, by its three digits.
        meaning_of: the value of the text behind ` = `.
    """

    def __init__(self, editions: Mapping[str, str], meaning_of: Callable[[str], Value]) -> None:
        self.editions = editions
        self.values = Remembering(meaning_of)
        self.places = Remembering(split_path)
        self.block = 0
        self.category = ""
        self.open: dict[str, Any] = {}
        self.record: Record | None = None

    def records(self, pieces: Iterable[list[str]]) -> Iterator[Record]:
        """The records and the opaque blocks, in order.

        A record is given once the next line that isn't its own has come, or the listing has ended, so that it is whole.

        Raises:
            what `pieces` raises, behind the records that are whole.
        """
        try:
            for lines in pieces:
                yield from self.taken(lines)
        except AsterixError as error:
            # The program writes whole blocks, unless it is killed while it writes.
            if error.status > 0:
                yield from self.last()
            raise
        except OSError:
            yield from self.last()
            raise
        yield from self.last()

    def last(self) -> Iterator[Record]:
        """The record that is open, if there is one."""
        record, self.record = self.record, None
        if record is not None:
            yield record

    def taken(self, lines: list[str]) -> Iterator[Record]:
        """Takes lines, and gives the records that end before one of them."""
        for line in lines:
            path, is_element, text = line.partition(" = ")
            if is_element:
                self.element(path, self.values[text])
            elif line[3:4] == "/":
                self.structure(line)
            else:
                yield from self.last()
                self.record = self.begin(line)

    def begin(self, line: str) -> Record | None:
        """What begins with a line `block ..` or `record M`; `None` where no record does."""
        words = line.split(" ")
        if words[0] == "record":
            items: dict[str, Any] = {}
            self.open = {self.category: items}
            return {
                "block": self.block,
                "record": int(words[1]),
                "category": int(self.category),
                "edition": self.editions.get(self.category, ""),
                "items": items,
            }
        self.block, self.category = int(words[1]), words[3]
        if words[6] == "opaque":
            return {"block": self.block, "category": int(self.category), "opaque": words[7].strip('"')}
        return None

    def element(self, path: str, value: Value) -> None:
        """Puts a value at its path. Spare bits of one group or item are a list, since they have one name."""
        parent, name = self.places[path]
        holder = self.open.get(parent)
        if holder is None:
            holder = self.opened(parent, {})
        if name is None:
            holder.append(value)
        elif name == "spare":
            holder.setdefault(name, []).append(value)
        else:
            holder[name] = value

    def structure(self, line: str) -> None:
        """Opens what a line `PATH parts K`, `occurrences K` or `subitems K` begins, or puts the octets of an explicit item."""
        path, kind, value = line.split(" ", 2)
        if kind == "octets":
            self.element(path, value.strip('"'))
        else:
            self.opened(path, [] if kind == "occurrences" else {})

    def opened(self, path: str, holder: Any) -> Any:
        """Puts an empty dict or list at a path, and gives it."""
        self.open[path] = holder
        parent, name = self.places[path]
        outer = self.open.get(parent)
        if outer is None:
            outer = self.opened(parent, {})
        if name is None:
            outer.append(holder)
        else:
            outer[name] = holder
        return holder
