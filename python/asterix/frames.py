"""A recording as a pandas DataFrame: a row a record, a column an element."""

from __future__ import annotations

from array import array
from collections.abc import Iterable, Sequence
from typing import TYPE_CHECKING, Any

from .listing import RecordReader, Remembering, exact_meaning, meaning, number_of_bits

if TYPE_CHECKING:
    import pandas

_SECOND = 1_000_000_000
# Whole numbers of more bits don't fit into a column of Int64.
_LARGEST = (1 << 63) - 1


class Column:
    """What the records have at one path: the rows that have it, and for each of them which of the texts it is.

    Most texts come again and again. So a value takes twelve octets here, whatever its text.
    """

    def __init__(self) -> None:
        self.rows = array("q")
        self.codes = array("l")
        self.texts: dict[str, int] = {}

    def put(self, row: int, text: str) -> None:
        code = self.texts.get(text)
        if code is None:
            code = self.texts[text] = len(self.texts)
        self.rows.append(row)
        self.codes.append(code)


class Columns:
    """The columns of a listing, filled line by line.

    Args:
        category: the category whose records are taken, in three digits; all where it is `None`.
        paths: the paths that are taken, with all that stands below them; all but spare bits where it is `None`.
    """

    def __init__(self, category: str | None, paths: Sequence[str] | None) -> None:
        self.category = category
        self.paths = paths
        self.columns: dict[str, Column] = {}
        self.lists: dict[str, dict[int, list[Any]]] = {}
        self.blocks = array("q")
        self.records = array("q")
        self.categories = array("q")
        self.wanted = Remembering(self.is_wanted)
        # Puts together what stands in occurrences, below the lists of the record.
        self.reader = RecordReader({}, meaning)

    def is_wanted(self, path: str) -> bool:
        """Whether the value at a path is taken."""
        if self.paths is None:
            return not path.endswith("/spare")
        return any(path == one or path.startswith((one + "/", one + "[")) for one in self.paths)

    def fill(self, pieces: Iterable[list[str]]) -> None:
        """Takes all lines of a listing."""
        row, block, category, taken = -1, 0, "", False
        for lines in pieces:
            for line in lines:
                path, is_element, text = line.partition(" = ")
                if is_element:
                    if taken and self.wanted[path]:
                        self.element(row, path, text)
                elif path[3:4] == "/":
                    if taken:
                        self.structure(row, line)
                elif path.startswith("record "):
                    taken = self.category is None or self.category == category
                    row += taken
                    if taken:
                        self.begin(block, int(path[7:]), category)
                else:
                    _, digits, _, category, _ = path.split(" ", 4)
                    block, taken = int(digits), False

    def begin(self, block: int, record: int, category: str) -> None:
        """Begins a row."""
        self.blocks.append(block)
        self.records.append(record)
        self.categories.append(int(category))
        self.reader.open = {}

    def element(self, row: int, path: str, text: str) -> None:
        """Puts a value into its column. What stands in an occurrence goes to the list of the item."""
        if "[" in path:
            self.reader.element(path, self.reader.values[text])
        elif path.endswith("/spare"):
            self.lists.setdefault(path, {}).setdefault(row, []).append(number_of_bits(text))
        else:
            self.put(row, path, text)

    def put(self, row: int, path: str, text: str) -> None:
        column = self.columns.get(path)
        if column is None:
            column = self.columns[path] = Column()
        column.put(row, text)

    def structure(self, row: int, line: str) -> None:
        """Takes a line `PATH parts K`, `occurrences K`, `subitems K` or `octets HEX`."""
        path, kind, value = line.split(" ", 2)
        if not self.wanted[path]:
            return
        if "[" in path:
            self.reader.structure(line)
        elif kind == "occurrences":
            self.reader.open[path] = self.lists.setdefault(path, {})[row] = []
        elif kind == "octets":
            self.put(row, path, f"0 {value}")


def frame_of(columns: Columns, seconds: frozenset[str]) -> pandas.DataFrame:
    """The DataFrame of columns that are filled.

    Args:
        columns: the columns.
        seconds: the paths of the quantities in seconds, which become `Timedelta`.
    """
    import numpy
    import pandas

    rows = len(columns.blocks)
    series: dict[str, Any] = {
        "block": numpy.frombuffer(columns.blocks, dtype="int64"),
        "record": numpy.frombuffer(columns.records, dtype="int64"),
        "category": numpy.frombuffer(columns.categories, dtype="int64"),
    }
    for path, column in columns.columns.items():
        series[path] = _series(column, rows, path in seconds)
    for path, lists in columns.lists.items():
        held = numpy.full(rows, None, dtype=object)
        for row, values in lists.items():
            held[row] = values
        series[path] = held
    return pandas.DataFrame(series, index=pandas.RangeIndex(rows), copy=False)


def _series(column: Column, rows: int, is_time: bool) -> Any:
    """A column's values, one for each row: of a type that has a value for what is missing."""
    import numpy
    import pandas

    at = numpy.frombuffer(column.rows, dtype="int64")
    codes = numpy.frombuffer(column.codes, dtype="int64")
    if is_time:
        held = numpy.full(rows, "NaT", dtype="timedelta64[ns]")
        held[at] = numpy.array([nanoseconds(text) for text in column.texts], dtype="timedelta64[ns]")[codes]
        return held
    values = [meaning(text) for text in column.texts]
    if all(isinstance(value, float) for value in values):
        held = numpy.full(rows, numpy.nan)
        held[at] = numpy.array(values, dtype="float64")[codes]
        return held
    if all(isinstance(value, int) and abs(value) <= _LARGEST for value in values):
        numbers, missing = numpy.zeros(rows, dtype="int64"), numpy.full(rows, True)
        numbers[at], missing[at] = numpy.array(values, dtype="int64")[codes], False
        return pandas.arrays.IntegerArray(numbers, missing)
    objects = numpy.empty(len(values), dtype=object)
    objects[:] = values
    held = numpy.full(rows, None, dtype=object)
    held[at] = objects[codes]
    return held


def nanoseconds(text: str) -> int:
    """The whole nanoseconds nearest to a quantity in seconds, a half rounded to the even one.

    >>> nanoseconds('1 1/128 "s"')
    7812500
    """
    return round(exact_meaning(text) * _SECOND)
