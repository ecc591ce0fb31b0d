"""Records of ASTERIX recordings, as dicts and as DataFrames.

This package runs the program `asterix` as a child process and reads its listing. The proofs of that program don't speak of this package.

>>> import asterix
>>> for record in asterix.records("turns.ast", ["048-1.31", "034-1.29"]):      # doctest: +SKIP
...     print(record["block"], record["items"].get("140"))
>>> plots = asterix.frame("turns.ast", ["048-1.31", "034-1.29"], category=48)   # doctest: +SKIP
"""

from __future__ import annotations

import contextlib
import os
from collections.abc import Iterator, Sequence
from typing import TYPE_CHECKING

from .catalogue import Category, Element, edition_of, read_category
from .errors import AsterixError, MissingFile, RefusedBlock, RefusedFile
from .listing import Record, RecordReader, exact_meaning, meaning, number_of_bits
from .running import Command, Source, listed_lines, names_of

if TYPE_CHECKING:
    import pandas

__version__ = "1.0"
__all__ = [
    "AsterixError",
    "Category",
    "Element",
    "MissingFile",
    "Record",
    "RefusedBlock",
    "RefusedFile",
    "frame",
    "read_category",
    "records",
]

Specs = str | os.PathLike[str] | Sequence[str | os.PathLike[str]]

_MEANINGS = {"decimal": meaning, "exact": exact_meaning, "bits": number_of_bits}


def records(source: Source, specs: Specs, *, command: Command | None = None, values: str = "decimal") -> Iterator[Record]:
    """The records of a recording, one after another, and its opaque blocks.

    A record is a dict: `block` and `record` (numbers from 0, the record's in its block), `category` (a number), `edition` (a text) and
    `items`, a dict in which each item stands under its name. Subitems and members of groups are dicts in it; occurrences and spare bits
    are lists; the parts of an extended item are one dict; an explicit item is its octets in hexadecimal digits. A block of a category
    without a file is a dict with `block`, `category` and `opaque`, its octets after LEN in hexadecimal digits.

    Args:
        source: the recording's path, or a file object of octets. A file on disk is read by the program itself.
        specs: the category files, or one.
        command: the program, or the words that start it. Without it, the environment variable ASTERIX, else `asterix` on the PATH.
        values: what an element's value is. `decimal`: a float in the unit of the category file for a quantity, a text for a table
            (a number where the table has no text), octal, icao and ascii, and a whole number otherwise. `exact`: the same, but a
            quantity is a `fractions.Fraction`. `bits`: the unsigned number of the bits for each.

    Yields:
        the records in their order. The program runs while they are taken, and ends with the iterator.

    Raises:
        RefusedFile: the program refuses a category file.
        MissingFile: a category file can't be loaded.
        RefusedBlock: a data block is refused; all records of the blocks before it were given.
        AsterixError: the program ended otherwise before the end of its input.
        FileNotFoundError: there is no such recording or no such program.
        ValueError: `values` is none of the three.
    """
    if values not in _MEANINGS:
        raise ValueError(f"values is {values!r}, and must be one of {', '.join(_MEANINGS)}")
    names = names_of(specs)
    editions = dict(found for found in map(edition_of, names) if found)
    return RecordReader(editions, _MEANINGS[values]).records(listed_lines(source, names, command))


def frame(
    source: Source,
    specs: Specs,
    *,
    category: int | None = None,
    paths: Sequence[str] | None = None,
    command: Command | None = None,
) -> pandas.DataFrame:
    """A recording as a DataFrame: a row a record, a column for each path that a record has a value at.

    The columns `block`, `record` and `category` come first. A quantity is a float in its unit, and a `Timedelta` where the unit is `s`.
    Whole numbers are `Int64`; texts, octets (as hexadecimal digits) and the lists of repeated items are objects. What a record doesn't
    have is `NaN`, `NaT`, `<NA>` or `None`. `frame.attrs["units"]` has the unit of each quantity, `frame.attrs["titles"]` the title of
    each column's item. Opaque blocks have no row.

    Args:
        source, specs, command: as in `records`.
        category: takes the records of this category alone.
        paths: takes what stands at these paths or below them, as `["048/040", "048/140"]`; everything but spare bits without it.

    Raises:
        ImportError: pandas isn't installed.
        ValueError: no category file has one of the paths, or one stands inside of occurrences.
        as `records`; a recording that is refused gives no DataFrame.
    """
    import pandas  # noqa: F401 - so that its want is told before the recording is read

    from .frames import Columns, frame_of

    names = names_of(specs)
    categories = _categories(names)
    if paths is not None and len(categories) == len(names):
        _check_paths(paths, categories)
    columns = Columns(None if category is None else f"{category:03}", paths)
    columns.fill(listed_lines(source, names, command))
    elements = {path: element for one in categories for path, element in one.elements.items()}
    titles = {path: title for one in categories for path, title in one.titles.items()}
    units = {path: element.unit for path, element in elements.items() if element.content == "quantity"}
    table = frame_of(columns, frozenset(path for path, unit in units.items() if unit == "s"))
    table.attrs["units"] = {path: unit for path, unit in units.items() if path in table.columns}
    table.attrs["titles"] = {path: titles.get("/".join(path.split("/")[:2]), "") for path in table.columns if "/" in path}
    return table


def _categories(names: Sequence[str]) -> list[Category]:
    """The category files that this package can read: what is wrong with another one, the program tells."""
    found = []
    for name in names:
        with contextlib.suppress(OSError, ValueError):
            found.append(read_category(name))
    return found


def _check_paths(paths: Sequence[str], categories: Sequence[Category]) -> None:
    """Raises a ValueError for the first path that no category file has, or that stands inside of occurrences."""
    known = {path for one in categories for path in one.paths}
    repeated = {path for one in categories for path in one.repeated}
    for path in paths:
        if path not in known and path.removesuffix("/spare") not in known:
            raise ValueError(f"{path}: no category file has this path")
        if inside := next((one for one in repeated if path.startswith(one + "/")), None):
            raise ValueError(f"{path}: it stands inside the occurrences of {inside}, which is a column as a whole")
