"""Records as dicts: what they hold, by hand and beside the listing."""

from __future__ import annotations

import re
import subprocess
from collections.abc import Iterator
from fractions import Fraction
from pathlib import Path
from typing import Any

import pytest
from conftest import BARE, FULL, OPAQUE, TOP, block

import asterix

ITEMS = {
    "010": {"SAC": 25, "SIC": 12},
    "140": 3600 + 1 / 128,
    "020": {"TYP": "track = kept", "spare": [1, 2], "ERR": -1},
    "040": {"A": -0.5, "B": {"spare": [0, 3], "DEEP": {"CODE": "7012"}}},
    "250": [{"MB": 7, "REST": "017"}, {"MB": 127, "REST": "000"}],
    "030": [5, 6],
    "240": "ABC12   ",
    "245": "a..b",
    "300": (1 << 127) + 5,
    "SP": "abcd",
}


def test_each_kind_and_content(program, kinds, recording):
    given = list(asterix.records(recording(FULL), kinds, command=program))
    assert given == [{"block": 0, "record": 0, "category": 250, "edition": "each kind", "items": ITEMS}]


def test_records_and_opaque_blocks_come_in_order(program, kinds, recording):
    given = list(asterix.records(recording(BARE, OPAQUE, BARE), kinds, command=program))
    places = [(one["block"], one.get("record"), one["category"]) for one in given]
    assert places == [(0, 0, 250), (0, 1, 250), (1, None, 99), (2, 0, 250), (2, 1, 250)]
    assert given[2] == {"block": 1, "category": 99, "opaque": "00ff10"}
    assert given[4]["items"] == {"010": {"SAC": 3, "SIC": 4}}


def test_exact_values_are_fractions(program, kinds, recording):
    (given,) = asterix.records(recording(FULL), kinds, command=program, values="exact")
    assert given["items"]["140"] == Fraction(128 * 3600 + 1, 128)
    assert isinstance(given["items"]["040"]["A"], Fraction)
    assert given["items"]["020"]["TYP"] == "track = kept"
    assert given["items"]["010"]["SAC"] == 25 and isinstance(given["items"]["010"]["SAC"], int)


def test_numbers_of_the_bits(program, kinds, recording):
    (given,) = asterix.records(recording(FULL), kinds, command=program, values="bits")
    assert given["items"]["140"] == 128 * 3600 + 1
    assert given["items"]["020"] == {"TYP": 2, "spare": [1, 2], "ERR": 3}
    assert given["items"]["040"]["A"] == 0xFE
    assert given["items"]["245"] == int.from_bytes(b'a\x01"b', "big")
    assert given["items"]["SP"] == "abcd"


def test_a_number_without_a_text_stays_a_number(program, kinds, recording):
    (given,) = asterix.records(recording(block(250, bytes([0b0010_0000, 0b111_0000_0]))), kinds, command=program)
    assert given["items"]["020"] == {"TYP": 7, "spare": [0]}


def test_no_occurrence_is_an_empty_list(program, kinds, recording):
    (given,) = asterix.records(recording(block(250, bytes([0b0000_1000, 0]))), kinds, command=program)
    assert given["items"] == {"250": []}


def test_no_subitem_is_an_empty_dict(program, kinds, recording):
    (given,) = asterix.records(recording(block(250, bytes([0b0001_0000, 0]))), kinds, command=program)
    assert given["items"] == {"040": {}}


def test_a_record_without_an_item(program, kinds, recording):
    given = list(asterix.records(recording(block(250, bytes(2))), kinds, command=program))
    assert [one["items"] for one in given] == [{}, {}]


def test_an_empty_recording_has_no_record(program, kinds, recording):
    assert list(asterix.records(recording(), kinds, command=program)) == []


def test_occurrences_within_occurrences(program, tmp_path, recording):
    spec = tmp_path / "nested"
    spec.write_text('category 250 edition "n" items { item 010 "" counted { counted { element 8 raw } } } uap { 010 }')
    (given,) = asterix.records(recording(block(250, bytes([0x80, 2, 2, 7, 8, 1, 9]))), spec, command=program)
    assert given["items"] == {"010": [[7, 8], [9]]}


def test_other_values_are_refused_by_name():
    with pytest.raises(ValueError, match="'double'.*decimal, exact, bits"):
        asterix.records("none.ast", [], values="double")


LINE = re.compile(r'(\d{3}/\S+) = (\d+)(?: (-?\d+)(?:/(\d+) ".*")?)?(?: "(.*)")?')


def leaves(value: Any, path: str) -> Iterator[tuple[str, Any]]:
    """The leaves of a record with their paths as the listing writes them, but for spare bits, whose order isn't kept between others."""
    if isinstance(value, dict):
        for name, one in value.items():
            if name != "spare":
                yield from leaves(one, f"{path}/{name}")
    elif isinstance(value, list):
        for number, one in enumerate(value):
            yield from leaves(one, f"{path}[{number}]")
    else:
        yield path, value


def listed(program: list[str], recording: Path, specs: list[Path]) -> list[tuple[str, Any]]:
    """The elements of a listing but for spare bits, read by an expression of their own."""
    text = subprocess.run([*program, "show", *specs], stdin=recording.open("rb"), capture_output=True, check=True, text=True).stdout
    found = []
    for line in text.splitlines():
        if " octets " in line and not line.startswith("block"):
            path, _, digits = line.split(" ")
            found.append((path, digits[1:-1]))
        elif " = " in line and "/spare = " not in line:
            path, bits, whole, below, words = LINE.fullmatch(line).groups()
            exact = Fraction(int(whole), int(below)) if below else None
            found.append((path, float(exact) if below else int(whole) if whole else words if words is not None else int(bits)))
    return found


def test_each_number_is_that_of_the_listing(program):
    recording, specs = TOP / "docs/turns.ast", [TOP / "categories/048-1.31", TOP / "categories/034-1.29"]
    given = [
        leaf
        for record in asterix.records(recording, specs, command=program)
        for name, item in record["items"].items()
        for leaf in leaves(item, f"{record['category']:03}/{name}")
    ]
    wanted = listed(program, recording, specs)
    assert len(wanted) > 3_000
    assert given == wanted
