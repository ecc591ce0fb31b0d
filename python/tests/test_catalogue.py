"""Category files: titles, widths, scales, units and tables."""

from __future__ import annotations

from fractions import Fraction

import pytest
from conftest import TOP

import asterix


def test_what_a_file_says(kinds):
    found = asterix.read_category(kinds)
    assert (found.number, found.edition) == (250, "each kind")
    assert found.titles["250/040"] == "Compound"
    assert found.repeated == {"250/250", "250/030"}
    assert found.elements["250/040/A"] == asterix.Element("250/040/A", "Compound", 8, "quantity", True, Fraction(1, 4), "FL")
    assert found.elements["250/020/TYP"].table == {1: "plot", 2: "track = kept"}
    assert found.elements["250/020/ERR"].signed
    assert found.elements["250/300"].bits == 128
    assert "250/040/B/DEEP/CODE" in found.elements
    assert "250/040/B/DEEP" in found.paths and "250/SP" in found.paths and "250/040/spare" not in found.paths


def test_the_first_entry_for_a_number_counts(tmp_path):
    spec = tmp_path / "twice"
    spec.write_text('category 250 edition "" items { # "a comment" {\n item 010 "" element 8 table { 1 "first" 1 "second" } } uap { 010 }')
    assert asterix.read_category(spec).elements["250/010"].table == {1: "first"}


@pytest.mark.parametrize("text", ["", "category", 'category 250 edition "x" items {', 'category 250 edition "x" items { item 010 "" elephant }'])
def test_what_is_no_category_file(tmp_path, text):
    spec = tmp_path / "none"
    spec.write_text(text)
    with pytest.raises(ValueError, match="none: not a category file"):
        asterix.read_category(spec)


def test_all_category_files_are_read():
    files = [path for path in (TOP / "categories").iterdir() if path.is_file() and path.name[:3].isdigit()]
    assert len(files) >= 32
    for path in files:
        found = asterix.read_category(path)
        assert f"{found.number:03}" == path.name[:3]
        assert path.read_text().count(" element ") == len(found.elements)
