"""Recordings as DataFrames."""

from __future__ import annotations

import subprocess
import sys

import pytest
from conftest import BARE, DAMAGED, FULL, OPAQUE, TOP, block
from test_records import listed

import asterix

pandas = pytest.importorskip("pandas")


def test_a_row_a_record(program, kinds, recording):
    table = asterix.frame(recording(FULL, OPAQUE, BARE), kinds, command=program)
    assert list(table["block"]) == [0, 2, 2]
    assert list(table["record"]) == [0, 0, 1]
    assert list(table["category"]) == [250, 250, 250]
    assert list(table["250/010/SAC"]) == [25, 1, 3]


def test_types_and_what_is_missing(program, kinds, recording):
    table = asterix.frame(recording(FULL, BARE), kinds, command=program)
    assert str(table["250/140"].dtype) == "timedelta64[ns]"
    assert table["250/140"][0] == pandas.Timedelta(3600 * 10**9 + 7_812_500, "ns")
    assert table["250/140"][1] is pandas.NaT
    assert str(table["250/040/A"].dtype) == "float64" and table["250/040/A"][0] == -0.5
    assert pandas.isna(table["250/040/A"][1])
    assert str(table["250/020/ERR"].dtype) == "Int64" and table["250/020/ERR"][0] == -1
    assert table["250/020/ERR"][1] is pandas.NA
    assert list(table["250/240"]) == ["ABC12   ", None, None]
    assert table["250/300"][0] == (1 << 127) + 5
    assert table["250/SP"][0] == "abcd"
    assert table["250/250"][0] == [{"MB": 7, "REST": "017"}, {"MB": 127, "REST": "000"}]
    assert table["250/030"][0] == [5, 6] and table["250/030"][1] is None
    assert table["250/040/B/DEEP/CODE"][0] == "7012"
    assert not [path for path in table.columns if path.endswith("/spare")]


def test_units_and_titles(program, kinds, recording):
    table = asterix.frame(recording(FULL), kinds, command=program)
    assert table.attrs["units"] == {"250/140": "s", "250/040/A": "FL"}
    assert table.attrs["titles"]["250/040/A"] == "Compound"
    assert table.attrs["titles"]["250/SP"] == "Special purpose"


def test_paths_choose_columns(program, kinds, recording):
    path = recording(FULL, BARE)
    table = asterix.frame(path, kinds, paths=["250/040", "250/250", "250/020/spare"], command=program)
    chosen = {"250/040/A", "250/040/B/DEEP/CODE", "250/040/B/spare", "250/250", "250/020/spare"}
    assert set(table.columns) == {"block", "record", "category"} | chosen
    assert len(table) == 3
    assert table["250/020/spare"][0] == [1, 2]


@pytest.mark.parametrize(
    ("path", "said"),
    [("250/041", "no category file"), ("250/250/MB", "occurrences of 250/250"), ("251/010", "no category file"), ("250/04", "no category file")],
)
def test_other_paths_are_refused_by_name(program, kinds, recording, path, said):
    with pytest.raises(ValueError, match=f"{path}: .*{said}"):
        asterix.frame(recording(FULL), kinds, paths=[path], command=program)


def test_one_category_of_several(program, kinds, tmp_path, recording):
    other = tmp_path / "other"
    other.write_text('category 251 edition "o" items { item 010 "" element 8 raw } uap { 010 }')
    path = recording(BARE, block(251, b"\x80\x07"), BARE)
    assert list(asterix.frame(path, [kinds, other], command=program)["category"]) == [250, 250, 251, 250, 250]
    table = asterix.frame(path, [kinds, other], category=251, command=program)
    assert list(table.columns) == ["block", "record", "category", "251/010"]
    assert list(table["251/010"]) == [7] and list(table["block"]) == [1]


def test_an_empty_recording(program, kinds, recording):
    table = asterix.frame(recording(), kinds, command=program)
    assert len(table) == 0
    assert list(table.columns) == ["block", "record", "category"]


def test_a_table_column_holds_texts_and_numbers_without_one(program, kinds, recording):
    path = recording(*[block(250, bytes([0b0010_0000, number << 5])) for number in (1, 7, 2)])
    assert list(asterix.frame(path, kinds, command=program)["250/020/TYP"]) == ["plot", 7, "track = kept"]


def test_a_refused_recording_gives_no_frame(program, kinds, recording, tmp_path):
    with pytest.raises(asterix.RefusedBlock):
        asterix.frame(recording(BARE, DAMAGED), kinds, command=program)
    with pytest.raises(asterix.MissingFile):
        asterix.frame(recording(BARE), [tmp_path / "none"], paths=["250/010"], command=program)


def test_without_pandas_its_want_is_told(tmp_path):
    code = "import sys; sys.modules['pandas'] = None\nimport asterix\nasterix.frame('none.ast', [])"
    ended = subprocess.run([sys.executable, "-c", code], capture_output=True, text=True)
    assert ended.returncode == 1
    assert "pandas" in ended.stderr.splitlines()[-1]
    assert subprocess.run([sys.executable, "-c", "import sys, asterix; assert 'pandas' not in sys.modules"]).returncode == 0


def test_each_value_is_that_of_the_listing(program):
    recording, specs = TOP / "docs/turns.ast", [TOP / "categories/048-1.31", TOP / "categories/034-1.29"]
    table = asterix.frame(recording, specs, command=program)
    wanted = [(path, value) for path, value in listed(program, recording, specs) if "[" not in path]
    for path in {path for path, _ in wanted}:
        given = table[path].dropna()
        if str(given.dtype) == "timedelta64[ns]":
            given = [one.value / 1e9 for one in given]
            assert given == pytest.approx([value for one, value in wanted if one == path], abs=5e-10)
        else:
            assert list(given) == [value for one, value in wanted if one == path]
