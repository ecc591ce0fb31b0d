"""How a run ends: refusals as exceptions, sources of each sort, and no child left behind."""

from __future__ import annotations

import gc
import gzip
import io
import os
import threading

import pytest
from conftest import BARE, DAMAGED, FULL, OPAQUE, children

import asterix


def taken_until(error: type[Exception], given):
    """The records before an exception, and the exception."""
    records = []
    with pytest.raises(error) as raised:
        for one in given:
            records.append(one)
    return records, raised.value


def test_a_refused_block_has_its_place_and_cause(program, kinds, recording):
    records, error = taken_until(asterix.RefusedBlock, asterix.records(recording(BARE, OPAQUE, DAMAGED, BARE), kinds, command=program))
    assert [(one["block"], one.get("record")) for one in records] == [(0, 0), (0, 1), (1, None)]
    assert (error.block, error.bit, error.cause, error.status) == (2, 32, "RunsOut", 3)
    assert error.line == "refused block 2 bit 32 RunsOut"
    assert str(error) == "block 2, bit 32: RunsOut"


def test_a_cut_recording_is_a_refused_block(program, kinds, recording):
    records, error = taken_until(asterix.RefusedBlock, asterix.records(recording(BARE, BARE[:2]), kinds, command=program))
    assert len(records) == 2
    assert (error.block, error.bit, error.cause) == (1, 16, "EndsInHeader")


def test_a_refused_file_has_its_number_and_cause(program, kinds, recording, tmp_path):
    broken = tmp_path / "broken"
    broken.write_text('category 251 edition "b" items { nothing')
    records, error = taken_until(asterix.RefusedFile, asterix.records(recording(BARE), [kinds, broken], command=program))
    assert records == []
    assert (error.number, error.name, error.cause, error.status) == (1, str(broken), "BadToken token 6", 2)


def test_the_flaws_of_a_file_are_told(program, recording, tmp_path):
    flawed = tmp_path / "flawed"
    flawed.write_text('category 251 edition "b" items { item 010 "" element 7 raw } uap { 010 020 }')
    _, error = taken_until(asterix.RefusedFile, asterix.records(recording(BARE), flawed, command=program))
    assert error.cause == f"Flawed {len(error.flaws)}"
    assert len(error.flaws) == 2
    assert all(flaw.startswith("flaw file 0 ") for flaw in error.flaws)


def test_a_missing_category_file(program, kinds, recording, tmp_path):
    _, error = taken_until(asterix.MissingFile, asterix.records(recording(BARE), [kinds, tmp_path / "none"], command=program))
    assert (error.number, error.name, error.status) == (1, str(tmp_path / "none"), 4)


def test_a_missing_recording_and_a_missing_program(program, kinds, recording, tmp_path):
    with pytest.raises(FileNotFoundError, match="none.ast"):
        next(asterix.records(tmp_path / "none.ast", kinds, command=program))
    with pytest.raises(FileNotFoundError, match="no-such-program"):
        next(asterix.records(recording(BARE), kinds, command="no-such-program"))
    assert children() == []


def test_the_program_is_taken_from_the_environment(program, kinds, recording, monkeypatch):
    monkeypatch.setenv("ASTERIX", program[0])
    assert len(list(asterix.records(recording(BARE), kinds))) == 2
    monkeypatch.setenv("ASTERIX", "/no-such-program")
    with pytest.raises(FileNotFoundError):
        next(asterix.records(recording(BARE), kinds))


def test_a_killed_program_is_told(kinds, recording):
    with pytest.raises(asterix.AsterixError, match="signal 9"):
        list(asterix.records(recording(BARE), kinds, command=["sh", "-c", "kill -9 $$"]))


def test_a_listing_cut_within_a_line_is_told(kinds, recording):
    with pytest.raises(asterix.AsterixError, match="within a line"):
        list(asterix.records(recording(BARE), kinds, command=["sh", "-c", "printf 'block 0'"]))


def test_an_open_file_is_read_from_where_it_stands(program, kinds, recording):
    with open(recording(FULL, BARE), "rb") as file:
        file.read(len(FULL))
        given = list(asterix.records(file, kinds, command=program))
    assert [one["items"] for one in given] == [{"010": {"SAC": 1, "SIC": 2}}, {"010": {"SAC": 3, "SIC": 4}}]


def test_file_objects_are_passed_on(program, kinds):
    octets = BARE * 50_000
    assert sum(1 for _ in asterix.records(io.BytesIO(octets), kinds, command=program)) == 100_000
    packed = gzip.GzipFile(fileobj=io.BytesIO(gzip.compress(octets)))
    assert sum(1 for _ in asterix.records(packed, kinds, command=program)) == 100_000


def test_a_compressed_file_on_disk_is_read_as_what_it_holds(program, kinds, tmp_path):
    with gzip.open(tmp_path / "packed.gz", "wb") as file:
        file.write(BARE)
    with gzip.open(tmp_path / "packed.gz", "rb") as file:
        assert len(list(asterix.records(file, kinds, command=program))) == 2


def test_a_pipe_is_read_to_its_end(program, kinds):
    reading, writing = os.pipe()

    def write() -> None:
        with open(writing, "wb") as sink:
            sink.write(BARE * 30_000)

    thread = threading.Thread(target=write)
    thread.start()
    with open(reading, "rb") as source:
        assert sum(1 for _ in asterix.records(source, kinds, command=program)) == 60_000
    thread.join()


class Failing(io.RawIOBase):
    """A source that gives one block and then fails."""

    def __init__(self) -> None:
        self.given = False

    def readable(self) -> bool:
        return True

    def read(self, size: int = -1) -> bytes:
        if self.given:
            raise OSError("the tape is torn")
        self.given = True
        return BARE


def test_a_source_that_fails_is_told_behind_its_records(program, kinds):
    records, error = taken_until(OSError, asterix.records(Failing(), kinds, command=program))
    assert len(records) == 2
    assert str(error) == "the tape is torn"
    assert children() == []


def test_no_child_is_left_behind(program, kinds, recording):
    path = recording(BARE * 20_000)
    for ended in (lambda given: given.close(), lambda given: None):
        given = asterix.records(path, kinds, command=program)
        next(given)
        assert len(children()) == 1
        ended(given)
        del given
        gc.collect()
        assert children() == []


def test_no_child_is_left_by_a_file_object_that_gives_no_more(program, kinds):
    reading, writing = os.pipe()
    with open(reading, "rb") as source, open(writing, "wb") as sink:
        sink.write(BARE * 2_000)
        sink.flush()
        given = asterix.records(source, kinds, command=program)
        sink.write(BARE)
        next_taken = threading.Thread(target=lambda: next(given))
        next_taken.start()
        sink.close()
        next_taken.join()
        given.close()
        assert children() == []
