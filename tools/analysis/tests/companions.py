"""What the tests of the companions share: the programs, recordings, and a reader of the listing that knows nothing of the companions."""

import os
import pathlib
import re
import subprocess
import sys
from dataclasses import dataclass, field
from fractions import Fraction

TOP = pathlib.Path(__file__).resolve().parents[3]
PROGRAM = os.environ.get("ASTERIX") or str(TOP / "crates/asterix/out/asterix")
# $COMPANIONS may name a folder with others, such as those that are compiled with checks of memory.
FOLDER = pathlib.Path(os.environ.get("COMPANIONS") or TOP / "tools").resolve()
CUT, JSON, TABLE = (str(FOLDER / f"asterix-{name}") for name in ("cut", "json", "table"))
TURNS = TOP / "docs/turns.ast"
TURNS_SPECS = [str(TOP / "categories/048-1.31"), str(TOP / "categories/034-1.29")]
ALL_SPECS = sorted(str(path) for path in (TOP / "categories").glob("[0-9]*"))
ENVIRONMENT = {**os.environ, "ASTERIX": PROGRAM}
# A child that doesn't end is a fault of its own, and mustn't keep the tests from ending.
LONGEST_RUN = 120


def run(*words: str, given: bytes = b"", cwd: pathlib.Path | None = None, stdin: pathlib.Path | None = None) -> subprocess.CompletedProcess[bytes]:
    """A run of a command. Its standard input is `given` by a pipe, or the file `stdin`."""
    if stdin is None:
        return subprocess.run(words, input=given, capture_output=True, cwd=cwd, env=ENVIRONMENT, timeout=LONGEST_RUN)
    with open(stdin, "rb") as source:
        return subprocess.run(words, stdin=source, capture_output=True, cwd=cwd, env=ENVIRONMENT, timeout=LONGEST_RUN)


def show(specs: list[str], recording: bytes) -> subprocess.CompletedProcess[bytes]:
    """The program's own listing."""
    return run(PROGRAM, "show", *specs, given=recording)


def made_records(spec: str, megabytes: float, seed: int = 1) -> bytes:
    """Random blocks of a category."""
    return run(sys.executable, str(TOP / "bench/make_records.py"), spec, str(megabytes), str(seed)).stdout


def blocks_of(recording: bytes) -> list[bytes]:
    """The whole data blocks at the front of a recording, by LEN."""
    blocks, at = [], 0
    while at + 3 <= len(recording):
        length = int.from_bytes(recording[at + 1 : at + 3], "big")
        if length < 4 or at + length > len(recording):
            break
        blocks.append(recording[at : at + length])
        at += length
    return blocks


@dataclass
class Leaf:
    """A number of the listing and its remark: a text, a fraction with a unit, a whole number, or nothing."""

    number: int
    text: str | None = None
    fraction: Fraction | None = None
    unit: str | None = None
    signed: int | None = None

    def meaning(self) -> int | float | str:
        """The value that is meant, a fraction as the nearest double."""
        if self.text is not None:
            return self.text
        if self.fraction is not None:
            return float(self.fraction)
        return self.number if self.signed is None else self.signed


@dataclass
class Record:
    """A record of the listing. Paths have the numbers of occurrences."""

    block: int
    record: int
    category: int
    leaves: dict[str, Leaf] = field(default_factory=dict)
    spares: dict[str, list[int]] = field(default_factory=dict)
    octets: dict[str, str] = field(default_factory=dict)
    occurrences: dict[str, int] = field(default_factory=dict)
    subitems: dict[str, int] = field(default_factory=dict)


ELEMENT = re.compile(r'(\S+) = (\d+)(?: "(.*)"| (-?\d+)/(\d+) "(.*)"| (-?\d+))?')
COUNT = re.compile(r"(\S+) (parts|occurrences|subitems) (\d+)")
OCTETS = re.compile(r'(\S+) octets "(.*)"')
BLOCK = re.compile(r'block (\d+) category (\d+) octets \d+ (?:records \d+|opaque "(.*)")')


def leaf_of(found: re.Match[str]) -> Leaf:
    """The leaf of an element's line."""
    number, text, numerator, denominator, unit, signed = found.groups()[1:]
    fraction = Fraction(int(numerator), int(denominator)) if numerator else None
    return Leaf(int(number), text, fraction, unit, int(signed) if signed else None)


def add_line(record: Record, line: str) -> None:
    """Adds what a line says of a record."""
    if found := ELEMENT.fullmatch(line):
        path = found[1]
        if path.endswith("/spare"):
            record.spares.setdefault(path, []).append(int(found[2]))
        else:
            assert path not in record.leaves
            record.leaves[path] = leaf_of(found)
    elif found := COUNT.fullmatch(line):
        if found[2] != "parts":
            (record.occurrences if found[2] == "occurrences" else record.subitems)[found[1]] = int(found[3])
    else:
        found = OCTETS.fullmatch(line)
        assert found, line
        record.octets[found[1]] = found[2]


def read_listing(listing: bytes) -> tuple[list[Record], list[tuple[int, int, str]]]:
    """The records of a listing, and of each opaque block its number, its category and its octets."""
    records: list[Record] = []
    opaque = []
    block = category = 0
    for line in listing.decode("ascii").splitlines():
        if found := BLOCK.fullmatch(line):
            block, category = int(found[1]), int(found[2])
            if found[3] is not None:
                opaque.append((block, category, found[3]))
        elif line.startswith("record "):
            records.append(Record(block, int(line[7:]), category))
        else:
            add_line(records[-1], line)
    return records, opaque


# A category of many widths and contents, for made numbers. ASCII texts have quotes, backslashes and control octets among them.
CONTENTS = r"""
category 250 edition "back\slash 'n' all"
items {
  item 010 "numbers of \ many widths" group {
    R1 element 1 raw R7 element 7 raw R53 element 53 raw U64 element 64 integer unsigned S64 element 64 integer signed
    S3 element 3 integer signed R128 element 128 raw S128 element 128 integer signed spare 5 R65 element 65 raw U63 element 63 integer unsigned
    spare 3 }
  item 020 "quantities" group {
    A element 64 quantity unsigned 1 1 "m" B element 64 quantity signed 1 3 "m\s" C element 64 quantity signed 999999999999999999 999999999999999989 ""
    D element 64 quantity unsigned 1 999999999999999999 "NM" E element 16 quantity signed 25 4 "ft" F element 64 quantity unsigned 180 33554432 "deg"
    G element 64 quantity signed 999999999999999999 7 "s" H element 8 quantity signed 100000 1 "m" }
  item 030 "texts" group {
    T element 8 table { 0 "a\b" 1 "\\" 2 "it's {}#" 3 "" 1 "never" 300 "too large" }
    O element 24 octal I element 24 icao A element 64 ascii }
  item 040 "repeated in repeated" counted { compound {
    P element 8 integer signed - Q counted { group { spare 4 V element 4 raw } } R wide { counted { element 8 raw } } S explicit } }
  item 050 "" extended { part { A element 3 raw spare 2 B element 2 raw } part { spare 4 C element 3 integer signed } part { D element 7 raw } }
  item 060 "" closed { part { A element 7 raw } part { B element 16 quantity signed 1 10 "dBm" } }
  item 070 "" byfx group { spare 3 X element 4 table { 5 "five" } }
  item 080 "" compound { A element 8 ascii - B compound { C element 8 raw } }
  item SP "" explicit
}
uap { 010 020 030 040 050 060 070 - 080 SP }
"""
