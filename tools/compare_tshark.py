#!/usr/bin/env python3
"""compare_tshark.py [--octets N] [--seed N] [--pairs] [FILE..]

Compares category files with tshark's own dissector, by hand: for each file (without any: for each of categories/ that tshark has) random
messages are made by bench/make_records.py. `asterix show` lists them, and tshark reads them from a capture. Then each element is compared:

- its number, or its quantity (the value times the scale, in tshark's floating point) and the unit;
- its characters;
- whether its number has a text here and in tshark.

What two texts mean isn't compared, since those here are in words of this repository. --pairs writes each pair, for a reader. Items by FX
have one occurrence here, since tshark shows only one.

Each difference is a line: the file, the path, what differs, an example and how many elements. Those that categories/TSHARK.tsv judges
are counted and not written; its rows of meaning are of pairs of texts that were read by hand. Then the counts come. The status is 1 if a
difference isn't judged, or a row there is of no difference, and 2 if a file or tshark can't be read. It needs tshark (tried with 4.0.17)
and the built program.
"""

import argparse
import collections
import os
import pathlib
import re
import struct
import subprocess
import sys
import tempfile
import xml.etree.ElementTree
from collections.abc import Iterator
from fractions import Fraction
from typing import NamedTuple

TOP = pathlib.Path(__file__).resolve().parent.parent
sys.dont_write_bytecode = True
sys.path.insert(0, str(TOP / "tools"))
import layouts  # noqa: E402

PROGRAM = os.environ.get("ASTERIX", str(TOP / "asterix"))
JUDGED = TOP / "categories/TSHARK.tsv"
# tshark reads each record of category 001 as a plot. The made records of the one file are plots, and the other file isn't compared.
PLOTS = {"001-1.4-plot": "is 001/020/TYP = 0"}
UNREAD = {"001-1.4-track"}
# Items of which tshark takes a wrong number of octets: FX after three octets, which it looks for in another place.
MISREAD = {"032": "050", "062": "510"}
# Signs of units that aren't ASCII.
SIGNS = str.maketrans({"°": "deg", "²": "2", "µ": "u"})
# The first counts, in order.
COUNTS = ("files", "records", "elements", "whole numbers", "quantities", "characters", "texts in both")
# A floating-point number of tshark differs from the fraction by less than this part of it.
NEAR = Fraction(1, 10**9)


class Leaf(NamedTuple):
    """An element of a record as `show` lists it: its path without the numbers of occurrences, its number and its remark."""

    path: str
    number: int
    remark: str


class Field(NamedTuple):
    """An element of a record as tshark reads it: its path, its name, what it shows and its octets or bits in hexadecimal digits."""

    path: str
    name: str
    show: str
    value: str


class Tshark:
    """What tshark has: the type and the unit of each field, and the texts of its numbers."""

    def __init__(self) -> None:
        self.types: dict[str, str] = {}
        self.units: dict[str, str] = {}
        self.texts: dict[str, dict[int, str]] = collections.defaultdict(dict)
        for line in self.told("fields"):
            if line[0] == "F" and line[2].startswith("asterix."):
                self.types[line[2]] = line[3]
                unit = re.search(r", \[(.*)\]$", line[1])
                self.units[line[2]] = unit[1].translate(SIGNS) if unit else ""
        for line in self.told("values"):
            if line[0] == "V" and line[1].startswith("asterix."):
                self.texts[line[1]][int(line[2], 0)] = line[3]

    def told(self, what: str) -> Iterator[list[str]]:
        """The lines of one of tshark's glossaries, in columns."""
        done = subprocess.run(["tshark", "-G", what], capture_output=True, text=True, check=True)
        return (line.split("\t") for line in done.stdout.splitlines())

    def read(self, category: str, edition: str, capture: pathlib.Path) -> Iterator[list[Field]]:
        """The elements of each record of a capture."""
        words = ["tshark", "-r", str(capture), "-T", "pdml", "-o", f"asterix.i{category}_version:Version {edition}"]
        done = subprocess.run(words, capture_output=True, check=True)
        latest = f"asterix.{category}_"
        other = latest + "V" + edition.replace(".", "_") + "_"
        for _, message in xml.etree.ElementTree.iterparse(PdmlFile(done.stdout)):
            if message.get("name") != "asterix.message":
                continue
            fields = []
            for one in message.iter("field"):
                name = one.get("name", "")
                if not name.startswith(latest) or self.types.get(name) in (None, "FT_NONE"):
                    continue
                path = name.removeprefix(other).removeprefix(latest).removesuffix("_VALUE").replace("_", "/")
                fields.append(Field(f"{category}/{path}", name, one.get("show", ""), one.get("value", "")))
            yield fields
            message.clear()


class PdmlFile:
    """The octets that tshark writes, without control characters, which XML doesn't have."""

    def __init__(self, octets: bytes) -> None:
        self.text = re.sub(r"[^\t\n\r -\ud7ff\ue000-\ufffd]", ".", octets.decode(errors="replace")).encode()

    def read(self, count: int = -1) -> bytes:
        """The next octets."""
        count = len(self.text) if count < 0 else count
        part, self.text = self.text[:count], self.text[count:]
        return part


def capture_of(stream: bytes) -> bytes:
    """A capture with a datagram to port 8600 for each block."""
    made = bytearray(struct.pack("<IHHiIII", 0xA1B2C3D4, 2, 4, 0, 0, 262144, 228))
    at = 0
    while at < len(stream):
        size = int.from_bytes(stream[at + 1 : at + 3], "big")
        datagram = struct.pack(">HHHH", 8600, 8600, 8 + size, 0) + stream[at : at + size]
        header = struct.pack(">BBHHHBBHII", 0x45, 0, 20 + len(datagram), 0, 0, 64, 17, 0, 0x0A000001, 0xE8010101)
        packet = header + datagram
        made += struct.pack("<IIII", 0, 0, len(packet), len(packet)) + packet
        at += size
    return bytes(made)


def listed(file: pathlib.Path, stream: bytes) -> Iterator[list[Leaf]]:
    """The elements of each record of a stream as `show` lists them, without spare bits."""
    done = subprocess.run([PROGRAM, "show", str(file)], input=stream, capture_output=True, check=True)
    leaves: list[Leaf] | None = None
    for line in done.stdout.decode().splitlines():
        if line.startswith("record "):
            if leaves is not None:
                yield leaves
            leaves = []
        found = re.fullmatch(r"(\S+) = (\d+)(?: (.*))?", line)
        if found and leaves is not None:
            path = re.sub(r"\[\d+\]", "", found[1])
            if not path.endswith("/spare"):
                leaves.append(Leaf(path, int(found[2]), found[3] or ""))
    if leaves is not None:
        yield leaves


def by_item(elements: list[Leaf] | list[Field]) -> dict[str, list]:
    """The elements of each item, in order."""
    found: dict[str, list] = collections.defaultdict(list)
    for one in elements:
        found["/".join(one.path.split("/")[:2])].append(one)
    return found


class Comparison:
    """What was compared of a file."""

    def __init__(self, tshark: Tshark) -> None:
        self.tshark = tshark
        self.counts: collections.Counter[str] = collections.Counter()
        self.differences: dict[tuple[str, str], list[str]] = collections.defaultdict(list)
        self.pairs: collections.Counter[tuple[str, int, str, str]] = collections.Counter()
        self.tables: set[str] = set()

    def differs(self, path: str, what: str, example: str) -> None:
        """Notes a difference."""
        self.differences[path, what].append(example)

    def number(self, leaf: Leaf, one: Field) -> str:
        """What differs of a number, or of what is made of it; nothing is an empty text."""
        kind = self.tshark.types[one.name]
        fraction = re.match(r"(-?\d+)/(\d+) ", leaf.remark)
        if kind == "FT_DOUBLE":
            self.counts["quantities"] += 1
            shown = Fraction(one.show)
            signed = re.fullmatch(r"-?\d+", leaf.remark)
            here = Fraction(int(fraction[1]), int(fraction[2])) if fraction else Fraction(leaf.remark if signed else leaf.number)
            if abs(shown - here) > NEAR * abs(here):
                return "the quantity"
            unit = re.search(r'"(.*)"$', leaf.remark)
            return "" if (unit[1] if unit else "") == self.tshark.units[one.name] else "the unit"
        if kind == "FT_STRING":
            self.counts["characters"] += 1
            quoted = re.fullmatch(r'"(.*)"', leaf.remark)
            if not quoted:
                return "characters in tshark alone"
            same = int(one.value, 16) == leaf.number and ("." in quoted[1] or one.show.rstrip() == quoted[1].rstrip())
            return "" if same else "the characters"
        if kind == "FT_BYTES":
            self.counts["octets"] += 1
            return "" if int(one.value or "0", 16) == leaf.number else "the octets"
        self.counts["whole numbers"] += 1
        modulus = 1 << 4 * len(one.value) if kind.startswith("FT_INT") else 1 << 128
        if (int(one.value, 16) - leaf.number) % modulus:
            return "the number"
        if fraction:
            return "a scale here alone"
        return ""

    def texts(self, leaf: Leaf, one: Field) -> str:
        """Whether a number has a text on one side alone."""
        quoted = re.fullmatch(r'"(.*)"', leaf.remark)
        kind = self.tshark.types[one.name]
        if kind in ("FT_STRING", "FT_DOUBLE", "FT_BYTES"):
            return ""
        there = self.tshark.texts.get(one.name, {})
        theirs = there.get(leaf.number)
        if quoted and theirs is not None:
            self.counts["texts in both"] += 1
            self.pairs[leaf.path, leaf.number, quoted[1], theirs] += 1
        elif quoted and leaf.path in self.tables:
            return "a text here alone"
        elif theirs is not None:
            return "a text in tshark alone"
        return ""

    def run(self, file: pathlib.Path, octets: int, seed: int) -> None:
        """Compares a file."""
        layout = layouts.layout_in(file)
        self.tables = {path for path, element in layouts.elements_of(layout) if element.content.words[0] == "table"}
        made = [sys.executable, str(TOP / "bench/make_records.py"), str(file), str(octets / 1_000_000), str(seed), "--once"]
        if layout.category in MISREAD:
            made += ["--without", MISREAD[layout.category]]
        stream = subprocess.run(made, capture_output=True, check=True).stdout
        if file.name in PLOTS:
            plots = [PROGRAM, "filter", PLOTS[file.name], str(file)]
            stream = subprocess.run(plots, input=stream, capture_output=True, check=True).stdout
        with tempfile.TemporaryDirectory(prefix="asterix-tshark-") as room:
            capture = pathlib.Path(room) / "capture.pcap"
            capture.write_bytes(capture_of(stream))
            edition = layout.edition.split("-")[0]
            read = list(self.tshark.read(layout.category, edition, capture))
        here = list(listed(file, stream))
        if len(here) != len(read):
            self.differs(layout.category, "the number of records", f"{len(here)} and {len(read)}")
        for leaves, fields in zip(here, read):
            self.counts["records"] += 1
            ours, theirs = by_item(leaves), by_item(fields)
            for item in sorted(ours.keys() | theirs.keys()):
                some, other = ours.get(item, []), theirs.get(item, [])
                if len(some) != len(other):
                    self.differs(item, "how many elements", f"{len(some)} and {len(other)}")
                    continue
                for leaf, one in zip(some, other):
                    self.counts["elements"] += 1
                    if leaf.path != one.path and leaf.path != one.path.rsplit("/", 1)[0]:
                        self.differs(leaf.path, "the name", one.path)
                    for what in (self.number(leaf, one), self.texts(leaf, one)):
                        if what:
                            text = self.tshark.texts.get(one.name, {}).get(leaf.number, "")
                            self.differs(leaf.path, what, f"{leaf.number} {leaf.remark} and {one.show} {text}".strip())


def judged() -> dict[tuple[str, str, str], str]:
    """The differences that are judged: file, path and what differs, and the judgement."""
    rows = [line.split("\t") for line in JUDGED.read_text(encoding="utf-8").splitlines()[1:]]
    return {(file, path, what): why for files, path, what, why in rows for file in files.split()}


def main() -> int:
    """Compares the files that are named, or all."""
    parser = argparse.ArgumentParser(description=__doc__, formatter_class=argparse.RawDescriptionHelpFormatter)
    parser.add_argument("file", metavar="FILE", nargs="*", type=pathlib.Path)
    parser.add_argument("--octets", metavar="N", type=int, default=100_000)
    parser.add_argument("--seed", metavar="N", type=int, default=1)
    parser.add_argument("--pairs", action="store_true")
    words = parser.parse_args()
    tshark, known = Tshark(), judged()
    files = words.file or [file for file in sorted((TOP / "categories").glob("[0-9]*")) if file.name not in UNREAD]
    met: set[tuple[str, str, str]] = set()
    total: collections.Counter[str] = collections.Counter({"files": len(files)})
    status = 0
    for file in files:
        comparison = Comparison(tshark)
        comparison.run(file, words.octets, words.seed)
        meanings = {path: what for name, path, what in known if name == file.name and what.startswith("the meaning")}
        for (path, number, _, _), count in comparison.pairs.items():
            if meanings.get(path) in ("the meaning", f"the meaning of {number}"):
                met.add((file.name, path, meanings[path]))
                total["other meanings, judged"] += count
        for (path, what), examples in sorted(comparison.differences.items()):
            key = (file.name, path, what)
            met.add(key)
            if key in known:
                total[f"{what}, judged"] += len(examples)
            else:
                print(*key, examples[0], len(examples), sep="\t")
                status = 1
        if words.pairs:
            for pair in sorted(comparison.pairs):
                print(file.name, *pair, sep="\t")
        total += comparison.counts
    names = {file.name for file in files}
    for key in sorted(known.keys() - met):
        if key[0] in names and key[2] != "not compared":
            print(*key, "is judged, and no such difference was met", sep="\t")
            status = 1
    for what in (*COUNTS, *sorted(total.keys() - set(COUNTS))):
        print(f"{total[what]:9,} {what}")
    return status


if __name__ == "__main__":
    try:
        sys.exit(main())
    except (OSError, layouts.BadLayout, subprocess.CalledProcessError) as fault:
        print(f"compare_tshark.py: {fault}", file=sys.stderr)
        sys.exit(2)
