"""What the tests share: the program, the repository's files, and a recording made by hand."""

from __future__ import annotations

import os
from collections.abc import Callable
from pathlib import Path

import pytest

TOP = Path(__file__).resolve().parents[2]

# A category with each kind of item and each content.
KINDS = """category 250 edition "each kind"
items {
item 010 "Source" group { SAC element 8 raw SIC element 8 integer unsigned }
item 140 "Time of day" element 24 quantity unsigned 1 128 "s"
item 020 "Extended" extended { part { TYP element 3 table { 1 "plot" 2 "track = kept" } spare 4 } part { ERR element 2 integer signed spare 5 } }
item 040 "Compound" compound { A element 8 quantity signed 1 4 "FL" - B group { spare 1 DEEP group { CODE element 12 octal } spare 3 } }
item 250 "Counted" counted { group { MB element 7 raw REST element 9 octal } }
item 030 "By FX" byfx element 7 raw
item 240 "Callsign" element 48 icao
item 245 "Text" element 32 ascii
item 300 "Wide number" element 128 raw
item SP "Special purpose" explicit
}
uap { 010 140 020 040 250 030 240 245 300 SP }
"""


def block(category: int, body: bytes) -> bytes:
    """A data block: CAT, LEN and a body."""
    return bytes([category]) + (len(body) + 3).to_bytes(2, "big") + body


# FSPEC of items 010, 140, 020, 040, 250, 030, 240 (FRN 1 to 7), then 245, 300 and SP (FRN 8 to 10).
FULL = block(
    250,
    bytes.fromhex("ffe0")
    + bytes.fromhex("190c")
    + (128 * 3600 + 1).to_bytes(3, "big")
    + bytes([0b010_0001_1, 0b11_00010_0])
    + bytes([0b1010_0000, 0xFE, 0b0_1110000, 0b01010_011])
    + bytes([2]) + (7 << 9 | 0o017).to_bytes(2, "big") + (127 << 9).to_bytes(2, "big")
    + bytes([0b0000101_1, 0b0000110_0])
    + int("".join(f"{code:06b}" for code in (1, 2, 3, 49, 50, 32, 32, 32)), 2).to_bytes(6, "big")
    + b'a\x01"b'
    + ((1 << 127) + 5).to_bytes(16, "big")
    + b"\x03\xab\xcd",
)
BARE = block(250, bytes([0b1000_0000, 1, 2]) + bytes([0b1000_0000, 3, 4]))
OPAQUE = block(99, b"\x00\xff\x10")
# Item 010 needs two octets, and one is left.
DAMAGED = block(250, bytes([0b1000_0000, 1]))


@pytest.fixture(scope="session")
def program() -> list[str]:
    """The words that start the program."""
    return [os.environ.get("ASTERIX", str(TOP / "asterix"))]


@pytest.fixture
def kinds(tmp_path: Path) -> Path:
    """The category file of all kinds."""
    path = tmp_path / "kinds"
    path.write_text(KINDS)
    return path


@pytest.fixture
def recording(tmp_path: Path) -> Callable[..., Path]:
    """Writes blocks to a file."""

    def written(*blocks: bytes) -> Path:
        path = tmp_path / "recording.ast"
        path.write_bytes(b"".join(blocks))
        return path

    return written


def children() -> list[int]:
    """The processes that this one has started and that haven't been waited for."""
    return [int(one) for task in Path("/proc/self/task").iterdir() for one in (task / "children").read_text().split()]
