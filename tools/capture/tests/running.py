"""Runs of the programs, and blocks to put into datagrams."""

import os
import pathlib
import subprocess
from typing import NamedTuple

TOP = pathlib.Path(__file__).resolve().parents[3]
# The programs. Another build of them can be tried, as one with sanitizers.
BUILT = pathlib.Path(os.environ.get("ASTERIX_CAPTURE", TOP / "tools/capture/out"))
# Seconds after which a run that hangs is given up; no trial's answer depends on them.
HANGS = 120


class Ran(NamedTuple):
    """How a run ended, and what it wrote."""

    status: int
    output: bytes
    lines: list[str]


def run(program: str, *words: str | pathlib.Path, given: bytes = b"") -> Ran:
    """Runs asterix-pcap, asterix-net or asterix-replay, named by what follows the dash."""
    done = subprocess.run([BUILT / f"asterix-{program}", *words], input=given, capture_output=True, timeout=HANGS)
    return Ran(done.returncode, done.stdout, done.stderr.decode().splitlines())


def block(category: int, octets: int, filling: int = 0) -> bytes:
    """A data block of so many octets, CAT and LEN among them. What is inside isn't a record of any category file."""
    body = bytes((filling + at) & 0xFF for at in range(octets - 3))
    return bytes([category]) + octets.to_bytes(2, "big") + body
