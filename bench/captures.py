#!/usr/bin/env python3
"""captures.py [--mb MB] [--rounds N]

Compares asterix-pcap with tshark, and measures asterix-net, on a made capture: MB * 1,000,000 octets of payload in datagrams of 200 octets,
each a data block of category 048 with 13 records. Each round runs each row once, one after another, and writes to /dev/null. A row says:

  seconds   the median of the rounds, and [the least..the greatest]
  MB/s      octets of payload by the median
  tshark    how many times as fast as the row of tshark that does the same

The rows of asterix-net send the blocks over the loopback. "sent" and "received" are datagrams in a second; what the kernel dropped since
its buffer was full is "lost". Needs tshark, xxd and the built program.
"""

import argparse
import os
import pathlib
import random
import re
import shutil
import signal
import socket
import statistics
import struct
import subprocess
import sys
import tempfile
import time
from typing import NamedTuple

TOP = pathlib.Path(__file__).resolve().parent.parent
sys.dont_write_bytecode = True
sys.path.insert(0, str(TOP / "tools/capture"))
import frames

PROGRAM = TOP / "crates/asterix/out/asterix"
SAMPLE = TOP / "samples/048-P1"
PCAP, NET = TOP / "tools/capture/out/asterix-pcap", TOP / "tools/capture/out/asterix-net"
OCTETS, DISTINCT = 200, 1000
BEGIN = 1_795_683_600 * frames.SECOND
# FSPEC of the records of a block, and how many of each there are: items 010 and 140, then also 020 to 090, then also 220.
RECORDS = [("c0", 5, 2), ("fc", 14, 6), ("fd80", 17, 5)]


class Row(NamedTuple):
    """A row: its name, its pipeline, and the name of the row of tshark beside it."""

    name: str
    commands: str
    beside: str = ""


def record(marks: str, octets: int, chance: random.Random) -> bytes:
    """A record with random contents; item 020, behind 010 and 140, has one part."""
    body = bytearray(chance.randbytes(octets))
    if octets > 5:
        body[5] &= 0xFE
    return bytes.fromhex(marks) + body


def block(chance: random.Random) -> bytes:
    records = b"".join(record(marks, octets, chance) for marks, octets, count in RECORDS for _ in range(count))
    return struct.pack(">BH", 48, 3 + len(records)) + records


def write_inputs(room: pathlib.Path, count: int) -> None:
    """The capture and the stream of as many datagrams, 100 microseconds apart."""
    chance = random.Random(1)
    payloads = [block(chance) for _ in range(DISTINCT)]
    if {len(it) for it in payloads} != {OCTETS}:
        sys.exit(f"captures: a block hasn't {OCTETS} octets")
    sent = [frames.ethernet(*frames.packets(it)) for it in payloads]
    (room / "stream").write_bytes(b"".join(payloads[at % DISTINCT] for at in range(count)))
    (room / "capture.pcap").write_bytes(frames.pcap(frames.Frame(BEGIN + at * 100_000, sent[at % DISTINCT]) for at in range(count)))


def rows(room: pathlib.Path) -> list[Row]:
    expression = "udp and dst host 232.1.1.1 and dst port 8600"
    tshark = f"tshark --disable-protocol asterix -r {room}/capture.pcap -Y 'ip.dst == 232.1.1.1 && udp.dstport == 8600' -T fields -e udp.payload 2> {room}/said | xxd -r -p"
    pcap, canon = f"{PCAP} -f '{expression}'", f"{PROGRAM} canon {SAMPLE}"
    return [
        Row("tshark | xxd", tshark, "tshark | xxd"),
        Row("asterix-pcap -f", f"{pcap} {room}/capture.pcap", "tshark | xxd"),
        Row("asterix-pcap", f"{PCAP} {room}/capture.pcap", "tshark | xxd"),
        Row("asterix-pcap -f --times", f"{pcap} --times {room}/times {room}/capture.pcap", "tshark | xxd"),
        Row("tshark | xxd | canon", f"{tshark} | {canon}", "tshark | xxd | canon"),
        Row("asterix-pcap -f | canon", f"{pcap} {room}/capture.pcap | {canon}", "tshark | xxd | canon"),
        Row("canon < stream", f"{canon} < {room}/stream"),
    ]


def seconds(row: Row, output: str | pathlib.Path = os.devnull) -> float:
    """How long a row takes. All of its commands have to end with status 0."""
    begin = time.perf_counter()
    with open(output, "wb") as target:
        subprocess.run(["bash", "-o", "pipefail", "-c", row.commands], stdout=target, check=True)
    return time.perf_counter() - begin


def check(row: Row, room: pathlib.Path) -> None:
    """A row that doesn't write the stream would say nothing."""
    seconds(row, room / "written")
    if (room / "written").read_bytes() != (room / "stream").read_bytes():
        sys.exit(f"captures: {row.name} doesn't write the blocks of the capture")


def print_table(table: list[Row], took: dict[str, list[float]], octets: int) -> None:
    print(f"{'':24}{'seconds [least..greatest]':>30}{'MB/s':>9}{'tshark':>9}")
    for row in table:
        times = took[row.name]
        middle = statistics.median(times)
        factor = f"{statistics.median(took[row.beside]) / middle:8.1f}x" if row.beside else ""
        spread = f"{middle:8.3f} [{min(times):8.3f}..{max(times):8.3f}]"
        print(f"{row.name:24}{spread:>30}{octets / middle / 1e6:9.1f}{factor}")


def free_port() -> int:
    with socket.socket(socket.AF_INET, socket.SOCK_DGRAM) as it:
        it.bind(("127.0.0.1", 0))
        return it.getsockname()[1]


def network(room: pathlib.Path, count: int, options: list[str]) -> str:
    """Sends the stream as fast as asterix-net sends: what was sent, received and lost."""
    at = f"127.0.0.1:{free_port()}"
    with open(room / "written", "wb") as output:
        receiver = subprocess.Popen([NET, "receive", at, "--buffer", "64M", *options], stdout=output, stderr=subprocess.PIPE)
    time.sleep(0.5)
    begin = time.perf_counter()
    with open(room / "stream", "rb") as stream:
        subprocess.run([NET, "send", at], stdin=stream, check=True)
    sent = time.perf_counter() - begin
    before = -1
    while (now := (room / "written").stat().st_size) > before:
        before = now
        time.sleep(0.1)
    receiver.send_signal(signal.SIGTERM)
    lines = receiver.communicate()[1].decode()
    lost = [int(it) for it in re.findall(r"\((\d+) in all\)", lines)]
    came = (room / "written").stat().st_size // OCTETS
    return f"sent {count / sent:,.0f}/s, {count * OCTETS / sent / 1e6:.0f} MB/s; received {came:,} of {count:,}, told as lost {lost[-1] if lost else 0:,}"


def main() -> None:
    parser = argparse.ArgumentParser(description="Compares asterix-pcap with tshark, and measures asterix-net.")
    parser.add_argument("--mb", type=float, default=64, help="octets of payload, in 1,000,000")
    parser.add_argument("--rounds", type=int, default=3)
    asked = parser.parse_args()
    lacking = [it for it in ("tshark", "xxd") if not shutil.which(it)]
    if lacking or not PROGRAM.exists():
        sys.exit(f"captures: needed and not there: {' '.join([*lacking, *([] if PROGRAM.exists() else [str(PROGRAM)])])}")
    subprocess.run(["make", "-s", "-C", TOP / "tools/capture"], check=True)
    count = -(-int(asked.mb * 1e6) // OCTETS)
    with tempfile.TemporaryDirectory(prefix="asterix-captures-") as folder:
        room = pathlib.Path(folder)
        write_inputs(room, count)
        table = rows(room)
        print(f"{count:,} datagrams of {OCTETS} octets, a capture of {(room / 'capture.pcap').stat().st_size / 1e6:.1f} MB, {asked.rounds} rounds", flush=True)
        for row in table:
            check(row, room)
        took: dict[str, list[float]] = {row.name: [] for row in table}
        for _ in range(asked.rounds):
            for row in table:
                took[row.name].append(seconds(row))
        print_table(table, took, count * OCTETS)
        print(f"asterix-net              {network(room, count, [])}")
        print(f"asterix-net --times      {network(room, count, ['--times', os.devnull])}")


main()
