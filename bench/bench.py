#!/usr/bin/env python3
"""bench.py [--mb MB] [--rounds N] [--only WORD] [BINARY]

Compares the commands of BINARY (else crates/asterix/out/asterix) with decoder.rs on a stream of make_stream.py. The decoder is built
here with rustc -O. Each round runs `cat`, the decoder and each command once, one after another. Each run reads a file and writes to
/dev/null, standard error too. --only keeps the decoder and the rows whose name has WORD. A row of the table says:

  time      the median of the rounds as a multiple of the decoder's median, and [the least..the greatest]. For migrate, convert and
            expand it is the decoder's on the same blocks, those of category 048; for build the decoder's on the blocks that it makes
  processor the time on a processor, in the same way
  MB/s      octets of data blocks by the median time: for build those that it makes, for the others those that they read
  peak kB   the greatest memory in use, of a run apart from the rounds
"""
import argparse
import ctypes
import os
import pathlib
import statistics
import subprocess
import sys
import tempfile
import time
import typing

HERE = pathlib.Path(__file__).resolve().parent
TOP = HERE.parent
SAMPLES = [str(TOP / "samples" / name) for name in ("048-P1", "034-P1")]
EDITIONS = [str(TOP / "samples" / name) for name in ("048-P1", "048-P2")]
EXPANSION = [str(TOP / "samples" / name) for name in ("048-P1", "X")]
PR_SET_CHILD_SUBREAPER = 36


class Row(typing.NamedTuple):
    name: str
    command: list
    input: pathlib.Path
    # The row of which the times are multiples, and the octets of the data blocks.
    measure: str
    octets: int


class Run(typing.NamedTuple):
    wall: float
    processor: float


def written(path, command, given=None):
    """The file, after the command has written it from what is given."""
    with open(path, "wb") as output, open(given or os.devnull, "rb") as source:
        subprocess.run(command, stdin=source, stdout=output, check=True)
    return path


def blocks_of(category, stream, path):
    """The file, with the stream's blocks of one category."""
    octets, at = stream.read_bytes(), 0
    with open(path, "wb") as output:
        while at < len(octets):
            end = at + int.from_bytes(octets[at + 1 : at + 3], "big")
            if octets[at] == category:
                output.write(octets[at:end])
            at = end
    return path


def measures(room, decoder, stream):
    """The decoder's rows, and of cat, which has nothing to do but to copy."""
    octets = stream.stat().st_size
    targets = blocks_of(48, stream, room / "targets")
    return [
        Row("cat", ["cat"], stream, "decoder", octets),
        Row("decoder", [decoder], stream, "decoder", octets),
        Row("decoder 048", [decoder], targets, "decoder 048", targets.stat().st_size),
    ]


def commands(room, binary, stream, targets, only):
    """The rows of the commands that are asked for."""
    octets = stream.stat().st_size
    rows = [
        Row("canon", [binary, "canon", *SAMPLES], stream, "decoder", octets),
        Row("salvage", [binary, "salvage", *SAMPLES], stream, "decoder", octets),
        Row("filter SAC = 25", [binary, "filter", "is 048/010/SAC = 25", *SAMPLES], stream, "decoder", octets),
        Row("filter all { }", [binary, "filter", "all { }", *SAMPLES], stream, "decoder", octets),
        Row("migrate", [binary, "migrate", *EDITIONS], targets, "decoder 048", targets.stat().st_size),
        Row("convert", [binary, "convert", *EDITIONS], targets, "decoder 048", targets.stat().st_size),
        # The contents of RE in the stream are by chance, so nearly each one has a line on standard error.
        Row("expand", [binary, "expand", *EXPANSION], targets, "decoder 048", targets.stat().st_size),
        Row("text", [binary, "text", *SAMPLES], stream, "decoder", octets),
        Row("show", [binary, "show", *SAMPLES], stream, "decoder", octets),
        Row("build", [binary, "build", *SAMPLES], room / "lines", "decoder", octets),
    ]
    rows = [row for row in rows if only in row.name]
    if any(row.name == "build" for row in rows):
        written(room / "lines", [binary, "text", *SAMPLES], stream)
    return rows


def refuse(row, status):
    """A row of a run that ended early would say nothing."""
    if status != 0:
        sys.exit(f"bench: {row.name} ended with status {os.waitstatus_to_exitcode(status)}")


def run(row):
    with open(row.input, "rb") as source:
        begin = time.perf_counter()
        child = subprocess.Popen(row.command, stdin=source, stdout=subprocess.DEVNULL, stderr=subprocess.DEVNULL)
        _, status, usage = os.wait4(child.pid, 0)
        wall = time.perf_counter() - begin
    child.returncode = os.waitstatus_to_exitcode(status)
    refuse(row, status)
    return Run(wall, usage.ru_utime + usage.ru_stime)


def peak(row):
    """The greatest memory that the command had in use, in kB.

    In the peak of a process the kernel counts what its memory was before exec, which would be this interpreter's. So a
    shell starts the command as a process of its own and ends, and this process, which takes in orphans, waits for it."""
    with open(row.input, "rb") as source:
        starter = ["sh", "-c", 'exec 3<&0; "$@" <&3 3<&- &', "sh", *row.command]
        subprocess.run(starter, stdin=source, stdout=subprocess.DEVNULL, stderr=subprocess.DEVNULL, check=True)
    _, status, usage = os.wait4(-1, 0)
    refuse(row, status)
    return usage.ru_maxrss


def multiples(times, measure):
    """The median, the least and the greatest as multiples of the measure's median."""
    by = statistics.median(measure)
    return "%8.2f [%7.2f..%7.2f]" % (statistics.median(times) / by, min(times) / by, max(times) / by)


def line(row, runs, peaks):
    walls = {name: [it.wall for it in all_runs] for name, all_runs in runs.items()}
    processors = {name: [it.processor for it in all_runs] for name, all_runs in runs.items()}
    return "%-15s %s %s %8.1f %8d" % (
        row.name,
        multiples(walls[row.name], walls[row.measure]),
        multiples(processors[row.name], processors[row.measure]),
        row.octets / statistics.median(walls[row.name]) / 1e6,
        peaks[row.name],
    )


def table(rows, rounds):
    # The runs for the peaks come first, so that the inputs are in the kernel's memory from the first round on.
    peaks = {row.name: peak(row) for row in rows}
    runs = {row.name: [] for row in rows}
    for _ in range(rounds):
        for row in rows:
            runs[row.name].append(run(row))
    print("%-15s %27s %27s %8s %8s" % ("", "time [least..greatest]", "processor [least..greatest]", "MB/s", "peak kB"))
    for row in rows:
        print(line(row, runs, peaks))


def bench(asked, room):
    decoder, stream = str(room / "decoder"), room / "stream"
    subprocess.run(["rustc", "-O", "-o", decoder, str(HERE / "decoder.rs")], check=True)
    written(stream, [sys.executable, str(HERE / "make_stream.py"), str(asked.mb)])
    own = measures(room, decoder, stream)
    others = commands(room, asked.binary, stream, own[-1].input, asked.only)
    needed = {"decoder"} | {row.measure for row in others}
    rows = [row for row in own if row.name in needed or asked.only in row.name] + others
    print(f"{stream.stat().st_size} octets, {asked.rounds} rounds", flush=True)
    table(rows, asked.rounds)


def main():
    words = argparse.ArgumentParser(usage=__doc__)
    words.add_argument("--mb", type=float, default=16)
    words.add_argument("--rounds", type=int, default=5)
    words.add_argument("--only", default="")
    words.add_argument("binary", nargs="?", default=str(TOP / "crates/asterix/out/asterix"))
    asked = words.parse_args()
    if not os.access(asked.binary, os.X_OK):
        sys.exit(f"bench: {asked.binary} isn't there; ./asterix builds the program")
    asked.binary = os.path.abspath(asked.binary)
    ctypes.CDLL(None).prctl(PR_SET_CHILD_SUBREAPER, 1, 0, 0, 0)
    with tempfile.TemporaryDirectory(prefix="asterix-bench-") as room:
        bench(asked, pathlib.Path(room))


if __name__ == "__main__":
    main()
