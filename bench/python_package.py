#!/usr/bin/env python3
"""python_package.py [--mb MEGABYTES] [--rounds N] [BINARY]

Measures the Python package over a made recording of categories 048 and 034, with the category files that have texts: `records`, `frame` of
everything, and `frame` of three paths. Times are the median of N rounds, which take turns, and MB are millions of octets of the recording."""
import argparse
import pathlib
import statistics
import subprocess
import sys
import tempfile
import time
from collections.abc import Callable

TOP = pathlib.Path(__file__).resolve().parent.parent
sys.dont_write_bytecode = True
sys.path.insert(0, str(TOP / "python"))
import asterix  # noqa: E402

SPECS = [TOP / "categories/048-1.31", TOP / "categories/034-1.29"]
PATHS = ["048/040", "048/140", "048/161"]


def seconds_of(measured: Callable[[], object]) -> float:
    """The seconds that a call takes."""
    begin = time.perf_counter()
    measured()
    return time.perf_counter() - begin


def measures(recording: pathlib.Path, binary: str) -> dict[str, Callable[[], object]]:
    """What is measured, by its name; frames only where pandas is installed."""
    found: dict[str, Callable[[], object]] = {
        "records": lambda: sum(1 for _ in asterix.records(recording, SPECS, command=binary)),
    }
    try:
        import pandas  # noqa: F401
    except ImportError:
        print("pandas isn't installed: frame isn't measured", file=sys.stderr)
        return found
    found["frame"] = lambda: asterix.frame(recording, SPECS, command=binary)
    found["frame of 3 paths"] = lambda: asterix.frame(recording, SPECS, category=48, paths=PATHS, command=binary)
    return found


def main() -> None:
    words = argparse.ArgumentParser(description=__doc__, formatter_class=argparse.RawDescriptionHelpFormatter)
    words.add_argument("--mb", type=float, default=2)
    words.add_argument("--rounds", type=int, default=3)
    words.add_argument("binary", nargs="?", default=str(TOP / "crates/asterix/out/asterix"))
    asked = words.parse_args()
    with tempfile.TemporaryDirectory() as room:
        recording = pathlib.Path(room, "recording.ast")
        with recording.open("wb") as sink:
            subprocess.run([sys.executable, TOP / "bench/make_stream.py", str(asked.mb)], stdout=sink, check=True)
        octets = recording.stat().st_size
        rows = measures(recording, asked.binary)
        times: dict[str, list[float]] = {name: [] for name in rows}
        for _ in range(asked.rounds):
            for name, measured in rows.items():
                times[name].append(seconds_of(measured))
        print(f"{octets / 1e6:.1f} MB, median of {asked.rounds} rounds")
        for name, found in times.items():
            middle = statistics.median(found)
            print(f"{name:18} {middle:7.2f} s {octets / 1e6 / middle:6.2f} MB/s")


if __name__ == "__main__":
    main()
