#!/usr/bin/env python3
"""analysis.py [--mb MB] [--cut-mb MB] [--rounds N]

Measures asterix-cut, asterix-json and asterix-table on streams of make_stream.py, which are repeated up to the asked size. Each round runs
each row once, one after another. Results go to /dev/null or into a temporary folder. It needs the built program, g++, make and
libsqlite3-dev. A row says:

  s         the median of the rounds, in seconds, and [the least..the greatest]
  MB/s      octets of recording by the median
  peak kB   the greatest memory of one process in a run apart from the rounds: of the companion, all its jobs together, or of one run of
            the program

With the defaults it takes less than a minute on a quiet machine. The jobs of `json --jobs 4` use four processors, if there are so many.
"""

import argparse
import ctypes
import os
import pathlib
import statistics
import subprocess
import sys
import tempfile

HERE = pathlib.Path(__file__).resolve().parent
sys.dont_write_bytecode = True
sys.path.insert(0, str(HERE))
import bench  # beside this file

TOOLS = bench.TOP / "tools"
# What make_stream.py makes: more is the same again, since it makes only some MB in a second.
MADE_MB = 8.0


def repeated(stream: bytes, megabytes: float, path: pathlib.Path) -> pathlib.Path:
    """The file, which has the stream again and again up to about `megabytes` (10^6 octets), and whole data blocks."""
    times = max(1, round(megabytes * 1e6 / len(stream)))
    with open(path, "wb") as output:
        for _ in range(times):
            output.write(stream)
    return path


def rows_of(room: pathlib.Path, stream: pathlib.Path, large: pathlib.Path) -> list[bench.Row]:
    """Each measured command, its input and the octets of its recording."""
    nothing = pathlib.Path(os.devnull)
    cut, to_json, table = (str(TOOLS / f"asterix-{name}") for name in ("cut", "json", "table"))
    whole, part = large.stat().st_size, stream.stat().st_size
    program = os.environ["ASTERIX"]
    return [
        bench.Row("cut --list", [cut, str(large), "-n", "4", "--list"], nothing, "", whole),
        bench.Row("cut", [cut, str(large), "-n", "4", "--force"], nothing, "", whole),
        bench.Row("show", [program, "show", *bench.SAMPLES], stream, "", part),
        bench.Row("json", [to_json, *bench.SAMPLES], stream, "", part),
        bench.Row("json --jobs 2", [to_json, "--jobs", "2", *bench.SAMPLES], stream, "", part),
        bench.Row("json --jobs 4", [to_json, "--jobs", "4", *bench.SAMPLES], stream, "", part),
        bench.Row("table csv", [table, *bench.SAMPLES, "--force", "-o", str(room / "out.csv")], stream, "", part),
        bench.Row("table sqlite", [table, *bench.SAMPLES, "--force", "-o", str(room / "out.sqlite")], stream, "", part),
    ]


def peak(row: bench.Row) -> int:
    """The greatest memory of a process of the command, in kB. A small process starts it and ends, since the peak of a process counts what
    its memory was before exec; and a shell gives a command in the background an empty input, unless it is told otherwise."""
    with open(row.input, "rb") as source:
        file = source.fileno()
        starter = ["bash", "-c", f'"$@" <&{file} {file}<&- &', "bash", *row.command]
        subprocess.run(starter, pass_fds=[file], stdout=subprocess.DEVNULL, check=True)
    _, status, usage = os.wait4(-1, 0)
    bench.refuse(row, status)
    return usage.ru_maxrss


def line(row: bench.Row, times: list[float], most: int) -> str:
    """A row of the table."""
    median = statistics.median(times)
    spread = f"[{min(times):6.2f}..{max(times):6.2f}]"
    return f"{row.name:15} {median:7.2f} {spread} {row.octets / median / 1e6:8.1f} {most:8d}"


def measure(asked: argparse.Namespace, room: pathlib.Path) -> None:
    """Makes the streams, runs the rows, and prints the table."""
    made = bench.written(room / "made", [sys.executable, str(HERE / "make_stream.py"), str(min(MADE_MB, asked.mb))]).read_bytes()
    stream = repeated(made, asked.mb, room / "stream")
    rows = rows_of(room, stream, repeated(made, asked.cut_mb, room / "large.ast"))
    print(f"{rows[0].octets} octets for cut, {stream.stat().st_size} for the others; {asked.rounds} rounds", flush=True)
    # The runs for the peaks come first, so that everything is compiled, and the inputs are in the kernel's memory.
    peaks = {row.name: peak(row) for row in rows}
    times: dict[str, list[float]] = {row.name: [] for row in rows}
    for _ in range(asked.rounds):
        for row in rows:
            times[row.name].append(bench.run(row).wall)
    print(f"{'':15} {'s':>7} {'[least..greatest]':>16} {'MB/s':>8} {'peak kB':>8}")
    for row in rows:
        print(line(row, times[row.name], peaks[row.name]))


def main() -> None:
    """Reads the words."""
    words = argparse.ArgumentParser(description=__doc__, formatter_class=argparse.RawDescriptionHelpFormatter)
    words.add_argument("--mb", type=float, default=16, help="the recording for json and table, in 10^6 octets")
    words.add_argument("--cut-mb", type=float, default=256, help="the recording for cut")
    words.add_argument("--rounds", type=int, default=3)
    asked = words.parse_args()
    binary = bench.TOP / "crates/asterix/out/asterix"
    if not os.access(binary, os.X_OK):
        sys.exit(f"analysis: {binary} isn't there; ./asterix builds the program")
    os.environ["ASTERIX"] = str(binary)
    ctypes.CDLL(None).prctl(bench.PR_SET_CHILD_SUBREAPER, 1, 0, 0, 0)
    for name in ("cut", "json", "table"):
        subprocess.run([str(TOOLS / f"asterix-{name}"), "--help"], check=True, stdout=subprocess.DEVNULL)
    with tempfile.TemporaryDirectory(prefix="asterix-bench-") as folder:
        os.chdir(folder)
        measure(asked, pathlib.Path(folder))


if __name__ == "__main__":
    main()
