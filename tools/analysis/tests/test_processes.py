"""What asterix-json does as a process: its children, a live input, its memory."""

import os
import pathlib
import signal
import subprocess
import time
from collections.abc import Callable

import pytest
from companions import ENVIRONMENT, JSON, PROGRAM, TOP, TURNS, TURNS_SPECS, blocks_of, run

LIMIT = 30.0


def listers_of(process: int) -> list[int]:
    """The runs of `show` whose parent this is."""
    found = []
    for folder in pathlib.Path("/proc").glob("[0-9]*"):
        try:
            parent = int((folder / "stat").read_text().rsplit(")", 1)[1].split()[1])
            words = (folder / "cmdline").read_bytes().split(b"\0")
        except (OSError, IndexError):
            continue
        if parent == process and words[:2] == [PROGRAM.encode(), b"show"]:
            found.append(int(folder.name))
    return found


def wait_until(holds: Callable[[], bool]) -> None:
    """Waits until something is so, but not for ever."""
    end = time.monotonic() + LIMIT
    while not holds():
        assert time.monotonic() < end
        time.sleep(0.01)


def is_running(process: int) -> bool:
    """Whether a process is there and isn't only waited for."""
    try:
        return pathlib.Path(f"/proc/{process}/stat").read_text().rsplit(")", 1)[1].split()[0] != "Z"
    except OSError:
        return False


def started(*words: str) -> "subprocess.Popen[bytes]":
    """A run whose input stays open."""
    return subprocess.Popen([JSON, *words], stdin=subprocess.PIPE, stdout=subprocess.PIPE, stderr=subprocess.PIPE, env=ENVIRONMENT)


@pytest.mark.parametrize("number", [signal.SIGTERM, signal.SIGKILL, signal.SIGINT])
def test_no_child_is_left(number: signal.Signals) -> None:
    """A run that a signal ends takes its child with it."""
    process = started(*TURNS_SPECS)
    try:
        wait_until(lambda: len(listers_of(process.pid)) == 1)
        (child,) = listers_of(process.pid)
        process.send_signal(number)
        process.wait(LIMIT)
        wait_until(lambda: not is_running(child))
    finally:
        process.kill()
        process.communicate()


def test_records_of_a_live_input() -> None:
    """The records before the newest one are written while the input is open."""
    process = started(*TURNS_SPECS)
    assert process.stdin is not None and process.stdout is not None
    try:
        process.stdin.write(b"".join(blocks_of(TURNS.read_bytes())[:4]))
        process.stdin.flush()
        lines = [process.stdout.readline() for _ in range(4)]
        assert [line[:10] for line in lines] == [b'{"block":0', b'{"block":1', b'{"block":2', b'{"block":2']
        rest, said = process.communicate(timeout=LIMIT)
        assert rest.startswith(b'{"block":3') and rest.count(b"\n") == 1 and said == b""
    finally:
        process.kill()
        process.wait()


@pytest.mark.parametrize("jobs", [1, 4])
def test_memory_is_flat(tmp_path: pathlib.Path, jobs: int) -> None:
    """Under 20 MB a job, whatever the recording's size. (The peak of a child counts too: it is the greater of the two.)"""
    made = run("python3", str(TOP / "bench/make_stream.py"), "0.5").stdout
    path = tmp_path / "it.ast"
    path.write_bytes(made * 12)
    specs = [str(TOP / "samples/048-P1"), str(TOP / "samples/034-P1")]
    # A small process starts it: the peak of a process counts what its memory was before exec.
    script = (
        "import os, sys\nchild = os.fork()\nif child == 0:\n    os.execv(sys.argv[1], sys.argv[1:])\n"
        "_, status, usage = os.wait4(child, 0)\nprint(status, usage.ru_maxrss, file=sys.stderr)\n"
    )
    with open(path, "rb") as source:
        done = subprocess.run(
            ["python3", "-c", script, JSON, "--jobs", str(jobs), *specs],
            stdin=source,
            stdout=subprocess.DEVNULL,
            stderr=subprocess.PIPE,
            timeout=120,
            env=ENVIRONMENT,
        )
    status, peak = map(int, done.stderr.split())
    assert status == 0 and peak < 20_000 * jobs


def test_no_room_for_a_process() -> None:
    """Where the program can't be started, that is said with status 4."""
    done = subprocess.run([JSON, *TURNS_SPECS], stdin=subprocess.DEVNULL, capture_output=True, timeout=60, env={**ENVIRONMENT, "ASTERIX": "/nowhere/asterix"})
    assert (done.returncode, done.stdout, done.stderr) == (4, b"", b"asterix-json: asterix can't be run\n")
