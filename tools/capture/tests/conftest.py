"""What the trials of the companions share: the programs, and captures made in a folder."""

import os
import pathlib
import signal
import subprocess
import sys
from collections.abc import Callable, Iterator

import pytest

sys.dont_write_bytecode = True
HERE = pathlib.Path(__file__).resolve().parent
sys.path[:0] = [str(HERE), str(HERE.parent)]


# A shell starts what it runs in the background with SIGINT ignored, and a program inherits that. Here it is as at a terminal.
signal.signal(signal.SIGINT, signal.default_int_handler)


@pytest.fixture(scope="session", autouse=True)
def built() -> None:
    """The programs, compiled where that is needed."""
    if "ASTERIX_CAPTURE" not in os.environ:
        subprocess.run(["make", "-s", "-C", str(HERE.parent)], check=True)


@pytest.fixture
def made(tmp_path: pathlib.Path) -> Callable[[bytes, str], pathlib.Path]:
    """Writes octets into a file of the trial's folder, and returns its path."""

    def write(octets: bytes, name: str = "capture") -> pathlib.Path:
        path = tmp_path / name
        path.write_bytes(octets)
        return path

    return write


@pytest.fixture
def space() -> Iterator["Namespace"]:
    """A network namespace of the trial's own."""
    from network import Namespace

    it = Namespace()
    yield it
    it.end()


@pytest.fixture
def other_space() -> Iterator["Namespace"]:
    """Another one."""
    from network import Namespace

    it = Namespace()
    yield it
    it.end()
