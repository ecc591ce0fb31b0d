"""The programs that the tests start are compiled once, before the first of them."""

import pathlib
import signal
import subprocess

import companions
import pytest

# A shell starts what it runs in the background with SIGINT ignored, and a program inherits that. Here it is as at a terminal.
signal.signal(signal.SIGINT, signal.default_int_handler)


@pytest.fixture(scope="session", autouse=True)
def compiled() -> None:
    """Compiles the companions."""
    for program in (companions.CUT, companions.JSON, companions.TABLE):
        subprocess.run([program, "--help"], check=True, stdout=subprocess.DEVNULL, stderr=subprocess.DEVNULL)


@pytest.fixture
def contents(tmp_path: pathlib.Path) -> str:
    """The category file CONTENTS."""
    path = tmp_path / "250-contents"
    path.write_text(companions.CONTENTS)
    return str(path)
