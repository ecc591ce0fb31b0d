"""The launchers: what they compile, and what they say where that can't be done."""

import os
import pathlib
import shutil
import subprocess

import pytest
from running import HANGS, TOP


@pytest.fixture
def tools(tmp_path: pathlib.Path) -> pathlib.Path:
    """A folder like tools/ in which nothing is compiled, and a folder of commands beside it."""
    tools = tmp_path / "tools"
    shutil.copytree(TOP / "tools/capture", tools / "capture", ignore=shutil.ignore_patterns("out", "tests"))
    for name in ("pcap", "net", "replay"):
        shutil.copy(TOP / f"tools/asterix-{name}", tools)
    commands = tmp_path / "commands"
    commands.mkdir()
    for name in ("bash", "dirname", "readlink", "find", "mkdir", "flock"):
        (commands / name).symlink_to(shutil.which(name))
    return tools


def started(tools: pathlib.Path, name: str, path: str | None = None) -> tuple[int, str, str]:
    """How `--help` of a launcher ends, and what it writes, with these folders of commands."""
    words = [tools / f"asterix-{name}", "--help"]
    done = subprocess.run(words, env={"PATH": path or os.environ["PATH"]}, capture_output=True, text=True, timeout=HANGS)
    return done.returncode, done.stdout, done.stderr


@pytest.mark.parametrize("name", ["pcap", "net", "replay"])
def test_compiles(tools, name):
    status, output, lines = started(tools, name)
    assert (status, lines) == (0, "") and output.startswith(f"asterix-{name} ")
    assert (tools / f"capture/out/asterix-{name}").exists()
    # Then neither compiler nor make is needed.
    assert started(tools, name, str(tools.parent / "commands"))[0] == 0


def test_newer_sources(tools):
    started(tools, "net")
    made = (tools / "capture/out/asterix-net").stat().st_mtime_ns
    os.utime(tools / "capture/send.c", ns=(made + 10**9, made + 10**9))
    assert started(tools, "net")[0] == 0
    assert (tools / "capture/out/asterix-net").stat().st_mtime_ns > made


def test_several_at_once(tools):
    """As in a pipeline: one compiles, and the others wait."""
    running = [subprocess.Popen([tools / "asterix-net", "--help"], stdout=subprocess.PIPE, stderr=subprocess.PIPE) for _ in range(3)]
    assert [(it.communicate(timeout=HANGS)[1], it.returncode) for it in running] == [(b"", 0)] * 3


def test_no_compiler(tools):
    status, output, lines = started(tools, "net", str(tools.parent / "commands"))
    assert (status, output) == (127, "")
    assert lines == "asterix-net: it isn't compiled, and for that these Debian packages are needed: gcc libc6-dev make\n"


@pytest.mark.parametrize("header, package", [("pcap/pcap.h", "libpcap-dev"), ("zlib.h", "zlib1g-dev")])
def test_no_library(tools, header, package):
    """A compiler to which a header is unknown. asterix-net does without."""
    commands = tools.parent / "commands"
    (commands / "cc").write_text(f'#!/bin/sh\n[ "$1" != -E ] || ! grep -q "<{header}>" || exit 1\n')
    (commands / "cc").chmod(0o755)
    for name in ("make", "grep"):
        (commands / name).symlink_to(shutil.which(name))
    status, _, lines = started(tools, "pcap", str(commands))
    assert status == 127 and lines.endswith(f"are needed: {package}\n")


def test_source_that_is_wrong(tools):
    (tools / "capture/send.c").write_text("no C")
    status, output, lines = started(tools, "net")
    assert (status, output) == (126, "") and lines.endswith("asterix-net: it couldn't be compiled\n")
