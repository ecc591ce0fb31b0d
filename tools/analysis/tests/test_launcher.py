"""The launcher: what it does where nothing is compiled, and where something is lacking for that."""

import os
import pathlib
import shutil
import subprocess

import pytest
from companions import TOP

# What the launcher itself needs.
NEEDED = ["bash", "readlink", "mkdir", "flock", "cat", "rm", "env"]


@pytest.fixture
def copied(tmp_path: pathlib.Path) -> pathlib.Path:
    """A copy of the tools without what was compiled."""
    shutil.copytree(TOP / "tools/analysis", tmp_path / "tools/analysis", ignore=shutil.ignore_patterns("out", "__pycache__"))
    for name in ("cut", "table"):
        shutil.copy(TOP / f"tools/asterix-{name}", tmp_path / "tools")
    (tmp_path / "bin").mkdir()
    for name in NEEDED:
        found = shutil.which(name, path="/usr/bin:/bin")
        assert found
        (tmp_path / "bin" / name).symlink_to(found)
    return tmp_path


def launched(folder: pathlib.Path, name: str, path: str) -> subprocess.CompletedProcess[bytes]:
    """A companion's help, with a PATH."""
    return subprocess.run([str(folder / f"tools/asterix-{name}"), "--help"], capture_output=True, env={**os.environ, "PATH": path}, timeout=300)


@pytest.mark.parametrize(("name", "lacks"), [("cut", b"make g++\n"), ("table", b"make g++ libsqlite3-dev\n")])
def test_names_what_is_lacking(copied: pathlib.Path, name: str, lacks: bytes) -> None:
    """Without a compiler nothing is tried."""
    done = launched(copied, name, str(copied / "bin"))
    assert (done.returncode, done.stdout) == (4, b"")
    assert done.stderr.endswith(b"these Debian packages are lacking: " + lacks)


def test_compiles_once_and_after_a_change(copied: pathlib.Path) -> None:
    """The first run compiles and says so, the second doesn't; a source that is newer is compiled again."""
    path = f"{copied / 'bin'}:/usr/bin:/bin"
    first, second = launched(copied, "cut", path), launched(copied, "cut", path)
    assert (first.returncode, first.stderr) == (0, b"asterix-cut: compiling, once\n")
    assert (second.returncode, second.stderr) == (0, b"") and first.stdout == second.stdout != b""
    source = copied / "tools/analysis/src/cut.cpp"
    source.write_text(source.read_text().replace("asterix-cut RECORDING -n K", "asterix-cut RECORDING -n COUNT"))
    later = (copied / "tools/analysis/out/asterix-cut").stat().st_mtime + 10
    os.utime(source, (later, later))
    assert b"-n COUNT" in launched(copied, "cut", path).stdout


def test_what_doesnt_compile(copied: pathlib.Path) -> None:
    """The compiler's words come first, and the status is 4."""
    (copied / "tools/analysis/src/cut.cpp").write_text("int main() { return nothing; }\n")
    done = launched(copied, "cut", f"{copied / 'bin'}:/usr/bin:/bin")
    assert done.returncode == 4 and b"nothing" in done.stderr and done.stderr.endswith(b"asterix-cut: it could not be compiled\n")
    assert not (copied / "tools/analysis/out/asterix-cut").exists()
