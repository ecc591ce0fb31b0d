"""asterix-cut against borders of blocks that are found here, and against the program's own lines for faults of framing."""

import pathlib
import random
import resource
import signal
import subprocess

import pytest
from companions import CUT, PROGRAM, TURNS, blocks_of, run

NO_RECORDS = 'category 255 edition "none" items { } uap { - }'


def random_recording(seed: int, lengths: list[int]) -> bytes:
    """Blocks of these lengths."""
    chance = random.Random(seed)
    return b"".join(bytes([chance.randrange(256)]) + length.to_bytes(2, "big") + chance.randbytes(length - 3) for length in lengths)


def listed(*words: str, given: bytes = b"") -> list[tuple[int, int, int]]:
    """The lines of --list, of a run without a fault."""
    done = run(CUT, *words, "--list", given=given)
    assert done.returncode == 0
    return [tuple(int(word) for word in line.split()) for line in done.stdout.decode().splitlines()]  # type: ignore[misc]


def borders(recording: bytes) -> dict[int, int]:
    """The number of the block that begins at each offset."""
    found, at = {}, 0
    for number, block in enumerate(blocks_of(recording)):
        found[at] = number
        at += len(block)
    return found


RECORDINGS = {
    "turns": TURNS.read_bytes(),
    "many": random_recording(1, [random.Random(2).randrange(4, 65536) for _ in range(90)] + [4] * 3000),
    "longest": random_recording(3, [65535] * 40),
    "one large first": random_recording(4, [60000, 4, 4, 4, 4]),
    "one large last": random_recording(5, [4, 4, 4, 4, 60000]),
    "one": random_recording(6, [4]),
}


@pytest.mark.parametrize("name", RECORDINGS)
@pytest.mark.parametrize("count", [1, 2, 3, 7, 50])
def test_as_many_pieces_as_asked(name: str, count: int, tmp_path: pathlib.Path) -> None:
    """There are K pieces, or one for each block; together they are the recording, and each begins at a block."""
    recording = RECORDINGS[name]
    path = tmp_path / "it.ast"
    path.write_bytes(recording)
    begins = borders(recording)
    pieces = listed(str(path), "-n", str(count))
    assert len(pieces) == min(count, len(begins))
    at = 0
    for offset, length, block in pieces:
        assert offset == at and length > 0 and begins[offset] == block
        at += length
    assert at == len(recording)


def test_pieces_are_about_equal(tmp_path: pathlib.Path) -> None:
    """No piece differs from its share by more than a block."""
    path = tmp_path / "it.ast"
    path.write_bytes(RECORDINGS["many"])
    share = len(RECORDINGS["many"]) / 4
    for _, length, _ in listed(str(path), "-n", "4"):
        assert abs(length - share) <= 65535


@pytest.mark.parametrize("name", RECORDINGS)
@pytest.mark.parametrize("most", [1, 1000, 70000, 1 << 40])
def test_pieces_by_octets(name: str, most: int, tmp_path: pathlib.Path) -> None:
    """Each piece has as many blocks as fit, and at least one."""
    blocks = blocks_of(RECORDINGS[name])
    wanted: list[list[bytes]] = []
    for block in blocks:
        if not wanted or sum(map(len, wanted[-1])) + len(block) > most:
            wanted.append([])
        wanted[-1].append(block)
    path = tmp_path / "it.ast"
    path.write_bytes(RECORDINGS[name])
    assert [length for _, length, _ in listed(str(path), "--octets", str(most))] == [sum(map(len, each)) for each in wanted]


def test_written_pieces(tmp_path: pathlib.Path) -> None:
    """The files have the octets that --list names, and the names of standard output."""
    (tmp_path / "in").mkdir()
    path = tmp_path / "in" / "day.ast"
    recording = RECORDINGS["many"]
    path.write_bytes(recording)
    done = run(CUT, str(path), "-n", "3", cwd=tmp_path)
    names = done.stdout.decode().split()
    assert (done.returncode, names) == (0, ["day.000.ast", "day.001.ast", "day.002.ast"])
    for name, (offset, length, _) in zip(names, listed(str(path), "-n", "3"), strict=True):
        assert (tmp_path / name).read_bytes() == recording[offset : offset + length]
    assert sorted(each.name for each in tmp_path.iterdir()) == [*names, "in"]


def test_names_sort_as_the_pieces_do(tmp_path: pathlib.Path) -> None:
    """With more than a thousand pieces all numbers have four digits."""
    (tmp_path / "it").write_bytes(random_recording(7, [4] * 1001))
    names = run(CUT, "it", "--octets", "4", cwd=tmp_path).stdout.decode().split()
    assert names == sorted(names) and names[0] == "it.0000.ast" and len(names) == 1001
    assert b"".join((tmp_path / name).read_bytes() for name in names) == (tmp_path / "it").read_bytes()


def test_a_piece_can_be_read_in_place(tmp_path: pathlib.Path) -> None:
    """tail and head, as the page says."""
    for offset, length, _ in listed(str(TURNS), "-n", "3"):
        words = f"tail -c +$(({offset} + 1)) '{TURNS}' | head -c {length}"
        assert run("bash", "-c", words).stdout == TURNS.read_bytes()[offset : offset + length]


def test_standard_input_by_a_pipe_and_a_file(tmp_path: pathlib.Path) -> None:
    """Both give what the file gives by its name."""
    wanted = listed(str(TURNS), "-n", "5")
    assert listed("-", "-n", "5", given=TURNS.read_bytes()) == wanted
    done = run(CUT, "-", "-n", "5", "--list", stdin=TURNS)
    assert [tuple(map(int, line.split())) for line in done.stdout.decode().splitlines()] == wanted
    written = run(CUT, "-", "-n", "2", given=TURNS.read_bytes(), cwd=tmp_path)
    assert written.stdout == b"recording.000.ast\nrecording.001.ast\n"
    assert b"".join((tmp_path / name).read_bytes() for name in written.stdout.decode().split()) == TURNS.read_bytes()


def test_empty_recording(tmp_path: pathlib.Path) -> None:
    """There is no piece, which is said."""
    done = run(CUT, "-", "-n", "3", cwd=tmp_path)
    assert (done.returncode, done.stdout) == (0, b"")
    assert done.stderr == b"asterix-cut: the recording is empty: there is no piece\n"
    assert list(tmp_path.iterdir()) == []


def test_more_pieces_than_blocks(tmp_path: pathlib.Path) -> None:
    """Each block is a piece, which is said."""
    done = run(CUT, "-", "-n", "9", "--list", given=RECORDINGS["one large first"])
    assert (done.returncode, len(done.stdout.splitlines())) == (0, 5)
    assert done.stderr == b"asterix-cut: 5 blocks: 5 pieces, not 9\n"


# What stands behind the last whole block: octets, and how many zeros more.
@pytest.mark.parametrize("tail", ["30", "3000", "300003", "3000000000", "300004", "30ffff+60000"])
@pytest.mark.parametrize("words", [["-n", "2"], ["--octets", "3000"]])
def test_a_fault_of_framing(tail: str, words: list[str], tmp_path: pathlib.Path) -> None:
    """The line is the program's; the pieces have the blocks before the fault."""
    (tmp_path / "none").write_text(NO_RECORDS)
    front, _, zeros = tail.partition("+")
    recording = TURNS.read_bytes() + bytes.fromhex(front) + bytes(int(zeros or 0))
    (tmp_path / "it.ast").write_bytes(recording)
    program = run(PROGRAM, "canon", "none", given=recording, cwd=tmp_path)
    done = run(CUT, "it.ast", *words, cwd=tmp_path)
    assert (program.returncode, done.returncode) == (3, 3)
    line, place = done.stderr.decode().splitlines()
    assert line == program.stderr.decode().rstrip("\n")
    number, offset = len(blocks_of(recording)), TURNS.stat().st_size
    assert place == f"  | block {number} begins at octet {offset} of the recording; the pieces have the blocks before it"
    names = done.stdout.decode().split()
    assert len(names) == 2 and b"".join((tmp_path / name).read_bytes() for name in names) == TURNS.read_bytes()


def test_a_file_that_is_there_is_kept(tmp_path: pathlib.Path) -> None:
    """Without --force nothing is written at all; with it the file is replaced."""
    (tmp_path / "turns.001.ast").write_text("mine")
    done = run(CUT, str(TURNS), "-n", "2", cwd=tmp_path)
    assert done.returncode == 4 and b"turns.001.ast is there already" in done.stderr
    assert [each.name for each in tmp_path.iterdir()] == ["turns.001.ast"] and (tmp_path / "turns.001.ast").read_text() == "mine"
    assert run(CUT, str(TURNS), "-n", "2", "--force", cwd=tmp_path).returncode == 0
    assert (tmp_path / "turns.000.ast").read_bytes() + (tmp_path / "turns.001.ast").read_bytes() == TURNS.read_bytes()


def small_files() -> None:
    """A device that has room for little stands for a full one."""
    signal.signal(signal.SIGXFSZ, signal.SIG_IGN)
    resource.setrlimit(resource.RLIMIT_FSIZE, (1000, 1000))


def test_a_full_device(tmp_path: pathlib.Path) -> None:
    """The piece that can't be written is named, and nothing of it is left; with --force what was there stays."""
    (tmp_path / "turns.000.ast").write_text("mine")
    done = subprocess.run([CUT, str(TURNS), "-n", "2", "--force"], cwd=tmp_path, capture_output=True, preexec_fn=small_files, timeout=60)
    assert done.returncode == 4 and done.stderr.startswith(b"asterix-cut: turns.000.ast: ")
    assert [each.name for each in tmp_path.iterdir()] == ["turns.000.ast"] and (tmp_path / "turns.000.ast").read_text() == "mine"


@pytest.mark.parametrize(
    ("words", "said"),
    [
        ([], "which recording"),
        (["it"], "one of -n and --octets"),
        (["it", "-n", "2", "--octets", "3"], "one of -n and --octets"),
        (["it", "-n", "0"], "-n 0: a whole number"),
        (["it", "-n", "1x"], "-n 1x: a whole number"),
        (["it", "-n"], "-n needs a value"),
        (["it", "--octets", "-5"], "--octets -5: a whole number"),
        (["it", "it", "-n", "2"], "it: one recording"),
        (["it", "--all"], "--all: there is no such option"),
    ],
)
def test_wrong_words(words: list[str], said: str) -> None:
    """They are named, and the status is 1."""
    done = run(CUT, *words)
    assert done.returncode == 1 and done.stderr.decode().startswith(f"asterix-cut: {said}") and done.stdout == b""


def test_what_cant_be_read(tmp_path: pathlib.Path) -> None:
    """A name that isn't there, and a folder."""
    for name, said in (("nowhere", b"nowhere: No such file"), (".", b".: this is a folder")):
        done = run(CUT, name, "-n", "2", cwd=tmp_path)
        assert done.returncode == 4 and said in done.stderr
