"""asterix-json against the program's listing, which a small reader of its own reads."""

import json
import pathlib
import random
import re
import subprocess
from typing import Any

import jsonschema
import pytest
from companions import (
    ALL_SPECS,
    CONTENTS,
    ENVIRONMENT,
    JSON,
    PROGRAM,
    TOP,
    TURNS,
    TURNS_SPECS,
    Leaf,
    Record,
    blocks_of,
    made_records,
    read_listing,
    run,
    show,
)


class Decimal(float):
    """A double that knows how it was written."""

    written: str

    def __new__(cls, text: str) -> "Decimal":
        """The double that the text stands for."""
        made = super().__new__(cls, text)
        made.written = text
        return made


def without_twins(pairs: list[tuple[str, Any]]) -> dict[str, Any]:
    """An object whose keys are all different."""
    made = dict(pairs)
    assert len(made) == len(pairs)
    return made


def objects_of(text: bytes) -> list[dict[str, Any]]:
    """The objects of JSON Lines."""
    return [json.loads(line, object_pairs_hook=without_twins, parse_float=Decimal) for line in text.decode("ascii").splitlines()]


class Paths:
    """What an object says, by the listing's paths."""

    def __init__(self, is_leaf_object: bool) -> None:
        self.is_leaf_object = is_leaf_object
        self.leaves: dict[str, Any] = {}
        self.spares: dict[str, list[int]] = {}
        self.occurrences: dict[str, int] = {}
        self.objects: dict[str, int] = {}

    def add(self, path: str, value: Any) -> None:
        """Adds a value and what is below it."""
        if path.endswith("/spare"):
            self.spares[path] = value
        elif isinstance(value, list):
            self.occurrences[path] = len(value)
            for number, each in enumerate(value):
                self.add(f"{path}[{number}]", each)
        elif isinstance(value, dict) and not (self.is_leaf_object and "bits" in value):
            self.objects[path] = len(value)
            for name, each in value.items():
                self.add(f"{path}/{name}", each)
        else:
            self.leaves[path] = value


def paths_of(found: dict[str, Any], is_exact: bool = False) -> Paths:
    """What a nested object of a record says."""
    paths = Paths(is_exact)
    for item, value in found["items"].items():
        paths.add(f"{found['category']:03}/{item}", value)
    return paths


def check_plain(value: Any, leaf: Leaf) -> None:
    """A value means what the listing says; a decimal is the nearest double, in no more characters than Python's."""
    wanted = leaf.meaning()
    assert value == wanted
    if isinstance(wanted, str):
        assert isinstance(value, str)
    elif leaf.fraction is None:
        assert type(value) is int
    elif isinstance(value, Decimal):
        assert len(value.written) <= len(repr(wanted))


def check_exact(value: Any, leaf: Leaf) -> None:
    """A value has the number of the bits and what the listing says."""
    if leaf.fraction is not None:
        assert value == {"bits": leaf.number, "numerator": leaf.fraction.numerator, "denominator": leaf.fraction.denominator}
    elif leaf.text is not None:
        assert value == {"bits": leaf.number, "text": leaf.text}
    elif leaf.signed is not None:
        assert value == {"bits": leaf.number, "value": leaf.signed}
    else:
        assert value in (leaf.number, {"bits": leaf.number})


def check_record(found: dict[str, Any], record: Record, is_exact: bool) -> int:
    """A nested object says what the listing says, and nothing else. The result is how many numbers were compared."""
    assert (found["block"], found["record"], found["category"]) == (record.block, record.record, record.category)
    paths = paths_of(found, is_exact)
    assert paths.leaves.keys() == record.leaves.keys() | record.octets.keys()
    for path, hexadecimal in record.octets.items():
        assert paths.leaves[path] == hexadecimal
    for path, leaf in record.leaves.items():
        (check_exact if is_exact else check_plain)(paths.leaves[path], leaf)
    assert paths.spares == record.spares
    assert paths.occurrences == record.occurrences
    for path, count in record.subitems.items():
        assert paths.objects[path] == count
    return len(record.leaves) + len(record.octets)


def check_flat(found: dict[str, Any], record: Record) -> None:
    """A flat object has the listing's paths as keys."""
    wanted: dict[str, Any] = {path: leaf.meaning() for path, leaf in record.leaves.items()} | record.octets | record.spares
    wanted |= {path: [] for path, count in record.occurrences.items() if count == 0}
    wanted |= {path: {} for path, count in record.subitems.items() if count == 0}
    assert {path: value for path, value in found.items() if "/" in path} == wanted


def check(specs: list[str], recording: bytes) -> None:
    """The JSON of a recording, in all forms, against its listing."""
    records, opaque = read_listing(show(specs, recording).stdout)
    compared = 0
    for words in ([], ["--exact"], ["--flat"]):
        done = run(JSON, *words, *specs, given=recording)
        assert (done.returncode, done.stderr) == (0, b"")
        found = objects_of(done.stdout)
        assert [(each["block"], each["category"], each["opaque"]) for each in found if "opaque" in each] == opaque
        assert [each["block"] for each in found] == sorted(each["block"] for each in found)
        of_records = [each for each in found if "opaque" not in each]
        assert len(of_records) == len(records)
        for each, record in zip(of_records, records, strict=True):
            if words == ["--flat"]:
                check_flat(each, record)
            else:
                compared += check_record(each, record, words == ["--exact"])
    assert compared > 0 or not records


def test_turns() -> None:
    """The recording of the pages."""
    check(TURNS_SPECS, TURNS.read_bytes())


def test_opaque_blocks() -> None:
    """Blocks without a category file are objects with their octets."""
    check(TURNS_SPECS[:1], TURNS.read_bytes())
    check([str(TOP / "samples/048-P1")], (TOP / "samples/mixed.ast").read_bytes())


@pytest.mark.parametrize("spec", ALL_SPECS, ids=lambda spec: spec.rsplit("/")[-1])
def test_each_category(spec: str) -> None:
    """Made records of each category file."""
    check([spec], made_records(spec, 0.01))


@pytest.mark.parametrize("seed", range(4))
def test_all_contents_and_widths(contents: str, seed: int) -> None:
    """Random numbers of many widths; texts with backslashes, quotes and control octets; repeated items in repeated items."""
    check([contents], made_records(contents, 0.02, seed))


# Numbers of 64 bits near the places where rounding to 53 bits is decided: halves between two doubles, and just beside them.
EDGES = [0, 1, 2**53 - 1, 2**53, 2**53 + 1, 2**54 + 2, 2**54 + 6, 2**63 - 1, 2**63, 2**64 - 1, 2**64 - 1024, 2**64 - 1025, 2**64 - 513]
EDGES += [(2**52 + odd) * 2**shift + off for odd in (1, 2, 3) for shift in (1, 5, 11) for off in (-1, 0, 1, 2 ** (shift - 1))]


def test_decimals_are_the_nearest(contents: str) -> None:
    """Fractions with numerators and denominators above 2^53, by blocks that `build` makes."""
    chance = random.Random(5)
    numbers = EDGES + [chance.getrandbits(64) for _ in range(100)]
    lines = [
        f"block 250 {{ record {{ 020 {{ A {n} B {n} C {n} D {n} E {n % 65536} F {n} G {n} H {n % 256} }} }} }}" for n in numbers
    ]
    built = run(PROGRAM, "build", contents, given="\n".join(lines).encode())
    assert built.returncode == 0
    check([contents], built.stdout)


def test_texts_that_json_escapes(contents: str) -> None:
    """A backslash of a table or of ASCII octets; what isn't printable is a dot, as in the listing."""
    octets = int.from_bytes(b'\\"\x00\x1f\x7f\xffa\\', "big")
    line = f"block 250 {{ record {{ 030 {{ T 0 O 0 I 0 A {octets} }} }} record {{ 030 {{ T 1 O 0 I 0 A 0 }} }} }}"
    first, second = objects_of(run(JSON, contents, given=run(PROGRAM, "build", contents, given=line.encode()).stdout).stdout)
    assert first["edition"] == r"back\slash 'n' all"
    assert (first["items"]["030"]["T"], first["items"]["030"]["A"]) == (r"a\b", "\\.....a\\")
    assert second["items"]["030"]["T"] == "\\\\"


@pytest.mark.parametrize("words", [[], ["--flat"], ["--exact"], ["--exact", "--flat"]], ids=" ".join)
def test_schema(words: list[str], contents: str) -> None:
    """Each object is as the schema says. Each path has a title, unit and table in it."""
    for specs in ([contents], TURNS_SPECS, [str(TOP / "categories/062-1.19")]):
        schema = json.loads(run(JSON, "--schema", *words, *specs).stdout)
        jsonschema.Draft202012Validator.check_schema(schema)
        validator = jsonschema.Draft202012Validator(schema)
        for spec in specs:
            objects = objects_of(run(JSON, *words, *specs, given=made_records(spec, 0.004) + b"\x01\x00\x04\x00").stdout)
            assert len(objects) > 3
            for each in objects:
                validator.validate(json.loads(json.dumps(each)))


@pytest.mark.parametrize("damage", [{"block": -1}, {"category": 49}, {"more": 1}, {"items": {"999": 1}}, {"items": {"010": {"SAC": 256, "SIC": 1}}}])
def test_schema_refuses_another_object(damage: dict[str, Any]) -> None:
    """A schema that takes everything would say nothing."""
    schema = json.loads(run(JSON, "--schema", TURNS_SPECS[0]).stdout)
    good = {"block": 0, "record": 0, "category": 48, "edition": "1.31", "items": {"010": {"SAC": 255, "SIC": 1}}}
    jsonschema.Draft202012Validator(schema).validate(good)
    with pytest.raises(jsonschema.ValidationError):
        jsonschema.Draft202012Validator(schema).validate(good | damage)


def test_schema_has_titles_units_and_tables() -> None:
    """As the category file has them."""
    (category, _) = json.loads(run(JSON, "--schema", TURNS_SPECS[0]).stdout)["anyOf"]
    items = category["properties"]["items"]["properties"]
    text = pathlib.Path(TURNS_SPECS[0]).read_text()
    titles = dict(re.findall(r'item (\S+) "(.*?)"', text))
    assert {name: item["title"] for name, item in items.items()} == titles and len(titles) == 28
    rho = items["040"]["properties"]["RHO"]
    assert (rho["unit"], rho["scale"]) == ("NM", [1, 256])
    assert items["020"]["properties"]["TYP"]["table"][1] == [1, "PSR alone"]


# Several pieces for the jobs, and blocks of two categories.
LARGE_SPECS = [str(TOP / "samples/048-P1"), str(TOP / "samples/034-P1")]


@pytest.fixture(scope="module")
def large(tmp_path_factory: pytest.TempPathFactory) -> pathlib.Path:
    """A recording of 0.8 MB, which makes four pieces."""
    path = tmp_path_factory.mktemp("large") / "large.ast"
    path.write_bytes(run("python3", str(TOP / "bench/make_stream.py"), "0.8").stdout)
    assert path.stat().st_size > 3 * 2**18
    return path


@pytest.mark.parametrize("words", [[], ["--flat"], ["--exact"]], ids=" ".join)
@pytest.mark.parametrize("jobs", [2, 9])
def test_jobs_write_the_same(large: pathlib.Path, words: list[str], jobs: int) -> None:
    """Octet for octet, with the numbers of blocks of the whole."""
    alone = run(JSON, *words, *LARGE_SPECS, stdin=large)
    many = run(JSON, "--jobs", str(jobs), *words, *LARGE_SPECS, stdin=large)
    assert (alone.returncode, alone.stderr) == (many.returncode, many.stderr) == (0, b"")
    assert alone.stdout == many.stdout
    assert objects_of(many.stdout[-5000:].split(b"\n", 1)[1])[-1]["block"] == len(blocks_of(large.read_bytes())) - 1


FAULTS = {"RunsOut": "30000680190c 300005 8019", "PresenceTooLong": "2200050101", "BadLen": "300003", "EndsInHeader": "30", "EndsInBlock": "30ffff00"}


@pytest.mark.parametrize("fault", FAULTS)
@pytest.mark.parametrize("at", [0, 400000, 800000])
def test_jobs_end_at_the_same_fault(large: pathlib.Path, fault: str, at: int, tmp_path: pathlib.Path) -> None:
    """The program's own line and status; nothing after the fault, wherever it is."""
    front = b""
    for block in blocks_of(large.read_bytes()):
        if len(front) >= at:
            break
        front += block
    recording = front + bytes.fromhex(FAULTS[fault])
    if fault in ("RunsOut", "PresenceTooLong", "BadLen"):
        recording += large.read_bytes()
    (tmp_path / "it.ast").write_bytes(recording)
    listing = show(LARGE_SPECS, recording)
    alone = run(JSON, *LARGE_SPECS, stdin=tmp_path / "it.ast")
    many = run(JSON, "--jobs", "4", *LARGE_SPECS, stdin=tmp_path / "it.ast")
    assert listing.returncode == alone.returncode == many.returncode == 3
    assert listing.stderr == alone.stderr == many.stderr and fault.encode() in listing.stderr
    assert alone.stdout == many.stdout
    assert alone.stdout.count(b"\n") == listing.stdout.count(b"\nrecord ")


def test_jobs_of_an_empty_recording_and_of_a_pipe(large: pathlib.Path, tmp_path: pathlib.Path) -> None:
    """Nothing is written of nothing; a pipe is read by one job, which is said."""
    (tmp_path / "empty").write_bytes(b"")
    done = run(JSON, "--jobs", "4", *LARGE_SPECS, stdin=tmp_path / "empty")
    assert (done.returncode, done.stdout, done.stderr) == (0, b"", b"")
    piped = run(JSON, "--jobs", "4", *LARGE_SPECS, given=large.read_bytes())
    assert piped.stdout == run(JSON, *LARGE_SPECS, stdin=large).stdout
    assert piped.stderr == b"asterix-json: standard input is no file: it is read by one job\n"


def test_refused_files_as_the_program_refuses_them(tmp_path: pathlib.Path) -> None:
    """With its lines and its status, by each form of run."""
    (tmp_path / "torn").write_text('category 048 edition "x" items { item')
    flawed = str(TOP / "samples/F")
    for specs in ([flawed], [str(tmp_path / "torn")], [str(tmp_path / "nowhere")], [str(tmp_path)], [TURNS_SPECS[0], TURNS_SPECS[0]], [str(TURNS)]):
        wanted = show(specs, b"")
        assert wanted.returncode != 0
        for words in ([], ["--jobs", "2"], ["--schema"]):
            done = run(JSON, *words, *specs, stdin=TURNS)
            assert (done.returncode, done.stdout, done.stderr) == (wanted.returncode, b"", wanted.stderr)


def test_files_that_are_pipes() -> None:
    """A category file that can be read only once serves all jobs."""
    words = f'"{JSON}" --jobs 3 <(cat "{TURNS_SPECS[0]}") <(cat "{TURNS_SPECS[1]}")'
    assert run("bash", "-c", words, stdin=TURNS).stdout == run(JSON, *TURNS_SPECS, stdin=TURNS).stdout


@pytest.mark.parametrize("words", [[], ["--jobs", "4"]], ids=" ".join)
def test_output_that_cant_be_written(large: pathlib.Path, words: list[str]) -> None:
    """A full device and a closed pipe are named, with status 4."""
    with open(large, "rb") as source, open("/dev/full", "wb") as full:
        done = subprocess.run([JSON, *words, *LARGE_SPECS], stdin=source, stdout=full, stderr=subprocess.PIPE, timeout=60, env=ENVIRONMENT)
    assert (done.returncode, done.stderr) == (4, b"asterix-json: standard output: No space left on device\n")
    command = f'"{JSON}" {" ".join(words + LARGE_SPECS)} | head -n 1; exit "${{PIPESTATUS[0]}}"'
    closed = run("bash", "-c", command, stdin=large)
    assert (closed.returncode, closed.stdout.count(b"\n")) == (4, 1)


@pytest.mark.parametrize(
    ("words", "said"),
    [([], "which category files"), (["--jobs", "0", "x"], "--jobs 0: a whole number"), (["--exakt", "x"], "--exakt: there is no such option")],
)
def test_wrong_words(words: list[str], said: str) -> None:
    """They are named, and the status is 1."""
    done = run(JSON, *words)
    assert done.returncode == 1 and done.stderr.decode().startswith(f"asterix-json: {said}") and done.stdout == b""


def test_contents_file_is_accepted(contents: str) -> None:
    """The file of these tests is one that the program takes."""
    assert run(PROGRAM, "check", contents).returncode == 0
    assert CONTENTS.count("item ") == 9
