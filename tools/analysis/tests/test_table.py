"""asterix-table against the program's listing, which a small reader of its own reads."""

import csv
import pathlib
import re
import resource
import signal
import sqlite3
import subprocess
from typing import Any

import pandas
import pytest
from companions import ALL_SPECS, ENVIRONMENT, PROGRAM, TABLE, TOP, TURNS, TURNS_SPECS, Leaf, Record, blocks_of, made_records, read_listing, run, show

Row = dict[str, Any]
Key = tuple[int, ...]
INDEX = re.compile(r"\[(\d+)\]")


def place_of(path: str) -> tuple[str, str, Key]:
    """Of a path of the listing: the table, the column, and the numbers of occurrences. In a repeated item that is an occurrence itself
    the name of the table has "[]" for it."""
    numbers = tuple(int(each) for each in INDEX.findall(path))
    table, at = path[:3], 0
    for found in INDEX.finditer(path):
        if found.start() == at and at > 0:
            table += "[]"
        else:
            table = INDEX.sub("", path[: found.start()])
        at = found.end()
    return table, INDEX.sub("", path), numbers


def value_of(leaf: Leaf, has_numbers: bool) -> Any:
    """What a column has of a leaf."""
    return leaf.number if has_numbers else leaf.meaning()


def wanted_rows(records: list[Record], has_numbers: bool) -> dict[str, dict[Key, Row]]:
    """The rows of each table, by block, record and occurrences."""
    tables: dict[str, dict[Key, Row]] = {}
    for record in records:
        key = (record.block, record.record)
        tables.setdefault(f"{record.category:03}", {})[key] = {}
        for path, leaf in record.leaves.items():
            table, column, numbers = place_of(path)
            tables.setdefault(table, {}).setdefault((*key, *numbers), {})[column] = value_of(leaf, has_numbers)
        for path, octets in record.octets.items():
            table, column, numbers = place_of(path)
            tables.setdefault(table, {}).setdefault((*key, *numbers), {})[column] = octets
        for path, count in record.occurrences.items():
            add_occurrences(tables, key, path, count)
    return tables


def add_occurrences(tables: dict[str, dict[Key, Row]], key: Key, path: str, count: int) -> None:
    """The number of occurrences in the table around a repeated item, and a row of its own table for each of them."""
    table, column, numbers = place_of(path)
    name = table + "[]" if path.endswith("]") else column
    tables.setdefault(table, {}).setdefault((*key, *numbers), {})[name] = count
    for number in range(count):
        tables.setdefault(name, {}).setdefault((*key, *numbers, number), {})


def sqlite_rows(path: pathlib.Path) -> dict[str, dict[Key, Row]]:
    """The rows of a database, without what is NULL."""
    with sqlite3.connect(path) as database:
        names = [name for (name,) in database.execute("SELECT name FROM sqlite_master WHERE type = 'table'")]
        found = {}
        for name in names:
            if not name[0].isdigit():
                continue
            cursor = database.execute(f'SELECT * FROM "{name}"')
            found[name] = rows_of([each[0] for each in cursor.description], cursor.fetchall())
        return {name: rows for name, rows in found.items() if rows}


def rows_of(names: list[str], rows: list[tuple[Any, ...]]) -> dict[Key, Row]:
    """Rows by their keys."""
    keys = [name for name in names if name in ("block", "record") or name.startswith("occurrence")]
    made = {}
    for row in rows:
        values = dict(zip(names, row, strict=True))
        key = tuple(values.pop(name) for name in keys)
        made[key] = {name: value for name, value in values.items() if value is not None}
    assert len(made) == len(rows)
    return made


def cell_of(text: str, type_name: str) -> Any:
    """What a cell of CSV says."""
    return {"INTEGER": int, "REAL": float, "TEXT": str}[type_name](text)


def csv_rows(folder: pathlib.Path, base: str) -> dict[str, dict[Key, Row]]:
    """The rows of files of CSV. (A cell that is empty without quotes isn't told from an empty text by Python's reader, so that empty
    texts are left out here.)"""
    with open(folder / f"{base}.columns.csv", newline="") as file:
        columns = list(csv.DictReader(file))
    types = {(each["table_name"], each["column_name"]): each["type"] for each in columns}
    made: dict[str, dict[Key, Row]] = {}
    for table in sorted({each["table_name"] for each in columns}):
        with open(folder / f"{base}.{table.replace('/', '.')}.csv", newline="") as file:
            names, *rows = csv.reader(file)
        cells = [tuple(None if text == "" else cell_of(text, types.get((table, name), "INTEGER")) for name, text in zip(names, row, strict=True)) for row in rows]
        if cells:
            made[table] = rows_of(names, cells)
    return made


def as_stored(rows: dict[str, dict[Key, Row]], texts: set[tuple[str, str]], keeps_empty: bool) -> dict[str, dict[Key, Row]]:
    """As the columns have it: whole numbers above 63 bits as digits, and numbers in columns of texts too."""
    return {
        table: {
            key: {name: str(value) if (table, name) in texts else value for name, value in row.items() if keeps_empty or value != ""}
            for key, row in of.items()
        }
        for table, of in rows.items()
    }


def text_columns(path: pathlib.Path) -> set[tuple[str, str]]:
    """The columns of texts, with their tables."""
    with sqlite3.connect(path) as database:
        return set(database.execute("SELECT table_name, column_name FROM columns WHERE type = 'TEXT'"))


def differences(found: dict[str, dict[Key, Row]], wanted: dict[str, dict[Key, Row]]) -> list[str]:
    """The first few rows in which they differ. (pytest's own comparison of so many rows takes minutes.)"""
    told = []
    for table in sorted(found.keys() | wanted.keys()):
        of, wanted_of = found.get(table, {}), wanted.get(table, {})
        for key in sorted(of.keys() | wanted_of.keys()):
            pair = of.get(key), wanted_of.get(key)
            if pair[0] == pair[1]:
                continue
            row, wanted_row = pair[0] or {}, pair[1] or {}
            names = [name for name in row.keys() | wanted_row.keys() if row.get(name) != wanted_row.get(name)]
            told.append(f"{table} {key}: " + "; ".join(f"{name} {row.get(name)!r} not {wanted_row.get(name)!r}" for name in names[:3]))
    return told[:5]


def check(specs: list[str], recording: bytes, folder: pathlib.Path, *words: str) -> dict[str, dict[Key, Row]]:
    """Both forms against the listing."""
    wanted = wanted_rows(read_listing(show(specs, recording).stdout)[0], "--numbers" in words)
    for name in ("it.sqlite", "it.csv"):
        done = run(TABLE, *specs, *words, "-o", name, given=recording, cwd=folder)
        assert (done.returncode, done.stderr) == (0, b"")
        assert name == "it.csv" or done.stdout == b"it.sqlite\n"
    texts = text_columns(folder / "it.sqlite")
    assert differences(sqlite_rows(folder / "it.sqlite"), as_stored(wanted, texts, True)) == []
    assert differences(csv_rows(folder, "it"), as_stored(wanted, texts, False)) == []
    assert sorted(each.name for each in folder.iterdir() if each.suffix == ".csv") == sorted(done.stdout.decode().split())
    return wanted


def test_turns(tmp_path: pathlib.Path) -> None:
    """The recording of the pages."""
    wanted = check(TURNS_SPECS, TURNS.read_bytes(), tmp_path)
    assert {name: len(rows) for name, rows in wanted.items()} == {"048": 100, "034": 90}


def test_numbers(tmp_path: pathlib.Path) -> None:
    """With --numbers each column has the number of the bits."""
    check(TURNS_SPECS, TURNS.read_bytes(), tmp_path, "--numbers")


@pytest.mark.parametrize("spec", ALL_SPECS, ids=lambda spec: spec.rsplit("/")[-1])
def test_each_category(spec: str, tmp_path: pathlib.Path) -> None:
    """Made records of each category file."""
    assert len(check([spec], made_records(spec, 0.01), tmp_path)) > 0


@pytest.mark.parametrize("words", [[], ["--numbers"]], ids=" ".join)
def test_all_contents_and_widths(words: list[str], tmp_path: pathlib.Path, tmp_path_factory: pytest.TempPathFactory, contents: str) -> None:
    """Numbers above 63 bits, texts with backslashes, and repeated items in repeated items."""
    wanted = check([contents], made_records(contents, 0.02), tmp_path_factory.mktemp("out"), *words)
    assert {"250", "250/040", "250/040/Q", "250/040/R", "250/040/R[]", "250/070"} <= wanted.keys()


def test_types_and_keys(contents: str, tmp_path: pathlib.Path) -> None:
    """SQLite stores each value in its column's type; a table's key is block, record and occurrences."""
    assert run(TABLE, contents, "-o", "it.sqlite", given=made_records(contents, 0.02), cwd=tmp_path).returncode == 0
    with sqlite3.connect(tmp_path / "it.sqlite") as database:
        for table, column, type_name in database.execute("SELECT table_name, column_name, type FROM columns").fetchall():
            stored = {each for (each,) in database.execute(f'SELECT DISTINCT typeof("{column}") FROM "{table}"')}
            assert stored <= {type_name.lower(), "null"}, column
        keys = {name: [row[1] for row in database.execute(f'PRAGMA table_info("{name}")') if row[5]] for name in ("250", "250/040", "250/040/R[]")}
    assert keys == {
        "250": ["block", "record"],
        "250/040": ["block", "record", "occurrence"],
        "250/040/R[]": ["block", "record", "occurrence", "occurrence2", "occurrence3"],
    }


def test_columns_and_texts(tmp_path: pathlib.Path) -> None:
    """Titles, units and texts are as in the category file."""
    assert run(TABLE, *TURNS_SPECS, "-o", "it.sqlite", stdin=TURNS, cwd=tmp_path).returncode == 0
    titles = dict(re.findall(r'item (\S+) "(.*?)"', pathlib.Path(TURNS_SPECS[0]).read_text()))
    with sqlite3.connect(tmp_path / "it.sqlite") as database:
        rows = database.execute("SELECT column_name, title FROM columns WHERE table_name LIKE '048%'").fetchall()
        assert len(rows) > 100 and all(title == titles[name.split("/")[1]] for name, title in rows)
        rho = "SELECT content, bits, numerator, denominator, unit FROM columns WHERE column_name = '048/040/RHO'"
        assert database.execute(rho).fetchone() == ("quantity unsigned", 16, 1, 256, "NM")
        assert database.execute("SELECT text FROM texts WHERE column_name = '048/020/TYP' AND number = 1").fetchone() == ("PSR alone",)


def test_opaque_blocks(tmp_path: pathlib.Path) -> None:
    """They have a table of their own."""
    assert run(TABLE, TURNS_SPECS[0], "-o", "it.sqlite", stdin=TURNS, cwd=tmp_path).returncode == 0
    with sqlite3.connect(tmp_path / "it.sqlite") as database:
        found = database.execute("SELECT block, category, octets FROM opaque ORDER BY block").fetchall()
    wanted = [(number, block[0], block[3:].hex()) for number, block in enumerate(blocks_of(TURNS.read_bytes())) if block[0] != 48]
    assert found == wanted and len(found) == 90


def test_chosen_paths(tmp_path: pathlib.Path) -> None:
    """--path keeps a path and what is below it; a repeated item keeps its key's table."""
    done = run(TABLE, *TURNS_SPECS, "--path", "048/010", "048/140", "--path=048/250/BDS1", "-o", "it.sqlite", stdin=TURNS, cwd=tmp_path)
    assert done.returncode == 0
    with sqlite3.connect(tmp_path / "it.sqlite") as database:
        names = [row[0] for row in database.execute("SELECT table_name || ' ' || column_name FROM columns ORDER BY rowid")]
        assert names == ["048 048/010/SAC", "048 048/010/SIC", "048 048/140", "048 048/250", "048/250 048/250/BDS1"]
        assert database.execute('SELECT count(*) FROM "048"').fetchone() == (100,)


@pytest.mark.parametrize("path", ["048/999", "048/01", "048/070/spare", "049/010", "048/010/SACK"])
def test_paths_that_are_nowhere(path: str, tmp_path: pathlib.Path) -> None:
    """They are named, and nothing is written."""
    done = run(TABLE, *TURNS_SPECS, "--path", path, "-o", "it.sqlite", stdin=TURNS, cwd=tmp_path)
    assert done.returncode == 1 and done.stderr.decode().startswith(f"asterix-table: {path}: no column has this path")
    assert list(tmp_path.iterdir()) == []


def test_a_refused_block(tmp_path: pathlib.Path) -> None:
    """What stands before it is in the tables; the line and the status are the program's."""
    recording = TURNS.read_bytes()[:4300]
    wanted = show(TURNS_SPECS, recording)
    done = run(TABLE, *TURNS_SPECS, "-o", "it.sqlite", given=recording, cwd=tmp_path)
    assert (done.returncode, done.stderr) == (3, wanted.stderr)
    records, _ = read_listing(wanted.stdout)
    assert {key for of in sqlite_rows(tmp_path / "it.sqlite").values() for key in of} == {(each.block, each.record) for each in records}


@pytest.mark.parametrize("name", ["it.csv", "it.sqlite"])
def test_nothing_is_written_over(name: str, tmp_path: pathlib.Path) -> None:
    """A file that is there stays, unless --force is given."""
    there = "it.048.csv" if name == "it.csv" else name
    (tmp_path / there).write_text("mine")
    done = run(TABLE, *TURNS_SPECS, "-o", name, stdin=TURNS, cwd=tmp_path)
    assert done.returncode == 4 and done.stderr.startswith(f"asterix-table: {there} is there already".encode())
    assert [each.name for each in tmp_path.iterdir()] == [there] and (tmp_path / there).read_text() == "mine"
    assert run(TABLE, *TURNS_SPECS, "-o", name, "--force", stdin=TURNS, cwd=tmp_path).returncode == 0
    assert (tmp_path / there).read_bytes() != b"mine"


def test_refused_files(tmp_path: pathlib.Path) -> None:
    """Files that the program refuses give no table."""
    for spec in (str(TOP / "samples/F"), "nowhere"):
        done = run(TABLE, spec, "-o", "it.csv", stdin=TURNS, cwd=tmp_path)
        wanted = run(PROGRAM, "show", spec, cwd=tmp_path)
        assert (done.returncode, done.stderr) == (wanted.returncode, wanted.stderr)
        assert list(tmp_path.iterdir()) == []


def small_files() -> None:
    """A device that has room for little stands for a full one."""
    signal.signal(signal.SIGXFSZ, signal.SIG_IGN)
    resource.setrlimit(resource.RLIMIT_FSIZE, (20000, 20000))


@pytest.mark.parametrize("name", ["it.csv", "it.sqlite"])
def test_a_full_device(name: str, tmp_path: pathlib.Path) -> None:
    """It is told with status 4, and no file is left."""
    with open(TURNS, "rb") as source:
        done = subprocess.run(
            [TABLE, *TURNS_SPECS, "-o", name],
            stdin=source,
            cwd=tmp_path,
            capture_output=True,
            preexec_fn=small_files,
            timeout=60,
            env=ENVIRONMENT,
        )
    assert done.returncode == 4 and done.stderr.startswith(b"asterix-table: it") and done.stdout == b""
    assert list(tmp_path.iterdir()) == []


@pytest.mark.parametrize(
    ("words", "said"),
    [
        (["-o", "x.csv"], "which category files"),
        (["x"], "-o names the file"),
        (["x", "-o", "x.txt"], "-o x.txt: the name has to end in .csv or .sqlite"),
        (["x", "-o", ".csv"], "-o .csv: the name"),
        (["x", "-o"], "-o needs a value"),
        (["x", "--paths"], "--paths: there is no such option"),
    ],
)
def test_wrong_words(words: list[str], said: str) -> None:
    """They are named, and the status is 1."""
    done = run(TABLE, *words)
    assert done.returncode == 1 and done.stderr.decode().startswith(f"asterix-table: {said}")


def test_pandas_reads_both(tmp_path: pathlib.Path) -> None:
    """The recipes of the page: types from the table of columns, so that a code keeps its zeros."""
    for name in ("it.csv", "it.sqlite"):
        assert run(TABLE, *TURNS_SPECS, "-o", name, stdin=TURNS, cwd=tmp_path).returncode == 0
    columns = pandas.read_csv(tmp_path / "it.columns.csv", dtype=str)
    texts = {name: str for name, kind in zip(columns["column_name"], columns["type"], strict=True) if kind == "TEXT"}
    frame = pandas.read_csv(tmp_path / "it.048.csv", dtype=texts)
    with sqlite3.connect(tmp_path / "it.sqlite") as database:
        same = pandas.read_sql('SELECT * FROM "048"', database)
    records, _ = read_listing(show(TURNS_SPECS, TURNS.read_bytes()).stdout)
    codes = [record.leaves["048/070/MODE3A"].text for record in records if "048/070/MODE3A" in record.leaves]
    for each in (frame, same):
        assert list(each["048/070/MODE3A"].dropna()) == codes and len(codes) == 90
        assert each["048/140"].dtype == float
