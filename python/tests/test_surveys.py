"""Surveys: reading the file that maxsurvey keeps, adding to it, matching, and exporting."""
import contextlib
import os
import pathlib
import shutil
import sqlite3
import struct
import subprocess
import sys
import tempfile
import time

import numpy
import pytest
from astropy.io import fits
from astropy.table import Table
from astropy.wcs import WCS

import maxdetect
from maxdetect import (
    _adding as adding,
    _cli as cli,
    _exporting as exporting,
    _kernel as kernel,
    _survey_files as survey_files,
    _surveys as surveys,
    _telling as telling,
)
from maxdetect._errors import Mistake

SCHEMA = "CREATE TABLE IF NOT EXISTS source (field TEXT NOT NULL PRIMARY KEY, cells BLOB NOT NULL) STRICT"


def cells(*rows):
    """Rows as the program keeps them."""
    return b"".join(struct.pack(">17q", *row) for row in rows)


def row(number, flux, x=1000, y=1000):
    return (number, 9, 4, 3, flux, 8, 1, 2, 1, 2, 1, 1, x, y, 0, 0, 0)


def kept(path, **fields):
    """The file of a survey with these fields' bytes."""
    with sqlite3.connect(path) as file:
        file.execute(SCHEMA)
        file.executemany("INSERT INTO source VALUES (?, ?)", fields.items())
    file.close()
    return path


@pytest.fixture
def two(tmp_path):
    return kept(tmp_path / "two.db", SOUTH=cells(row(1, 50), row(2, 70)), NORTH=cells(row(1, 70, 2500, 1500)))


@pytest.fixture
def program():
    found = os.environ.get("MAXSURVEY") or shutil.which("maxsurvey")
    if not found:
        pytest.skip("the environment's MAXSURVEY names no program")
    return found


@pytest.fixture(scope="module")
def table(stars):
    """The catalogue of the star field; no test changes it."""
    return maxdetect.catalogue(stars[0])[0]


def sky(at=150.0):
    wcs = WCS(naxis=2)
    wcs.wcs.ctype, wcs.wcs.crval, wcs.wcs.crpix = ["RA---TAN", "DEC--TAN"], [at, 2.0], [1.0, 1.0]
    wcs.wcs.cdelt = [-1 / 3600, 1 / 3600]
    return wcs


# ---- reading


def test_a_survey_is_a_mapping(two):
    opened = maxdetect.survey(two)
    assert list(opened) == ["NORTH", "SOUTH"] and len(opened) == 2
    assert "NORTH" in opened and "WEST" not in opened and 7 not in opened
    table = opened["SOUTH"]
    assert table["FLUX"].tolist() == [50, 70] and table["NUMBER"].tolist() == [1, 2]
    assert str(table["AREA"].unit) == "pix" and table["FLUX"].description
    assert opened["NORTH"]["X", "Y"].as_array().tolist() == [(2.5, 1.5)]
    with pytest.raises(KeyError):
        opened["WEST"]


def test_what_another_process_adds_is_seen(two):
    opened = maxdetect.survey(two)
    kept(two, EAST=cells(row(1, 5)))
    assert list(opened) == ["EAST", "NORTH", "SOUTH"]


def test_all_fields_as_one_table(two):
    table = maxdetect.survey(two).table()
    assert table["FIELD", "NUMBER", "FLUX"].as_array().tolist() == [
        ("NORTH", 1, 70),
        ("SOUTH", 1, 50),
        ("SOUTH", 2, 70),
    ]
    assert maxdetect.survey(two).table(["SOUTH"])["FLUX"].tolist() == [50, 70]
    assert len(maxdetect.survey(two).table([])) == 0


def test_the_brightest_are_those_of_the_program(two):
    opened = maxdetect.survey(two)
    assert opened.brightest(2)["FIELD", "NUMBER"].as_array().tolist() == [("NORTH", 1), ("SOUTH", 2)]
    assert opened.brightest(9)["FLUX"].tolist() == [70, 70, 50]


def test_the_brightest_of_many_fields(tmp_path):
    rng = numpy.random.default_rng(3)
    rows = {f"F{n:02}": rng.integers(0, 40, rng.integers(0, 9)).tolist() for n in range(60)}
    fields = {name: cells(*(row(n, flux) for n, flux in enumerate(fluxes, 1))) for name, fluxes in rows.items()}
    opened = maxdetect.survey(kept(tmp_path / "many.db", **fields))
    every = [(-flux, name, n) for name, fluxes in rows.items() for n, flux in enumerate(fluxes, 1)]
    for count in (1, 7, 50, len(every), 1000):
        found = opened.brightest(count)["FLUX", "FIELD", "NUMBER"].as_array().tolist()
        assert found == [(-flux, name, n) for flux, name, n in sorted(every)[:count]]


def test_places_in_the_sky(two):
    table = maxdetect.survey(two).table(sky={"NORTH": sky()})
    assert table["RA"][0] == pytest.approx(150 - 1.5 / 3600, abs=1e-6)
    assert table["DEC"][0] == pytest.approx(2 + 0.5 / 3600, abs=1e-9)
    assert numpy.isnan(table["RA"][1:]).all() and str(table["RA"].unit) == "deg"


def test_an_empty_field_and_an_empty_survey(tmp_path):
    assert len(maxdetect.survey(kept(tmp_path / "one.db", A=b""))["A"]) == 0
    nothing = maxdetect.survey(kept(tmp_path / "none.db"))
    assert list(nothing) == [] and len(nothing.table()) == 0 and len(nothing.brightest(3)) == 0
    assert "FIELD" in nothing.table().colnames


@pytest.mark.parametrize("blob", [b"123", cells(row(2, 5)), cells(row(1, 5)) + b"x", None])
def test_rows_of_another_form(tmp_path, blob):
    path = tmp_path / "other.db"
    with sqlite3.connect(path) as file:
        file.execute("CREATE TABLE source (field TEXT, cells BLOB)")
        file.execute("INSERT INTO source VALUES ('A', ?)", (blob,))
    file.close()
    with pytest.raises(Mistake, match="field A"):
        maxdetect.survey(path)["A"]


def test_what_is_no_survey(tmp_path):
    (tmp_path / "text").write_text("no database, but longer than a header of one" * 9)
    with sqlite3.connect(tmp_path / "empty.db") as file:
        file.execute("CREATE TABLE t (a)")
    file.close()
    for name, cause in (("text", "no survey"), ("empty.db", "no survey"), ("none.db", "no such file"), ("", "folder")):
        with pytest.raises(Mistake, match=cause):
            maxdetect.survey(tmp_path / name)
    assert not (tmp_path / "none.db").exists()


def test_a_name_that_is_none(tmp_path):
    with pytest.raises(Mistake, match="no field's name"):
        list(maxdetect.survey(kept(tmp_path / "a.db", **{"A B": b""})))


# What another user sees, who can't write the files or their folders: how many sources there are, at so many looks.
LOOKS = """
import os, sys
sys.path.insert(0, sys.argv[1])
import maxdetect
if os.geteuid() == 0:
    os.setgroups([])
    os.setgid(65534)
    os.setuid(65534)
for turn in range(int(sys.argv[2])):
    for path in sys.argv[3:]:
        opened = maxdetect.survey(path)
        print(sum(len(opened[name]) for name in opened))
"""


def seen_by_another(*paths, turns=1):
    package = pathlib.Path(maxdetect.__file__).parent.parent
    words = [sys.executable, "-c", LOOKS, str(package), str(turns), *map(str, paths)]
    # Where coverage is measured, another user may not write what it found.
    around = {name: value for name, value in os.environ.items() if not name.startswith("COV_")}
    done = subprocess.run(words, env=around, stdout=subprocess.PIPE, stderr=subprocess.PIPE, text=True, timeout=300)
    assert (done.returncode, done.stderr) == (0, "")
    return [int(line) for line in done.stdout.split()]


@pytest.fixture
def shown():
    """A folder that every user can read."""
    with tempfile.TemporaryDirectory() as name:
        os.chmod(name, 0o755)
        yield pathlib.Path(name)
        os.chmod(name, 0o755)


def killed_within_an_add(path):
    """Leaves a file and a log that has pages: the field B stands in the log alone."""
    copy = path.with_name("copy")
    with contextlib.closing(sqlite3.connect(path, isolation_level=None)) as file:
        file.execute("PRAGMA journal_mode = WAL")
        file.execute("INSERT INTO source SELECT 'B', cells FROM source WHERE field = 'A'")
        for end in ("", "-wal"):
            shutil.copy(f"{path}{end}", f"{copy}{end}")
    for end in ("", "-wal"):
        os.replace(f"{copy}{end}", f"{path}{end}")


def left_behind(path, table, program, how):
    """Makes a survey whose files stand as after such an end; how many sources it has."""
    path.parent.mkdir()
    if how == "plain":
        kept(path, A=cells(*(row(number + 1, 5) for number in range(len(table)))))
    else:
        maxdetect.add(path, "A", table, program=program)
        os.unlink(f"{path}.lock")
        assert os.stat(f"{path}-wal").st_size == 41
    if how == "without its log":
        os.unlink(f"{path}-wal")
    if how == "killed":
        killed_within_an_add(path)
    return len(table) * (2 if how == "killed" else 1)


def test_a_look_makes_no_file_and_needs_no_right_to(shown, table, program):
    paths = [shown / how / "s.db" for how in ("as the program ends", "without its log", "killed", "plain")]
    counts = [left_behind(path, table, program, path.parent.name) for path in paths]

    def files():
        found = {file: file.stat() for path in paths for file in path.parent.iterdir()}
        return {file: (it.st_size, it.st_mtime_ns) for file, it in found.items()}

    before = files()
    for path in paths:
        path.parent.chmod(0o555)
    assert seen_by_another(*paths) == counts
    # Who can write the folders leaves as little there.
    for path in paths:
        path.parent.chmod(0o755)
        assert len(maxdetect.survey(path)["A"]) == len(table)
    assert files() == before


@contextlib.contextmanager
def at_work(program, path, data):
    """Within, another process adds the catalogue in this file to the survey, over and over; how often it could."""
    text = 'while [ ! -e "$3" ]; do "$0" --file "$1" add A < "$2" && echo done; done'
    stop, done = path.with_name("stop"), []
    words = ["sh", "-c", text, program, path, data, stop]
    with subprocess.Popen(words, stdout=subprocess.PIPE, stderr=subprocess.DEVNULL) as writing:
        try:
            yield done
        finally:
            stop.touch()
            done += writing.communicate()[0].split()


@pytest.mark.skipif(os.geteuid() != 0, reason="it wants a writer who isn't the reader")
def test_who_cannot_write_the_folder_reads_beside_a_writer(shown, table, program):
    path = shown / "s.db"
    maxdetect.add(path, "A", table, program=program)
    (shown / "a.cat").write_bytes(adding.survey_file(table))
    with at_work(program, path, shown / "a.cat") as done:
        assert seen_by_another(path, turns=200) == [len(table)] * 200
    assert len(done) > 5


def test_sums_tell_what_changed(two):
    opened = maxdetect.survey(two)
    with pytest.raises(Mistake, match="never sealed"):
        opened.changed()
    assert opened.seal() == 2 and opened.changed() == []
    with sqlite3.connect(two) as file:
        file.execute("UPDATE source SET cells = ? WHERE field = 'NORTH'", (cells(row(1, 71)),))
        file.execute("INSERT INTO source VALUES ('EAST', ?)", (b"",))
        file.execute("DELETE FROM source WHERE field = 'SOUTH'")
    file.close()
    assert opened.changed() == ["EAST", "NORTH", "SOUTH"]
    assert opened.seal() == 2 and opened.changed() == []


# ---- matching


def test_sources_at_one_place():
    one = Table({"RA": [10.0, 20.0, numpy.nan], "DEC": [0.0, 0.0, 0.0], "ID": [1, 2, 3]})
    other = Table({"RA": [20.0001, 10.1], "DEC": [0.0, 0.0], "NAME": ["b", "a"]})
    found = maxdetect.match(one, other, 1.0)
    assert found["ID"].tolist() == [2] and found["NAME"].tolist() == ["b"]
    assert found["SEPARATION"][0] == pytest.approx(0.36, abs=1e-3) and str(found["SEPARATION"].unit) == "arcsec"
    assert len(maxdetect.match(one[2:], other, 1.0)) == 0 and len(maxdetect.match(one, other[:0], 1.0)) == 0
    with pytest.raises(Mistake, match="no RA and DEC"):
        maxdetect.match(one, Table({"X": [1]}), 1.0)


# ---- adding


def listed(program, path):
    return subprocess.run([program, "--file", path, "list"], stdout=subprocess.PIPE, check=True, text=True).stdout


def test_a_catalogue_is_added_and_read_back(tmp_path, table, program):
    path = tmp_path / "s.db"
    maxdetect.add(path, "STARS", table)
    opened = maxdetect.survey(path)
    found = opened["STARS"]
    assert found["NUMBER"].tolist() == list(range(1, len(table) + 1))
    assert found["FLUX"].tolist() == numpy.rint(numpy.asarray(table["FLUX_ISO"])).astype(int).tolist()
    assert found["XCEN"].tolist() == table["XCEN"].tolist()
    assert listed(program, path) == f"STARS {len(table)} {sum(found['FLUX'].tolist())}\n"
    maxdetect.add(path, "STARS", table[:3], unit=10)
    assert len(opened["STARS"]) == 3 and opened["STARS"]["FLUX"][0] == round(table["FLUX_ISO"][0] / 10)
    assert opened.seal() == 1
    assert listed(program, path).startswith("STARS 3 ")


def test_what_is_not_added(tmp_path, table, program, monkeypatch):
    with pytest.raises(Mistake, match="no field's name"):
        maxdetect.add(tmp_path / "s.db", "A B", table)
    with pytest.raises(Mistake, match="is a folder"):
        maxdetect.add(tmp_path, "A", table)
    with pytest.raises(Mistake, match="no whole number"):
        maxdetect.add(tmp_path / "s.db", "A", table, unit=1e-300)
    assert os.listdir(tmp_path) == []
    (tmp_path / "text").write_text("no database, but longer than a header of one" * 9)
    with pytest.raises(Mistake, match="keeper fault"):
        maxdetect.add(tmp_path / "text", "A", table)
    with pytest.raises(Mistake, match="can't be run"):
        maxdetect.add(tmp_path / "s.db", "A", table, program=tmp_path / "text")
    for name in ("MAXSURVEY", "PATH"):
        monkeypatch.setenv(name, "")
    monkeypatch.setattr(kernel, "__file__", str(tmp_path / "a" / "b" / "c.py"))
    with pytest.raises(Mistake, match="maxsurvey isn't on the PATH"):
        maxdetect.add(tmp_path / "s.db", "A", table)


@contextlib.contextmanager
def looking(path):
    """Within, another process reads the survey by this package, over and over."""
    package = pathlib.Path(maxdetect.__file__).parent.parent
    text = LOOKS.replace("if os.geteuid() == 0:", "print('ready', flush=True)\nif False:")
    words = [sys.executable, "-c", text, str(package), "1000000000", str(path)]
    with subprocess.Popen(words, stdout=subprocess.PIPE, stderr=subprocess.DEVNULL) as reading:
        try:
            assert reading.stdout.readline() == b"ready\n"
            yield
        finally:
            reading.kill()
            reading.communicate()


def test_adds_beside_a_reader(tmp_path, table, program):
    path = tmp_path / "s.db"
    maxdetect.add(path, "A", table)
    with looking(path), looking(path):
        for number in range(30):
            maxdetect.add(path, f"F{number}", table)
    assert len(maxdetect.survey(path)) == 31


def test_why_the_file_is_not_taken(tmp_path, table, program, monkeypatch):
    monkeypatch.setattr(survey_files, "PATIENCE", 0.5)

    def told(path):
        with pytest.raises(Mistake, match="keeper fault") as caught:
            maxdetect.add(path, "A", table)
        return str(caught.value)

    path = tmp_path / "s.db"
    maxdetect.add(path, "A", table)
    for begun in ("BEGIN IMMEDIATE", "BEGIN"):
        held = sqlite3.connect(path, isolation_level=None)
        held.execute(begun)
        held.execute("SELECT count(*) FROM source").fetchall()
        assert "another process has the file" in told(path)
        held.close()
    held = sqlite3.connect(path, isolation_level=None)
    held.execute("CREATE TRIGGER t AFTER INSERT ON source BEGIN SELECT 1; END")
    held.close()
    # What isn't held by another process isn't waited for.
    monkeypatch.setattr(survey_files, "PATIENCE", 200.0)
    begun = time.monotonic()
    assert "the trigger t" in told(path) and time.monotonic() < begun + 200
    (tmp_path / "text").write_text("no database, but longer than a header of one" * 9)
    assert "no survey's file" in told(tmp_path / "text")
    with pytest.raises(Mistake, match="s.db: No such file"):
        maxdetect.add(tmp_path / "none" / "s.db", "A", table)


@pytest.mark.parametrize(
    "before, behind, cause",
    [
        ("", "CREATE INDEX i ON source (field)", None),
        ("", "CREATE INDEX i ON source (field) WHERE field > 'M'", "the index i,"),
        ("", "CREATE INDEX i ON source (length(cells))", "the index i,"),
        ("", "CREATE TABLE t (a TEXT); CREATE TRIGGER r AFTER INSERT ON t BEGIN SELECT 1; END", None),
        (
            "",
            "CREATE VIEW v AS SELECT 1 AS a; CREATE TRIGGER r INSTEAD OF INSERT ON v BEGIN SELECT 1; END",
            "trigger r,",
        ),
        (
            "",
            "CREATE TABLE t (a REFERENCES source); INSERT INTO t VALUES ('NONE')",
            "foreign key without a partner in table t",
        ),
        ("", "DROP TABLE source; CREATE TABLE source (field TEXT, cells BLOB)", "the table source of another form"),
        ("PRAGMA auto_vacuum = FULL", "", "the auto_vacuum,"),
        ("PRAGMA encoding = 'UTF-16be'", "", "the encoding UTF-16be,"),
        ("PRAGMA page_size = 512", "", None),
    ],
)
def test_what_else_stands_in_the_file(tmp_path, table, program, monkeypatch, before, behind, cause):
    monkeypatch.setattr(survey_files, "PATIENCE", 0)
    path = tmp_path / "s.db"
    with contextlib.closing(sqlite3.connect(path, isolation_level=None)) as file:
        file.executescript(f"{before}; {SCHEMA}; {behind}")
    if cause is None:
        maxdetect.add(path, "A", table)
        assert len(maxdetect.survey(path)["A"]) == len(table)
    else:
        with pytest.raises(Mistake, match=cause):
            maxdetect.add(path, "A", table)


def test_a_catalogue_is_written_where_the_survey_is_not(tmp_path, monkeypatch, stars, program, capsys):
    monkeypatch.chdir(tmp_path)
    monkeypatch.setattr(survey_files, "PATIENCE", 0.3)
    fits.writeto("a.fits", stars[0])
    assert cli.main(["a.fits", "--survey", "s.db"]) == 0
    count = len(Table.read("a.cat.fits"))
    os.unlink("a.cat.fits")
    capsys.readouterr()
    held = sqlite3.connect("s.db", isolation_level=None)
    held.execute("BEGIN IMMEDIATE")
    assert cli.main(["a.fits", "--survey", "s.db"]) == 2
    held.close()
    told = "maxcat: s.db: maxsurvey answers keeper fault: another process has the file; try again; "
    assert capsys.readouterr() == ("", f"{told}{count} sources in a.cat.fits\n")
    assert len(Table.read("a.cat.fits")) == count


def test_maxcat_adds_what_it_found(tmp_path, monkeypatch, stars, program, capsys):
    monkeypatch.chdir(tmp_path)
    fits.writeto("a.fits", stars[0], sky().to_header())
    fits.writeto("b.fits", stars[0][:128])
    assert cli.main(["a.fits", "b.fits", "--survey", "s.db"]) == 0
    opened = maxdetect.survey("s.db")
    assert list(opened) == ["a", "b"] and len(opened["a"]) == len(Table.read("a.cat.fits"))
    assert cli.main(["a.fits", "--survey", "s.db", "--field", "NORTH", "--survey-unit", "100"]) == 0
    assert opened["NORTH"]["FLUX"][0] == round(opened["a"]["FLUX"][0] / 100)
    capsys.readouterr()


@pytest.mark.parametrize(
    "words, cause",
    [
        (["--field", "A"], "--field wants a --survey"),
        (["--survey-unit", "2"], "--survey-unit wants a --survey"),
        (["--survey", "s.db", "--hdu", "all"], "--survey is for one HDU"),
        (["--survey", "s.db", "--field", "A B"], "no field's name"),
        (["--survey", ""], "--survey has an empty name"),
        (["--survey", "."], ". can't be written"),
        (["--survey", "s.db", "--map", "s.db"], "s.db is read, so it can't be written"),
        (["--survey", "none/s.db"], "none/s.db can't be written"),
        (["--survey", "s.db", "--survey-unit", "0"], "--survey-unit"),
    ],
)
def test_mistakes_of_maxcat(tmp_path, monkeypatch, stars, capsys, words, cause):
    monkeypatch.chdir(tmp_path)
    fits.writeto("image.fits", stars[0])
    assert cli.main(["image.fits", *words]) == 2
    out, err = capsys.readouterr()
    assert cause in err and err.count("\n") == 1 and out == "" and os.listdir(".") == ["image.fits"]


def test_two_images_for_one_field(tmp_path, monkeypatch, stars, program, capsys):
    monkeypatch.chdir(tmp_path)
    os.mkdir("other")
    fits.writeto("a.fits", stars[0])
    fits.writeto("other/a.fits", stars[0])
    assert cli.main(["a.fits", "other/a.fits", "--survey", "s.db"]) == 2
    assert "two images would be the survey's field a" in capsys.readouterr().err


# ---- exporting


def exported(capsys, *words):
    status = telling.told("maxdetect survey", exporting.run, [str(word) for word in words])
    out, err = capsys.readouterr()
    return status, out, err


def test_export_to_tables(two, tmp_path, capsys):
    for end in ("fits", "csv", "ecsv", "vot"):
        path = tmp_path / f"all.{end}"
        assert exported(capsys, two, "-o", path) == (0, f"3 sources of 2 fields in {path}\n", "")
        assert Table.read(path)["FLUX"].tolist() == [70, 50, 70]
    assert exported(capsys, two, "-o", path, "--field", "SOUTH", "--brightest", 1)[0] == 0
    assert Table.read(path)["FIELD", "NUMBER"].as_array().tolist() == [("SOUTH", 2)]
    assert exported(capsys, two) == (0, "NORTH 1 70\nSOUTH 2 120\n", "")


def test_export_to_a_database_with_places(two, tmp_path, capsys):
    fits.writeto(tmp_path / "north.fits", numpy.zeros((4, 4)), sky().to_header())
    (tmp_path / "fields.csv").write_text("FIELD,IMAGE\nNORTH,north.fits\n")
    assert exported(capsys, two, "-o", tmp_path / "plain.db", "--sky", tmp_path / "fields.csv")[0] == 0
    with sqlite3.connect(tmp_path / "plain.db") as file:
        found = file.execute("SELECT FIELD, NUMBER, FLUX, DEC FROM sources ORDER BY FIELD, NUMBER").fetchall()
        indexes = [name for name, in file.execute("SELECT name FROM sqlite_master WHERE type = 'index'")]
    file.close()
    assert [it[:3] for it in found] == [("NORTH", 1, 70), ("SOUTH", 1, 50), ("SOUTH", 2, 70)]
    assert found[0][3] == pytest.approx(2 + 0.5 / 3600) and found[1][3] is None
    assert sorted(indexes) == ["sources_by_field", "sources_by_flux", "sources_by_place"]


def test_seal_and_check(two, capsys):
    assert exported(capsys, two, "--seal") == (0, "2 fields sealed\n", "")
    assert exported(capsys, two, "--check") == (0, "", "")
    with sqlite3.connect(two) as file:
        file.execute("UPDATE source SET cells = x'' WHERE field = 'NORTH'")
    file.close()
    assert exported(capsys, two, "--check") == (2, "changed: NORTH\n", "")


@pytest.mark.parametrize(
    "words, cause",
    [
        (["-o", "all.txt"], "a catalogue's name ends in"),
        (["--field", "WEST"], "has no field WEST"),
        (["--sky", "none.csv"], "can't be read"),
        (["--sky", "two.db"], "no table that is known by its name's end"),
        (["--brightest", "0"], "--brightest: 0 isn't a whole number from 1 on"),
        (["--check"], "was never sealed"),
        (["-o", "two.db"], "is read, so it can't be written"),
    ],
)
def test_mistakes_of_the_export(two, monkeypatch, capsys, words, cause):
    monkeypatch.chdir(two.parent)
    status, out, err = exported(capsys, "two.db", *words)
    assert status == 2 and cause in err and err.count("\n") == 1 and out == ""
    assert sorted(name for name in os.listdir(".") if not name.startswith("two.db-")) == ["two.db"]


def test_a_database_without_room_is_told_in_one_line(two, tmp_path, monkeypatch, capsys):
    connect = sqlite3.connect

    def small(*given, **more):
        connection = connect(*given, **more)
        connection.execute("PRAGMA max_page_count = 3")
        return connection

    monkeypatch.setattr(sqlite3, "connect", small)
    path = tmp_path / "plain.db"
    assert exported(capsys, two, "-o", path) == (2, "", f"maxdetect survey: {path}: database or disk is full\n")
    assert not any(name.startswith((".maxdetect", "plain")) for name in os.listdir(tmp_path))


def test_the_columns_are_the_programs():
    assert surveys.COLUMNS[0] == "NUMBER" and "SEEN" not in surveys.COLUMNS
