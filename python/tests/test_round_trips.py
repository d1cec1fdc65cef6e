"""What is written and read back is the same, for catalogues, regions, maps, images and surveys that are made up.

EXAMPLES in the environment is how many each property is tried with (25 if it isn't there).
"""
import contextlib
import csv
import os
import pathlib
import re
import shutil
import sqlite3
import tempfile

import numpy
import pytest
from astropy.io import fits
from astropy.table import Table

pytest.importorskip("hypothesis", reason="wants hypothesis (Debian: python3-hypothesis)")

from hypothesis import HealthCheck, given, settings  # noqa: E402
from hypothesis import strategies as st  # noqa: E402

import maxdetect  # noqa: E402
from conftest import EXAMPLES  # noqa: E402
from maxdetect import _exporting as exporting, _finishing as finishing, _planefiles as planefiles  # noqa: E402
from maxdetect import _regions as regions, _surveys as surveys, _tables as tables  # noqa: E402
from maxdetect._columns import CATALOGUE  # noqa: E402

pytestmark = pytest.mark.filterwarnings("ignore::astropy.utils.exceptions.AstropyWarning")
tried = settings(
    max_examples=EXAMPLES,
    deadline=None,
    database=None,
    print_blob=True,
    suppress_health_check=list(HealthCheck),
)

SIZES = {"J": 32, "K": 64}
MEASURED = "X Y FLUX_ISO FLUXERR_ISO FLUX_AUTO FLUXERR_AUTO KRON_RADIUS A B THETA FWHM RA DEC A_SKY B_SKY PA".split()
# A header's strings have no other characters, and no spaces at their ends.
NAMES = st.text(st.characters(min_codepoint=32, max_codepoint=126), min_size=1, max_size=20).map(str.strip)
NAMES = NAMES.filter(bool)
FIELDS = st.from_regex(r"[A-Za-z0-9_-]{1,16}", fullmatch=True)
REALS = st.floats(allow_infinity=False)


def whole(bits):
    return st.integers(-(2 ** (bits - 1)), 2 ** (bits - 1) - 1)


def columns(draw, count, kinds):
    """So many values for each column, by its kind."""
    return {
        name: numpy.array(draw(st.lists(values, min_size=count, max_size=count)), dtype=kind)
        for name, (values, kind) in kinds.items()
    }


@st.composite
def programs(draw, most=6):
    """A catalogue as the program makes it: its columns, with any numbers that have room there."""
    count = draw(st.integers(0, most))
    kinds = {name: (whole(SIZES[it.form]), f"i{SIZES[it.form] // 8}") for name, it in CATALOGUE.items()}
    made = columns(draw, count, kinds)
    made["NUMBER"] = numpy.arange(1, count + 1, dtype="i4")
    return Table(made)


@st.composite
def catalogues(draw):
    """A catalogue as maxcat finishes it: the program's columns and the measured ones, with units and descriptions."""
    table = draw(programs())
    made = columns(draw, len(table), {name: (REALS, "f8") for name in MEASURED})
    made["FLAGS"] = columns(draw, len(table), {"FLAGS": (st.integers(0, 127), "i4")})["FLAGS"]
    for name, values in made.items():
        table[name] = values
    options = {"extension": draw(st.none() | NAMES), "unit": draw(st.sampled_from([None, "adu", "Jy", "electron / s"]))}
    table = finishing.finished(table, None, zeropoint=draw(st.none() | st.floats(-50, 50)), **options)
    # X and Y stand for the program's centres there; here they are numbers of their own.
    table["X"][:], table["Y"][:] = made["X"], made["Y"]
    return table


@contextlib.contextmanager
def folder():
    with tempfile.TemporaryDirectory() as name:
        yield pathlib.Path(name)


def plain(column):
    """The values; what is masked is what isn't there."""
    values = numpy.ma.asarray(column)
    return values.filled(numpy.nan) if values.dtype.kind == "f" else numpy.asarray(values)


def assert_same(found, wanted):
    """The same columns, kinds and values, to the last bit."""
    assert found.colnames == wanted.colnames and len(found) == len(wanted)
    for name in wanted.colnames:
        mine, theirs = plain(wanted[name]), plain(found[name])
        if mine.dtype.kind in "US":
            assert theirs.astype("U").tolist() == mine.tolist(), name
        else:
            assert theirs.dtype.newbyteorder("=") == mine.dtype, name
            assert numpy.array_equal(theirs, mine, equal_nan=mine.dtype.kind == "f"), name


# ---- catalogues


@tried
@given(catalogues(), st.sampled_from(["fits", "fit", "ecsv", "vot", "votable", "xml"]))
def test_a_catalogue_with_all_that_it_tells(table, end):
    with folder() as place:
        tables.write(table, place / f"all.{end}")
        found = Table.read(place / f"all.{end}")
    assert_same(found, table)
    for name in table.colnames:
        # A unit that FITS doesn't know stands there as a text.
        assert found[name].unit == table[name].unit or str(found[name].unit) == str(table[name].unit), name
        if end not in ("fits", "fit"):
            # A VOTable breaks long lines.
            assert found[name].description.split() == table[name].description.split(), name


@tried
@given(catalogues())
def test_a_catalogue_as_plain_text(table):
    with folder() as place:
        tables.write(table, place / "all.csv")
        with open(place / "all.csv", newline="", encoding="utf-8") as file:
            names, *rows = csv.reader(file)
    assert names == table.colnames and len(rows) == len(table)
    # Text doesn't tell how many bits a number has.
    kinds = {name: table[name].dtype for name in names}
    assert_same(
        Table([numpy.array(cells, kinds[name]) for name, cells in zip(names, zip(*rows))], names=names)
        if rows
        else table[:0],
        table,
    )


@tried
@given(catalogues(), st.booleans())
def test_regions_are_the_ellipses_of_a_catalogue(table, on_the_sky):
    if not on_the_sky:
        table.remove_columns(["RA", "DEC"])
    names = ["RA", "DEC", "A_SKY", "B_SKY", "PA"] if on_the_sky else ["X", "Y", "A", "B", "THETA"]
    for name in names:
        # As numbers of degrees and pixels are.
        table[name] = numpy.where(numpy.abs(table[name]) < 1e9, table[name], numpy.nan)
    with folder() as place:
        regions.write(table, place / "all.reg")
        first, frame, *lines = (place / "all.reg").read_text().splitlines()
    assert first == "# Region file format: DS9" and frame == ("icrs" if on_the_sky else "image")
    rows = [row for row in table if numpy.isfinite([row[name] for name in names[:4]]).all()]
    assert len(lines) == len(rows)
    digits = [7, 7, 3, 3] if on_the_sky else [3, 3, 2, 2]
    for line, row in zip(lines, rows):
        *numbers, angle, number = re.fullmatch(r"ellipse\((.*),(.*),(.*),(.*),(.*)\) # text=\{(.*)\}", line).groups()
        assert number == (f"{row['EXTENSION']}:{row['NUMBER']}" if "EXTENSION" in row.colnames else str(row["NUMBER"]))
        for text, name, places in zip(numbers, names, digits):
            assert float(text.rstrip('"')) == pytest.approx(row[name], abs=0.51 * 10.0**-places, rel=1e-15)
        if numpy.isfinite(row[names[4]]):
            turned = (float(angle) - (90 if on_the_sky else 0) - row[names[4]] + 180) % 360 - 180
            assert abs(turned) < 0.051


# ---- images and maps


@tried
@given(st.data())
def test_whole_numbers_of_an_image(data):
    kind = data.draw(st.sampled_from(["u1", "i1", "i2", "u2", "i4", "u4", "i8"]))
    shape = data.draw(st.tuples(st.integers(1, 5), st.integers(1, 5)))
    limits, count = numpy.iinfo(kind), shape[0] * shape[1]
    numbers = st.integers(int(limits.min) + (kind == "i8"), int(limits.max))
    values = numpy.array(data.draw(st.lists(numbers, min_size=count, max_size=count)), dtype=kind).reshape(shape)
    mask = numpy.array(data.draw(st.lists(st.booleans(), min_size=count, max_size=count))).reshape(shape)
    image = numpy.ma.MaskedArray(values, mask=mask)
    with folder() as place:
        maxdetect.save(image, place / "image.fits")
        found = maxdetect.load(place / "image.fits")
    assert (numpy.ma.getmaskarray(found) == mask).all()
    assert numpy.ma.getdata(found)[~mask].tolist() == values[~mask].tolist()


@tried
@given(st.lists(whole(32), min_size=6, max_size=6), st.floats(0, 360), st.floats(-80, 80))
def test_a_map_and_its_place(numbers, longitude, latitude):
    segments = numpy.array(numbers, dtype="i4").reshape(2, 3)
    header = fits.Header({"CTYPE1": "RA---TAN", "CTYPE2": "DEC--TAN", "CRVAL1": longitude, "CRVAL2": latitude})
    with folder() as place:
        (plane,) = planefiles.made(place / "map.fits", [planefiles.Head(header, "SEGMENT", segments.shape)], ">i4")
        plane[...] = segments
        plane.flush()
        with fits.open(place / "map.fits") as hdus:
            assert (hdus[0].data == segments).all()
            assert (hdus[0].header["CRVAL1"], hdus[0].header["CRVAL2"]) == pytest.approx((longitude, latitude))


# ---- surveys


def assert_same_field(found, table):
    for name in CATALOGUE:
        assert numpy.asarray(found[name]).tolist() == numpy.asarray(table[name]).tolist(), name


@tried
@given(st.dictionaries(FIELDS, programs(), min_size=1, max_size=3), st.sampled_from(["fits", "ecsv", "vot"]))
def test_a_survey_keeps_what_is_added(fields, end):
    program = os.environ.get("MAXSURVEY") or shutil.which("maxsurvey")
    if not program:
        pytest.skip("the environment's MAXSURVEY names no program")
    with folder() as place:
        for name, table in fields.items():
            # Fluxes that the program finds.
            table["FLUX"] = numpy.clip(table["FLUX"], 1 - 2**62, 2**62 - 1)
            maxdetect.add(place / "s.db", name, table, program=program)
        opened = maxdetect.survey(place / "s.db")
        assert list(opened) == sorted(fields)
        for name, table in fields.items():
            assert_same_field(opened[name], table)
        tables.write(opened.table(), place / f"all.{end}")
        found = Table.read(place / f"all.{end}")
        for name, table in fields.items():
            assert_same_field(found[[str(it) == name for it in found["FIELD"]]], table)


@tried
@given(catalogues())
def test_a_database_of_a_catalogue(table):
    table.add_column(numpy.full(len(table), "NORTH"), index=0, name="FIELD")
    with folder() as place:
        exporting.write_database(table, place / "all.db")
        with contextlib.closing(sqlite3.connect(place / "all.db")) as file:
            asked = file.execute("SELECT * FROM sources ORDER BY rowid")
            assert [it[0] for it in asked.description] == table.colnames
            rows = asked.fetchall()
    assert len(rows) == len(table)
    for name, values in zip(table.colnames, zip(*rows)):
        if table[name].dtype.kind == "f":
            assert [it for it in values if it is not None] == table[name][numpy.isfinite(table[name])].tolist()
        else:
            assert list(values) == table[name].tolist(), name


def test_the_columns_of_a_survey_are_the_programs():
    assert surveys.COLUMNS == list(CATALOGUE)
