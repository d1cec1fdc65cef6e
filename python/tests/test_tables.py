"""Catalogues, maps and regions as files."""
import os
import subprocess

import numpy
import pytest
from astropy import units
from astropy.coordinates import SkyCoord
from astropy.io import fits
from astropy.table import Table, vstack

pytest.importorskip("sep", reason="the package wants SEP (Debian: python3-sep)")

from maxdetect import _finishing as finishing, _planefiles as planefiles, _regions as regions  # noqa: E402
from maxdetect import _tables as tables  # noqa: E402
from maxdetect._errors import Mistake  # noqa: E402
from maxdetect._wholefiles import whole_file, whole_files  # noqa: E402

# Of units that FITS or VOTable don't know.
pytestmark = pytest.mark.filterwarnings("ignore::astropy.utils.exceptions.AstropyWarning")

SCALE = 0.5


def header(longitude="RA---TAN", latitude="DEC--TAN", place=(150.0, 2.0), **more):
    """A header with half a second of arc to a pixel, north up and east to the left."""
    cards = fits.Header({"CTYPE1": longitude, "CTYPE2": latitude, "BUNIT": "electron", "EXPTIME": 30.0})
    for axis, (value, step) in enumerate(zip(place, (-SCALE / 3600, SCALE / 3600)), 1):
        cards[f"CRPIX{axis}"], cards[f"CRVAL{axis}"], cards[f"CDELT{axis}"] = 50.5, value, step
    cards.update(more)
    return cards


def catalogue():
    return Table(
        {
            "NUMBER": numpy.array([1, 2], dtype="i4"),
            "X": [50.5, 70.5],
            "Y": [50.5, 30.5],
            "FLUX_ISO": [100.0, -1.0],
            "FLUXERR_ISO": [10.0, 10.0],
            "A": [4.0, 3.0],
            "B": [2.0, 3.0],
            "THETA": [0.0, 45.0],
            "FLAGS": numpy.array([0, 32], dtype="i4"),
        }
    )


FRAMES = [
    ("RA---TAN", "DEC--TAN", {"RADESYS": "ICRS"}, {"frame": "icrs"}),
    ("RA---TAN", "DEC--TAN", {"RADESYS": "FK5", "EQUINOX": 1975.0}, {"frame": "fk5", "equinox": "J1975"}),
    ("RA---TAN", "DEC--TAN", {"RADESYS": "FK4", "EQUINOX": 1950.0}, {"frame": "fk4", "equinox": "B1950"}),
    ("GLON-TAN", "GLAT-TAN", {}, {"frame": "galactic"}),
]


@pytest.mark.parametrize("longitude, latitude, cards, frame", FRAMES)
def test_places_are_in_the_icrs(longitude, latitude, cards, frame):
    table = finishing.finished(catalogue(), header(longitude, latitude, **cards))
    truth = SkyCoord(150.0, 2.0, unit="deg", **frame).icrs
    assert (table["RA"][0], table["DEC"][0]) == pytest.approx((truth.ra.deg, truth.dec.deg), abs=1e-8)
    assert table["RA"].unit == units.deg and "ICRS" in table["RA"].description


def test_a_frame_that_is_unknown_keeps_its_names():
    table = finishing.finished(catalogue(), header("ELON-TAN", "ELAT-TAN"))
    assert "RA" not in table.colnames
    assert (table["ELON"][0], table["ELAT"][0]) == pytest.approx((150.0, 2.0))


def test_ellipses_on_the_sky():
    table = finishing.finished(catalogue(), header())
    assert (table["A_SKY"][0], table["B_SKY"][0]) == pytest.approx((4 * SCALE, 2 * SCALE), rel=1e-6)
    # The x axis points to the west.
    assert table["PA"][0] == pytest.approx(90, abs=1e-3)
    assert table["PA"][1] == pytest.approx(135, abs=1e-3)


def test_rows_that_begin_with_a_number_sign(tmp_path):
    table = Table({"EXTENSION": ["#", "SCI", "#2"], "NUMBER": numpy.array([1, 2, 3], dtype="i4")})
    tables.write(table, tmp_path / "cat.ecsv")
    assert Table.read(tmp_path / "cat.ecsv")["EXTENSION"].tolist() == ["#", "SCI", "#2"]


def test_without_a_wcs():
    for none in (None, fits.Header({"BUNIT": "adu"})):
        table = finishing.finished(catalogue(), none)
        assert not {"RA", "DEC", "A_SKY"} & set(table.colnames)
    assert table["FLUX_ISO"].unit == units.adu


@pytest.mark.parametrize("cards", [{"CTYPE1": "RA---XYZ"}, {"CRVAL1": "hello"}, {"CDELT2": True}, {"CD1_1": "1"}])
def test_a_wcs_that_cannot_be_read_is_warned_of(cards):
    with pytest.warns(UserWarning, match="no sky coordinates"):
        table = finishing.finished(catalogue(), header(**cards))
    assert "RA" not in table.colnames


def test_magnitudes():
    table = finishing.finished(catalogue(), None, zeropoint=25.0)
    assert table["MAG_ISO"][0] == pytest.approx(20) and table["MAGERR_ISO"][0] == pytest.approx(0.10857, rel=1e-3)
    assert numpy.isnan(table["MAG_ISO"][1]) and table["MAG_ISO"].unit == units.mag


def test_every_column_is_described():
    table = finishing.finished(catalogue(), header(), zeropoint=25.0, extension="CCD 3")
    assert table.colnames[0] == "EXTENSION" and table["EXTENSION"][1] == "CCD 3"
    assert all(table[name].description for name in table.colnames)
    assert table["X"].unit == units.pix and "pixels" in table["X"].description
    assert table["FLUX_ISO"].unit == units.electron
    assert finishing.finished(catalogue(), header(), unit="MJy/sr")["FLUX_ISO"].unit == units.Unit("MJy/sr")
    assert str(finishing.finished(catalogue(), header(), unit="furlongs")["FLUX_ISO"].unit) == "furlongs"
    assert catalogue()["X"].unit is None, "the table that is given stays as it is"


@pytest.mark.parametrize("end", [".fits", ".csv", ".ecsv", ".xml", ".vot"])
@pytest.mark.parametrize("rows", [2, 0])
def test_files_hold_what_is_written(tmp_path, end, rows):
    table = finishing.finished(catalogue()[:rows], header(), zeropoint=25.0, extension="A")
    path = tmp_path / f"with a space{end}"
    tables.write(table, path)
    form = {".fits": "fits", ".csv": "ascii.csv", ".ecsv": "ascii.ecsv"}.get(end, "votable")
    back = Table.read(path, format=form)
    assert back.colnames == table.colnames and len(back) == rows
    if rows:
        for name in table.colnames[1:]:
            numpy.testing.assert_allclose(numpy.ma.filled(back[name].astype("f8"), numpy.nan), table[name], rtol=1e-12)
        assert [str(name) for name in back["EXTENSION"]] == ["A", "A"]
    assert os.listdir(tmp_path) == [path.name]


@pytest.mark.parametrize(
    "unit", ["furlongs", "ELECTRONS/S", "DN", "counts / pixel", "nanomaggy", "1e-20 erg/s/cm^2/Angstrom"]
)
def test_units_of_every_kind_can_be_written_and_read(tmp_path, unit):
    table = finishing.finished(catalogue(), fits.Header({"BUNIT": unit}))
    for end, form in ((".fits", "fits"), (".csv", "ascii.csv"), (".ecsv", "ascii.ecsv"), (".vot", "votable")):
        tables.write(table, tmp_path / f"catalogue{end}")
        assert len(Table.read(tmp_path / f"catalogue{end}", format=form)) == 2


def test_rows_of_several_images(tmp_path):
    """Where one image has a WCS and another has none."""
    both = vstack([finishing.finished(catalogue(), header()), finishing.finished(catalogue(), None)])
    tables.write(both, tmp_path / "catalogue.fits")
    back = Table.read(tmp_path / "catalogue.fits")
    assert list(numpy.isnan(numpy.ma.filled(back["RA"], numpy.nan))) == [False, False, True, True]
    regions.write(both, tmp_path / "sources.reg")
    assert len((tmp_path / "sources.reg").read_text().splitlines()) == 4


def test_cards_of_the_fits_table(tmp_path):
    table = finishing.finished(catalogue(), header())
    table.meta.update({"SIGMA": 3.5, "PROGRAM": "maxdetect", "NAXIS": 7, "too long a key": 1, "LIST": [1]})
    path = tmp_path / "catalogue.fits"
    tables.write(table, path)
    cards = fits.getheader(path, "SOURCES")
    for number, name in enumerate(table.colnames, 1):
        assert cards[f"TCOMM{number}"] == table[name].description
    assert cards[f"TUNIT{table.colnames.index('X') + 1}"] == "pix"
    assert cards["SIGMA"] == 3.5 and cards["PROGRAM"] == "maxdetect" and cards["NAXIS"] == 2 and "LIST" not in cards


def test_whole_or_not_at_all(tmp_path):
    path = tmp_path / "catalogue.csv"
    path.write_text("earlier")
    with pytest.raises(RuntimeError), whole_file(path) as name:
        with open(name, "w", encoding="utf-8") as half:
            half.write("half")
        raise RuntimeError
    assert path.read_text() == "earlier" and os.listdir(tmp_path) == ["catalogue.csv"]
    with pytest.raises(FileNotFoundError, match="another"), whole_file(tmp_path / "new.csv"):
        raise FileNotFoundError("another")
    assert os.listdir(tmp_path) == ["catalogue.csv"]
    tables.write(catalogue(), path)
    assert path.read_text().startswith("NUMBER,X,Y")
    assert path.stat().st_mode & 0o777 == 0o666 & ~(os.umask(0o22) or os.umask(0o22))


def test_several_files_appear_together(tmp_path):
    one, pipe = str(tmp_path / "one.csv"), str(tmp_path / "pipe.csv")
    os.symlink("/dev/full", pipe)
    for paths in ([one, pipe], [pipe, one]):
        with pytest.raises(OSError, match="No space.*pipe.csv"), whole_files(paths) as names:
            for name in names.values():
                tables.write(catalogue(), name)
        assert os.listdir(tmp_path) == ["pipe.csv"]
    with whole_files([one]) as names:
        tables.write(catalogue(), names[one])
        assert not os.path.exists(one)
    assert sorted(os.listdir(tmp_path)) == ["one.csv", "pipe.csv"]


def test_names_that_no_catalogue_can_have(tmp_path):
    for name in ("catalogue", "catalogue.txt"):
        with pytest.raises(Mistake, match="ends in .fits"):
            tables.write(catalogue(), tmp_path / name)
    with pytest.raises(OSError):
        tables.write(catalogue(), tmp_path / "nowhere" / "catalogue.fits")
    (tmp_path / "folder.csv").mkdir()
    with pytest.raises(Mistake, match="folder"):
        tables.write(catalogue(), tmp_path / "folder.csv")
    longest = tmp_path / ("n" * 250 + ".csv")
    tables.write(catalogue(), longest)
    assert longest.exists()
    with pytest.raises(OSError) as raised:
        regions.write(catalogue(), "/proc/sources.reg")
    assert raised.value.filename == "/proc/sources.reg"


def test_what_is_no_file_stays_what_it_is(tmp_path):
    link, pipe = tmp_path / "catalogue.fits", tmp_path / "pipe.csv"
    link.symlink_to("/dev/null")
    for write in (regions.write, tables.write):
        write(catalogue(), link)
        assert not os.path.isfile("/dev/null") and os.path.exists("/dev/null")
    os.mkfifo(pipe)
    reader = subprocess.Popen(["cat", pipe], stdout=subprocess.PIPE)
    tables.write(catalogue(), pipe)
    assert reader.communicate(timeout=300)[0].startswith(b"NUMBER,X,Y")
    assert sorted(os.listdir(tmp_path)) == ["catalogue.fits", "pipe.csv"]


def test_regions(tmp_path):
    path = tmp_path / "sources.reg"
    regions.write(finishing.finished(catalogue(), header()), path)
    lines = path.read_text().splitlines()
    assert lines[1] == "icrs" and len(lines) == 4
    assert lines[2] == 'ellipse(150.0000000,2.0000000,2.000",1.000",180.0) # text={1}'
    regions.write(catalogue(), path)
    lines = path.read_text().splitlines()
    assert lines[1:3] == ["image", "ellipse(50.500,50.500,4.00,2.00,0.0) # text={1}"]


def test_the_map_has_the_wcs(tmp_path):
    path = tmp_path / "map.fits"
    segments = numpy.arange(12, dtype="i8").reshape(3, 4)
    cards = header(PC1_2=0.1, CD3_3=1.0, A_ORDER=2, A_2_0=1e-5, CRVAL3=5.0, WCSAXES=3, CTYPE3="FREQ")
    one, two = planefiles.Head(cards, "ONE", (3, 4)), planefiles.Head(fits.Header(), "TWO", (1, 4))
    planefiles.made(path, [one], ">i4")[0][...] = segments
    with fits.open(path) as hdus:
        assert hdus[0].data.dtype.kind == "i" and hdus[0].header["BITPIX"] == 32
        assert (hdus[0].data == segments).all()
        assert hdus[0].header["CRVAL1"] == 150.0 and hdus[0].header["A_2_0"] == 1e-5 and hdus[0].header["PC1_2"] == 0.1
        assert not {"BUNIT", "EXPTIME", "CRVAL3", "CTYPE3", "CD3_3"} & set(hdus[0].header)
    for plane, part in zip(planefiles.made(path, [one, two], ">i4"), (segments, segments[:1])):
        plane[...] = part
    with fits.open(path) as hdus:
        assert [hdu.name for hdu in hdus] == ["PRIMARY", "ONE", "TWO"] and (hdus["TWO"].data == segments[:1]).all()
