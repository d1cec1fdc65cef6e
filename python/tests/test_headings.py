"""What a catalogue's header says, and what the primary header says for its extensions."""
import re

import pytest
from astropy.io import fits
from astropy.table import Table

from maxdetect import _cli as cli, _headings as headings


@pytest.fixture
def mosaic(tmp_path, monkeypatch, stars):
    """A file of two CCDs whose primary header has GAIN and SATURATE; the second has a GAIN of its own."""
    monkeypatch.chdir(tmp_path)
    primary = fits.PrimaryHDU(header=fits.Header({"GAIN": 2.0, "SATURATE": 3000.0, "FILTER": "r", "EXPTIME": 60.0}))
    ccds = [fits.ImageHDU(stars[0], fits.Header(cards), name=name) for name, cards in (("A", {}), ("B", {"GAIN": 1.0}))]
    fits.HDUList([primary, *ccds]).writeto("mosaic.fits")
    return tmp_path


def made(*words):
    assert cli.main(["mosaic.fits", "-o", "cat.fits", *words]) == 0
    return Table.read("cat.fits", hdu="SOURCES")


def test_the_primary_header_counts_for_its_extensions(mosaic, capsys):
    found, asked = made("--hdu", "A"), made("--hdu", "A", "--gain", "2", "--saturation", "3000")
    told = "mosaic.fits: GAIN and SATURATE of the primary header count for its extensions"
    assert capsys.readouterr().err == f"maxcat: {told}\n"
    assert (found["FLUXERR_AUTO"] == asked["FLUXERR_AUTO"]).all() and (found["FLAGS"] == asked["FLAGS"]).all()
    assert (found["FLAGS"] & 4).any() and found.meta["GAIN"] == 2 and found.meta["SATURATE"] == 3000
    assert made("--hdu", "B").meta["GAIN"] == 1
    fits.setval("mosaic.fits", "INHERIT", value=False, ext=1)
    assert "GAIN" not in made("--hdu", "A").meta


def test_numbers_and_labels_are_unique_over_ccds(mosaic):
    table = made("--hdu", "all", "--map", "map.fits", "--regions", "all.reg")
    assert table["NUMBER"].tolist() == list(range(1, len(table) + 1))
    labels = re.findall(r"text={(.*)}", open("all.reg").read())
    assert labels == [f"{row['EXTENSION']}:{row['NUMBER']}" for row in table]
    with fits.open("map.fits") as maps:
        for row in table:
            assert maps[row["EXTENSION"]].data[row["YFIRST"] - 1, row["XFIRST"] - 1] == row["NUMBER"]


def test_the_header_says_what_was_used_for_each_ccd(mosaic):
    cards = made("--hdu", "all", "--zeropoint", "25").meta
    assert (cards["HDU1"], cards["HDU2"], cards["GAIN1"], cards["GAIN2"]) == ("A", "B", 2, 1)
    assert (cards["SATURATE"], cards["ZEROPNT"], cards["FILTER"], cards["EXPTIME"]) == (3000, 25, "r", 60)
    assert cards["SIGMA"] == pytest.approx(30, rel=0.1) and cards["FWHM"] == pytest.approx(3.2, abs=0.3)
    assert cards["OPTIONS"] == "mosaic.fits -o cat.fits --hdu all --zeropoint 25" and cards["IMAGE"] == "mosaic.fits"
    assert cards["VERSION"].startswith("maxcat ")


def test_cards_of_several_images():
    told = [{"GAIN": 1.0, "DATE-OBS": "one", "X": 1}, {"GAIN": 2.0, "X": 1, "SATURATE": 9}]
    assert headings.joined(told) == {"X": 1, "GAIN1": 1.0, "GAIN2": 2.0, "DATE1": "one", "SATUR2": 9}
    assert headings.plain("a\u00e9\nb") == "a??b"
