"""Wide faint sources are found in blocks; halos of large sources aren't, and other sources stay as they were."""
import numpy
import pytest
from astropy.io import fits
from conftest import add_star

import maxdetect
from maxdetect import _cli as cli, photometry

SKY, NOISE, SIDE = 900, 30, 520
DISCS = [(130, 140, 25), (380, 150, 30), (260, 390, 35)]


def add_disc(light, x, y, radius, height):
    rows, columns = numpy.mgrid[: light.shape[0], : light.shape[1]]
    light += height * numpy.exp(-numpy.hypot(columns - x, rows - y) / (radius / 1.678))


def field(discs=DISCS, seed=1):
    """Stars, some of them on discs whose centres have seven tenths of a pixel's noise."""
    rng = numpy.random.default_rng(seed)
    light = numpy.zeros((SIDE, SIDE)) + SKY
    for x, y, radius in discs:
        add_disc(light, x, y, radius, 0.7 * NOISE)
    for x, y in [(60, 60), (135, 150), (300, 100), (450, 450), (100, 400), (400, 300), (260, 200)]:
        add_star(light, x, y, 12000)
    return rng.poisson(light).astype("f4")


def is_wide(table):
    return (numpy.asarray(table["FLAGS"]) & photometry.WIDE) != 0


def test_discs_are_found_besides():
    image = field()
    plain, _ = maxdetect.catalogue(image, gain=1.0)
    table, segments = maxdetect.catalogue(image, gain=1.0, wide=True)
    wide = is_wide(table)
    assert wide.sum() == len(DISCS) and not is_wide(plain).any()
    assert table.meta["NCLEANED"] == plain.meta["NCLEANED"]
    for x, y, radius in DISCS:
        at = numpy.hypot(table["X"][wide] - 1 - x, table["Y"][wide] - 1 - y).argmin()
        row = table[wide][at]
        assert numpy.hypot(row["X"] - 1 - x, row["Y"] - 1 - y) < radius / 2
        assert row["FLUX_AUTO"] / (0.7 * NOISE * 2 * numpy.pi * (radius / 1.678) ** 2) == pytest.approx(1, abs=0.4)
    # All others are what they were, but for their numbers.
    assert all((numpy.asarray(table[name])[~wide] == numpy.asarray(plain[name])).all() for name in plain.colnames[1:])
    assert (numpy.bincount(segments.ravel(), minlength=len(table) + 1)[1:] == table["AREA"]).all()
    assert (numpy.asarray(table["NUMBER"]) == numpy.arange(1, len(table) + 1)).all()


@pytest.mark.parametrize("shape", ((520, 520), (521, 515), (40, 300), (7, 9)))
def test_fields_without_discs_have_next_to_none(shape):
    image = numpy.random.default_rng(4).poisson(numpy.zeros(shape) + SKY).astype("f4")
    table, _ = maxdetect.catalogue(image, gain=1.0, wide=True)
    assert is_wide(table).sum() <= 1


def test_a_halo_is_no_source_of_its_own():
    light = numpy.zeros((SIDE, SIDE)) + SKY
    add_disc(light, 260, 260, 30, 30 * NOISE)
    image = numpy.random.default_rng(5).poisson(light).astype("f4")
    table, _ = maxdetect.catalogue(image, gain=1.0, wide=True)
    assert not is_wide(table).any() and len(table)


def test_tiles_give_what_the_whole_gives():
    image = field(seed=2)
    image[200:210, 50:90] = numpy.nan
    whole, whole_map = maxdetect.catalogue(image, wide=True)
    table, segments = maxdetect.catalogue(image, wide=True, tile=128, workers=2)
    assert is_wide(whole).any() and (segments == whole_map).all()
    for name in whole.colnames:
        assert numpy.asarray(table[name]).tobytes() == numpy.asarray(whole[name]).tobytes(), name


def test_the_command(tmp_path, monkeypatch):
    monkeypatch.chdir(tmp_path)
    fits.writeto("image.fits", field())
    assert cli.main(["image.fits", "--wide", "--map", "map.fits"]) == 0
    table = fits.getdata("image.cat.fits")
    assert ((table["FLAGS"] & photometry.WIDE) != 0).sum() == len(DISCS)
    assert fits.getdata("map.fits").max() == len(table)
