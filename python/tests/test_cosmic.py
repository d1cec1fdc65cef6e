"""Cosmic rays are masked, stars aren't, and sources that touch one are flagged."""
import sys

import numpy
import pytest
from astropy.io import fits
from conftest import add_star

import maxdetect
from maxdetect import _cli as cli, photometry

pytest.importorskip("astroscrappy")


@pytest.fixture(scope="module")
def hit():
    """A field of stars, on one of which a cosmic ray has hit as well as beside them; and where stars and rays are."""
    rng = numpy.random.default_rng(3)
    light = numpy.zeros((200, 220)) + 900
    stars = [(30, 40), (80, 150), (150, 60), (180, 170), (100, 100), (40, 180), (190, 20)]
    for x, y in stars:
        add_star(light, x, y, 20000, width=3.5)
    image = rng.poisson(light).astype("f4")
    rays = [(60, 60), (120, 20), (160, 130), (20, 110)]
    for x, y in rays:
        image[y, x : x + 4] += 3000
    image[150, 83:86] += 4000
    return image, stars, rays


def near(table, places):
    """For each place the number of sources within 3 pixels."""
    x, y = numpy.asarray(table["X"]) - 1, numpy.asarray(table["Y"]) - 1
    return [int((numpy.hypot(x - at[0], y - at[1]) < 3).sum()) for at in places]


def test_rays_are_left_out_and_stars_stay(hit):
    image, stars, rays = hit
    plain, _ = maxdetect.catalogue(image, gain=1.0)
    table, segments = maxdetect.catalogue(image, gain=1.0, cosmic_rays=True)
    assert near(plain, rays) == [1] * len(rays) and near(table, rays) == [0] * len(rays)
    assert near(table, stars) == [1] * len(stars)
    assert 18 <= table.meta["NCOSMIC"] <= 60 and "NCOSMIC" not in plain.meta
    struck = (numpy.asarray(table["FLAGS"]) & photometry.STRUCK) != 0
    assert struck.sum() == 1 and abs(table["X"][struck][0] - 81) < 1.5
    assert not (numpy.asarray(plain["FLAGS"]) & photometry.STRUCK).any()


@pytest.mark.parametrize("gain", (None, 1.0))
def test_tiles_and_saturated_pixels(hit, gain):
    image = hit[0][:120, :170].copy()
    image[58:63, 148:153] = 50000
    image[30, 30:34] = numpy.nan
    options = dict(gain=gain, saturation=40000.0, cosmic_rays=True)
    whole, whole_map = maxdetect.catalogue(image, **options)
    table, segments = maxdetect.catalogue(image, tile=70, **options)
    assert (segments == whole_map).all() and len(table) == len(whole)
    assert all((numpy.asarray(table[name]) == numpy.asarray(whole[name])).all() for name in ("X", "FLUX_ISO", "FLAGS"))
    at = (numpy.hypot(table["X"] - 151, table["Y"] - 61) < 3).argmax()
    assert table["FLAGS"][at] & photometry.SATURATED


def test_another_image_that_is_measured_has_no_rays_of_this_one(hit, tmp_path, monkeypatch):
    monkeypatch.chdir(tmp_path)
    fits.writeto("image.fits", hit[0])
    fits.writeto("other.fits", numpy.where(hit[0] > 3500, 900, hit[0]).astype("f4"))
    assert cli.main(["image.fits", "--cosmic-rays", "--measure", "other.fits"]) == 0
    flags = fits.getdata("image.cat.fits")["FLAGS"]
    assert not (flags & photometry.UNDEFINED).any() and (flags & photometry.STRUCK != 0).sum() == 1


def test_without_astroscrappy_it_is_told_in_a_line(hit, tmp_path, monkeypatch, capfd):
    monkeypatch.chdir(tmp_path)
    fits.writeto("image.fits", hit[0])
    monkeypatch.setitem(sys.modules, "astroscrappy", None)
    assert cli.main(["image.fits", "--cosmic-rays"]) == 2
    told = capfd.readouterr().err
    assert told == "maxcat: --cosmic-rays wants astroscrappy (Debian: python3-astroscrappy)\n"
    assert not (tmp_path / "image.cat.fits").exists()
