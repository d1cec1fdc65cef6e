"""Several bands in one catalogue, noise and flag maps of what is measured, and check images."""
import os

import numpy
import pytest
from astropy.io import fits
from astropy.table import Table

from maxdetect import _cli as cli


@pytest.fixture
def images(tmp_path, monkeypatch, stars):
    """The star field as image.fits, and a redder band of the same sky as red.fits."""
    monkeypatch.chdir(tmp_path)
    rng = numpy.random.default_rng(3)
    fits.writeto("image.fits", stars[0], fits.Header({"GAIN": 1.0}))
    red = (stars[0] - 900) * 2 + rng.normal(500, 20, stars[0].shape)
    fits.writeto("red.fits", red.astype("f4"), fits.Header({"GAIN": 3.0, "BUNIT": "adu"}))


def made(*words):
    assert cli.main(["image.fits", "-o", "cat.fits", *words]) == 0
    return Table.read("cat.fits", hdu="SOURCES")


def refused(capsys, *words):
    before = sorted(os.listdir("."))
    capsys.readouterr()
    assert cli.main(["image.fits", *words]) == 2
    out, err = capsys.readouterr()
    assert out == "" and err.count("\n") == 1 and sorted(os.listdir(".")) == before
    return err


def test_each_band_as_measured_alone(images):
    plain, alone = made(), made("--measure", "red.fits", "--zeropoint", "27")
    both = made("--band", "r=red.fits", "--band", "g=image.fits", "--zeropoint", "25", "--band-zeropoint", "r=27")
    for name in ("FLUX_TOTAL", "FLUXERR_TOTAL", "FLUX_AUTO", "FLUX_APER", "FLAGS", "MAG_TOTAL", "FLUX_MAX"):
        assert numpy.array_equal(both[f"{name}_r"], alone[name], equal_nan=True), name
    for name in ("FLUX_TOTAL", "FLUXERR_AUTO", "X", "XWIN"):
        assert (both[name] == plain[name]).all()
    assert both["FLUX_ISO_g"] == pytest.approx(numpy.asarray(plain["FLUX_ISO"]), rel=1e-3)
    assert numpy.median(both["FLUX_TOTAL_r"] / both["FLUX_TOTAL"]) == pytest.approx(2, rel=0.02)
    assert numpy.isfinite(both["MAG_TOTAL_g"]).mean() > 0.9 and both["FLUX_TOTAL_r"].unit == "adu"


def test_a_noise_map_of_what_is_measured(images):
    noise = numpy.full((256, 256), 63.2, dtype="f4")
    noise[:, 128:] = 632
    fits.writeto("noise.fits", noise)
    words = ("--measure", "red.fits", "--gain", "1e9")
    plain, mapped = made(*words), made(*words, "--measure-weight", "noise.fits", "--measure-weight-type", "rms")
    assert numpy.asarray(plain["FLUX_APER"]) == pytest.approx(numpy.asarray(mapped["FLUX_APER"]), rel=0.05, abs=400)
    ratio = numpy.asarray(mapped["FLUXERR_APER"] / plain["FLUXERR_APER"])
    left, right = plain["X"] < 120, plain["X"] > 136
    assert ratio[left] == pytest.approx(1, rel=0.15) and ratio[right] == pytest.approx(10, rel=0.15)


def test_bits_of_a_flag_map(images, capsys):
    segments = numpy.zeros((256, 256), dtype="i4")
    made("--map", "map.fits")
    numbers = fits.getdata("map.fits")
    rows, columns = numpy.nonzero(numbers == 3)
    segments[rows[0], columns[0]], segments[rows[-1], columns[-1]] = 2, 8
    fits.writeto("flags.fits", segments)
    table = made("--flag-map", "flags.fits")
    assert table["IMAFLAGS"][2] == 10 and (numpy.delete(table["IMAFLAGS"], 2) == 0).all()
    fits.writeto("odd.fits", numpy.full((256, 256), 0.5, dtype="f4"))
    assert "whole numbers" in refused(capsys, "--flag-map", "odd.fits")


def test_check_images(images):
    table = made("--check", "background,subtracted,rms,apertures")
    shown = {kind: fits.getdata(f"cat.{kind}.fits") for kind in ("background", "subtracted", "rms", "apertures")}
    image = fits.getdata("image.fits")
    assert numpy.abs(shown["background"] - 900).max() <= 15 and numpy.abs(shown["rms"] - 30).max() <= 3
    assert numpy.abs(image - shown["background"] - shown["subtracted"]).max() < 0.01
    drawn = shown["apertures"] != shown["subtracted"]
    assert 20 * len(table) < drawn.sum() < 200 * len(table)
    assert fits.getheader("cat.rms.fits")["CHECK"] == "rms"


def test_bands_that_do_not_go(images, capsys):
    fits.writeto("small.fits", numpy.ones((5, 5), dtype="f4"))
    assert "differ in width" in refused(capsys, "--band", "r=small.fits")
    assert "one name twice" in refused(capsys, "--band", "r=red.fits", "--band", "r=red.fits")
    assert "no --band names" in refused(capsys, "--band-weight", "r=red.fits")
    assert "isn't NAME=FILE" in refused(capsys, "--band", "red.fits")
    assert "isn't among" in refused(capsys, "--check", "objects")
    assert "wants a --measure" in refused(capsys, "--measure-weight", "red.fits")
    assert "can't be written" in refused(capsys, "--band", "r=red.fits", "-o", "red.fits")
