"""The photometry of a field's sources is the same however the field is cut."""
import concurrent.futures

import numpy
import pytest
from scipy import ndimage

import maxdetect
from maxdetect import _detection as detection, _measuring as measuring
from maxdetect._arrays import ArrayPlane


@pytest.fixture(scope="module")
def crowd():
    """Stars with wide wings, a galaxy, a nebula, and rows without a value, on a sky with a slope and a step."""
    rng, shape = numpy.random.default_rng(11), (220, 200)
    light = numpy.zeros(shape)
    light[rng.integers(0, 220, 270), rng.integers(0, 200, 270)] = 10 ** rng.uniform(2.5, 4.5, 270)
    rows, columns = numpy.indices(shape)
    image = 900 + 3 * ndimage.gaussian_filter(light, 1.5) + ndimage.gaussian_filter(light, 9) + columns / 10
    image += 400 * numpy.exp(-numpy.hypot(rows - 110, columns - 100) / 8)
    image = rng.poisson(image).astype("f4")
    image[150:156] = numpy.nan
    image[:, 120:] += 5
    return image


def are_the_same(first, second):
    (table, segments), (other, its_map) = first, second
    assert table.colnames == other.colnames and len(table) == len(other)
    for name in table.colnames:
        assert table[name].dtype == other[name].dtype, name
        assert numpy.asarray(table[name]).tobytes() == numpy.asarray(other[name]).tobytes(), name
    assert (segments == its_map).all()


WAYS = [
    {},
    {"mesh": 0},
    {"fwhm": 0, "gain": 2.0},
    {"fwhm": 5.0, "clean": False},
    {"contrast": 5},
    {"rms": "local", "mesh": 32},
]


@pytest.mark.parametrize("settings", [*WAYS, {"noise": numpy.linspace(28, 34, 200) + numpy.zeros((220, 200))}])
def test_all_columns_are_the_same_for_all_tiles(crowd, settings):
    whole = maxdetect.catalogue(crowd, **settings)
    assert len(whole[0]) > 80
    are_the_same(whole, maxdetect.catalogue(crowd, tile=128, **settings))
    with concurrent.futures.ThreadPoolExecutor(3) as pool:
        are_the_same(whole, maxdetect.catalogue(crowd, tile=110, executor=pool, **settings))


def test_all_columns_are_the_same_for_all_workers(crowd):
    whole = maxdetect.catalogue(crowd)
    are_the_same(whole, maxdetect.catalogue(crowd, workers=3))
    with concurrent.futures.ProcessPoolExecutor(2) as pool:
        are_the_same(whole, maxdetect.catalogue(crowd, tile=128, executor=pool))


def test_blocks_hold_all_that_is_looked_at(crowd, monkeypatch):
    whole, _ = maxdetect.catalogue(crowd, mesh=32)
    monkeypatch.setattr(measuring, "BLOCK", 48)
    monkeypatch.setattr(measuring, "REACH", 10)
    found, _ = maxdetect.catalogue(crowd, mesh=32)
    assert (whole["FLAGS"] == found["FLAGS"]).all()
    # Which parts of a pixel a circle holds, by its centre, may hang on a place's last digit.
    for name in ("FLUX_ISO", "FLUX_AUTO", "FLUX_TOTAL", "FLUX_APER", "FLUXERR_AUTO", "KRON_RADIUS", "FWHM"):
        assert whole[name] == pytest.approx(found[name], rel=2e-4, nan_ok=True), name


def stars(wide, seed, fluxes, sky=500.0):
    """A field of stars alone, of Gaussians so many pixels wide, in electrons, and their places."""
    light, places = numpy.zeros((400, 400)), numpy.arange(40, 380, 40)
    light[numpy.repeat(places, len(places)), numpy.tile(places, len(places))] = fluxes
    return numpy.random.default_rng(seed).poisson(sky + ndimage.gaussian_filter(light, wide)).astype("f4")


def sources_in(image, other=None):
    """What is found in an image, measured in another one."""
    values = None if other is None else ArrayPlane(other)
    return detection.sources(detection.Field(ArrayPlane(image), detection.Settings(gain=1.0), values=values))


def test_total_fluxes_are_whole_in_each_image():
    """In a second image the stars are wider, which its own point sources tell."""
    fluxes = numpy.random.default_rng(8).uniform(1e5, 5e5, 81)
    one, two = stars(1.5, 9, fluxes), stars(2.5, 10, fluxes / 2)
    for table, expected in ((sources_in(one), fluxes), (sources_in(one, two), fluxes / 2)):
        assert len(table) == 81 and table.meta["GROWTH"] is True
        total = numpy.asarray(table["FLUX_TOTAL"])[numpy.lexsort((table["X"].round(-1), table["Y"].round(-1)))]
        assert numpy.median(total / expected) == pytest.approx(1, abs=0.006)
        assert numpy.std((total - expected) / numpy.asarray(table["FLUXERR_TOTAL"])) < 3


@pytest.mark.parametrize("level", [500.0, numpy.nan])
def test_too_few_point_sources_are_told(level):
    fluxes = numpy.random.default_rng(8).uniform(2e4, 1e5, 81)
    one = stars(1.5, 9, fluxes)
    few = one[:80, :80]
    empty = numpy.random.default_rng(10).normal(level, 20, one.shape)
    for table in (sources_in(few), sources_in(one, empty)):
        assert len(table) and table.meta["GROWTH"] is False
        assert numpy.array_equal(table["FLUX_TOTAL"], table["FLUX_AUTO"], equal_nan=True)
        assert numpy.array_equal(table["FLUXERR_TOTAL"], table["FLUXERR_AUTO"], equal_nan=True)
