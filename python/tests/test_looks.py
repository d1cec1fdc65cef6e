"""How a field is looked at: smoothing, the noise behind it, the threshold and the least area."""
import functools
import math

import numpy
import pytest
from conftest import add_star
from scipy import ndimage

from maxdetect import _fields as fields, _looks as looks, _pointlike as pointlike, scaling, _smoothing as smoothing
from maxdetect._arrays import ArrayPlane


def white(shape=(512, 512), seed=1, noise=1.0):
    return numpy.random.default_rng(seed).normal(0, noise, shape).astype("f4")


@functools.lru_cache(maxsize=None)
def starry(width=3.0, side=512, noise=10.0, seed=2):
    """Twenty-five stars that stand alone, in white noise on a sky of 500. No test changes it."""
    rng, image = numpy.random.default_rng(seed), numpy.full((side, side), 500.0)
    step = side // 5
    for y in range(step // 2, side, step):
        for x in range(step // 2, side, step):
            add_star(image, x + rng.uniform(-5, 5), y + rng.uniform(-5, 5), 400 * noise * width, width)
    image = (image + rng.normal(0, noise, image.shape)).astype("f4")
    image.flags.writeable = False
    return image


def field(image, **settings):
    """A field and its sky."""
    it = fields.Field(ArrayPlane(image), fields.Settings(**settings))
    return it, fields.sky_of(it)


def way(image, **settings):
    return looks.way(*field(image, **settings))


# ---- smoothing


@pytest.mark.parametrize("width", [1.5, 2.6, 6.0])
def test_white_noise_keeps_its_deviation(width):
    many = numpy.stack([smoothing.smoothed(white((40, 50), seed), width) for seed in range(300)])
    spread = many.std(axis=0)
    assert spread.mean() == pytest.approx(1, abs=0.01)
    for edge in (spread[0], spread[-1], spread[:, 0], spread[:, -1]):
        assert edge.mean() == pytest.approx(1, abs=0.03)


def test_noise_beside_undefined_pixels_keeps_its_deviation():
    undefined = numpy.random.default_rng(3).random((40, 50)) < 0.3
    many = []
    for seed in range(400):
        image = white((40, 50), seed)
        image[undefined] = numpy.nan
        many.append(smoothing.smoothed(image, 2.6))
    many = numpy.stack(many)
    assert (numpy.isnan(many) == undefined).all()
    assert many[:, ~undefined].std(axis=0) == pytest.approx(1, abs=0.16)
    assert many[:, ~undefined].std() == pytest.approx(1, abs=0.01)


def test_a_smoothed_image_of_undefined_pixels_is_undefined():
    assert numpy.isnan(smoothing.smoothed(numpy.full((9, 9), numpy.nan, dtype="f4"), 3.0)).all()


@pytest.mark.parametrize("width", [1.5, 3.4, 9.0])
def test_noise_that_is_shared(width):
    one = smoothing.smoothed(white((1, 1)), width)
    assert one == pytest.approx(white((1, 1)))
    spread = math.sqrt(smoothing.correlated(width))
    image = smoothing.smoothed(white((800, 800)), width)
    side = 10 * math.ceil(width)
    blocks = image[: 800 // side * side, : 800 // side * side].reshape(800 // side, side, -1, side)
    # The mean of many pixels varies as that of fewer ones which share nothing.
    assert blocks.mean(axis=(1, 3)).std() * side / spread == pytest.approx(1, abs=0.2)


@pytest.mark.parametrize("smooth", [0.0, 2.6, 7.0])
@pytest.mark.parametrize("undefined", [False, True])
def test_a_window_is_seen_as_the_whole_shows_it(smooth, undefined):
    image = starry(side=300)
    if undefined:
        image = image.copy()
        image[numpy.random.default_rng(4).random(image.shape) < 0.02] = numpy.nan
    it, found = field(image, mesh=32)
    whole = looks.seen(it, found, smooth, slice(0, 300), slice(0, 300))
    assert whole.dtype == numpy.float32 and (numpy.isnan(whole) == numpy.isnan(image)).all()
    for rows, columns in [
        (slice(0, 90), slice(0, 300)),
        (slice(41, 207), slice(3, 170)),
        (slice(150, 151), slice(250, 300)),
    ]:
        part = looks.seen(it, found, smooth, rows, columns)
        assert part.tobytes() == numpy.ascontiguousarray(whole[rows, columns]).tobytes()


# ---- the noise behind it


def noise_behind(image, width):
    return smoothing.noise_behind(lambda rows: smoothing.smoothed(image, width)[rows], len(image), width)


@pytest.mark.parametrize("width", [1.5, 2.6, 5.0])
def test_the_noise_behind_white_noise_is_the_same(width):
    assert noise_behind(white((700, 700)), width) == pytest.approx(1, abs=0.03)


def test_noise_that_pixels_share_is_more_behind():
    shared = ndimage.uniform_filter(white((700, 700), noise=3.0), 2)
    told = noise_behind(shared, 2.6)
    assert told == pytest.approx(smoothing.smoothed(shared, 2.6).std(), rel=0.04) and told > 1.5 * shared.std()


def test_fringes_are_no_noise():
    rows, columns = numpy.mgrid[:700, :700]
    fringes = 0.6 * numpy.sin(2 * numpy.pi * (columns / 73 + numpy.sin(rows / 170)))
    image = (white((700, 700)) + fringes).astype("f4")
    assert noise_behind(image, 2.6) == pytest.approx(1, abs=0.12)
    assert smoothing.smoothed(image, 2.6).std() > 1.5


# ---- the way of a field


def test_the_way_of_a_star_field():
    it = way(starry())
    assert it.points.count == 25 and it.width == it.points.width == pytest.approx(3.0, rel=0.1)
    assert it.smooth == pytest.approx(0.8 * it.width) and it.min_area == max(2, round(0.4 * it.smooth**2))
    assert it.noise == pytest.approx(1, abs=0.05) and it.threshold == scaling.threshold(looks.SMOOTHED)
    assert it.electrons is None
    assert it.meta == {
        "THRESH": 132,
        "MINAREA": it.min_area,
        "SMOOTH": round(it.smooth, 3),
        "FWHM": round(it.width, 3),
        "NPOINT": 25,
    }


def test_settings_come_before_what_the_image_shows():
    it = way(starry(), fwhm=5.0, sigmas=3.0, min_area=7)
    assert (it.smooth, it.width, it.threshold, it.min_area) == (4.0, 5.0, 90, 7)
    assert it.meta["FWHM"] == pytest.approx(3.0, rel=0.1)


def test_without_smoothing():
    it = way(starry(), fwhm=0)
    assert (it.smooth, it.noise, it.threshold, it.min_area) == (0, 1, 68, 5)
    assert it.width == pytest.approx(3.0, rel=0.1) and it.meta["SMOOTH"] == 0


@pytest.mark.parametrize("image", [white((256, 256), noise=4.0), numpy.round(white((60, 9), noise=4.0))])
def test_an_image_with_few_point_sources(image):
    it = way(image)
    assert it.points is None and it.width == 3.0 and it.smooth == pytest.approx(2.4) and it.min_area == 2
    assert not {"FWHM", "NPOINT"} & set(it.meta)


@pytest.mark.parametrize("fwhm, smooth, area", [(1.3, 1.3, 2), (2.1, 2.0, 2), (2.6, 2.08, 2), (4, 3.2, 4), (10, 8, 26)])
def test_the_smoothing_and_the_least_area_follow_the_width(fwhm, smooth, area):
    it = way(white((128, 128)), fwhm=fwhm)
    assert it.smooth == pytest.approx(smooth) and it.min_area == area


def test_an_image_without_noise():
    with pytest.raises(fields.Mistake, match="no noise"):
        way(numpy.zeros((90, 90), dtype="f4"))


def test_noise_that_cannot_be_told_is_that_of_a_pixel():
    it, found = field(white((64, 64)))
    it.plane.array = numpy.full((64, 64), numpy.nan, dtype="f4")
    assert looks._noise_behind(it, found, 2.6) == 1.0


# ---- few electrons


def false_rate(sigmas, smooth, electrons, seed):
    """How often a smoothed sky of so few electrons passes a threshold."""
    mean = electrons**2
    counts = numpy.random.default_rng(seed).poisson(mean, (2000, 2000)).astype("f4")
    image = (counts - numpy.float32(mean)) / numpy.float32(electrons)
    image = smoothing.smoothed(image, smooth) if smooth else image
    return (image > sigmas).mean()


def test_few_electrons_raise_the_threshold_to_the_same_rate():
    electrons = math.sqrt(3)
    assert looks._skewed(4.4, None, 2.6) == looks._skewed(4.4, 0.0, 2.6) == 4.4
    assert looks._skewed(4.4, 1e6, 2.6) == pytest.approx(4.4, abs=1e-4)
    raised = looks._skewed(3.5, electrons, 2.6)
    assert 3.5 < looks._skewed(3.5, electrons, 5.0) < raised < looks._skewed(3.5, electrons, 0)
    wanted = (1 - math.erf(3.5 / math.sqrt(2))) / 2
    plain, corrected = (false_rate(it, 2.6, electrons, 5) for it in (3.5, raised))
    assert plain > 2 * wanted and 0.6 * wanted < corrected < 1.6 * wanted


def test_the_gain_tells_the_electrons():
    image = numpy.random.default_rng(6).poisson(3, (256, 256)).astype("f4")
    plain, counted = way(image), way(image, gain=1.0)
    assert plain.electrons is None and plain.threshold == 132
    assert counted.electrons == pytest.approx(math.sqrt(3), rel=0.05) and 150 < counted.threshold < 175
    assert way(image, gain=100.0).threshold < 134
    assert way(image, gain=1.0, sigmas=4.0).threshold == 120


def test_another_image_that_is_measured_in_changes_nothing():
    image = numpy.random.default_rng(6).poisson(3, (256, 256)).astype("f4")
    for own in ({}, {"own_gain": 1.0, "own_saturation": 90.0}):
        alone = way(image, gain=own.get("own_gain"), saturation=own.get("own_saturation"))
        it, found = field(image, gain=7.0, saturation=3.0, **own)
        it.values = ArrayPlane(2 * image)
        assert looks.way(it, found) == alone


# ---- significance


def test_significance():
    it = looks.Way(0.0, 1.0, 3.0, None, 68, 5, None)
    assert it.significance(0, 0, 0) == 0 and it.significance(9, 9 * 30, 0) == pytest.approx(3)
    shared = looks.Way(2.6, 1.0, 3.0, None, 132, 3, None)
    together = smoothing.correlated(2.6)
    assert shared.significance(4, 4 * 60, 100) == pytest.approx(2)
    assert shared.significance(1000, 1000 * 30, 0) == pytest.approx(math.sqrt(1000 / together))
    counted = looks.Way(0.0, 1.0, 3.0, None, 68, 5, 2.0)
    # Four deviations up a sky of four electrons has eight more: three times the variance.
    assert counted.significance(9, 9 * 30, 120) == pytest.approx(3 / math.sqrt(3))
    assert counted.significance(9, 9 * 30, -50) == pytest.approx(3)


def test_the_windows_in_which_point_sources_are_looked_for():
    most = looks.WINDOWS * looks.SIDE
    assert looks._windows((100, most)) == [(slice(0, 100), slice(0, most))]
    many = looks._windows((5000, 2049))
    assert len(many) == 4 and all(it.stop - it.start == looks.SIDE for pair in many for it in pair)
    assert all(0 <= rows.start and rows.stop <= 5000 and columns.stop <= 2049 for rows, columns in many)


def test_point_sources_hold_a_share_of_their_light():
    points = way(starry()).points
    assert isinstance(points, pointlike.PointSources) and points.share(points.half / 2) == pytest.approx(0.5, abs=0.01)
    assert points.share(numpy.inf) == 1


@pytest.mark.parametrize("shape", ((3, 500), (90, 7), (700, 200)))
def test_sums_down_the_columns(shape):
    image = numpy.random.default_rng(11).normal(0, 1, shape).astype("f4")
    weights = numpy.exp(-0.5 * numpy.arange(-6, 7) ** 2 / 4.0)
    wanted = ndimage.correlate1d(image.astype("f8"), weights, 0, mode="constant")
    assert numpy.allclose(smoothing._down(image, weights), wanted, rtol=0, atol=1e-5)
    assert (smoothing._down(image[1:], weights)[7:-7] == smoothing._down(image, weights)[8:-7]).all()


def test_weights_beside_few_undefined_pixels_are_those_of_many(monkeypatch):
    rng = numpy.random.default_rng(4)
    for shape in [(1, 1), (3, 50), (40, 300), (60, 1100)]:
        image = rng.normal(0, 1, shape).astype("f4")
        image[rng.random(shape) < 0.01] = numpy.nan
        found = []
        for few in (2, -1):
            monkeypatch.setattr(smoothing, "FEW", few)
            found.append(smoothing.smoothed(image, 2.6).tobytes())
        assert found[0] == found[1]
