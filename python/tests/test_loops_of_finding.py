"""The loops in C with which sources are found give what numpy gives, to the last bit."""
import numpy
import pytest
from scipy import ndimage

import maxdetect
from maxdetect import (
    _boxes as boxes,
    _cleaning as cleaning,
    _kernel as kernel,
    _loops as loops,
    _pieces as pieces,
    scaling,
    _smoothing as smoothing,
)

pytestmark = pytest.mark.skipif(not loops.library(), reason="scripts/loops has compiled no library")
THRESHOLD = 40
SHAPES = [(1, 1), (1, 700), (90, 1), (2, 3), (5, 5), (40, 300), (67, 523), (140, 256)]


def same(one, other):
    """Arrays have the same type and the same bits; NaN stands for NaN."""
    return one.dtype == other.dtype and numpy.array_equal(one, other, equal_nan=one.dtype.kind == "f")


# ---- smoothing


def uneven(shape, seed):
    """Numbers of all sizes."""
    rng = numpy.random.default_rng(seed)
    return (rng.normal(0, 1, shape) * 10.0 ** rng.integers(-6, 7, shape)).astype("f4")


@pytest.mark.parametrize("shape", SHAPES)
@pytest.mark.parametrize("width", [0.3, 1.5, 3.4, 12.0, 40.0])
def test_smoothing(both, shape, width):
    for part in (0, 0.001, 0.05, 0.6, 1):
        image = uneven(shape, 3)
        rng = numpy.random.default_rng(5)
        for value in (numpy.nan, numpy.inf, -numpy.inf):
            image[rng.random(shape) < part / 3] = value
        assert same(*both(smoothing.smoothed, image, width))


def test_smoothing_undefined_pixels_at_edges_and_corners(both):
    for rows, columns in [
        (0, 0),
        (-1, -1),
        (0, slice(None)),
        (slice(None), -1),
        (slice(3, 30), slice(250, 262)),
        (7, 256),
    ]:
        image = uneven((50, 517), 4)
        image[rows, columns] = numpy.nan
        found = both(smoothing.smoothed, image, 2.6)
        assert same(*found) and (numpy.isnan(found[0]) == numpy.isnan(image)).all()


def test_smoothing_the_greatest_numbers(both):
    image = numpy.full((30, 40), numpy.finfo("f4").max, dtype="f4")
    image[:, ::3] *= -1
    image[4:9, 5:9] = numpy.nan
    assert same(*both(smoothing.smoothed, image, 3.0))
    assert same(*both(smoothing.smoothed, numpy.full((30, 40), -0.0, dtype="f4"), 3.0))


def test_smoothing_arrays_that_do_not_stand_row_by_row(both):
    image = uneven((300, 90), 6)
    image[7, 7] = numpy.nan
    assert same(*both(smoothing.smoothed, image.T, 2.6))
    assert same(*both(smoothing.smoothed, image[::2, 5:61:3], 2.6))
    assert same(*both(smoothing.smoothed, image.astype("f8"), 2.6))


@pytest.mark.parametrize("shape", SHAPES)
def test_smoothing_a_window_alone(both, shape):
    image, rng = uneven(shape, 7), numpy.random.default_rng(8)
    image[rng.random(shape) < 0.01] = numpy.nan
    for _ in range(10):
        inner = tuple(slice(*sorted(rng.integers(0, side + 1, 2).tolist())) for side in shape)
        one, other = both(smoothing.smoothed, image, 2.6, inner)
        assert same(one, other) and same(one, smoothing.smoothed(image, 2.6)[inner]) and one.flags.c_contiguous


# ---- whole numbers


@pytest.mark.parametrize("times", [30.24, 1.0, 1e20, 1e-30])
def test_whole_numbers(both, times):
    scaled = uneven((61, 173), 7) * numpy.float32(1e4)
    odd = [
        numpy.nan,
        numpy.inf,
        -numpy.inf,
        3e38,
        -3e38,
        -0.0,
        0.5,
        1.5,
        2.5,
        -2.5,
        8388607.5,
        2.0**29,
        -(2.0**29) - 64,
    ]
    scaled.ravel()[numpy.random.default_rng(8).choice(scaled.size, 50 * len(odd), replace=False)] = 50 * odd

    def put():
        numbers = numpy.full(scaled.shape, 7, dtype=">i4")
        scaling.put_whole_numbers(numbers, scaled.copy(), times)
        return numbers

    found = both(put)
    assert same(*found) and (found[0].astype("i8")[~numpy.isfinite(scaled)] == kernel.LEAST).all()


def test_no_whole_numbers(both):
    numbers = numpy.zeros((0, 5), dtype=">i4")
    both(scaling.put_whole_numbers, numbers, numpy.zeros((0, 5), dtype="f4"), 30.0)


# ---- boxes


@pytest.mark.parametrize("shape", SHAPES)
@pytest.mark.parametrize("half", [0, 1, 15, 120])
def test_boxes(both, shape, half):
    rng = numpy.random.default_rng(half)
    image, chosen = rng.integers(-(2**31), 2**31, shape, dtype="i4"), rng.random(shape) < 0.7
    for count in (0, 1, shape[0] * shape[1] // 3):
        rows, columns = numpy.divmod(numpy.sort(rng.choice(image.size, count, replace=False)), shape[1])
        for one, other in zip(*both(boxes.around, image, chosen, half, rows, columns)):
            assert same(one, other)
    beside = both(boxes.around, image[:, ::-1].astype(">i4"), chosen[:, ::-1], half, rows, columns)
    assert all(same(*them) for them in zip(*beside))


def test_boxes_are_those_of_the_image():
    rng = numpy.random.default_rng(4)
    image, chosen = rng.integers(-(2**31), 2**31, (70, 90), dtype="i4"), rng.random((70, 90)) < 0.7
    pixels, totals = boxes.around(image, chosen, 9, numpy.array([0, 0, 33, 69]), numpy.array([0, 89, 40, 5]))
    seen = [(slice(0, 10), slice(0, 10)), (slice(0, 10), slice(80, 90)), (slice(24, 43), slice(31, 50))]
    seen.append((slice(60, 70), slice(0, 15)))
    assert pixels.tolist() == [chosen[it].sum() for it in seen]
    assert totals.tolist() == [numpy.where(chosen, image.astype("i8"), 0)[it].sum() for it in seen]


# ---- pieces


def hilly(shape, seed):
    """Hills that touch, with noise of 30 on them, in places undefined."""
    rng, image = numpy.random.default_rng(seed), numpy.zeros(shape)
    for _ in range(max(1, image.size // 250)):
        image[rng.integers(0, shape[0]), rng.integers(0, shape[1])] = 10 ** rng.uniform(3, 4.5)
    image = ndimage.gaussian_filter(image, rng.uniform(1.2, 3)) + rng.normal(0, 30, shape)
    image = numpy.rint(image).astype("i4")
    if seed % 2:
        image[rng.random(shape) < 0.02] = kernel.LEAST
    return image


def seen(numbers, threshold=THRESHOLD):
    return kernel.detect_stored(numbers, threshold, mesh=0, min_area=3, contrast=0, connect=8)


def light(area, flux, level):
    return flux / 30 / area**0.5 if area else 0.0


@pytest.mark.parametrize("shape", SHAPES)
@pytest.mark.parametrize("seed", [1, 2])
def test_pixels_of_the_threshold_set(both, shape, seed):
    numbers = hilly(shape, seed)
    # All pixels, some and none.
    for threshold in (-(2**31), -40, THRESHOLD, 2**31):
        labels = numpy.random.default_rng(seed).integers(0, 4, shape, dtype="i4")

        def made():
            its = pieces._Pixels(numbers, labels, threshold)
            found = [its.places, its.values, its.labels.copy(), numpy.array(its.count)]
            pieces._share_out(its)
            met = numpy.concatenate([numpy.zeros((3, 0), dtype="i8"), *its.met()], axis=1)
            return [*found, its.labels, met[:, numpy.lexsort(met)], *pieces._meetings(its)]

        for one, other in zip(*both(made)):
            assert same(one, other)


@pytest.mark.parametrize("sources", [0, 1, 60])
def test_few_sources_share_all_pixels(both, sources):
    """Some are asked for far from each other, and some are given to a source behind others that were."""
    numbers, labels = hilly((167, 83), 2), numpy.zeros((167, 83), dtype="i4")
    labels.ravel()[numpy.random.default_rng(3).choice(labels.size, sources)] = numpy.arange(1, sources + 1)
    for threshold in (-(2**31), -10, 60):

        def made():
            its = pieces._Pixels(numbers, labels, threshold)
            pieces._share_out(its)
            return its.labels

        one, other = both(made)
        assert same(one, other) and (one != 0).any() <= (sources != 0)


def test_touching_pixels_some_at_a_time(both, monkeypatch):
    numbers = hilly((67, 83), 2)
    its = pieces._Pixels(numbers, numpy.random.default_rng(3).integers(0, 60, numbers.shape, dtype="i4"), 0)
    found = [*both(pieces._meetings, its)]
    monkeypatch.setattr(pieces, "CACHED", 50)
    found += both(pieces._meetings, its)
    assert len(found[0].ones) > 900 and all(same(*them) for it in found for them in zip(it, found[0]))


def rows_of(catalogue):
    return [numpy.asarray(catalogue[name]) for name in catalogue.colnames]


@pytest.mark.parametrize("shape", SHAPES)
@pytest.mark.parametrize("seed", [1, 2, 3])
@pytest.mark.parametrize("dtype", ["i4", ">i4"])
def test_sources_and_which_of_them_stay(both, shape, seed, dtype):
    numbers = hilly(shape, seed).astype(dtype)
    catalogue, segments = seen(numbers)

    def made(least):
        parts = pieces.sources(numbers, catalogue, segments.astype(dtype), THRESHOLD, light, least, 40.0)
        how = (numbers, parts, THRESHOLD, 3, 3.2)
        kept = cleaning.kept(*how), cleaning.kept(*how, lambda light: 1 + light / 30)
        return [*parts[1:], *rows_of(parts.catalogue), *kept]

    for least in (0, 6.0):
        assert all(same(*them) for them in zip(*both(made, least)))


def test_sources_on_halos(both):
    """Some are peaks of noise on the light of their own component."""
    rows, columns = numpy.mgrid[:300, :300] - 150
    numbers = hilly((300, 300), 2) + numpy.rint(150 * numpy.exp(-(rows**2 + columns**2) / 8e3)).astype("i4")
    catalogue, segments = seen(numbers)
    parts = pieces.sources(numbers, catalogue, segments, THRESHOLD, light, 3.0, 40.0)
    kept, its = both(cleaning.kept, numbers, parts, THRESHOLD, 3, 3.2)
    assert same(kept, its) and 0 < kept.sum() < len(kept)


@pytest.mark.parametrize("threshold", [-(2**31), -7, 40, 2**31 - 1, 2**40])
def test_pixels_beside_components(both, threshold):
    numbers = numpy.random.default_rng(4).integers(-60, 90, (40, 61), dtype="i4")
    numbers[3:5], numbers[7, :9], numbers[9, :9] = kernel.LEAST, 2**31 - 1, 1 - 2**31
    none = numpy.zeros(0, dtype="i4")
    parts = pieces.Parts(None, numpy.array([70, 71, 1200]), none, numpy.array([True, False, True]), none)

    def made():
        bands = cleaning._Bands(numbers, parts)
        return bands.beside(slice(0, 40), bands.values(slice(0, 40)), threshold)

    assert same(*both(made))


@pytest.mark.parametrize("width", [1, 61])
@pytest.mark.parametrize("part", [0, 0.1, 1])
def test_pixels_near_those_of_sources(both, width, part):
    rng = numpy.random.default_rng(5)
    numbers, none = numpy.zeros((60, width), dtype="i4"), numpy.zeros(0, dtype="i4")
    places = numpy.flatnonzero(rng.random(numbers.shape) < part)
    parts = pieces.Parts(None, places, none, rng.random(len(places)) < 0.5, none)

    def made():
        bands = cleaning._Bands(numbers, parts)
        near = [bands.near(slice(20, 31), reach, shown) for reach in (1, 2, 40) for shown in (True, False)]
        return [*near, *bands.shown(slice(0, len(places))), *bands.shown(slice(len(places) // 3, len(places) // 2))]

    assert all(same(*them) for them in zip(*both(made)))


@pytest.mark.parametrize("least", [1, 3, 40])
def test_pixels_away_from_sources(both, least):
    """Of components that have so many; others may have none."""
    rng, numbers = numpy.random.default_rng(least), numpy.zeros((300, 61), dtype="i4")
    for part in (0, 0.01, 0.5, 1):
        places = numpy.flatnonzero(rng.random(numbers.shape) < part)
        owners, components = (places // 700 + 1).astype("i4"), numpy.arange(28) // 3
        parts = pieces.Parts(None, places, owners, rng.random(len(places)) < (part == 1) * 0.03, components)

        def made():
            away = cleaning._Bands(numbers, parts).away(least)
            of = components[owners]
            many = numpy.bincount(of[away], minlength=28) >= least
            return away & many[of]

        one, other = both(made)
        assert same(one, other) and one.any() == (part > (0.01 if least > 3 else 0))


# ---- all of it


@pytest.mark.parametrize("options", [{}, {"tile": 120}, {"fwhm": 0}, {"fwhm": 9.0}, {"noise": True}, {"clean": False}])
def test_a_catalogue_is_the_same(both, stars, options):
    image = stars[0].copy()
    image[numpy.random.default_rng(1).random(image.shape) < 0.001] = numpy.nan
    image[100:120, 60:64], image[200:203, :] = numpy.inf, numpy.nan
    if options.get("noise"):
        options = {"noise": numpy.where(numpy.isfinite(image), 30 + numpy.arange(256) / 10, numpy.nan)}
    one, other = both(lambda: maxdetect.catalogue(image, **options))
    assert len(one[0]) and (one[1] == other[1]).all() and one[0].meta == other[0].meta
    for name in one[0].colnames:
        assert numpy.asarray(one[0][name]).tobytes() == numpy.asarray(other[0][name]).tobytes(), name
