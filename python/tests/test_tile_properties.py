"""Laws that hold for any image, tried on random ones; the day gives the seed, or the environment's SEED.

25 examples of each are tried, or as many as the environment's EXAMPLES says. tests/compare_tiles.py tries many more of
the first two laws.
"""
import concurrent.futures
import datetime
import importlib.util
import os

import numpy
import pytest
from conftest import EXAMPLES, TOP
from scipy import ndimage

hypothesis = pytest.importorskip("hypothesis", reason="wants hypothesis (Debian: python3-hypothesis)")

from hypothesis import strategies  # noqa: E402

import maxdetect  # noqa: E402
from maxdetect import _detection as detection, _emptycells as emptycells  # noqa: E402
from maxdetect import _tiles as tiles, _windows as windows  # noqa: E402

SEED = int(os.environ.get("SEED") or datetime.date.today().strftime("%Y%m%d"))


@pytest.fixture(scope="module", autouse=True)
def told_seed(request):
    """Prints the seed, whether tests pass or fail."""
    with request.config.pluginmanager.getplugin("capturemanager").global_and_fixture_disabled():
        print(f"\n{__file__}: SEED={SEED}")


def law(*drawn, examples=EXAMPLES, **named):
    """A test of so many examples with the seed of the day."""
    settings = hypothesis.settings(max_examples=examples, deadline=None, database=None, print_blob=True)
    return lambda test: hypothesis.seed(SEED)(settings(hypothesis.given(*drawn, **named)(test)))


def comparison():
    """The comparison of tiles, as a module."""
    spec = importlib.util.spec_from_file_location("compare_tiles", TOP / "tests" / "compare_tiles.py")
    module = importlib.util.module_from_spec(spec)
    spec.loader.exec_module(module)
    return module


random_tiles = comparison()


@law(strategies.integers(0, 2**32))
def test_tiles_are_the_whole(number):
    with pytest.MonkeyPatch.context() as kept:
        # The comparison sets them.
        kept.setattr(tiles, "MARGIN", tiles.MARGIN)
        kept.setattr(windows, "MOST_AGAIN", windows.MOST_AGAIN)
        with concurrent.futures.ThreadPoolExecutor(2) as pool:
            assert random_tiles.compared(SEED, number, (random_tiles.InTurn(), pool)) is None


@law(strategies.integers(0, 2**32))
def test_windows_of_maxcat_are_the_whole(number):
    with pytest.MonkeyPatch.context() as kept:
        kept.setattr(windows, "MOST_AGAIN", windows.MOST_AGAIN)
        assert random_tiles.compared_windows(SEED, number) is None


def whole_cells(number):
    """An image of whole cells, none of them without a defined pixel, with a threshold and settings."""
    image, threshold, *_, options = random_tiles.case(SEED, number)
    mesh = options["mesh"] or 1
    image = image[: len(image) // mesh * mesh, : image.shape[1] // mesh * mesh]
    if not image.size or emptycells.number_of(image, None, options["mesh"]) is not None:
        image = numpy.arange(64 * mesh * mesh).reshape(8 * mesh, 8 * mesh) % 11
    return numpy.ma.MaskedArray(image), threshold, options


def rows_within(image, threshold, options, box):
    """The rows of the sources whose components lie in a box, without their numbers, in the box's columns and rows."""
    table, _ = maxdetect.detect(image, threshold, **options)
    above = maxdetect.filter(image, "direct", mesh=options["mesh"], flat=options["flat"]) >= threshold
    labels, _ = ndimage.label(above.filled(False), numpy.ones((3, 3)) if options["connect"] == 8 else None)
    holds = [box.holds(windows.Box(y.start, y.stop, x.start, x.stop)) for y, x in ndimage.find_objects(labels)]
    held = numpy.array([False, *holds])[labels[table["YFIRST"] - 1, table["XFIRST"] - 1]]
    return sorted(tuple(row)[1:] for row in windows.moved(table[held], -box.left, -box.top))


@law(strategies.integers(0, 2**32), strategies.integers(0, 3), strategies.integers(0, 3))
def test_an_image_moved_by_cells(number, down, across):
    image, threshold, options = whole_cells(number)
    mesh, (height, width) = options["mesh"] or 1, image.shape
    top, left = min(down * mesh, height - mesh), min(across * mesh, width - mesh)
    # From here on a smooth background is the image's, and so are the neighbours.
    within = 1 + (3 * mesh // 2 if options["mesh"] and not options["flat"] else 0)
    there = windows.Box(top + within * (top > 0), height, left + within * (left > 0), width)
    seen = windows.Box(there.top - top, there.bottom - top, there.left - left, there.right - left)
    moved = rows_within(image[top:, left:], threshold, options, seen)
    assert moved == rows_within(image, threshold, options, there)


def turned_rows(image, threshold, options, turn):
    """What a turn leaves of the sources as it is, and the pixels of each, in the image before the turn."""
    table, segments = maxdetect.detect(turn(image), threshold, **options)
    places = turn(numpy.arange(image.size).reshape(image.shape))
    kept = [table[name].tolist() for name in ("LEVEL", "BASE", "AREA", "FLUX", "PEAK")]
    return sorted(
        (*values, *sorted(places[segments == number].tolist())) for number, *values in zip(table["NUMBER"], *kept)
    )


@law(strategies.integers(0, 2**32))
def test_an_image_turned(number):
    image, threshold, options = whole_cells(number)
    rows = turned_rows(image, threshold, options, lambda it: it)
    for turn in (numpy.transpose, numpy.flipud, numpy.fliplr, numpy.rot90):
        assert turned_rows(image, threshold, options, turn) == rows


# ---- the package's whole way


def are_the_same(first, second, but=()):
    """Two tables, and two maps, to the byte."""
    (table, segments), (other, its_map) = first, second
    assert table.colnames == other.colnames and len(table) == len(other)
    for name in set(table.colnames) - set(but):
        assert table[name].dtype == other[name].dtype and table[name].tobytes() == other[name].tobytes(), name
    assert (segments == its_map).all()


def fields(rng):
    """An image with stars and hills on a sky, of 32-bit numbers with some NaN, and its settings."""
    shape = tuple(int(side) for side in rng.integers(20, 110, 2))
    light = numpy.zeros(shape)
    light[rng.integers(0, shape[0], 60), rng.integers(0, shape[1], 60)] = 10 ** rng.uniform(2, 4.5, 60)
    image = rng.uniform(0, 1000) + 20 * ndimage.gaussian_filter(light, 1.2) + ndimage.gaussian_filter(light, 6)
    image = (image + rng.normal(0, rng.uniform(0.5, 30), shape)).astype("f4")
    image[rng.random(shape) < rng.choice([0, 0, 0.02])] = numpy.nan
    if rng.random() < 0.3:
        image[int(rng.integers(shape[0])) :][: int(rng.integers(1, 40))] = numpy.nan
    settings = dict(
        mesh=int(rng.choice([0, 8, 16, 32])), clean=bool(rng.integers(2)), rms=str(rng.choice(["even", "local"]))
    )
    settings.update(sigmas=float(rng.uniform(1.2, 6)), min_area=int(rng.integers(1, 7)))
    # Most fields have too few point sources to tell their width.
    settings.update(fwhm=(None, 0, 1.3, 3.0, 6.0)[rng.integers(5)], split_sigmas=(0, 2, 5)[rng.integers(3)])
    settings.update(contrast=(None, None, 0, 5, 100)[rng.integers(5)])
    return image, settings


def catalogue_or_none(image, **settings):
    """The catalogue and the map, None where the image has no noise."""
    try:
        return maxdetect.catalogue(image, **settings)
    except maxdetect.Mistake:
        return None


@law(strategies.integers(0, 2**32))
def test_columns_are_the_same_for_all_tiles_and_workers(number):
    rng = numpy.random.default_rng([SEED, number])
    image, settings = fields(rng)
    whole = catalogue_or_none(image, **settings)
    cut = dict(tile=int(rng.integers(16, 100)), workers=int(rng.integers(1, 4)))
    with concurrent.futures.ThreadPoolExecutor(cut["workers"]) as pool:
        found = catalogue_or_none(image, executor=pool, **cut, **settings)
    assert (whole is None) == (found is None)
    if whole is not None:
        are_the_same(whole, found)


def plane(array):
    return maxdetect._arrays.ArrayPlane(array)


@law(strategies.integers(0, 2**32))
def test_rms_variance_and_weights_tell_the_same(number):
    rng = numpy.random.default_rng([SEED, number])
    image, settings = fields(rng)
    settings.pop("rms")
    # Powers of two, so that squares, roots and reciprocals are exact.
    noise = 2.0 ** rng.integers(-2, 5) * numpy.where(numpy.arange(image.shape[1]) < rng.integers(1, 150), 1, 2)
    noise = (noise + numpy.zeros(image.shape)).astype("f4")
    found = []
    for kind, weights in (
        ("rms", noise),
        ("variance", noise**2),
        ("weight", noise**-2),
        ("weight", 4 * noise**-2),
    ):
        field = detection.Field(
            plane(image), detection.Settings(weight_type=kind, **settings), weights=plane(weights.astype("f4"))
        )
        segments = numpy.zeros(image.shape, dtype="i4")
        try:
            found.append((detection.sources(field, segments=segments), segments))
        except maxdetect.Mistake:
            found.append(None)
    for first, second in (found[:2], found[2:]):
        assert (first is None) == (second is None)
        if first is not None:
            are_the_same(first, second)


@law(strategies.integers(0, 2**32))
def test_other_units_change_the_fluxes_alone(number):
    rng = numpy.random.default_rng([SEED, number])
    image, settings = fields(rng)
    times = numpy.float32(2.0 ** rng.integers(-30, 31))
    found, other = (catalogue_or_none(it, **settings) for it in (image, image * times))
    assert (found is None) == (other is None)
    if found is None:
        return
    for name in found[0].colnames:
        if name in ("BACKGROUND", "THRESHOLD") or name.startswith("FLUX") and name not in ("FLUX", "FLUX_RADIUS"):
            found[0][name] = found[0][name] * float(times)
    are_the_same(found, other)
