"""Rows of nodes that are made here are those of the program."""
import numpy
import pytest
from scipy import ndimage

from maxdetect import _kernel as kernel, _nodes as nodes


def image_of(seed, shape=(60, 70)):
    """Hills and noise of 32-bit numbers, in places undefined."""
    rng = numpy.random.default_rng(seed)
    image = ndimage.gaussian_filter(rng.normal(0, 1, shape), rng.uniform(0.5, 3))
    image = numpy.rint(image / image.std() * rng.uniform(3, 3000)).astype("i4")
    if seed % 3 == 0:
        image[rng.random(shape) < 0.05] = kernel.LEAST
    return image


def rows(image, labels, wanted, bases):
    """The rows of some labels' nodes, and a map of them alone."""
    at = numpy.flatnonzero(numpy.isin(labels, wanted))
    of = numpy.searchsorted(wanted, labels.ravel()[at])
    pixels, order = nodes.of_places(at, image.ravel()[at], of, len(wanted), image.shape)
    found, inside = nodes.rows(wanted, pixels, nodes.bases_of(image, pixels, bases))
    whole = numpy.zeros_like(labels)
    whole.ravel()[at[order][inside]] = wanted[of[order][inside]]
    return found, whole


@pytest.mark.parametrize("seed", range(24))
def test_rows_are_the_programs(seed):
    """Each source of the program, made anew from its own pixels, has the program's row in every column."""
    image = image_of(seed)
    defined = image[image != kernel.LEAST]
    threshold = int(numpy.quantile(defined, 0.4 + 0.02 * seed))
    options = dict(min_area=1 + seed % 4, contrast=(0, 20, 1000)[seed % 3], connect=8)
    catalogue, segments = kernel.detect_stored(image, threshold, mesh=0, **options)
    assert len(catalogue)
    wanted = numpy.arange(1, len(catalogue) + 1)
    found, whole = rows(image, segments, wanted, catalogue["BASE"].tolist())
    assert found.colnames == catalogue.colnames and (whole == segments).all()
    for name in catalogue.colnames:
        assert found[name].dtype.itemsize == catalogue[name].dtype.itemsize, name
        assert (found[name] == catalogue[name]).all(), name


@pytest.mark.parametrize("seed", range(12))
def test_the_base_of_a_whole_component_is_found(seed):
    image = image_of(seed)
    threshold = int(numpy.quantile(image[image != kernel.LEAST], 0.8))
    catalogue, segments = kernel.detect_stored(image, threshold, mesh=0, min_area=2, contrast=1000, connect=8)
    wanted = numpy.arange(1, len(catalogue) + 1)
    found, _ = rows(image, segments, wanted, [None] * len(wanted))
    for name in catalogue.colnames:
        assert (found[name] == catalogue[name]).all(), name


def test_pixels_at_or_below_the_base_are_left_out():
    image = numpy.array([[5, 9, 5, 8, 5]], dtype="i4")
    found, whole = rows(image, numpy.array([[1, 1, 1, 2, 2]], dtype="i4"), numpy.array([1, 2]), [5, 5])
    assert whole.tolist() == [[0, 1, 0, 2, 0]]
    assert found["FLUX"].tolist() == [4, 3] and found["XCEN"].tolist() == [2000, 4000]
    assert found["BASE"].tolist() == [5, 5] and found["LEVEL"].tolist() == [9, 8]


def test_an_image_that_is_all_one_source():
    image = numpy.full((3, 4), 7, dtype="i4")
    catalogue, segments = kernel.detect_stored(image, 1, mesh=0, min_area=1, contrast=0, connect=8)
    found, _ = rows(image, segments, numpy.array([1]), [None])
    for name in catalogue.colnames:
        assert (found[name] == catalogue[name]).all(), name


def test_stacked():
    image = image_of(1)
    one, _ = kernel.detect_stored(image, int(numpy.quantile(image, 0.9)), mesh=0, min_area=1, contrast=0, connect=8)
    assert (nodes.stacked(one, one)["NUMBER"] == numpy.tile(one["NUMBER"], 2)).all()
    assert (nodes.stacked(one[:0], one)["FLUX"] == one["FLUX"]).all()


def test_much_light_far_from_the_corner():
    image = numpy.full((16, 65000), 2**31 - 2**8, dtype="i4")
    image[:, :100] = -(2**31) + 2
    image = numpy.concatenate([numpy.full((1, 65000), -(2**31) + 1, dtype="i4"), image])
    catalogue, segments = kernel.detect_stored(image, 1, mesh=0, min_area=1, contrast=0, connect=8)
    found, _ = rows(image, segments, numpy.array([1]), [-(2**31) + 2])
    for name in catalogue.colnames:
        assert (found[name] == catalogue[name]).all(), name


def test_the_centre_of_much_light():
    # Of light times place 64 bits have no room for the sum.
    numbers = numpy.full((10, 64000), 2**31 - 2**8, dtype="i4")
    labels = numpy.ones_like(numbers)
    labels[:, 0] = 0
    found, _ = rows(numbers, labels, numpy.array([1]), [-(2**31) + 2])
    assert found["XCEN"].tolist() == [32001 * 1000] and found["YCEN"].tolist() == [5500]
