"""The loops in C that go through sources' own pixels give what numpy gives, to the last bit."""
from typing import NamedTuple, Tuple

import numpy
import pytest

from maxdetect import _loops as loops, _shapes as shapes
from maxdetect._rows import Rows
from maxdetect._windows import rows_and_columns

pytestmark = pytest.mark.skipif(not loops.library(), reason="scripts/loops has compiled no library")
SHAPES = [(1, 1), (1, 700), (90, 1), (2, 3), (40, 300)]


class Owned(NamedTuple):
    """Pixels of sources, as photometry has them."""

    places: numpy.ndarray
    numbers: numpy.ndarray
    length: int
    width: int

    @property
    def at(self) -> Tuple[numpy.ndarray, numpy.ndarray]:
        return rows_and_columns(self.places, self.width)

    def summed(self, weights: numpy.ndarray) -> numpy.ndarray:
        return numpy.bincount(self.numbers, weights, self.length).astype("f8")


def same(one, other):
    """Arrays have the same type and the same bits; NaN stands for NaN."""
    one_bits, its = (numpy.where(numpy.isnan(it), numpy.nan, it).tobytes() for it in (one, other))
    return one.dtype == other.dtype and one_bits == its


def owned(shape, sources, part, seed):
    """Pixels of sources, some of which have none, row by row."""
    rng = numpy.random.default_rng(seed)
    places = numpy.flatnonzero(rng.random(shape) < part)
    return Owned(places, rng.integers(1, sources + 1, len(places)), sources + 3, shape[1])


def image(shape, seed, *odd):
    """Few numbers, so that several are the greatest, with signs, and some others."""
    rng = numpy.random.default_rng(seed)
    made = (rng.integers(-5, 6, shape) * 10.0 ** rng.integers(-3, 4, shape)).astype("f4")
    made[rng.random(shape) < 0.3] = -0.0
    for value in odd:
        made[rng.random(shape) < 0.05] = value
    return made


@pytest.mark.parametrize("shape", SHAPES)
@pytest.mark.parametrize("odd", [(), (numpy.nan, numpy.inf, -numpy.inf)])
def test_peaks(both, shape, odd):
    for part in (0, 0.4, 1):
        for sources in (1, 7, 2**16):
            pixels = owned(shape, sources, part, 3)
            for one, other in zip(*both(shapes._peaks, image(shape, 4, *odd), pixels)):
                assert same(one, other)


def test_peaks_of_pixels_in_any_order(both):
    pixels = Owned(numpy.array([5, 3, 900, 2, 40, 0]), numpy.array([1, 1, 2, 2, 3, 3]), 5, 30)
    made = numpy.ones((40, 30), dtype="f4")
    made[0, 0], made[1, 10] = numpy.nan, 3
    peak, column, row = shapes._peaks(made, pixels)
    assert peak[1:3].tolist() == [1, 1] and numpy.isnan(peak[[0, 3, 4]]).all()
    assert column.tolist() == [0, 6, 1, 0, 0] and row.tolist() == [0, 1, 31, 0, 0]
    assert all(same(*them) for them in zip(*both(shapes._peaks, made, pixels)))


@pytest.mark.parametrize("shape", SHAPES)
@pytest.mark.parametrize("gain", [None, 0.0, 1.7])
@pytest.mark.parametrize("odd", [(), (numpy.nan, numpy.inf, -numpy.inf, 3e38)])
def test_centre_sums(both, shape, gain, odd):
    rng = numpy.random.default_rng(8)
    each = rng.uniform(0.3, 3, shape).astype("f4")
    each[rng.random(shape) < 0.1] = 0
    for noise in (1.3, 0.0, numpy.float64(0.7), each):
        pixels = owned(shape, 9, 0.6, 5)
        scene = shapes.Scene(image(shape, 6, *odd), noise, gain, None, None)
        if gain and not numpy.ndim(noise) and not isinstance(noise, numpy.float64) and not noise:
            scene = scene._replace(noise=numpy.zeros(shape, dtype="f4"))
        centres = rng.uniform(-1, max(shape), (2, pixels.length))
        for one, other in zip(*both(shapes._centre_sums, scene, gain, pixels, centres)):
            assert same(one, other)


@pytest.mark.parametrize("gain", [None, 1.7])
@pytest.mark.parametrize("is_same", [True, False])
def test_errors_of_centres(both, gain, is_same):
    rng, pixels = numpy.random.default_rng(2), owned((40, 300), 30, 0.6, 7)
    columns = {"NUMBER": rng.permutation(numpy.arange(1, 31)), "AREA": rng.integers(1, 90, 30)}
    columns.update(FLUX=rng.integers(1, 9000, 30), XCEN=rng.integers(1, 300000, 30), YCEN=rng.integers(1, 40000, 30))
    how = shapes.Scene(image((40, 300), 6), 1.3, gain, None, None), shapes.Seen(0.02, 1.7, is_same), pixels
    one, other = both(shapes._of_centres, *how, Rows(columns))
    assert list(one) == list(other) == ["ERRA", "ERRB", "ERRTHETA"]
    assert all(same(one[name], other[name]) for name in one)
