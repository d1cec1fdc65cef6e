"""The sky and its noise, and the scaling by it."""
import concurrent.futures
import functools

import numpy
import pytest
from scipy import ndimage

import maxdetect
from conftest import add_star
from maxdetect import scaling, _sky as sky
from maxdetect._estimates import of_array
from maxdetect._executors import each


@pytest.mark.parametrize("sigma", [0.8, 1, 1.5, 2.2, 5, 30, 1000])
def test_the_noise_has_no_steps_on_whole_numbers(sigma):
    rng = numpy.random.default_rng(int(10 * sigma))
    for level in (100, 100.5):
        image = numpy.rint(rng.normal(level, sigma, (512, 512))).astype("i4")
        # Rounding is noise too.
        assert maxdetect.noise(image) == pytest.approx((sigma**2 + 1 / 12) ** 0.5, rel=0.02)
    assert maxdetect.noise(rng.poisson(sigma**2, (512, 512))) == pytest.approx(sigma, rel=0.025)
    assert maxdetect.noise(rng.normal(level, sigma, (512, 512))) == pytest.approx(sigma, rel=0.02)


def test_a_crowd_hardly_moves_the_noise_and_the_level():
    rng = numpy.random.default_rng(30)
    expected = numpy.zeros((256, 256)) + 900
    for x, y, m in zip(*rng.uniform(8, 248, (2, 624)), 18 + numpy.log2(1 + rng.uniform(size=624) * 63)):
        add_star(expected, x, y, 10 ** ((30 - m) / 2.5))
    image = rng.poisson(expected)
    found = of_array(image)
    assert found.noise == pytest.approx(30, rel=0.05)
    assert found.zero + numpy.median(found.levels) == pytest.approx(900, abs=6)


@pytest.mark.parametrize(
    "shape, mesh", [((200, 300), 64), ((200, 300), 63), ((64, 64), 64), ((70, 40), 64), ((5, 400), 16)]
)
def test_a_slope_is_carried_on(shape, mesh):
    y, x = numpy.mgrid[: shape[0], : shape[1]]
    slope = 1000 + 0.5 * x - 0.3 * y
    image = slope + numpy.random.default_rng(2).normal(0, 3, shape)
    found = of_array(image, mesh)
    whole = slice(0, shape[0]), slice(0, shape[1])
    level = found.background(*whole) + found.zero
    if min(shape) >= 2 * mesh:
        assert found.noise == pytest.approx(3, rel=0.04)
        assert abs(level - slope).max() < 1.5
    part = slice(shape[0] // 3, shape[0]), slice(shape[1] // 5, shape[1] // 2)
    assert (found.background(*part) + numpy.float32(0) == found.background(*whole)[part]).mean() > 0.99
    assert numpy.allclose(found.background(*part), found.background(*whole)[part], atol=1e-3)
    beyond = found.background(slice(-mesh, 5), slice(-mesh, shape[1] + mesh))
    assert numpy.allclose(beyond[mesh:, mesh:-mesh], found.background(slice(0, 5), whole[1]), atol=1e-3)


def test_a_map_of_the_noise():
    image = numpy.random.default_rng(4).normal(7, 1, (256, 256))
    image[:, 128:] *= 3
    found = maxdetect.noise_map(image, 32)
    assert found.shape == image.shape and found.dtype == "f4"
    assert numpy.abs(found[:, :96] - 1).max() <= 0.1 and numpy.abs(found[:, 160:] - 3).max() <= 0.3


def test_undefined_pixels_do_not_count():
    image = numpy.random.default_rng(5).normal(50, 2, (192, 192))
    image[:70, :100], image[::7, ::5] = numpy.nan, numpy.inf
    assert maxdetect.noise(image) == pytest.approx(2, rel=0.04)
    masked = numpy.ma.MaskedArray(numpy.nan_to_num(image, posinf=9e9), mask=~numpy.isfinite(image))
    assert maxdetect.noise(masked) == pytest.approx(2, rel=0.04)
    with pytest.raises(ValueError, match="no pixel"):
        maxdetect.noise(numpy.full((9, 9), numpy.nan))
    assert maxdetect.noise(numpy.ones((9, 9))) == 0


def test_relative_noise():
    rng, relative = numpy.random.default_rng(6), numpy.ones((192, 192), dtype="f4")
    relative[:, 90:] = 3
    found = of_array(rng.normal(0, 5, relative.shape) * relative + 20, 64, relative)
    assert found.noise == pytest.approx(5, rel=0.03) and found.deviations == pytest.approx(5, rel=0.1)


def test_cells():
    assert sky.cells_along(65, 64) == 2 and sky.quantum(numpy.arange(9.0)) == 0
    assert sky.quantum(numpy.repeat([0, 2.5, 5], 40)) == 2.5
    grid = numpy.add.outer(numpy.arange(4.0), 3 * numpy.arange(5.0))
    assert (sky.filtered(grid) == grid).all()


def test_masks_grow_evenly_also_at_edges():
    rng = numpy.random.default_rng(3)
    for height, width, reach in zip(*rng.integers((1, 1, 0), (20, 20, 9), (100, 3)).T):
        mask = rng.random((height, width)) < 0.05
        wanted = ndimage.binary_dilation(mask, numpy.ones((2 * reach + 1, 2 * reach + 1)))
        assert (sky.grown(mask, reach) == wanted).all()


def test_prepared_numbers():
    image = numpy.random.default_rng(8).normal(1e5, 0.25, (128, 128))
    image[3, 4], image[5, 6] = numpy.nan, 1e30
    numbers, zero, scale = scaling.prepared(image)
    assert isinstance(numbers, numpy.ma.MaskedArray) and numbers.dtype == "i4"
    assert numpy.argwhere(numbers.mask).tolist() == [[3, 4]] and numbers[5, 6] == scaling.GREATEST
    assert numpy.median(numbers.data) == pytest.approx(0, abs=3) and 30 / scale == pytest.approx(0.25, rel=0.03)
    assert zero == pytest.approx(1e5, abs=0.1)
    assert (scaling.prepared(numpy.ma.masked_invalid(image))[0] == numbers).all()
    with pytest.raises(ValueError, match="no noise"):
        scaling.prepared(numpy.ones((70, 70)))
    assert scaling.threshold(2.25) == 68


def test_smoothing():
    image = numpy.zeros((5, 5), dtype="f4")
    image[2, 2], image[0, 0] = 16, numpy.nan
    smooth = scaling.smoothed(image)
    assert (
        numpy.isnan(smooth[0, 0]) and smooth[2, 2] == 4 and smooth[2, 1] == 2 and smooth[1, 1] == pytest.approx(16 / 15)
    )


def parts_of(kind, side=8):
    """An image of some fifty rows of cells, and a map of its noise."""
    rng = numpy.random.default_rng(9)
    image = rng.normal(100, 3, (52 * side - 3, 9 * side + 2)).astype("f4")
    if kind != "fractions":
        numpy.rint(image, out=image)
    if kind == "both":
        image[14 * side : 30 * side] += rng.uniform(0, 0.4, (16 * side, image.shape[1])).astype("f4")
    return image, numpy.where(numpy.arange(image.shape[1]) < 30, 1, rng.uniform(2, 3, image.shape)).astype("f4")


@pytest.mark.parametrize("kind", ["fractions", "whole", "both"])
def test_parts_that_are_looked_at_together_tell_the_same(kind):
    (image, noise), mesh = parts_of(kind), 8
    rng, look = numpy.random.default_rng(1), sky._FirstLook(image.__getitem__, None, image.shape, mesh)
    one_by_one = [sky._first_row(image[top : top + mesh], mesh, rng) for top in range(0, len(image), mesh)]
    with concurrent.futures.ThreadPoolExecutor(3) as pool:
        for how in (map, functools.partial(each, pool)):
            found = sky._first_looks(look, how)
            assert numpy.array_equal(numpy.array(found), numpy.array(one_by_one))
        for relative in (None, noise.__getitem__):
            alone = sky.of(image.__getitem__, image.shape, mesh, relative)
            together = sky.of(image.__getitem__, image.shape, mesh, relative, functools.partial(each, pool))
            assert (together.zero, together.noise) == (alone.zero, alone.noise)
            assert numpy.array_equal(together.levels, alone.levels)
            assert numpy.array_equal(together.deviations, alone.deviations)


def test_no_part_is_looked_at_twice_where_they_follow_each_other(monkeypatch):
    seen, first_row = [], sky._first_row
    monkeypatch.setattr(sky, "_first_row", lambda *given: seen.append(1) or first_row(*given))
    image, _ = parts_of("both")
    sky.of(image.__getitem__, image.shape, 8)
    assert len(seen) == 52


def test_of_an_image_that_is_held_no_more_is_sent_than_is_looked_at():
    image, _ = parts_of("whole")
    look = sky._FirstLook(sky.Held(image), None, image.shape, 8)
    part = look.at(range(4, 7))
    assert part.read.pixels.shape == (24, image.shape[1]) and numpy.shares_memory(part.read.pixels, image)
    assert numpy.array_equal(numpy.array(part((range(4, 7), 99))), numpy.array(look((range(4, 7), 99))))
    plain = sky._FirstLook(image.__getitem__, None, image.shape, 8)
    assert plain.at(range(4, 7)) is plain
    with concurrent.futures.ThreadPoolExecutor(3) as pool:
        together = sky.of(sky.Held(image), image.shape, 8, each=functools.partial(each, pool))
    assert together.noise == sky.of(image.__getitem__, image.shape, 8).noise
