"""The loops for the sky tell what numpy tells, to the last bit."""
import warnings

import numpy
import pytest

from maxdetect import (
    _beside as beside,
    _cells as cells,
    _loops as loops,
    _masks as masks,
    _ranks as ranks,
    scaling,
    _sky as sky,
)

pytestmark = pytest.mark.skipif(not loops.library(), reason="the loops aren't compiled")


def both(monkeypatch, function, *arguments):
    """What a function tells with the loops and without them; its arguments are left as they are."""
    found = []
    for library in (loops.library, lambda: None):
        with monkeypatch.context() as patch, warnings.catch_warnings():
            patch.setattr(loops, "library", library)
            warnings.simplefilter("ignore")
            found.append(function(*(it.copy() if isinstance(it, numpy.ndarray) else it for it in arguments)))
    return found


def same(one, other):
    """Whether arrays or numbers, or tuples of them, are the same to the bit, but for what isn't a number."""
    if isinstance(one, tuple):
        return len(one) == len(other) and all(map(same, one, other))
    one, other = numpy.asarray(one), numpy.asarray(other)
    if one.dtype != other.dtype or not numpy.array_equal(one, other, equal_nan=one.dtype.kind == "f"):
        return False
    defined = ~numpy.isnan(one) if one.dtype.kind == "f" else numpy.ones(one.shape, dtype=bool)
    return (
        numpy.array_equal(numpy.signbit(one[defined]), numpy.signbit(other[defined])) if one.dtype.kind == "f" else True
    )


def nasty(rng, shape):
    """Images of all kinds that are hard on a sky."""
    noise = rng.normal(0, 3, shape).astype("f4")
    yield noise
    yield numpy.rint(noise)
    yield noise + numpy.float32(1e6)
    yield noise * numpy.float32(1e25)
    yield noise * numpy.float32(1e-25)
    yield numpy.zeros(shape, dtype="f4")
    yield -numpy.zeros(shape, dtype="f4")
    holes = noise.copy()
    holes[rng.random(shape) < 0.2] = numpy.nan
    holes[: shape[0] // 2 + 1, : shape[1] // 3 + 1] = numpy.nan
    yield holes
    infinite = noise.copy()
    infinite[rng.random(shape) < 0.05], infinite[rng.random(shape) < 0.05] = numpy.inf, -numpy.inf
    yield infinite
    crowd = noise.copy()
    crowd[rng.random(shape) < 0.02] = 1e4
    yield crowd
    yield numpy.full(shape, numpy.nan, dtype="f4")
    yield rng.choice(numpy.array([3e38, -3e38, 1e-44, -0.0, numpy.nan, 5], dtype="f4"), shape)
    yield numpy.asfortranarray(noise)
    yield numpy.repeat(numpy.repeat(noise, 2, axis=0), 2, axis=1)[::2, ::2]


SHAPES = [(1, 1), (1, 50), (40, 1), (3, 2), (16, 64), (16, 67), (9, 130), (64, 100)]


@pytest.mark.parametrize("shape", SHAPES)
def test_masks_that_grow(monkeypatch, shape):
    rng = numpy.random.default_rng(1)
    for share in (0, 0.01, 0.3, 1):
        for reach in (0, 1, 2, 3, 4, 5, 8, 31, 200):
            mask = rng.random(shape) < share
            for kind in (mask, numpy.asfortranarray(mask), numpy.repeat(mask, 2, axis=1)[:, ::2]):
                assert same(*both(monkeypatch, masks.grown, kind, reach))
    assert masks.grown(numpy.zeros((0, 5), dtype=bool), 3).shape == (0, 5)


@pytest.mark.parametrize("shape", SHAPES)
def test_numbers_in_order(monkeypatch, shape):
    rng = numpy.random.default_rng(2)
    for values in nasty(rng, shape):
        places = rng.integers(0, shape[1], (shape[0], 3))
        assert same(*both(monkeypatch, ranks.at_ranks, values, places))
        assert same(*both(monkeypatch, ranks.at_ranks, values.astype("f8"), places))
        assert same(*both(monkeypatch, ranks.quantiles, values.ravel(), ranks.PARTS))
        if numpy.isfinite(values).all() and abs(values).max() < 1e30:
            wanted = numpy.quantile(values, ranks.PARTS)
            assert ranks.quantiles(values.ravel(), ranks.PARTS) == pytest.approx(wanted, rel=1e-6)


def first_look(values, mesh):
    """What the first look tells of a row of cells."""
    return sky._first_row(values, mesh, numpy.random.default_rng(11))


@pytest.mark.parametrize("shape", [*SHAPES, (64, 900)])
@pytest.mark.parametrize("mesh", [1, 2, 16, 64, 65, 100, 1000])
def test_a_first_look_at_a_row_of_cells(monkeypatch, shape, mesh):
    rng = numpy.random.default_rng(12)
    for values in nasty(rng, shape):
        for kind in ("f4", "f8"):
            assert same(*both(monkeypatch, first_look, values.astype(kind), mesh))


def test_the_step_of_values_that_the_first_cells_do_not_tell():
    values = numpy.rint(numpy.random.default_rng(13).normal(0, 5, (64, 4096))).astype("f4")
    for undefined in (0, 200, 2000, 4000, 4096):
        values[:, :undefined] = numpy.nan
        assert sky._quantum_of(values, 64) == sky.quantum(sky._sampled(values, 64)) == (undefined < 4096)


def second_look(values, relative, deviation, quant, mesh):
    """What the second look tells of a row of cells."""
    return tuple(sky._second_row(values, relative, deviation, quant, mesh))


@pytest.mark.parametrize("shape", SHAPES)
@pytest.mark.parametrize("mesh", [1, 2, 16, 64, 1000])
def test_a_row_of_cells(monkeypatch, shape, mesh):
    rng = numpy.random.default_rng(3)
    count = sky.cells_along(shape[1], mesh)
    maps = [None, rng.uniform(0.5, 2, shape).astype("f4"), rng.uniform(0.5, 2, shape)]
    maps.append(numpy.where(rng.random(shape) < 0.2, numpy.nan, maps[1]))
    maps.append(numpy.where(rng.random(shape) < 0.2, numpy.float32(0), maps[1]))
    for values in nasty(rng, shape):
        scale = numpy.nan_to_num(abs(values), posinf=0).max() / 4
        deviations = (numpy.full(count, 3.0), rng.uniform(0, scale, count), numpy.zeros(count))
        for number, relative in enumerate(maps):
            quant = numpy.full(count, scale / 9 * (number % 2))
            assert same(*both(monkeypatch, second_look, values, relative, deviations[number % 3], quant, mesh))
        outside = rng.random(shape) < 0.3
        outside[:, : mesh + 1] = True
        for times in (1.0, 2.0**-7, 2.0**120):
            assert same(*both(monkeypatch, cells.ranges, values, times, outside, mesh))
            assert same(*both(monkeypatch, cells.ranges, values.astype("f8"), times, outside, mesh))
        assert same(*both(monkeypatch, beside.unit_of, values)) and same(
            beside.unit_of(values), beside.unit_of(values.astype("f8"))
        )


def test_sums_are_those_of_the_pixels():
    rng = numpy.random.default_rng(4)
    values, mesh = rng.uniform(-1, 1, (16, 70)).astype("f4"), 16
    values[3:9, 20:40] = numpy.nan
    one = numpy.ones(5, dtype="f4")
    found = cells.of_row(values.copy(), None, one / 3, one, 9.0, mesh)
    parts = [values[:, left : left + mesh].astype("f8") for left in range(0, 70, mesh)]
    assert found.pixels.tolist() == found.there.tolist() == [int(numpy.isfinite(it).sum()) for it in parts]
    assert found.noise == pytest.approx([numpy.nansum(it) for it in parts], rel=1e-5)
    assert found.squares == pytest.approx([numpy.nansum(it**2) for it in parts], rel=1e-5)


@pytest.mark.parametrize("mesh", [1, 2, 7, 16, 64])
def test_between_the_cells(monkeypatch, mesh):
    rng = numpy.random.default_rng(5)
    for sides in [(1, 1), (1, 4), (5, 1), (3, 4), (2, 2)]:
        for grid in (rng.normal(0, 9, sides), numpy.zeros(sides), -numpy.zeros(sides), rng.normal(1e7, 1, sides)):
            height, width = (side * mesh for side in sides)
            for top, left in rng.integers(-9, (height, width), (20, 2)):
                rows = slice(int(top), int(top + rng.integers(1, height + 9)))
                columns = slice(int(left), int(left + rng.integers(1, width + 9)))
                assert same(*both(monkeypatch, sky.between, grid, mesh, rows, columns))


def above(image, found, noise, rows, columns):
    """What an image stands above a sky, by the loop where there is one."""
    told = found.above(image, noise, rows, columns)
    return scaling.deviations(image, found.short_level(rows, columns), noise) if told is None else told


@pytest.mark.parametrize("mesh", [1, 7, 16, 64])
@pytest.mark.parametrize("zero", [0.0, -0.0, 17.3, 1e6, -3e38, 1e-42])
def test_pixels_above_a_sky(monkeypatch, mesh, zero):
    rng = numpy.random.default_rng(10)
    for sides in [(1, 1), (1, 4), (5, 1), (3, 4)]:
        height, width = (side * mesh for side in sides)
        grid = rng.normal(0, 9, sides)
        found = sky.Sky((height, width), mesh, zero, grid, numpy.full(sides, 2.0), 2.0)
        rows, columns = slice(0, height), slice(int(rng.integers(0, width)), width)
        shape = (height, width - columns.start)
        assert same(*both(monkeypatch, found.level, rows, columns))
        for image in nasty(rng, shape):
            noises = rng.uniform(0, 2, shape).astype("f4")
            noises[rng.random(shape) < 0.1] = rng.choice([0, numpy.nan, numpy.inf])
            for noise in (1.7, numpy.float64(0.0), noises, noises.astype("f8"), noises[::-1]):
                for kind in ("f4", "f8", ">f4"):
                    assert same(*both(monkeypatch, above, image.astype(kind), found, noise, rows, columns))
            for kind in ("f4", "f8"):
                whole = numpy.hstack([image] * 2)[:, :width].astype(kind)
                assert same(*both(monkeypatch, sky.take_off, whole, zero, grid, mesh, rows))


def whole_sky(image, relative, mesh):
    """The sky of an image, or why it has none."""
    try:
        found = sky.of(image.__getitem__, image.shape, mesh, None if relative is None else relative.__getitem__)
    except ValueError as error:
        return str(error)
    return found.zero, found.noise, found.levels, found.deviations


@pytest.mark.parametrize("shape, mesh", [((1, 1), 64), ((1, 90), 16), ((90, 1), 16), ((70, 131), 32), ((200, 300), 64)])
def test_the_sky_of_an_image(monkeypatch, shape, mesh):
    rng = numpy.random.default_rng(6)
    for kind in ("f4", "f8"):
        for image in nasty(rng, shape):
            relative = rng.uniform(0.5, 2, shape).astype("f4")
            for noise in (None, relative, numpy.where(rng.random(shape) < 0.1, numpy.nan, relative).astype("f4")):
                one, other = both(monkeypatch, whole_sky, image.astype(kind), noise, mesh)
                assert one == other if isinstance(one, str) else same(one, other)


@pytest.mark.parametrize("shape", [(1, 1), (8, 40), (16, 67), (5, 300)])
def test_the_sky_beside_sources(monkeypatch, shape):
    rng = numpy.random.default_rng(7)
    for values in nasty(rng, shape):
        undefined = ~numpy.isfinite(values)
        residual = numpy.where(undefined, 0, values).astype("f4")
        for share in (0, 0.001, 0.01, 0.2, 1):
            segments = (rng.random((shape[0] + 8, shape[1])) < share).astype("i4")
            within = slice(4, 4 + shape[0])
            assert same(*both(monkeypatch, beside.of_row, residual, undefined, segments, within, 16))


def cells_of_all_kinds(rng, shape):
    """Rows of cells that clipped statistics tell apart, in units from the smallest to the largest."""
    noise = rng.normal(0, 1, shape).astype("f4")
    for unit in (1, 1e10, 1e-10, 1e30, 1e-30):
        yield noise * numpy.float32(unit)
    for level in (1, -10, 1e3, -1e5, 1e7):
        yield noise + numpy.float32(level)
    for levels in (0.2, 0.5, 1, 3, 30):
        yield numpy.rint(noise * numpy.float32(levels))
    for share in (0.01, 0.1, 0.3, 0.5):
        for light in (3, 10, 1000):
            yield noise + (rng.random(shape) < share) * rng.exponential(light, shape).astype("f4")
    for share in (0.001, 0.03, 0.2, 0.5, 0.9):
        yield (rng.random(shape) < share).astype("f4")
    yield rng.choice(numpy.array([-1, 0, 0.5, 2], dtype="f4"), shape)
    yield rng.choice(numpy.array([1e7, 1e7 + 1, 1e7 + 2], dtype="f4"), shape)
    yield rng.uniform(-1, 1, shape).astype("f4")
    yield rng.exponential(1, shape).astype("f4")
    yield rng.standard_cauchy(shape).astype("f4")
    yield numpy.exp(rng.normal(0, 4, shape)).astype("f4")
    yield rng.choice(numpy.array([-3e38, -1e30, 0, 1, 3e38, numpy.inf, -numpy.inf], dtype="f4"), shape)
    yield numpy.where(rng.random(shape) < 0.01, numpy.float32(-1e31), noise)
    yield numpy.full(shape, 0.1, dtype="f4")


@pytest.mark.parametrize(
    "shape, mesh",
    [((64, 1324), 64), ((63, 640), 64), ((16, 260), 16), ((3, 90), 5), ((1, 40), 2), ((2, 9), 1), ((90, 250), 100)],
)
@pytest.mark.parametrize("share", [0, 0.02, 0.3, 0.49, 0.6, 1])
def test_levels_and_noise_of_cells(monkeypatch, shape, mesh, share):
    rng = numpy.random.default_rng(8)
    every = numpy.arange(cells.cells_along(shape[1], mesh))
    for values in cells_of_all_kinds(rng, shape):
        left_out = rng.random(shape) < share
        for places in (every, every[rng.random(len(every)) < 0.5], every[:0]):
            assert same(*both(monkeypatch, beside._of_cells, values, left_out, mesh, places))
        # What is left out may be anything.
        values[left_out] = numpy.nan
        assert same(*both(monkeypatch, beside._of_cells, values, left_out, mesh, every))


def test_levels_and_noise_of_one_large_cell(monkeypatch):
    rng = numpy.random.default_rng(9)
    for values in cells_of_all_kinds(rng, (300, 400)):
        left_out = rng.random(values.shape) < 0.2
        assert same(*both(monkeypatch, beside._of_cells, values, left_out, 1000, numpy.arange(1)))
