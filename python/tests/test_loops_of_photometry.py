"""The loops for photometry tell what numpy tells, to the last bit."""
import numpy
import pytest

from maxdetect import _loops as loops, _owned as owned, _residuals as residuals

pytestmark = pytest.mark.skipif(not loops.library(), reason="the loops aren't compiled")

SHAPES = [(1, 1), (1, 50), (40, 1), (3, 2), (7, 31), (7, 32), (7, 33), (16, 64), (64, 100), (90, 131)]


def both(monkeypatch, function, *arguments):
    """What a function tells with the loops and without them."""
    found = []
    for library in (loops.library, lambda: None):
        with monkeypatch.context() as patch, numpy.errstate(all="ignore"):
            patch.setattr(loops, "library", library)
            found.append(function(*arguments))
    return found


def same(one, other):
    """Whether arrays, or tuples of them, have the same bytes, but for what isn't a number."""
    if isinstance(one, tuple):
        return len(one) == len(other) and all(map(same, one, other))
    if one.dtype != other.dtype or one.shape != other.shape:
        return False
    if one.dtype.kind == "f":
        nothing = numpy.isnan(one)
        if (nothing != numpy.isnan(other)).any():
            return False
        one, other = one[~nothing], other[~nothing]
    return one.tobytes() == other.tobytes()


def maps(rng, shape, most):
    """Maps with numbers up to some number, and below 0, of all kinds."""
    for share in (0, 0.02, 0.5, 1):
        yield (rng.integers(-most, most + 1, shape) * (rng.random(shape) < share)).astype("i4")
    blocks = numpy.repeat(numpy.repeat(rng.integers(-most, most + 1, shape), 4, axis=0), 9, axis=1)
    yield blocks[: shape[0], : shape[1]].astype("i4")
    yield numpy.full(shape, numpy.iinfo("i4").min, dtype="i4")


def laid_out(array):
    """The same numbers as they may lie in memory: row by row, in a larger array, column by column, and upwards."""
    yield array
    height, width = array.shape
    larger = numpy.ones((height + 3, width + 5), dtype=array.dtype)
    larger[1 : height + 1, 2 : width + 2] = array
    yield larger[1 : height + 1, 2 : width + 2]
    yield numpy.asfortranarray(array)
    yield numpy.repeat(array, 2, axis=1)[:, ::2]
    yield array[::-1].copy()[::-1]
    yield array.astype("i8")


@pytest.mark.parametrize("shape", SHAPES)
def test_pixels_of_sources(monkeypatch, shape):
    rng = numpy.random.default_rng(4)
    for kind in maps(rng, shape, 12):
        for numbers in ([], [3], [1, 2, 12, 7], [40, 5], range(1, 13)):
            numbers = numpy.array(numbers, dtype="i4")
            for segments in laid_out(kind):
                (one, plain), (other, expected) = both(monkeypatch, owned.of_map, segments, numbers)
                assert same(plain, expected) and plain.flags.c_contiguous
                assert same((one.places, one.numbers), (other.places, other.numbers)) and one.width == other.width
                assert set(one.numbers) <= set(numbers.tolist())


def values(rng, shape):
    """Images with light of all kinds, in 32 bits."""
    noise = rng.normal(0, 3, shape).astype("f4")
    yield noise
    yield numpy.zeros(shape, dtype="f4")
    yield -abs(noise) - 1
    yield rng.choice(numpy.array([3e38, -3e38, 1e-44, -0.0, numpy.nan, numpy.inf, 5], dtype="f4"), shape)
    yield numpy.asfortranarray(noise)


def shapes_of(rng, count):
    """Shapes of so many sources, among them one whose middle is a pixel's, and one without a width."""
    x, y, angle = rng.uniform(-5, 140, (3, count))
    long, short = rng.uniform(0.5, 20, (2, count))
    x[:1], y[:1], short[1:2] = 3, 4, 0
    return owned.Shapes(x, y, long, short, angle)


@pytest.mark.parametrize("shape", SHAPES)
def test_sums_over_pixels(monkeypatch, shape):
    rng = numpy.random.default_rng(5)
    for segments in maps(rng, shape, 12):
        for numbers in ([], [7], [12, 3, 5, 1], range(1, 13)):
            numbers = numpy.array(numbers, dtype="i4")
            pixels, each = owned.of_map(segments, numbers)[0], shapes_of(rng, len(numbers))
            for light in values(rng, shape):
                for noise in (1.3, abs(light), numpy.full(shape, 0.1, dtype="f4")):
                    one, other = both(monkeypatch, pixels.sums, light, noise, numbers, each)
                    assert same(tuple(one), tuple(other))
                    assert one.pixels.tolist() == [(segments == number).sum() for number in numbers]


def test_sums_over_pixels_out_of_order(monkeypatch):
    rng = numpy.random.default_rng(6)
    places, numbers = rng.permutation(9 * 13), numpy.array([2, 1, 4])
    pixels = owned.Pixels(places, numbers[rng.integers(0, 3, len(places))], 6, 13)
    light, each = rng.normal(0, 1, (9, 13)).astype("f4"), shapes_of(rng, 3)
    assert same(*map(tuple, both(monkeypatch, pixels.sums, light, 2.0, numbers, each)))


def test_known_sums():
    segments = numpy.zeros((5, 6), dtype="i4")
    segments[2, 1:5] = 3
    light = numpy.zeros((5, 6), dtype="f4")
    light[2] = [9, 1, 2, -4, 8, 9]
    numbers, one = numpy.array([3, 1]), numpy.ones(2)
    pixels, _ = owned.of_map(segments, numbers)
    found = pixels.sums(light, 0.5, numbers, owned.Shapes(2 * one, 2 * one, 2 * one, one, 0 * one))
    assert [it.tolist() for it in found] == [[4, 0], [7, 0], [1, 0], [11, 0], [1 / 4 + 8, 0]]


@pytest.mark.parametrize("shape", SHAPES)
def test_sources_in_a_mask(monkeypatch, shape):
    rng = numpy.random.default_rng(7)
    numbers = numpy.arange(1, 13)
    for segments in maps(rng, shape, 12):
        pixels, _ = owned.of_map(segments, numbers)
        for share in (0, 0.01, 0.3, 1):
            mask = rng.random(shape) < share
            expected = [bool((mask & (segments == number)).any()) for number in numbers]
            for kind in (mask, numpy.asfortranarray(mask)):
                for found in both(monkeypatch, pixels.touching, kind):
                    assert found[numbers].tolist() == expected
            left = pixels.without(mask)
            assert left.places.tolist() == [at for at in pixels.places.tolist() if not mask.flat[at]]
            assert (segments.ravel()[left.places] == left.numbers).all()


def images(rng, shape):
    """Images with pixels of all kinds, in 32 bits, and others."""
    yield from values(rng, shape)
    noise = rng.normal(1000, 30, shape).astype("f4")
    for share in (0.01, 0.5, 1):
        yield numpy.where(rng.random(shape) < share, numpy.float32(numpy.nan), noise)
    yield noise.astype("f8")
    yield noise.astype(">f4")
    yield noise.astype("i2")
    yield numpy.ma.MaskedArray(noise, mask=noise > 1000)
    yield numpy.repeat(noise, 2, axis=1)[:, ::2]


@pytest.mark.parametrize("shape", [*SHAPES, (64, 65), (0, 5)])
def test_residuals(monkeypatch, shape):
    rng = numpy.random.default_rng(8)
    level = rng.normal(1000, 30, shape).astype("f4")
    broken = numpy.where(rng.random(shape) < 0.2, numpy.float32(numpy.nan), level)
    for image in images(rng, shape):
        for below in (level, broken, numpy.asfortranarray(level), level.astype("f8"), 7.0, numpy.nan):
            for mask in (None, rng.random(shape) < 0.2):
                for times in (1, 1 / 3, 2.0**-60, 1e30):
                    one, other = both(monkeypatch, residuals.residual_and_undefined, image, below, mask, times)
                    assert same(one, other)
                    assert one[0].flags.c_contiguous and one[1].flags.c_contiguous
                    assert not one[0][one[1]].any()
