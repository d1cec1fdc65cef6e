"""The width of point sources and how their light grows, told from images."""
import numpy
import pytest
import sep
from conftest import add_star
from scipy import ndimage

from maxdetect import _loops as loops, _pointlike as pointlike

UNLIMITED = numpy.inf


def noise(side=700, seed=1):
    return numpy.random.default_rng(seed).normal(0, 1, (side, side))


def star(width, parts=7, side=121):
    """A star of light 1 in the middle pixel of an image, averaged over each pixel, moved by parts of one."""

    def drawn(down, across):
        fine = numpy.zeros((side * parts, side * parts))
        middle = (side * parts - 1) / 2
        add_star(fine, middle + across * parts, middle + down * parts, 1.0, width * parts)
        return fine.reshape(side, parts, side, parts).sum(axis=(1, 3))

    return drawn


def with_stars(width, count=30, side=700, seed=1, shape=None):
    """A field in deviations of its noise with stars of this width, far from its edges; they may lie side by side."""
    image, rng = noise(side, seed), numpy.random.default_rng(seed + 1)
    drawn = [shape(*rng.uniform(-0.5, 0.5, 2)) for _ in range(3)] if shape else None
    drawn = drawn or [star(width, 7 if width < 3 else 3)(*rng.uniform(-0.5, 0.5, 2)) for _ in range(6)]
    half = drawn[0].shape[0] // 2
    for number in range(count):
        y, x = rng.integers(half, side - half, 2)
        image[y - half : y + half + 1, x - half : x + half + 1] += drawn[number % len(drawn)] * 10 ** rng.uniform(
            3.7, 5
        )
    return image


def told(image, limit=UNLIMITED):
    return pointlike.of([(image.astype("f4"), limit)])


@pytest.mark.parametrize("width", [1.3, 1.7, 2.2, 3.0, 4.5, 6.0, 8.0])
def test_the_width_of_stars(width):
    found = told(with_stars(width))
    # The width is that which pixels show: they sum up a star's light, and circles share out the pixels.
    assert found.width == pytest.approx(numpy.sqrt(width**2 + 1.5), rel=0.1) and found.count >= 8
    assert width < 3 or found.width == pytest.approx(width, rel=0.1)
    assert (numpy.diff(found.shares) > -0.01).all() and found.shares[-1] == 1
    assert found.share(found.half / 2) == pytest.approx(0.5, abs=0.01)


def test_how_light_grows():
    width = 3.4
    found = told(with_stars(width, count=40))
    core = (width / 2) ** 2 / (2 ** (1 / 3) - 1)
    whole = 1 - (1 + found.radii[-1] ** 2 / core) ** -2
    expected = (1 - (1 + found.radii**2 / core) ** -2) / whole
    assert found.shares == pytest.approx(expected, abs=0.02)


def test_stars_among_galaxies_and_cosmic_rays():
    width, rng = 3.2, numpy.random.default_rng(3)
    image = with_stars(width, count=25)
    alone = told(image).width
    light = numpy.zeros(image.shape)
    for y, x in rng.integers(40, 660, (45, 2)):
        disc = numpy.exp(-numpy.hypot(*numpy.mgrid[-60:61, -60:61]) / rng.uniform(2, 5))
        part = light[max(0, y - 60) : y + 61, max(0, x - 60) : x + 61]
        top, left = max(0, 60 - y), max(0, 60 - x)
        part += (disc / disc.sum() * 10 ** rng.uniform(4, 5))[top : top + part.shape[0], left : left + part.shape[1]]
    image += ndimage.gaussian_filter(light, width / 2.355)
    for y, x in rng.integers(40, 660, (50, 2)):
        for step in numpy.arange(0, rng.exponential(4) + 1, 0.5):
            image[int(y + step * rng.uniform(0.5, 1)), int(x + step)] += rng.uniform(50, 3000)
    found = told(image)
    assert found.width == pytest.approx(width, rel=0.1) and found.width == pytest.approx(alone, rel=0.07)


def test_saturated_stars_do_not_count():
    image = with_stars(3.0, count=25)
    limit = numpy.sort(image[ndimage.maximum_filter(image, 9) == image])[-12]
    cut = numpy.minimum(image, limit)
    assert told(cut, limit).width == pytest.approx(3.0, rel=0.1)
    assert told(cut, limit).count < told(image).count


def test_fields_without_enough_stars():
    assert told(noise()) is None and told(noise(9)) is None and pointlike.of([]) is None
    assert told(numpy.full((99, 99), numpy.nan)) is None
    assert told(with_stars(3.0, count=pointlike.FEWEST - 1)) is None
    # Cosmic rays alone are of no size that most have, or are no source at all.
    image, rng = noise(), numpy.random.default_rng(4)
    for y, x in rng.integers(40, 660, (pointlike.FEWEST - 1, 2)):
        image[y : y + 2, x : x + 2] += 500
    assert told(image) is None


def test_windows_and_undefined_pixels():
    image = with_stars(3.0, count=60, side=900, seed=5)
    whole = told(image)
    halves = pointlike.of([(numpy.ascontiguousarray(part.astype("f4")), UNLIMITED) for part in numpy.hsplit(image, 2)])
    assert halves.width == pytest.approx(whole.width, rel=0.05) and halves.count <= whole.count
    image[numpy.random.default_rng(6).random(image.shape) < 0.01] = numpy.nan
    with_gaps = told(image)
    assert with_gaps is None or with_gaps.width == pytest.approx(whole.width, rel=0.1)


def test_pixels_of_others_are_left_out_as_by_the_map_of_sources():
    image = with_stars(3.0, count=150, side=500, seed=8).astype("f4")
    undefined = numpy.random.default_rng(9).random(image.shape) < 2e-4
    image[undefined] = 0
    found = pointlike._growth(image, undefined, 2000.0)
    assert 10 <= len(found) < pointlike.MOST
    sources, segments = sep.extract(
        image, pointlike.BRIGHT, minarea=pointlike.LEAST_AREA, mask=undefined, filter_kernel=None, segmentation_map=True
    )
    numbers = numpy.arange(len(sources))
    x, y, _ = sep.winpos(image, sources["x"], sources["y"], numpy.full(len(numbers), 1.0))
    alone = {"seg_id": (numbers + 1).astype("i4"), "segmap": segments, "mask": undefined}
    light = numpy.array([sep.sum_circle(image, x, y, radius, subpix=0, **alone)[0] for radius in pointlike.RADII]).T
    assert {it.tobytes() for it in found} <= {it.tobytes() for it in light}


@pytest.mark.skipif(not loops.library(), reason="the loops aren't compiled")
@pytest.mark.parametrize("share", [0, 2e-4, 0.01, 1])
def test_the_loop_sums_as_sep_does(monkeypatch, share):
    rng = numpy.random.default_rng(10)
    for image in (with_stars(3.0, count=150, side=500, seed=8), noise(99), 30 * noise(200)):
        undefined = rng.random(image.shape) < share
        image = numpy.where(undefined, 0, image).astype("f4")
        found = pointlike._growth(image, undefined, 2000.0)
        with monkeypatch.context() as patch:
            patch.setattr(loops, "library", lambda: None)
            other = pointlike._growth(image, undefined, 2000.0)
        assert found.shape == other.shape and found.tobytes() == other.tobytes()


@pytest.mark.skipif(not loops.library(), reason="the loops aren't compiled")
@pytest.mark.parametrize("seed", range(4))
def test_centres_move_as_by_sep(monkeypatch, seed):
    rng, shape = numpy.random.default_rng(seed), [(90, 70), (300, 300), (3, 50), (1, 1)][seed]
    for image in (
        rng.uniform(0, 1, shape),
        rng.normal(0, 1, shape),
        rng.normal(0, 1, shape) * 10.0 ** rng.integers(-9, 9),
    ):
        image = (image + rng.uniform(0, 1)).astype("f4")
        x, y = (rng.uniform(-9, side + 9, 3000) for side in shape[::-1])
        # At the corners, the sides and the centres of pixels, and where there is no place.
        x[::7], y[::5] = numpy.round(2 * x[::7]) / 2, numpy.round(4 * y[::5]) / 4
        x[:5] = numpy.nan, numpy.inf, -3e9, 1e300, 3e9
        one = pointlike._centred(image, x, y)
        with monkeypatch.context() as patch:
            patch.setattr(loops, "library", lambda: None)
            other = pointlike._centred(image, x, y)
        assert all(numpy.array_equal(*both, equal_nan=True) for both in zip(one, other))


@pytest.mark.skipif(not loops.library(), reason="the loops aren't compiled")
@pytest.mark.parametrize("seed", range(4))
def test_circles_anywhere_in_an_image(monkeypatch, seed):
    rng = numpy.random.default_rng(seed)
    image = (rng.normal(0, 1, (70, 90)) * 10.0 ** rng.integers(-6, 7, (70, 90))).astype("f4")
    undefined, segments = rng.random(image.shape) < 1e-3, numpy.zeros(image.shape, dtype="i4")
    segments[20:24, 30:33], segments[21:23, 33:50], segments[66:, :9] = 1, 2, 3
    sources = numpy.zeros(3, dtype=[(name, "i8") for name in ("xmin", "xmax", "ymin", "ymax")])
    sources["xmin"], sources["xmax"] = (30, 33, 0), (32, 49, 8)
    sources["ymin"], sources["ymax"] = (20, 21, 66), (23, 22, 69)
    for _ in range(60):
        x, y = rng.uniform(-5, 95, 3), rng.uniform(-5, 75, 3)
        if rng.random() < 0.5:
            # At the corners, the sides and the centres of pixels, and where there is no place.
            x, y = numpy.round(2 * x) / 2, numpy.round(y * 4) / 4
            x[2] = rng.choice([numpy.nan, numpy.inf, -3e9, 1e300, x[2]])
        numbers, holes = numpy.arange(3), undefined if rng.random() < 0.5 else numpy.zeros_like(undefined)
        for radii in (pointlike.RADII, rng.uniform(0.01, 12, len(pointlike.RADII))):
            monkeypatch.setattr(pointlike, "RADII", radii)
            one = pointlike._by_loop(image, segments, holes, numbers, x, y)
            other = pointlike._by_sep(image, segments, holes, sources, numbers, x, y)
            assert one.shape == other.shape and numpy.array_equal(one, other, equal_nan=True)


def test_the_value_around_which_most_lie():
    rng = numpy.random.default_rng(7)
    values = numpy.concatenate([rng.normal(2, 0.01, 40), rng.uniform(0, 10, 50), rng.normal(0.5, 0.05, 20)])
    assert pointlike._most_common(values) == pytest.approx(2, abs=0.03)
    assert pointlike._most_common(numpy.array([3.0])) == 3 and pointlike._most_common(numpy.array([1.0, 2.0])) == 1.5
