"""Sums in apertures: the loops in C give what SEP gives, to the bit."""
import numpy
import pytest

pytest.importorskip("sep", reason="photometry wants SEP (Debian: python3-sep)")

from maxdetect import _apertures as apertures, _loops as loops  # noqa: E402

pytestmark = pytest.mark.skipif(not loops.library(), reason="the loops aren't built (scripts/loops)")

SOURCES = 600
# Centres and radii that are no places in an image.
NOWHERE = [numpy.nan, numpy.inf, -numpy.inf, 1e300, -3e9, 3e9, 2147483647.0, -2147483648.5]


def both(monkeypatch, found):
    """What is found by the loops, and what by SEP."""
    by_loops = found()
    with monkeypatch.context() as patch:
        patch.setattr(loops, "library", lambda: None)
        return by_loops, found()


def the_same(monkeypatch, found):
    """Whether arrays that are found by the loops and by SEP are the same to the bit."""
    by_loops, by_sep = both(monkeypatch, lambda: list(found()))
    assert len(by_loops) == len(by_sep)
    for one, other in zip(by_loops, by_sep):
        assert one.dtype == other.dtype and one.shape == other.shape
        assert numpy.array_equal(one, other, equal_nan=one.dtype.kind == "f")


def in_circles(found, radii):
    """All that is found in circles, one after the other."""
    return [values for fluxes in found.in_circles(radii) for values in fluxes]


def segments(rng, shape, side):
    """A map of square sources, some of which have number 0, as the sky."""
    across = [-(-it // side) for it in shape]
    squares = numpy.kron(rng.integers(0, 4, across), numpy.ones((side, side), dtype=int))
    return squares[: shape[0], : shape[1]].astype("i4") * (rng.random(shape) < 0.8)


def centres(rng, shape, sources=SOURCES):
    """Places within an image and a little beyond its edges, some of them at pixels' corners and centres."""
    places = numpy.array([rng.uniform(-9, side + 9, sources) for side in shape[::-1]])
    places[:, ::3] = numpy.round(2 * places[:, ::3]) / 2
    places[:, ::5] = numpy.round(5 * places[:, ::5]) / 5
    return places


def some(seed, noise=1.7, holes=0.0, shape=(70, 90), nowhere=False, sources=SOURCES):
    """Apertures around sources of an image of noise, and the image."""
    rng = numpy.random.default_rng(seed)
    light = rng.choice([rng.normal(0, 1, shape), rng.exponential(1, shape), rng.normal(-1, 1, shape)]).astype("f4")
    undefined = rng.random(shape) < holes
    light[undefined] = 0
    x, y = centres(rng, shape, sources)
    if nowhere:
        x[: len(NOWHERE)] = y[3 : len(NOWHERE) + 3] = NOWHERE
    if noise is None:
        noise = rng.uniform(0.1, 3, shape).astype("f4")
    numbers = rng.integers(1, 5, sources)
    return apertures.Apertures(light, noise, undefined, segments(rng, shape, 7), numbers, x, y), rng, light, (x, y)


def shapes(rng, places):
    """Half axes and angles of ellipses, and radii, most of which end at a pixel's centre, or as far as its corner from
    it.
    """
    long = rng.exponential(3, SOURCES) + 0.01
    short, angle = long * rng.uniform(0.05, 1, SOURCES), rng.uniform(-numpy.pi / 2, numpy.pi / 2, SOURCES)
    short[::4], angle[::5], angle[1::7], angle[2::9] = long[::4], 0, numpy.pi / 2, -numpy.pi / 2
    right, down = (numpy.round(at + rng.normal(0, 3, SOURCES)) - at for at in places)
    cosine, sine, along, across = numpy.cos(angle), numpy.sin(angle), long * long, short * short
    xx, yy = cosine * cosine / along + sine * sine / across, sine * sine / along + cosine * cosine / across
    xy = 2 * cosine * sine * (1 / along - 1 / across)
    radius = numpy.sqrt(xx * right * right + yy * down * down + xy * right * down)
    corners = rng.integers(-1, 2, SOURCES) * 0.7072 / short
    return long, short, angle, numpy.abs(numpy.where(rng.random(SOURCES) < 0.7, radius, radius + corners))


@pytest.mark.parametrize("noise, holes", [(1.7, 0), (None, 0), (0.0, 0.02), (0.123, 0.5), (None, 1.0)])
@pytest.mark.parametrize("seed", range(4))
def test_circles(monkeypatch, seed, noise, holes):
    found, rng, _, (x, y) = some(seed, noise, holes)
    subpixel = numpy.hypot(*(numpy.round(at[7]) + rng.integers(-2, 3) * 0.2 + 3 - at[7] for at in (x, y)))
    centre = numpy.hypot(*(numpy.round(at[8]) + 2 - at[8] for at in (x, y)))
    radii = [0.0, 1e-300, 0.4, 5.0, rng.exponential(4), subpixel, centre + 0.7072, abs(centre - 0.7072), 300.0]
    the_same(monkeypatch, lambda: in_circles(found, radii))


@pytest.mark.parametrize("noise, holes", [(0.8, 0), (None, 0), (0.123, 0.02), (None, 0.5)])
@pytest.mark.parametrize("seed", range(6))
def test_ellipses(monkeypatch, seed, noise, holes):
    found, rng, _, places = some(seed, noise, holes)
    shape = shapes(rng, places)
    the_same(monkeypatch, lambda: found.in_ellipses(*shape))
    the_same(monkeypatch, lambda: found.in_ellipses(*shape[:3], 3.5))


@pytest.mark.parametrize("seed", range(6))
def test_kron_radii(monkeypatch, seed):
    found, rng, _, places = some(seed)
    long, short, angle, radius = shapes(rng, places)
    # The radius at which a pixel's centre lies is the one within which the mean distance is sought.
    ending = numpy.where(radius > 0, radius / 6, 1)
    for times in (1, ending):
        the_same(monkeypatch, lambda: [found.kron_radius(long * times, short * times, angle, 6.0)])
    the_same(monkeypatch, lambda: [found.kron_radius(long, short, angle, 0.0)])


@pytest.mark.parametrize("seed", range(8))
def test_half_radii(monkeypatch, seed):
    found, rng, light, (x, y) = some(seed)
    reach, flux = rng.exponential(5, SOURCES) + 0.05, rng.normal(20, 60, SOURCES) * rng.choice([0.01, 1, 10])
    reach[::3] = numpy.round(reach[::3]) + 1
    rows, columns = (numpy.clip(numpy.round(at), 0, side - 1).astype(int) for at, side in zip((y, x), light.shape))
    flux[::4], flux[:6] = 2 * light[rows, columns][::4], [0, numpy.nan, numpy.inf, -numpy.inf, 1e308, -1e308]
    the_same(monkeypatch, lambda: found.half_radii([reach], [flux]))


@pytest.mark.parametrize("seed", range(3))
def test_half_radii_of_several_fluxes(monkeypatch, seed):
    """Some of which are sought as far as the one before."""
    found, rng, _, _ = some(seed)
    reaches, fluxes = rng.exponential(5, (4, SOURCES)) + 0.05, rng.normal(20, 60, (4, SOURCES))
    reaches[1], reaches[2, ::2], reaches[3, ::3] = reaches[0], reaches[1, ::2], reaches[2, ::3]
    the_same(monkeypatch, lambda: found.half_radii(reaches, fluxes))


@pytest.mark.parametrize("seed", range(3))
def test_half_radii_of_large_sources(monkeypatch, seed):
    """Their rings are wider than pixels."""
    found, rng, _, _ = some(seed, shape=(300, 250), sources=25)
    reach, flux = rng.uniform(200, 800, 25), rng.normal(0, 6000, 25)
    the_same(monkeypatch, lambda: found.half_radii([reach, 230.0, 230.0], [flux, flux, -flux]))


@pytest.mark.parametrize("share", [1, numpy.nextafter(1, 0), numpy.nextafter(1, 2)])
def test_pixels_whose_corners_are_at_a_ring_s_edge(monkeypatch, share):
    light, flux = numpy.array([[5.123]]), 2 * 5.123 * numpy.linspace(0.1, 0.9, 99)
    for reach in (300.0, 270.1, 250.0, 231.7):
        for place in (0.7072, apertures.NEAR * reach / 64 - 0.7072):
            x = numpy.full(len(flux), place * share)
            found = apertures.Apertures(light, 1.0, light < 0, [[1]], numpy.ones(len(x), dtype=int), x, 0 * x)
            the_same(monkeypatch, lambda: found.half_radii([reach], [flux]))


@pytest.mark.parametrize("shape", [(1, 1), (1, 40), (40, 1), (30, 50)])
@pytest.mark.parametrize("noise, holes", [(1.7, 0), (None, 0.1)])
def test_sources_that_are_nowhere(monkeypatch, shape, noise, holes):
    with numpy.errstate(invalid="ignore"):
        found, rng, _, places = some(5, noise, holes, shape, nowhere=True)
        ellipse = shapes(rng, numpy.nan_to_num(places, posinf=0, neginf=0))
        the_same(monkeypatch, lambda: in_circles(found, [3.0, 40.0, 1e3, 1e9, 3e9, 1e300, numpy.inf]))
        for radius in (3.0, 1e3, 1e300):
            the_same(monkeypatch, lambda: found.in_ellipses(*ellipse[:3], radius))
            the_same(monkeypatch, lambda: [found.kron_radius(*ellipse[:3], radius)])
            the_same(monkeypatch, lambda: found.half_radii([radius], [5.0]))


def test_ellipses_without_a_size(monkeypatch):
    found, _, _, _ = some(6)
    for long, short in ((0.0, 0.0), (2.0, 0.0), (2.0, 1e-200), (1e160, 1.0), (1e6, 1e6)):
        the_same(monkeypatch, lambda: found.in_ellipses(long, short, 0.3, 2.0))
        the_same(monkeypatch, lambda: [found.kron_radius(long, short, 0.3, 6.0)])
    for shape in ((numpy.nan, 1.0, 0.3), (1.0, numpy.nan, 0.3), (2.0, 1.0, numpy.nan), (1.0, 2.0, 5.0)):
        the_same(monkeypatch, lambda: [found.kron_radius(*shape, 6.0)])


def test_pixels_that_are_no_numbers(monkeypatch):
    rng = numpy.random.default_rng(7)
    light = rng.choice([1, -1, 0, numpy.nan, numpy.inf], (60, 60), p=[0.6, 0.2, 0.19, 0.005, 0.005]).astype("f4")
    x, y = centres(rng, light.shape)
    numbers = rng.integers(1, 5, SOURCES)
    with numpy.errstate(invalid="ignore"):
        found = apertures.Apertures(light, 1.0, light > 2, segments(rng, light.shape, 5), numbers, x, y)
        ellipse = shapes(rng, (x, y))
        the_same(monkeypatch, lambda: found.in_circles([4.0])[0])
        the_same(monkeypatch, lambda: found.in_ellipses(*ellipse))
        the_same(monkeypatch, lambda: [found.kron_radius(*ellipse[:3], 6.0)])
        the_same(monkeypatch, lambda: found.half_radii([4.0], [20.0]))


@pytest.mark.parametrize("numbers", [[0, 1, 2], [-1, -2, 3]])
def test_numbers_that_are_no_source_s(monkeypatch, numbers):
    """SEP takes those below 0 for a wish to see nothing but the source itself."""
    light, own = numpy.ones((9, 9)), numpy.arange(81).reshape(9, 9) % 4
    found = apertures.Apertures(light, 1.0, light < 0, own, numbers, [2, 3, 4], [5, 4, 3])
    the_same(monkeypatch, lambda: found.in_circles([3.0])[0])
    the_same(monkeypatch, lambda: found.in_ellipses(2, 1, 0, 2))
    the_same(monkeypatch, lambda: [found.kron_radius(2, 1, 0, 2), *found.half_radii([3.0], [5.0])])


def test_no_sources_and_no_circles(monkeypatch):
    light = numpy.ones((9, 9))
    found = apertures.Apertures(light, 1.0, light < 0, light.astype(int), [], [], [])
    the_same(monkeypatch, lambda: found.in_circles([3.0])[0])
    the_same(monkeypatch, lambda: found.in_ellipses(2, 1, 0, 2))
    the_same(monkeypatch, lambda: [found.kron_radius(2, 1, 0, 2), *found.half_radii([3.0], [5.0])])
    assert both(monkeypatch, lambda: found.in_circles([])) == ([], [])
    assert both(monkeypatch, lambda: found.half_radii([], [])) == ([], [])


def test_other_types_and_orders_of_numbers(monkeypatch):
    rng = numpy.random.default_rng(8)
    light, own = rng.normal(size=(40, 30)).T, numpy.asfortranarray(rng.integers(0, 3, (30, 40)))
    noise, x, y = rng.random((60, 80))[::2, ::2], rng.integers(0, 40, 50), rng.integers(0, 30, 100)[::2]
    found = apertures.Apertures(light, noise, light > 2, own, rng.integers(1, 3, 50).astype("u1"), x, y)
    the_same(monkeypatch, lambda: found.in_circles([3, 4])[1])
    the_same(monkeypatch, lambda: found.in_ellipses(2, 1, 0, numpy.arange(50) % 5))


def test_fluxes_of_known_light(monkeypatch):
    """Of ones, with a hole and a neighbour: what is undefined counts as the mean, and a neighbour as sky."""
    light, own, undefined = numpy.ones((21, 21)), numpy.zeros((21, 21), dtype=int), numpy.zeros((21, 21), dtype=bool)
    own[10, 12], undefined[10, 8] = 2, True
    light[undefined] = 0
    found = apertures.Apertures(light, 2.0, undefined, own, [1, 2], [10, 10], [10, 10])
    for fluxes in both(monkeypatch, lambda: found.in_circles([5.0])[0]):
        area = fluxes.flux[0] + 1
        assert area == pytest.approx(numpy.pi * 25, rel=0.02)
        assert fluxes.holed.all() and (fluxes.told == apertures.sep.APER_HASMASKED).tolist() == [True, False]
        assert fluxes.flux == pytest.approx([(area - 2) * area / (area - 1), area], rel=0.02)
    lost = apertures.Apertures(light, 2.0, ~undefined, own, [1], [18], [18])
    for fluxes in both(monkeypatch, lambda: lost.in_circles([1.0])[0]):
        assert numpy.isnan([fluxes.flux[0], fluxes.error[0]]).all() and fluxes.holed[0]


def test_shapes_that_are_none(monkeypatch):
    """Both ways refuse them as SEP does."""
    found, _, _, _ = some(9)

    def refused(what):
        with pytest.raises(Exception, match="invalid aperture parameters"):
            what()

    for shape in ((1, 2, 0, 3), (2, 1, 1.6, 3), (2, 1, 0, -1), (numpy.nan, 1, 0, 3), (2, 1, numpy.nan, 3)):
        both(monkeypatch, lambda: refused(lambda: found.in_ellipses(*shape)))
    both(monkeypatch, lambda: refused(lambda: found.in_circles([3.0, -1.0])))
    both(monkeypatch, lambda: refused(lambda: found.half_radii([-1.0], [5.0])))


def test_images_of_other_sides():
    light, own = numpy.ones((9, 9)), numpy.ones((9, 9), dtype=int)
    for images in ((light, 1.0, light < 0, own[1:]), (light, light[1:], light < 0, own), (light, 1.0, own[1:], own)):
        with pytest.raises(ValueError, match="has the sides"):
            apertures.Apertures(*images, [1], [2], [2])
    with pytest.raises(ValueError, match="as many"):
        apertures.Apertures(light, 1.0, light < 0, own, [1, 2], [2], [2])
