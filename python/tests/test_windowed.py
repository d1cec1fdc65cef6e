"""Windowed centres with their errors, and what else the catalogue has beside fluxes."""
import numpy
import pytest
import sep
from astropy.io import fits
from astropy.table import Table

import maxdetect
from conftest import add_star
from maxdetect import _cli as cli, _loops as loops, _stamps as stamps, _weights as weights, _windowed as windowed

needs_loops = pytest.mark.skipif(not loops.library(), reason="the loops in C aren't compiled")


def field(seed, step=32, side=288, brightest=1e5):
    """A star field of 900 electrons' sky, and its stars' places from 0 and fluxes."""
    rng = numpy.random.default_rng(seed)
    middles = numpy.arange(24, side - 16, step)
    places = numpy.array([(x, y) for y in middles for x in middles]) + rng.uniform(-3, 3, (len(middles) ** 2, 2))
    fluxes = 10 ** rng.uniform(3.5, numpy.log10(brightest), len(places))
    expected = numpy.full((side, side), 900.0)
    for (x, y), flux in zip(places, fluxes):
        add_star(expected, x, y, flux)
    return rng.poisson(expected).astype("f4"), places, fluxes


def nearest(table, places):
    """The rows of the sources at these places."""
    apart = numpy.hypot(*(numpy.asarray(table[it])[None] - 1 - places[:, axis, None] for axis, it in enumerate("XY")))
    assert apart.min(axis=1).max() < 1
    return table[apart.argmin(axis=1)]


def test_errors_of_centres_tell_how_far_they_are_off():
    pulls = {"": [], "WIN": []}
    apart = {"": [], "WIN": []}
    for seed in range(4):
        image, places, _ = field(seed)
        rows = nearest(maxdetect.catalogue(image, gain=1.0)[0], places)
        for kind in pulls:
            off = numpy.array(
                [numpy.asarray(rows[f"{axis}{kind}"]) - 1 - places[:, at] for at, axis in enumerate("XY")]
            )
            error = numpy.sqrt((rows[f"ERRA{kind}"] ** 2 + rows[f"ERRB{kind}"] ** 2) / 2)
            pulls[kind].append(off / numpy.asarray(error))
            apart[kind].append(off)
    spread = {kind: numpy.sqrt(numpy.mean(numpy.square(all_of))) for kind, all_of in pulls.items()}
    assert 0.9 < spread["WIN"] < 1.1 and 0.7 < spread[""] < 1.1
    assert numpy.median(numpy.abs(apart["WIN"])) < 0.8 * numpy.median(numpy.abs(apart[""]))


def test_centres_as_seps():
    image, places, _ = field(9)
    rows = nearest(maxdetect.catalogue(image, gain=1.0)[0], places)
    sigma = 2 / 2.3548 * numpy.asarray(rows["FLUX_RADIUS"])
    x, y, _ = sep.winpos(image - 900, numpy.asarray(rows["X"]) - 1, numpy.asarray(rows["Y"]) - 1, sigma)
    assert numpy.hypot(rows["XWIN"] - 1 - x, rows["YWIN"] - 1 - y).max() < 0.01


def test_a_neighbour_does_not_draw_a_centre():
    image = numpy.zeros((64, 64))
    add_star(image, 30.3, 32.2, 1e4)
    alone = image.astype("f4")
    add_star(image, 37.3, 32.2, 2e4)
    segments = numpy.where(numpy.mgrid[:64, :64][1] < 34, 1, 2).astype("i4")
    one = numpy.array([1], dtype="i4")
    start = [numpy.array([at]) for at in (30.0, 32.0, 2.0)]
    for light in (alone, image.astype("f4")):
        found = windowed.of(light, 1.0, None, numpy.zeros((64, 64), bool), segments, one, *start)
        assert numpy.hypot(found["XWIN"][0] - 30.3, found["YWIN"][0] - 32.2) < 0.15
    nothing = windowed.of(-alone, 1.0, None, numpy.zeros((64, 64), bool), segments, one, *start)
    assert numpy.isnan(nothing["XWIN"][0]) and numpy.isnan(nothing["ERRAWIN"][0])


def test_vignets_leave_others_out():
    image = numpy.arange(100, dtype="f4").reshape(10, 10)
    segments, undefined = numpy.zeros((10, 10), "i4"), numpy.zeros((10, 10), bool)
    segments[5, 5], segments[5, 6], undefined[4, 5] = 1, 2, True
    middle = (numpy.array([5.0, 0.0]), numpy.array([5.0, 0.0]))
    own, corner = stamps.vignets(image, undefined, segments, numpy.array([1, 2]), middle, 3)
    assert own[1, 1] == 55 and own[1, 2] == own[0, 1] == numpy.float32(-1e30) and own[2, 2] == 66
    assert (corner[0] == numpy.float32(-1e30)).all() and corner[1, 1] == 0 and corner[2, 2] == 11


def test_columns_beside_fluxes(tmp_path, monkeypatch):
    monkeypatch.chdir(tmp_path)
    image, places, fluxes = field(3)
    fits.writeto("image.fits", image)
    assert cli.main(["image.fits", "-o", "cat.fits", "--gain", "1"]) == 0
    table = Table.read("cat.fits", hdu="SOURCES")
    rows, numbers = nearest(table, places), numpy.asarray(table["NUMBER"])
    assert numpy.asarray(rows["FLUX_RADIUS"] * 2) == pytest.approx(numpy.asarray(rows["FWHM"]), rel=0.2)
    assert numpy.asarray(rows["ELONGATION"]) == pytest.approx(numpy.asarray(rows["A"] / rows["B"]))
    level = image[rows["YPEAK"] - 1, rows["XPEAK"] - 1] - rows["BACKGROUND"]
    assert numpy.asarray(level) == pytest.approx(numpy.asarray(rows["FLUX_MAX"]), abs=0.5)
    assert (
        numpy.asarray(rows["BACKGROUND"]) == pytest.approx(900, abs=15) and (numbers == range(1, len(table) + 1)).all()
    )
    assert (rows["STELLARITY"] > 0.5).mean() > 0.95 and (rows["SNR_WIN"] > 10).all()
    assert numpy.asarray(table["THRESHOLD"]) == pytest.approx(table.meta["THRESH"] / 30 * 30 / 3.8, rel=0.15)


def scattered(seed, count=60, side=90):
    """A noisy image, its map with neighbours, the mask of undefined pixels, and sources: numbers, places and radii."""
    rng = numpy.random.default_rng(seed)
    x, y = rng.uniform(-3, side + 40, count), rng.uniform(-3, side + 2, count)
    half = rng.choice([rng.uniform(0.5, 4, count), rng.uniform(0, 12, count)])
    image = rng.normal(0, 1, (side, side + 37)).astype("f4")
    down, right = numpy.mgrid[: image.shape[0], : image.shape[1]]
    segments = numpy.zeros(image.shape, dtype="i4")
    for number in range(1, count + 1):
        add_star(image, x[number - 1], y[number - 1], 10 ** rng.uniform(0, 3.5))
        near = numpy.hypot(right - x[number - 1], down - y[number - 1]) < rng.uniform(0, 5)
        segments[near] = number
    undefined = rng.uniform(size=image.shape) < rng.choice([0, 0.001, 0.05])
    undefined[:, 20:24] |= seed % 3 == 0
    image[undefined] = 0
    return image, undefined, segments, numpy.arange(1, count + 1, dtype="i4"), x, y, half


def both_ways(monkeypatch, image, noise, gain, undefined, segments, numbers, x, y, half):
    """What is found by the loop in C and by numpy, which are the same to the last digit."""
    by_loop = windowed.of(image, noise, gain, undefined, segments, numbers, x, y, half)
    with monkeypatch.context() as without:
        without.setattr(loops, "library", lambda: None)
        by_numpy = windowed.of(image, noise, gain, undefined, segments, numbers, x, y, half)
    for name in windowed.NAMES:
        assert by_loop[name].dtype == by_numpy[name].dtype and by_loop[name].shape == (len(numbers),)
        assert by_loop[name].tobytes() == by_numpy[name].tobytes(), name
    return by_loop


@needs_loops
@pytest.mark.parametrize("seed", range(12))
def test_the_loop_as_numpy(monkeypatch, seed):
    image, undefined, segments, numbers, x, y, half = scattered(seed)
    noises = numpy.random.default_rng(seed).uniform(0, 2, image.shape).astype("f4")
    for noise in (0.7, noises):
        for gain in (None, 3.3):
            found = both_ways(monkeypatch, image, noise, gain, undefined, segments, numbers, x, y, half)
    assert numpy.isfinite(found["XWIN"]).sum() > 10 and numpy.isfinite(found["SNR_WIN"]).any()


@needs_loops
def test_the_loop_as_numpy_where_sources_are_odd(monkeypatch):
    image, undefined, segments, _, _, _, _ = scattered(5)
    height, width = image.shape
    odd = [numpy.nan, -1e9, 1e300, numpy.inf, -30.5, -4.5, -0.5, 0, 0.5, 44.5, height - 1, width - 0.5, width + 3, 400]
    x, y = (it.ravel() for it in numpy.meshgrid(odd, odd))
    numbers = numpy.resize(numpy.array([1, 7, 2**31 - 1, 60, 0], dtype="i4"), len(x))
    half = numpy.resize([1.0, 0.0, numpy.nan, 6.0, -3.0, 11.0], len(x))
    none = numpy.zeros(image.shape, dtype=bool)
    every = (image, 1.0, 2.0, none, segments, numbers, x, y, half)
    both_ways(monkeypatch, *every)
    both_ways(monkeypatch, image, 0.0, None, ~none, segments, numbers, x, y, half)
    for value in (0, numpy.nan, numpy.inf, -1, 1e38, 1e-40):
        light = image.copy()
        light[40:50] = value
        noises = numpy.where(undefined, 0, numpy.float32(0.5))
        both_ways(monkeypatch, light, noises, 1.0, undefined, segments, numbers, x, y, half)
        both_ways(monkeypatch, numpy.full_like(image, value), 1.0, None, none, segments, numbers, x, y, half)
    both_ways(monkeypatch, *(it[:0] if numpy.ndim(it) == 1 else it for it in every))
    wide = numpy.array([1e3, 40.0, 35.5])
    both_ways(monkeypatch, image, 1.0, 2.0, none, segments, numbers[:3], *([numpy.array([9.0, 44, 300])] * 2), wide)
    for one in (image[:1], image[:, :1], image[:1, :1], image[::2, ::3]):
        places = (slice(0, one.shape[0]), slice(0, one.shape[1]))
        both_ways(monkeypatch, one, 1.0, None, none[places], segments[places], numbers, x, y, half)


def test_weights_are_a_gaussians():
    powers = -numpy.concatenate([numpy.linspace(0, 5, 2001), numpy.linspace(0, 400, 2001)])
    assert numpy.abs(weights.falling(powers) / numpy.exp(powers) - 1).max() < 2e-15
    least, other, most = weights.falling(numpy.array([-numpy.inf, -1e9, 0.0]))
    assert 0 < least == other < 1e-170 and most == 1


@pytest.mark.parametrize(
    "sigma, off", [(0.8, (0.3, -0.8)), (2.0, (-1.7, 0.0)), (50.0, (49.0, 3.0)), (3.0, (20.0, -14))]
)
@pytest.mark.parametrize("times", [1, 2])
def test_weights_around_centres(sigma, off, times):
    off, reach = numpy.array(off)[:, None], int(4 * sigma) + 2
    gaussians = weights.Gaussians(numpy.array([sigma]), reach, 2 * reach + 2)
    made = gaussians.weights(off, 2, times == 2)
    places = numpy.arange(-reach, reach + 2)[:, None, None] - off
    alone = numpy.exp(-((places / sigma) ** 2) / 2 * times).swapaxes(0, 1)
    for power in range(3):
        # Each axis alone lacks the other's part of what they have in common.
        found = made[:, :, power] * gaussians.common(off) ** times
        lacking = numpy.exp(-((off[::-1] / sigma) ** 2) / 2 * times)[:, None]
        assert found == pytest.approx(alone * lacking * places.swapaxes(0, 1) ** power, rel=1e-12, abs=1e-280)
