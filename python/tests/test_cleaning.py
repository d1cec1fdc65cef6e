"""Peaks of noise on faint light are no sources."""
import numpy
import pytest
from conftest import add_star
from scipy import ndimage

import maxdetect
from maxdetect import _cleaning as cleaning, _kernel as kernel, _pieces as pieces, _smoothing as smoothing

WIDTH, SMOOTH, THRESHOLD, AREA = 3.2, 2.6, 132, 3


def seen(light, seed):
    """Light in deviations of its noise as the program sees it: smoothed, in thirtieths."""
    rng = numpy.random.default_rng(seed)
    image = smoothing.smoothed((light + rng.normal(0, 1, light.shape)).astype("f4"), SMOOTH)
    return numpy.rint(30 * image).astype("i4")


def parts_of(numbers):
    options = dict(mesh=0, min_area=AREA, contrast=0, connect=8)
    catalogue, segments = kernel.detect_stored(numbers, THRESHOLD, **options)
    return pieces.sources(numbers, catalogue, segments, THRESHOLD, lambda *_: numpy.inf, 0)


def decided(numbers):
    """The sources' places, and which of them stay."""
    parts = parts_of(numbers)
    kept = cleaning.kept(numbers, parts, THRESHOLD, AREA, WIDTH)
    table = parts.catalogue
    return numpy.column_stack([table["XCEN"], table["YCEN"]]) / 1000 - 1, kept


def halo(side=400, height=0.9, radius=130.0):
    """A faint halo, on which the noise passes the threshold here and there."""
    rows, columns = numpy.mgrid[:side, :side] - (side - 1) / 2
    return height * numpy.exp(-(((rows**2 + columns**2) / radius**2) ** 2))


def stars(light, flux, step=80):
    places = [(x, y) for y in range(step // 2, light.shape[0], step) for x in range(step // 2, light.shape[1], step)]
    for x, y in places:
        add_star(light, x, y, flux, WIDTH)
    return numpy.array(places)


def test_peaks_of_noise_on_a_halo_go():
    found = [decided(seen(halo(), seed)) for seed in range(5)]
    count, left = sum(len(places) for places, _ in found), sum(kept.sum() for _, kept in found)
    assert count > 30 and left <= 0.1 * count


def test_stars_on_a_halo_stay():
    light = halo()
    places = stars(light, 220.0)
    found, kept = decided(seen(light, 3))
    apart = numpy.hypot(*(found[:, None] - places[None]).transpose(2, 0, 1))
    own = apart.min(axis=1) < 2
    assert (apart.min(axis=0) < 2).all() and kept[own].all() and kept[~own].mean() < 0.35


def test_stars_alone_stay():
    light = numpy.zeros((400, 400))
    stars(light, 150.0, 40)
    places, kept = decided(seen(light, 4))
    assert len(kept) >= 95 and kept.all()


def test_a_crowd_stays():
    rng, light = numpy.random.default_rng(5), numpy.zeros((200, 200))
    for x, y in rng.uniform(5, 195, (700, 2)):
        add_star(light, x, y, 10 ** rng.uniform(2.5, 3.5), WIDTH)
    _, kept = decided(seen(light, 5))
    assert len(kept) > 150 and kept.mean() > 0.98


def test_undefined_pixels_are_no_light():
    light = halo()
    numbers = seen(light, 6)
    plain = decided(numbers)
    numbers[:, ::97] = kernel.LEAST
    _, kept = decided(numbers)
    assert len(kept) and kept.mean() <= max(0.2, plain[1].mean() + 0.1)
    numbers[...] = kernel.LEAST
    assert len(decided(numbers)[1]) == 0


def hilly(seed, side=260):
    """Halos of all sizes, stars on them, and components that reach far."""
    rng, light = numpy.random.default_rng(seed), numpy.zeros((side, side))
    for _ in range(4):
        y, x = rng.integers(0, side, 2)
        light[y, x] += 10 ** rng.uniform(3.5, 5)
    light = ndimage.gaussian_filter(light, rng.uniform(8, 30))
    for x, y in rng.uniform(0, side, (30, 2)):
        add_star(light, x, y, 10 ** rng.uniform(2, 3.5), WIDTH)
    return light


@pytest.mark.parametrize("seed", range(8))
def test_a_window_decides_as_the_whole(seed):
    """Where a window holds a component with all within reach of it, its sources stay or go as in the whole."""
    numbers = seen(hilly(seed), seed)
    whole = parts_of(numbers)
    kept = cleaning.kept(numbers, whole, THRESHOLD, AREA, WIDTH)
    rng, reach, decisions = numpy.random.default_rng(seed), cleaning.reach(WIDTH), 0
    components, _ = ndimage.label(numbers >= THRESHOLD, numpy.ones((3, 3)))
    boxes = ndimage.find_objects(components)
    for _ in range(6):
        top, left = (int(it) for it in rng.integers(0, 90, 2))
        bottom, right = (int(it) for it in rng.integers(150, 261, 2))
        window = numpy.ascontiguousarray(numbers[top:bottom, left:right])
        part = parts_of(window)
        its = cleaning.kept(window, part, THRESHOLD, AREA, WIDTH)
        firsts = {(y + top, x + left): it for y, x, it in zip(part.catalogue["YFIRST"], part.catalogue["XFIRST"], its)}
        for row, stays in zip(whole.catalogue.table(), kept):
            y, x = boxes[components[row["YFIRST"] - 1, row["XFIRST"] - 1] - 1]
            if (
                min(y.start - top if top else reach, x.start - left if left else reach) >= reach
                and min(bottom - y.stop if bottom < 260 else reach, right - x.stop if right < 260 else reach) >= reach
            ):
                assert firsts[(row["YFIRST"], row["XFIRST"])] == stays
                decisions += 1
    assert decisions > 5


def test_on_light_with_its_own_noise_more_is_asked():
    numbers = seen(halo(height=1.2), 7)
    parts = parts_of(numbers)
    how = (numbers, parts, THRESHOLD, AREA, WIDTH)
    even, brighter = cleaning.kept(*how), cleaning.kept(*how, lambda light: 1 + light / 30)
    assert even.sum() > brighter.sum() and not (brighter & ~even).any()


def test_the_reach_follows_the_width():
    assert cleaning.reach(1.0) == cleaning.reach(2.0) == 11 and cleaning.reach(4.0) == 17


def test_the_whole_way_cleans_unless_told_not_to():
    light = numpy.pad(10 * halo(), 60)
    image = (light + numpy.random.default_rng(9).normal(500, 10, light.shape)).astype("f4")
    cleaned, segments = maxdetect.catalogue(image, mesh=256)
    kept, _ = maxdetect.catalogue(image, mesh=256, clean=False)
    assert len(cleaned) <= 5 < len(kept) and segments.max() == len(cleaned)
    assert cleaned.meta["NCLEANED"] == len(kept) - len(cleaned) and kept.meta["NCLEANED"] == 0


@pytest.mark.parametrize("fwhm", (20.0, 50.0))
def test_tiles_decide_as_the_whole_where_the_box_is_wider_than_their_margin(fwhm):
    rng, side = numpy.random.default_rng(5), 400
    rows, columns = numpy.mgrid[:side, :side]
    image = rng.normal(500, 10, (side, side))
    for x, y, radius, height in zip(*rng.uniform(0, side, (2, 30)), rng.uniform(5, 60, 30), rng.uniform(9, 90, 30)):
        image += height * numpy.exp(-((columns - x) ** 2 + (rows - y) ** 2) / (2 * radius**2))
    image[190:200, 120:310] = numpy.nan
    options = dict(fwhm=fwhm, mesh=256, sigmas=2.0)
    whole, whole_map = maxdetect.catalogue(image, **options)
    kept, _ = maxdetect.catalogue(image, clean=False, **options)
    table, segments = maxdetect.catalogue(image, tile=200, **options)
    assert 0 < len(whole) <= len(kept) and (segments == whole_map).all()
    assert table.meta["NCLEANED"] == whole.meta["NCLEANED"] == len(kept) - len(whole)
    for name in whole.colnames:
        assert numpy.asarray(table[name]).tobytes() == numpy.asarray(whole[name]).tobytes(), name
