"""Photometry of sources whose light is known."""
import numpy
import pytest
from astropy.table import Table
from scipy import ndimage

sep = pytest.importorskip("sep", reason="photometry wants SEP (Debian: python3-sep)")

from maxdetect import photometry, _pointlike as pointlike, _totals as totals  # noqa: E402

SKY, SIGMA, SIDE = 100.0, 2.0, 200
FLUXES = [f"{name}_{of}" for of in ("ISO", "AUTO", "TOTAL", "APER") for name in ("FLUX", "FLUXERR")]


def gaussian(x, y, flux, wide=1.8, narrow=1.8, angle=0.0, shape=(SIDE, SIDE)):
    """A Gaussian of this flux, with places from 0, standard deviations in pixels and an angle in degrees."""
    image, reach = numpy.zeros(shape), int(8 * wide) + 1
    top, left = max(int(y) - reach, 0), max(int(x) - reach, 0)
    part = image[top : int(y) + reach + 1, left : int(x) + reach + 1]
    rows, columns = numpy.mgrid[top : top + part.shape[0], left : left + part.shape[1]]
    turned = numpy.radians(angle)
    along = (columns - x) * numpy.cos(turned) + (rows - y) * numpy.sin(turned)
    across = (rows - y) * numpy.cos(turned) - (columns - x) * numpy.sin(turned)
    part[:] = flux / (2 * numpy.pi * wide * narrow) * numpy.exp(-((along / wide) ** 2 + (across / narrow) ** 2) / 2)
    return image


def found(image, threshold):
    """A map of the components above a threshold, and their catalogue with the kernel's columns that photometry uses."""
    segments, count = ndimage.label(numpy.nan_to_num(image) >= threshold)
    rows = []
    for number, (high, wide) in enumerate(ndimage.find_objects(segments), 1):
        y, x = numpy.nonzero(segments[high, wide] == number)
        y, x = y + high.start, x + wide.start
        weight = image[y, x] - threshold + 1
        place = [round(1000 * numpy.average(it, weights=weight)) + 1000 for it in (x, y)]
        moments = [round(1000 * it) for it in (x.var(), y.var(), numpy.mean((x - x.mean()) * (y - y.mean())))]
        rows.append(
            [number, threshold, threshold - 1, wide.start + 1, wide.stop, high.start + 1, high.stop, *place, *moments]
        )
    names = ["NUMBER", "LEVEL", "BASE", "XMIN", "XMAX", "YMIN", "YMAX", "XCEN", "YCEN", "XVAR", "YVAR", "XYCOV"]
    return segments.astype("i4"), Table(numpy.array(rows, dtype="i8").reshape(count, len(names)), names=names)


def points(wide):
    """Point sources that are Gaussians with this standard deviation."""
    radii = numpy.arange(0.25, 6 * wide, 0.25)
    shares = 1 - numpy.exp(-((radii / wide) ** 2) / 2)
    return pointlike.PointSources(2.3548 * wide, radii, shares / shares[-1], 50)


def one_star(**options):
    image = SKY + gaussian(80.25, 120.5, 10000.0)
    segments, catalogue = found(image, 105)
    return photometry.measured(image, SKY, SIGMA, segments, catalogue, **options), image, segments


def test_fluxes_of_a_star_without_noise():
    table, image, segments = one_star()
    star = table.table()[0]
    assert len(table) == 1
    assert (star["X"], star["Y"]) == pytest.approx((81.25, 121.5), abs=0.01)
    assert star["FLUX_ISO"] == pytest.approx((image - SKY)[segments == 1].sum(), rel=1e-6)
    assert star["FLUX_AUTO"] == pytest.approx(10000, rel=1e-2)
    assert star["FLUX_TOTAL"] == star["FLUX_AUTO"] and star["FLUXERR_TOTAL"] == star["FLUXERR_AUTO"]
    assert star["FLUX_APER"] == pytest.approx(10000 * (1 - numpy.exp(-25 / 2 / 1.8**2)), rel=5e-3)
    assert star["FWHM"] == pytest.approx(2.3548 * 1.8, rel=0.02)
    assert star["FLAGS"] == 0


def test_errors_are_those_of_the_pixels_and_the_electrons():
    table, _, segments = one_star()
    pixels = (segments == 1).sum()
    assert table["FLUXERR_ISO"][0] == pytest.approx(SIGMA * numpy.sqrt(pixels), rel=1e-6)
    assert table["FLUXERR_APER"][0] == pytest.approx(SIGMA * numpy.sqrt(25 * numpy.pi), rel=1e-2)
    counted, _, _ = one_star(gain=2.0)
    variance = pixels * SIGMA**2 + table["FLUX_ISO"][0] / 2
    assert counted["FLUXERR_ISO"][0] == pytest.approx(numpy.sqrt(variance), rel=1e-6)
    assert counted["FLUXERR_AUTO"][0] > table["FLUXERR_AUTO"][0]


@pytest.mark.parametrize("part, expected", [(0.003, 3.5), (0.5, 2.5 * numpy.sqrt(numpy.pi / 2))])
@pytest.mark.parametrize("wide, narrow, angle", [(1.8, 1.8, 0), (6.0, 3.0, 30)])
def test_the_ellipse_is_the_one_that_source_extractor_takes(part, expected, wide, narrow, angle):
    """Its half axes, over the standard deviations of a Gaussian whose pixels above a part of its height are a source's:
    3.5, but where these show little of its light 2.5 times the mean distance of all.
    """
    image = gaussian(100.25, 100.5, 1e6, wide, narrow, angle)
    table = photometry.measured(image, 0, SIGMA, *found(image, part * image.max()))
    assert table["KRON_RADIUS"][0] == pytest.approx(expected * wide, rel=0.04)
    assert table["FLUX_AUTO"][0] == pytest.approx(1e6 * (1 - numpy.exp(-(expected**2) / 2)), rel=0.004)


def test_an_ellipse_without_light_has_three_and_a_half_deviations_of_the_pixels():
    image = gaussian(100, 100, 1000.0)
    segments, catalogue = found(image, 40)
    assert (segments == 1).sum() == 5
    table = photometry.measured(image - 30, 0, SIGMA, segments, catalogue)
    light = image[100, 100] - 30, image[100, 101] - 30
    variance = 2 * light[1] / (light[0] + 4 * light[1]) + 1 / 12
    assert table["KRON_RADIUS"][0] == pytest.approx(3.5 * numpy.sqrt(variance), rel=1e-3)


def test_a_source_of_one_pixel_has_an_ellipse():
    image = gaussian(100, 100, 1000.0)
    segments, catalogue = found(image, 48)
    table = photometry.measured(image, 0, SIGMA, segments, catalogue, points=points(1.8))
    assert (segments == 1).sum() == 1
    assert table["KRON_RADIUS"][0] >= 3.5 * 12**-0.5 and table["FLUX_TOTAL"][0] == pytest.approx(1000, rel=0.01)


@pytest.mark.parametrize("peak", [60, 4000])
def test_the_total_flux_of_a_point_source_is_whole(peak):
    image = gaussian(100.25, 100.5, peak * 2 * numpy.pi * 1.8**2)
    table = photometry.measured(image, 0, SIGMA, *found(image, 10), points=points(1.8))
    assert table["FLUX_TOTAL"][0] == pytest.approx(image.sum(), rel=0.01)
    assert table["FLUXERR_TOTAL"][0] < table["FLUXERR_AUTO"][0]


def test_the_total_flux_of_a_wide_source_is_the_ellipse_s():
    image = gaussian(100.25, 100.5, 1e5, 6.0, 3.0, 30)
    table = photometry.measured(image, 0, SIGMA, *found(image, 10), points=points(1.8))
    for name in ("FLUX", "FLUXERR"):
        assert table[f"{name}_TOTAL"][0] == pytest.approx(table[f"{name}_AUTO"][0], rel=1e-9)


def test_circles_have_a_least_size():
    assert totals.reach(points(0.4)) == totals.reach(points(0.8)) == 1.3 * 2.5


def test_the_total_flux_has_no_step_between_point_sources_and_wider_ones():
    fluxes = []
    for wide in numpy.linspace(1.8, 2.6, 33):
        image = gaussian(100, 100, 1e5, wide, wide)
        table = photometry.measured(image, 0, SIGMA, *found(image, 10), points=points(1.8))
        fluxes.append(table["FLUX_TOTAL"][0])
    assert numpy.abs(numpy.diff(fluxes)).max() < 0.015 * 1e5 and numpy.ptp(fluxes) < 0.08 * 1e5


def test_a_neighbour_hardly_changes_a_total_flux():
    """A larger aperture would have more of its light."""
    alone = gaussian(100, 100, 20000.0)
    both = alone + gaussian(108, 100, 20000.0)
    table = photometry.measured(both, 0, SIGMA, *found(both, 200), points=points(1.8))
    assert len(table) == 2 and table["FLUX_TOTAL"] == pytest.approx(20000, rel=0.01)


def test_total_fluxes_have_the_errors_of_what_they_are_told_by():
    near = numpy.array([100.0, 100.0, -5.0, numpy.nan, 100.0, 100.0])
    wide, split = numpy.array([110.0, 150, 100, numpy.nan, 150, 150]), numpy.arange(6) == 5
    sizes, curve = [], points(1.8)

    def circle(radius):
        sizes.append(radius)
        flux, error = (near, 3.0) if len(sizes) == 1 else (near * [1.0, 2.0, 1.0, 1.0, 1.09, 1.18], 4.0)
        return flux * curve.share(radius), numpy.full(6, error) * curve.share(radius)

    flux, error = totals.of(curve, circle, wide, numpy.full(6, 5.0), numpy.full(6, 100.0), split)
    assert sizes == pytest.approx([0.9 * curve.width, 1.3 * curve.width]) and totals.reach(curve) == max(sizes)
    # The last ones are half wide sources, as the ring's light tells with a slope of 15 / 100, or half of it.
    between, apart = ((9 + (16 - 9) * (0.5 + slope * 50) ** 2 + (25 - 16) / 4) ** 0.5 for slope in (0.15, 0.075))
    assert flux == pytest.approx([100, 150, -5, numpy.nan, 125, 125], nan_ok=True)
    assert error == pytest.approx([3, 5, 3, numpy.nan, between, apart], nan_ok=True)
    assert totals.of(None, circle, wide, error, wide, split) == (wide, error) and totals.reach(None) == 0


def test_pixels_that_are_shared_out_count_as_a_neighbour_s():
    """They are none of the source's own, and no sky of another one either."""
    image = gaussian(95, 100, 20000.0) + gaussian(101, 100, 20000.0)
    segments, catalogue = found(image, 700)
    assert len(catalogue) == 2
    shared = segments.copy()
    left = (segments == 0) & (image > 10) & (numpy.arange(SIDE) < 98)
    right = (segments == 0) & (image > 10) & (numpy.arange(SIDE) >= 98)
    shared[left], shared[right] = -segments[100, 95], -segments[100, 101]
    gaps, none = (photometry.measured(image, 0, SIGMA, it, catalogue, points=points(1.8)) for it in (segments, shared))
    assert (gaps["FLUX_ISO"] == none["FLUX_ISO"]).all() and (gaps["FLUXERR_ISO"] == none["FLUXERR_ISO"]).all()
    assert (gaps["FLUX_AUTO"] > 22000).all() and none["FLUX_AUTO"] == pytest.approx(20000, rel=0.07)
    assert none["FLUX_TOTAL"] == pytest.approx(20000, rel=0.07)


def test_noise_and_background_as_arrays_and_as_numbers():
    image = SKY + gaussian(80.25, 120.5, 10000.0)
    segments, catalogue = found(image, 105)
    plain = photometry.measured(image, SKY, SIGMA, segments, catalogue)
    sides = numpy.ones(image.shape)
    arrays = photometry.measured(image, SKY * sides, SIGMA * sides, segments, catalogue)
    for name in plain.colnames:
        assert arrays[name][0] == pytest.approx(plain[name][0], rel=1e-5)
    with pytest.raises(ValueError):
        photometry.measured(image, SKY, sides[1:], segments, catalogue)
    with pytest.raises(ValueError):
        photometry.measured(image, SKY, SIGMA, segments[1:], catalogue)


def test_errors_are_true():
    """The fluxes of one star under many noises scatter by their errors."""
    rng = numpy.random.default_rng(3)
    clean = sum(gaussian(x, y, 3000.0, shape=(400, 400)) for x in range(20, 400, 40) for y in range(20, 400, 40))
    pulls = {"AUTO": [], "TOTAL": [], "APER": []}
    for _ in range(4):
        image = rng.poisson(SKY + clean) + 0.0
        segments, catalogue = found(image, 160)
        table = photometry.measured(image, SKY, SKY**0.5, segments, catalogue, gain=1.0, points=points(1.8))
        table = table[table["FLUX_ISO"] > 1000]
        assert len(table) == 100
        for name, of in pulls.items():
            of.extend((table[f"FLUX_{name}"] - numpy.mean(table[f"FLUX_{name}"])) / table[f"FLUXERR_{name}"])
    for of in pulls.values():
        assert 0.9 < numpy.std(of) < 1.1


@pytest.mark.parametrize("angle", [0, 30, 90, 120])
def test_ellipses(angle):
    image = gaussian(100, 100, 1e6, 8, 3, angle)
    _, catalogue = found(image, 200)
    (long,), (short,), (turned,) = photometry.ellipses(catalogue)
    # Where a Gaussian falls to a level, its isophote is an ellipse with this ratio of half axes.
    times = numpy.sqrt(2 * numpy.log(image.max() / 200))
    assert long == pytest.approx(8 * times, rel=0.03) and short == pytest.approx(3 * times, rel=0.03)
    assert abs((turned - angle + 90) % 180 - 90) < 2


def test_a_single_row_has_an_ellipse():
    row = Table({"XVAR": [2000], "YVAR": [0], "XYCOV": [0]})
    (long,), (short,), (turned,) = photometry.ellipses(row)
    assert long > short > 0 and turned == 0


def test_a_neighbour_counts_as_sky():
    alone = SKY + gaussian(100, 100, 20000.0)
    both = alone + gaussian(109, 100, 20000.0)
    single, pair = (photometry.measured(it, SKY, SIGMA, *found(it, 230)) for it in (alone, both))
    assert len(single) == 1 and len(pair) == 2
    assert pair["FLUX_AUTO"][0] == pytest.approx(single["FLUX_AUTO"][0], rel=0.03)
    assert pair["FLAGS"][0] & photometry.CROWDED and not single["FLAGS"][0] & photometry.CROWDED


def test_flags():
    image = SKY + sum(gaussian(x, y, 10000.0) for x, y in ((1, 60), (60, 60), (120, 60), (60, 120), (160, 160)))
    image[62:64, 63:65] = numpy.nan
    mask = numpy.zeros(image.shape, dtype=bool)
    mask[60, 124] = True
    image[120, 60] = 5000
    segments, catalogue = found(numpy.where(mask, numpy.nan, image), 110)
    catalogue["BASE"][catalogue["XMIN"] > 140] = 130
    table = photometry.measured(image, SKY, SIGMA, segments, catalogue, mask=mask, saturation=4000, threshold=110)
    flags = {(round(x), round(y)): flags for x, y, flags in zip(table["X"], table["Y"], table["FLAGS"])}
    low = photometry.EDGE | photometry.UNDEFINED | photometry.SATURATED | photometry.SPLIT
    near = {place: bits & low for place, bits in flags.items()}
    assert near[3, 61] == photometry.EDGE and flags[3, 61] & photometry.BEYOND
    assert near[61, 61] == photometry.UNDEFINED and near[121, 61] == photometry.UNDEFINED
    assert near[61, 121] == photometry.SATURATED
    assert near[161, 161] == photometry.SPLIT
    assert set(photometry.FLAGS) == {1, 2, 4, 8, 16, 32, 64, 128, 256}


def test_undefined_pixels_have_no_part_in_the_sums():
    image = SKY + gaussian(100, 100, 10000.0)
    masked = numpy.ma.MaskedArray(image, mask=numpy.zeros(image.shape, dtype=bool))
    masked[104:, 100] = numpy.ma.masked
    masked.data[104:, 100] = 1e9
    holed = masked.filled(numpy.nan)
    segments, catalogue = found(holed, 110)
    by_nan, by_mask = (photometry.measured(it, SKY, SIGMA, segments, catalogue) for it in (holed, masked))
    for name in by_nan.colnames:
        assert by_nan[name][0] == by_mask[name][0]
    assert by_nan["FLUX_AUTO"][0] == pytest.approx(10000, rel=0.05)


def test_an_undefined_pixel_far_away_changes_nothing():
    both = SKY + gaussian(100, 100, 20000.0) + gaussian(109, 100, 20000.0)
    segments, catalogue = found(both, 230)
    holed = both.copy()
    holed[10, 10] = numpy.nan
    one, two = (photometry.measured(it, SKY, SIGMA, segments, catalogue, gain=2.0) for it in (both, holed))
    assert len(one) == 2 and one["FLAGS"][0] & photometry.CROWDED
    for name in one.colnames:
        assert (one[name] == two[name]).all(), name


def test_pixels_without_noise_are_undefined():
    image = SKY + gaussian(100, 100, 10000.0)
    noise = numpy.full(image.shape, SIGMA)
    noise[104:, 100] = numpy.inf
    holed = numpy.where(numpy.isfinite(noise), image, numpy.nan)
    segments, catalogue = found(holed, 110)
    image[104:, 100] = 1e9
    one, two = (photometry.measured(it, SKY, noise, segments, catalogue) for it in (image, holed))
    for name in one.colnames:
        assert one[name][0] == two[name][0] and numpy.isfinite(one[name][0])
    assert one["FLAGS"][0] & photometry.UNDEFINED


def test_sources_without_a_value():
    """As where they are measured in another image that doesn't reach as far."""
    image = SKY + gaussian(60, 100, 10000.0) + gaussian(140, 100, 10000.0)
    segments, catalogue = found(image, 110)
    for other in (numpy.where(numpy.arange(SIDE) < 100, image, numpy.nan), image * numpy.nan):
        background, noise = photometry.sky(other, segments)
        table = photometry.measured(other, background, noise, segments, catalogue, gain=1.0, points=points(1.8))
        for name in (*FLUXES, "FWHM"):
            assert numpy.isnan(table[name][1]) and numpy.isnan(table[name][0]) == numpy.isnan(other).all()
        assert table["FLAGS"][1] & photometry.UNDEFINED
    assert table["X"][0] == pytest.approx(61, abs=0.01)


def test_no_sources():
    image = numpy.full((30, 20), SKY)
    table = photometry.measured(image, SKY, SIGMA, *found(image, 200))
    full, _, _ = one_star()
    assert len(table) == 0 and table.colnames == full.colnames
    assert [table[name].dtype for name in table.colnames] == [full[name].dtype for name in full.colnames]


@pytest.mark.parametrize("level", [0.0, 1e3, 1e7])
def test_sky_beside_sources(level):
    rng = numpy.random.default_rng(5)
    slope = numpy.linspace(0, 8, 512)[None, :] + numpy.zeros((512, 512))
    stars = sum(gaussian(x, y, 30000.0, shape=(512, 512)) for x, y in rng.uniform(0, 512, (60, 2)))
    image = level + slope + rng.normal(0, SIGMA, (512, 512))
    segments, _ = found(slope * 0 + stars, 5)
    image += stars
    image[:5] = numpy.nan
    background, noise = photometry.sky(image, segments)
    assert noise == pytest.approx(SIGMA, rel=0.03)
    assert numpy.abs(background - level - slope)[40:-40, 40:-40].max() < 0.4
    _, noises = photometry.sky(image, segments, local=True)
    assert noises.shape == image.shape and noises[100, 100] == pytest.approx(SIGMA, rel=0.1)


@pytest.mark.parametrize("kind", ["u1", "u2", "i4", ">i2", ">f4"])
def test_sky_of_other_numbers_and_without_a_mesh(kind):
    rng = numpy.random.default_rng(6)
    image = rng.poisson(9, (100, 130)).astype(kind)
    background, noise = photometry.sky(image, numpy.zeros(image.shape, dtype="i4"), 0)
    assert background.shape == image.shape and numpy.ptp(background) < 1e-6
    assert background[0, 0] == pytest.approx(9, abs=0.2) and noise == pytest.approx(3, rel=0.05)


def test_sky_where_sources_are_everywhere():
    image = numpy.random.default_rng(7).normal(SKY, SIGMA, (128, 128))
    background, _ = photometry.sky(image, numpy.ones(image.shape, dtype="i4"))
    assert background[64, 64] == pytest.approx(SKY, abs=1)
    background, noise = photometry.sky(image * numpy.nan, numpy.zeros(image.shape, dtype="i4"))
    assert numpy.isnan(background).all() and numpy.isnan(noise)
    with pytest.raises(ValueError):
        photometry.sky(image, numpy.zeros(image.shape, dtype="i4"), -1)
