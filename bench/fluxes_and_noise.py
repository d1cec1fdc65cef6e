"""What the Python package does beside the program, measured on the fields of bench/guide.py, whose sources are known;
SEP stands beside it.

bench/guide.py prints these tables with its own, and compares them with docs/GUIDE.md. Fluxes are compared with a
star's whole light. For the pulls all but the total ones are compared with what the same pixels hold in the field
without noise, so that only the errors are asked about, and not what an aperture leaves out; the electrons are counted,
so the gain is 1.
"""
import math

import guide
import maxdetect
import numpy
from maxdetect import photometry
from maxdetect._arrays import catalogue

try:
    import sep
except ImportError:
    sep = None

# SEP's own recipe for a Kron flux: 2.5 Kron radii, and at least 3.5 standard deviations of the source.
SEP_KRON, SEP_LEAST = 2.5, 3.5
NOISY = 3 * guide.SIGMA
# The package's fluxes.
OWN = ("ISO", "AUTO", "TOTAL", "APER")
FLUX_FIELDS, UNEVEN_FIELDS = 24, 4


def located(table):
    """The centres in pixels from 0."""
    return numpy.column_stack([table["X"], table["Y"]]) - 1


def kron_by_sep(residual, found, segments, error, gain):
    """Kron fluxes and their errors by SEP's recipe, with its own ellipses."""
    ellipse = tuple(found[name] for name in ("x", "y", "a", "b", "theta"))
    alone = {"segmap": segments, "seg_id": numpy.arange(1, len(found) + 1, dtype="i4")}
    radius, _ = sep.kron_radius(residual, *ellipse, 6.0, **alone)
    reach = numpy.maximum(SEP_KRON * numpy.nan_to_num(radius), SEP_LEAST)
    flux, flux_error, _ = sep.sum_ellipse(residual, *ellipse, reach, err=error, gain=gain, subpix=1, **alone)
    return flux, flux_error, (ellipse, reach, alone)


def by_sep(image, sigmas=2.25, error=guide.SIGMA):
    """What SEP finds without a kernel above its own background, with its own noise where `error` is None: the
    sources, its map and the residual.
    """
    background = sep.Background(image.astype("f8"))
    residual, error = image - background.back(), background.globalrms if error is None else error
    found, segments = sep.extract(residual, sigmas, err=error, filter_kernel=None, segmentation_map=True)
    return found, segments, residual


# ---- fluxes and errors


def star_fields(count, first=200):
    """Fields of stars of magnitude 16 to 23, with their noise and without."""
    for rng in guide.seeds(first, count):
        stars = guide.grid(32, rng)
        magnitudes = rng.uniform(16, 23, len(stars))
        expected = numpy.zeros((guide.SIDE, guide.SIDE)) + guide.SKY
        for (x, y), flux in zip(stars, guide.electrons(magnitudes)):
            guide.add_star(expected, x, y, flux)
        yield guide.exposed(expected, rng), expected - guide.SKY, stars, magnitudes


def same_pixels(light, table, segments):
    """What a field without noise has on the pixels of the three sums."""
    numbers = numpy.asarray(table["NUMBER"], dtype="i4")
    isophotal = numpy.bincount(segments.ravel(), light.ravel(), len(table) + 1)[numbers]
    alone = {"segmap": segments.astype("i4"), "seg_id": numbers}
    x, y = located(table).T.copy()
    half = numpy.asarray(table["A"]) / 2
    shape = (half, numpy.asarray(table["B"]) / 2, numpy.radians(numpy.asarray(table["THETA"])))
    kron, _, _ = sep.sum_ellipse(light, x, y, *shape, numpy.asarray(table["KRON_RADIUS"]) / half, subpix=1, **alone)
    circle, _, _ = sep.sum_circle(light, x, y, photometry.APERTURE / 2, **alone)
    return {"ISO": isophotal, "AUTO": kron, "APER": circle}


class Collected:
    """Numbers by magnitude and by what they are about."""

    def __init__(self):
        self.kept = {}

    def add(self, magnitudes, about, values):
        for magnitude, value in zip(numpy.floor(magnitudes).astype(int), values):
            self.kept.setdefault((magnitude, about), []).append(value)

    def rows(self, abouts, cell):
        """A row for each magnitude."""
        for magnitude in range(16, 23):
            yield [f"{magnitude} to {magnitude + 1}", *(cell(self.kept[magnitude, about]) for about in abouts)]


def flux_and_pull_rows():
    """The parts of a star's light that fluxes hold, and the deviations of their pulls, by magnitude."""
    shares, pulls = Collected(), Collected()
    for image, light, stars, magnitudes in star_fields(FLUX_FIELDS):
        table, segments = catalogue(image, gain=1.0)
        own = guide.matches(stars, located(table))
        seen, rows = magnitudes[own >= 0], own[own >= 0]
        true = same_pixels(light, table, segments)
        for name in OWN:
            flux, error = (numpy.asarray(table[f"{part}_{name}"])[rows] for part in ("FLUX", "FLUXERR"))
            shares.add(seen, name, flux / guide.electrons(seen))
            pulls.add(seen, name, (flux - (true[name][rows] if name in true else guide.electrons(seen))) / error)
        found, segments, residual = by_sep(image)
        own = guide.matches(stars, numpy.column_stack([found["x"], found["y"]]))
        seen, rows = magnitudes[own >= 0], own[own >= 0]
        flux, error, (ellipse, reach, alone) = kron_by_sep(residual, found, segments, guide.SIGMA, 1.0)
        shares.add(seen, "SEP ISO", found["flux"][rows] / guide.electrons(seen))
        shares.add(seen, "SEP KRON", flux[rows] / guide.electrons(seen))
        within, _, _ = sep.sum_ellipse(light, *ellipse, reach, subpix=1, **alone)
        pulls.add(seen, "SEP KRON", ((flux - within) / error)[rows])
    return (
        list(shares.rows([*OWN, "SEP ISO", "SEP KRON"], lambda values: f"{numpy.median(values):.3f}")),
        list(pulls.rows([*OWN, "SEP KRON"], lambda values: f"{numpy.std(values):.2f}")),
    )


# ---- noise


def whole_number_rows():
    """The noise of empty images of whole numbers, by the package and by the median of absolute values."""
    for sigma in (0.8, 1, 1.5, 2.2, 3, 10, 100, 1000):
        found, plain = [], []
        for rng in guide.seeds(300, 4):
            image = numpy.rint(rng.normal(1000, sigma, (512, 512))).astype("i4")
            # Rounding adds a twelfth to the variance.
            true = math.sqrt(sigma**2 + 1 / 12)
            found.append(maxdetect.noise(image) / true)
            plain.append(1.4826 * numpy.median(abs(image - numpy.median(image))) / true)
        yield [f"{sigma:g}", f"{numpy.mean(found):.3f}", f"{numpy.mean(plain):.3f}"]


def uneven(rng):
    """Stars over noise of 30 in the left half, and of 90 in the right one; and the map of the noise."""
    side = 1024
    places = numpy.arange(16, side, 32)
    stars = numpy.array([(x, y) for y in places for x in places]) + rng.uniform(-0.5, 0.5, (len(places) ** 2, 2))
    magnitudes = rng.uniform(20, 24, len(stars))
    expected = numpy.zeros((side, side)) + guide.SKY
    for (x, y), flux in zip(stars, guide.electrons(magnitudes)):
        guide.add_star(expected, x, y, flux)
    more = numpy.zeros((side, side))
    more[:, side // 2 :] = math.sqrt(NOISY**2 - guide.SIGMA**2)
    noise = numpy.hypot(more, guide.SIGMA)
    return rng.poisson(expected) + rng.normal(0, 1, (side, side)) * more, stars, magnitudes, noise


def uneven_ways():
    """Ways of detecting where the noise is uneven: of an image and its noise, the centres."""
    yield "`maxcat`", lambda image, noise: located(catalogue(image)[0])
    yield "`maxcat --rms local`", lambda image, noise: located(catalogue(image, rms="local")[0])
    yield "`maxcat --weight`, type rms", lambda image, noise: located(catalogue(image, noise=noise)[0])
    if sep:
        yield "SEP without a kernel, the same map", lambda image, noise: centres_of_sep(by_sep(image, error=noise)[0])
        yield "SEP without a kernel, its own map", lambda image, noise: centres_of_sep(
            by_sep(image, error=sep.Background(image).rms())[0]
        )


def centres_of_sep(found):
    return numpy.column_stack([found["x"], found["y"]])


def uneven_rows():
    """True and false sources in the quiet half and in the noisy one."""
    fields = [uneven(rng) for rng in guide.seeds(310, UNEVEN_FIELDS)]
    for label, run in uneven_ways():
        counts = {(half, kind): [] for half in (0, 1) for kind in ("deep", "false")}
        for image, stars, _, noise in fields:
            found = run(image, noise)
            own = guide.matches(stars, found)
            wrong = numpy.ones(len(found), dtype=bool)
            wrong[own[own >= 0]] = False
            for half in (0, 1):
                here = (stars[:, 0] >= image.shape[1] // 2) == half
                counts[half, "deep"].append(20 + 4 * numpy.mean(own[here] >= 0))
                counts[half, "false"].append(numpy.sum(wrong & ((found[:, 0] >= image.shape[1] // 2) == half)))
        cells = [
            f"{numpy.mean(counts[half, 'deep']):.2f}|{guide.few(numpy.mean(counts[half, 'false']))}" for half in (0, 1)
        ]
        yield [label, *"|".join(cells).split("|")]


# ---- a sky that rises, and tiles


def slope_rows():
    """Stars over a sky that rises, by program, each with the noise that it measures."""
    options = {"mesh": 64, "connect": 8, "min_area": 5}

    def by_kernel(image):
        return guide.centres(maxdetect.detect(image, math.ceil(2.25 * maxdetect.noise(image)), **options)[0])

    ways = {"`maxcat`": lambda image: located(catalogue(image)[0]), "`maxdetect detect`": by_kernel}
    if sep:
        ways["SEP without a kernel"] = lambda image: centres_of_sep(by_sep(image, error=None)[0])
    for label, run in ways.items():
        deep, false = [], []
        for rng in guide.seeds(60, 4):
            image, stars, _ = guide.gradient(rng)
            found = run(image)
            own = guide.matches(stars, found)
            deep.append(21 + 4 * numpy.mean(own >= 0))
            false.append(len(found) - numpy.sum(own >= 0))
        yield [label, f"{numpy.mean(deep):.2f}", guide.few(numpy.mean(false))]


def tile_rows():
    """One crowd as a whole and in tiles."""
    rng = numpy.random.default_rng(320)
    image = numpy.block([[guide.crowded(rng)[0] for _ in range(2)] for _ in range(2)])
    whole, whole_map = catalogue(image, tile=4096)
    for tile in (1024, 512, 256):
        table, segments = catalogue(image, tile=tile)
        names = whole.colnames
        same = all(numpy.array(table[it]).tobytes() == numpy.array(whole[it]).tobytes() for it in names)
        told = ["yes" if so else "no" for so in (same, (segments == whole_map).all())]
        yield [f"{tile} x {tile}", str(len(table)), *told]


def tables(table):
    """Prints all tables."""
    table(
        "Noise of images of whole numbers, over the true one",
        ["true noise", "`maxdetect.noise`", "the median"],
        whole_number_rows(),
    )
    if sep:
        shares, pulls = flux_and_pull_rows()
        heads = ["magnitude", *(f"FLUX_{name}" for name in OWN)]
        table("Median parts of a star's light", [*heads, "SEP: isophotal", "SEP: Kron"], shares)
        table("Standard deviations of pulls", [*heads, "SEP: Kron"], pulls)
    deep, false = "stars: half found at", "false"
    halves = [f"noise {noise}: {what}" for noise in (guide.SIGMA, NOISY) for what in (deep, false)]
    table("Three times the noise in one half", ["program", *halves], uneven_rows())
    table("A sky that rises by half, by program", ["program", deep, false], slope_rows())
    heads = ["tiles of", "sources", "same rows, all columns", "same map"]
    table("One crowd in tiles", heads, tile_rows())
