"""Measures what docs/GUIDE.md says of the program and of the package around it, on synthetic fields whose sources are
known.

usage: /usr/bin/python3 bench/guide.py MAXDETECT [--check]      (MAXDETECT is the built program; it takes some minutes)

With --check it then compares the guide's tables with what it printed, and ends with status 1 where they differ.

It wants astropy and numpy (Debian: python3-astropy); beside them it measures SEP, the library form of Source
Extractor, where it is installed (Debian: python3-sep). All fields come from fixed seeds. A field's sky is 900
electrons a pixel, so its noise is 30; stars have a Moffat profile of beta 3 whose full width at half its height is 3
pixels; magnitudes are 30 - 2.5 log10(electrons).
"""
import math
import os
import pathlib
import sys

import numpy

TOP = pathlib.Path(__file__).resolve().parent.parent
sys.path.insert(0, str(TOP / "python"))
import maxdetect  # noqa: E402
from maxdetect import scaling  # noqa: E402

try:
    import sep
except ImportError:
    sep = None

SKY, SIGMA, SIDE = 900, 30, 512
WIDTH, BETA = 3.0, 3.0
CORE = WIDTH / 2 / math.sqrt(2 ** (1 / BETA) - 1)
REACH = 40
NEAR = 2.0


# ---- fields


def electrons(magnitude):
    return 10 ** ((30 - numpy.asarray(magnitude)) / 2.5)


def add_star(image, x, y, flux):
    """A star whose light is `flux` on an endless plane."""
    reach = REACH if flux < 1e6 else 4 * REACH
    left, top = max(0, int(x) - reach), max(0, int(y) - reach)
    part = image[top : int(y) + reach + 1, left : int(x) + reach + 1]
    rows, columns = numpy.mgrid[top : top + part.shape[0], left : left + part.shape[1]]
    part += (
        flux * (BETA - 1) / (math.pi * CORE**2) * (1 + ((columns - x) ** 2 + (rows - y) ** 2) / CORE**2) ** -BETA
    )


def add_galaxy(image, x, y, flux, radius, axis_ratio, angle):
    """An exponential disc with this half-light radius along its long axis."""
    scale, reach = radius / 1.678, int(8 * radius) + 4
    left, top = max(0, int(x) - reach), max(0, int(y) - reach)
    part = image[top : int(y) + reach + 1, left : int(x) + reach + 1]
    rows, columns = numpy.mgrid[top : top + part.shape[0], left : left + part.shape[1]]
    along = (columns - x) * math.cos(angle) + (rows - y) * math.sin(angle)
    across = (rows - y) * math.cos(angle) - (columns - x) * math.sin(angle)
    part += flux / (2 * math.pi * scale**2 * axis_ratio) * numpy.exp(-numpy.hypot(along, across / axis_ratio) / scale)


def exposed(expected, rng):
    """What a detector counts."""
    return rng.poisson(expected).astype("i4")


def places(count, rng, margin=8):
    return rng.uniform(margin, SIDE - margin, (count, 2))


def grid(spacing, rng):
    """Places about `spacing` apart."""
    steps = numpy.arange(spacing / 2, SIDE, spacing)
    return numpy.array([(x, y) for y in steps for x in steps]) + rng.uniform(-0.5, 0.5, (len(steps) ** 2, 2))


def field(places, fluxes, rng, sky=SKY):
    expected = numpy.zeros((SIDE, SIDE)) + sky
    for (x, y), flux in zip(places, fluxes):
        add_star(expected, x, y, flux)
    return exposed(expected, rng)


def sparse(rng, faintest=25.0, brightest=21.0):
    """Stars 32 pixels apart, of every magnitude in a range alike."""
    stars = grid(32, rng)
    magnitudes = rng.uniform(brightest, faintest, len(stars))
    return field(stars, electrons(magnitudes), rng), stars, magnitudes


def crowded(rng):
    """A star on every 105 pixels, twice as many with each magnitude."""
    stars = places(2500, rng)
    magnitudes = 18 + numpy.log2(1 + rng.uniform(size=len(stars)) * (2**6 - 1))
    return field(stars, electrons(magnitudes), rng), stars, magnitudes


def galaxies(rng):
    """Discs of many sizes, 46 pixels apart."""
    discs = grid(46, rng)
    magnitudes, radii = rng.uniform(18, 22, len(discs)), rng.uniform(3, 8, len(discs))
    expected = numpy.zeros((SIDE, SIDE)) + SKY
    for (x, y), flux, radius in zip(discs, electrons(magnitudes), radii):
        add_galaxy(expected, x, y, flux, radius, rng.uniform(0.3, 1), rng.uniform(0, math.pi))
    return exposed(expected, rng), discs, magnitudes, radii


def pairs(rng, apart, fainter):
    """Pairs of stars, 40 pixels from pair to pair; the first has magnitude 20."""
    middles = grid(40, rng)
    angles = rng.uniform(0, 2 * math.pi, len(middles))
    half = apart / 2 * numpy.column_stack([numpy.cos(angles), numpy.sin(angles)])
    both = numpy.concatenate([middles - half, middles + half])
    fluxes = electrons(numpy.repeat([20.0, 20.0 + fainter], len(middles)))
    return field(both, fluxes, rng), both


# ---- programs


def centres(table):
    """Centres in pixels from 0."""
    return numpy.column_stack([table["XCEN"], table["YCEN"]]) / 1000 - 1


def isophotal(table):
    return numpy.asarray(table["FLUX"] + table["BASE"] * table["AREA"], dtype="f8")


def by_maxdetect(sigmas, **options):
    """A detection by the program: of an image, the centres, isophotal fluxes and rows."""

    def run(image, mask=None):
        settings = {"mesh": 64, **options}
        above = 0 if settings["mesh"] else SKY
        masked = numpy.ma.MaskedArray(image, mask=numpy.ma.nomask if mask is None else mask)
        table, _ = maxdetect.detect(masked, math.ceil(above + sigmas * SIGMA), **settings)
        return centres(table), isophotal(table) - above * numpy.asarray(table["AREA"]), table

    return run


def by_maxdetect_smoothed(sigmas, **options):
    """The same with the image smoothed and scaled as `examples/prepare.py --smooth` does it."""

    def run(image, mask=None):
        values = image.astype("f8")
        if mask is not None:
            values[mask] = numpy.nan
        numbers, _, scale = scaling.prepared(values, smooth=True)
        table, _ = maxdetect.detect(numbers, scaling.threshold(sigmas), **{"mesh": 64, **options})
        return centres(table), isophotal(table) / scale, table

    return run


def by_maxcat(**settings):
    """The whole way of `maxcat`, with its defaults but for these settings."""

    def run(image, mask=None):
        masked = numpy.ma.MaskedArray(image, mask=numpy.ma.nomask if mask is None else mask)
        table, _ = maxdetect.catalogue(masked, **settings)
        return numpy.column_stack([table["X"], table["Y"]]) - 1, numpy.asarray(table["FLUX_ISO"]), table

    return run


def by_sep(sigmas, kernel=True, **options):
    """A detection by SEP, with its own background of cells of 64 by 64 pixels."""

    def run(image, mask=None):
        values = image.astype("f8")
        background = sep.Background(values, mask=mask)
        how = {} if kernel else {"filter_kernel": None}
        found = sep.extract(values - background, sigmas, err=SIGMA, mask=mask, **how, **options)
        return numpy.column_stack([found["x"], found["y"]]), found["flux"], found

    return run


def ways():
    """The ways of detecting that the guide speaks of."""
    yield "defaults, `--threshold` 3 sigma", by_maxdetect(3)
    yield "`--connect 8 --min-area 5`, 2.25 sigma", by_maxdetect(2.25, connect=8, min_area=5)
    yield "`--min-area 5`, 2.25 sigma (connectivity 4)", by_maxdetect(2.25, min_area=5)
    yield "`--connect 8 --min-area 3`, 3 sigma", by_maxdetect(3, connect=8, min_area=3)
    yield "`--connect 8 --min-area 3 --min-flux` 10 sigma, 1.5 sigma", by_maxdetect(
        1.5, connect=8, min_area=3, min_flux=10 * SIGMA
    )
    yield "the same without `--mesh` (a flat sky)", by_maxdetect(
        1.5, connect=8, min_area=3, min_flux=10 * SIGMA, mesh=0
    )
    yield "smoothed, `--connect 8 --min-area 5`, 1.375 sigma", by_maxdetect_smoothed(1.375, connect=8, min_area=5)
    yield "`maxcat`", by_maxcat()
    yield "`maxcat --no-smooth`", by_maxcat(fwhm=0)
    if sep:
        yield "SEP's defaults: its kernel, 1.5 sigma, 5 pixels", by_sep(1.5)
        yield "SEP without a kernel, 2.25 sigma, 5 pixels", by_sep(2.25, kernel=False)


# ---- figures


def distances(true, found):
    """How far each of some true places lies from each detection."""
    return numpy.hypot(true[:, None, 0] - found[None, :, 0], true[:, None, 1] - found[None, :, 1])


def matches(true, found, near=NEAR):
    """For each true place the number of the detection that is its own, or -1: closest pairs first, each detection
    once.
    """
    own = numpy.full(len(true), -1)
    taken = numpy.zeros(len(found), dtype=bool)
    apart = distances(true, found)
    for place in numpy.argsort(apart, axis=None):
        row, column = divmod(int(place), len(found))
        if apart[row, column] > near:
            break
        if own[row] < 0 and not taken[column]:
            own[row], taken[column] = column, True
    return own


PRINTED = []


def table(title, heads, rows):
    """Prints a table, and keeps its rows."""
    print(f"\n{title}\n")
    print("| " + " | ".join(heads) + " |")
    print("|" + "---|" * len(heads))
    PRINTED.append(heads)
    for row in rows:
        print("| " + " | ".join(row) + " |", flush=True)
        PRINTED.append(row)


# Sections of the guide with tables of words, or with the figures of bench/bands.py; and what a paragraph before a table
# has that another script prints.
NOT_PRINTED, ELSEWHERE = ("## maxcat", "## Columns", "## Two bands"), "bench/scenes.py"


def differing_rows():
    """Rows of the guide's tables whose figures weren't printed. The first cell, which says what a row is about, may be
    worded otherwise.
    """
    printed = {tuple(row[1:]) for row in PRINTED}
    section, before, blank = "", "", True
    for line in (TOP / "docs" / "GUIDE.md").read_text(encoding="utf-8").splitlines():
        section = line if line.startswith("## ") else section
        if line and not line.startswith("|"):
            before = line if blank else f"{before} {line}"
        blank = not line
        if section in NOT_PRINTED or ELSEWHERE in before:
            continue
        cells = tuple(cell.strip() for cell in line.strip("|").split("|")[1:])
        if line.startswith("|") and set(line) - set("|-") and cells not in printed:
            yield line


def percent(part):
    return f"{100 * part:.0f} %"


def few(count):
    """A mean number, with a decimal where it is small."""
    return f"{count:.1f}" if count < 9.5 else f"{count:.0f}"


def seeds(start, count):
    return [numpy.random.default_rng(seed) for seed in range(start, start + count)]


def empty_fields():
    """Fields of noise alone."""
    return [exposed(numpy.zeros((1024, 1024)) + SKY, rng) for rng in seeds(10, 4)]


def option_rows():
    """What each way finds, and what it finds that isn't there."""
    empty = empty_fields()
    stars = [sparse(rng) for rng in seeds(20, 4)]
    crowds, discs = [crowded(rng) for rng in seeds(30, 2)], [galaxies(rng) for rng in seeds(40, 3)]
    for label, run in ways():
        false = numpy.mean([len(run(image)[0]) for image in empty])
        seen = numpy.mean(numpy.concatenate([matches(true, run(image)[0]) >= 0 for image, true, _ in stars]))
        crowd_found, crowd_false = [], []
        for image, true, magnitudes in crowds:
            found = run(image)[0]
            own = matches(true, found)
            crowd_found.append(numpy.mean(own[magnitudes < 22.5] >= 0))
            crowd_false.append(len(found) - numpy.sum(own >= 0))
        disc_found, pieces = [], []
        for image, true, _, radii in discs:
            found = run(image)[0]
            own = matches(true, found, 3.0)
            disc_found.append(numpy.mean(own >= 0))
            pieces.append(
                (numpy.sum((distances(true, found) < 3 * radii[:, None]).any(0)) - numpy.sum(own >= 0)) / len(true)
            )
        in_crowd = [percent(numpy.mean(crowd_found)), few(numpy.mean(crowd_false))]
        yield [
            label,
            few(false),
            f"{21 + 4 * seen:.2f}",
            *in_crowd,
            percent(numpy.mean(disc_found)),
            f"{numpy.mean(pieces):.2f}",
        ]


PAIRS = [(4, 0), (4, 1), (5, 1), (6, 1), (6, 2), (8, 2)]


def threshold_rows():
    """Thresholds of `maxcat`, in sigmas of the smoothed noise."""
    empty, stars = empty_fields(), [sparse(rng) for rng in seeds(20, 4)]
    for sigmas in (3.8, 4.0, 4.2, 4.4, 4.6, 5.0):
        run = by_maxcat(sigmas=sigmas)
        seen = numpy.mean(numpy.concatenate([matches(true, run(image)[0]) >= 0 for image, true, _ in stars]))
        yield [str(sigmas), few(numpy.mean([len(run(image)[0]) for image in empty])), f"{21 + 4 * seen:.2f}"]


def pair_rows():
    """How often both stars of a pair are found."""
    for label, run in ways():
        cells = []
        for apart, fainter in PAIRS:
            shares = []
            for rng in seeds(50, 2):
                image, both = pairs(rng, apart, fainter)
                own = matches(both, run(image)[0]) >= 0
                shares.append(numpy.mean(own[: len(both) // 2] & own[len(both) // 2 :]))
            cells.append(percent(numpy.mean(shares)))
        yield [label, *cells]


def noise_rows():
    """The noise that `maxdetect.noise` tells."""
    fields = {
        "empty": exposed(numpy.zeros((SIDE, SIDE)) + SKY, numpy.random.default_rng(1)),
        "sparse": sparse(numpy.random.default_rng(2))[0],
        "galaxies": galaxies(numpy.random.default_rng(3))[0],
        "crowded": crowded(numpy.random.default_rng(4))[0],
        "sky from 900 to 1350": gradient(numpy.random.default_rng(5))[0],
    }
    for label, image in fields.items():
        cells = []
        for mesh in (32, 64, 128):
            cells.append(f"{maxdetect.noise(image, mesh):.1f}")
        yield [label, *cells]


def gradient(rng):
    """Stars over a sky that rises by half from left to right."""
    stars = grid(32, rng)
    magnitudes = rng.uniform(21, 25, len(stars))
    return (
        field(stars, electrons(magnitudes), rng, SKY * (1 + numpy.linspace(0, 0.5, SIDE)[None, :])),
        stars,
        magnitudes,
    )


def gradient_rows():
    """Stars over a sky that rises, by the side of the mesh, with a smooth and with a flat background."""
    for mesh in (0, 16, 32, 64, 128):
        row = [str(mesh)]
        for flat in (False, True):
            seen, false, inner = [], [], []
            for rng in seeds(60, 4):
                image, true, _ = gradient(rng)
                found = by_maxdetect(2.25, connect=8, min_area=5, mesh=mesh, flat=flat)(image)[0]
                own = matches(true, found)
                wrong = numpy.ones(len(found), dtype=bool)
                wrong[own[own >= 0]] = False
                seen.append(numpy.mean(own >= 0))
                false.append(wrong.sum())
                inner.append((wrong & (found[:, 0] < SIDE - 1.5 * mesh)).sum())
            row += [f"{21 + 4 * numpy.mean(seen):.2f}", few(numpy.mean(false)), few(numpy.mean(inner))]
        yield row


def split_rows():
    """How many sources a field gives for each least area and contrast."""
    crowds, discs = [crowded(rng) for rng in seeds(30, 2)], [galaxies(rng) for rng in seeds(40, 3)]
    for area in (1, 3, 5, 9, 15):
        for contrast in (0, 5, 50):
            run = by_maxdetect(2.25, connect=8, min_area=area, contrast=contrast)
            cells = [f"{numpy.mean([len(run(it[0])[0]) for it in many]):.0f}" for many in (crowds, discs)]
            yield [str(area), str(contrast), *cells]


def flux_rows():
    """Parts of a star's light, by magnitude."""
    runs = {"maxdetect": by_maxdetect(2.25, connect=8, min_area=5)}
    if sep:
        runs["SEP"] = by_sep(2.25, kernel=False)
    shares = {}
    for rng in seeds(70, 6):
        image, true, magnitudes = sparse(rng, faintest=23.0, brightest=16.0)
        for name, run in runs.items():
            found, flux, rows = run(image)
            own = matches(true, found)
            for star in numpy.flatnonzero(own >= 0):
                light, row = electrons(magnitudes[star]), own[star]
                if name == "maxdetect":
                    shares.setdefault((int(magnitudes[star]), "FLUX"), []).append(rows["FLUX"][row] / light)
                shares.setdefault((int(magnitudes[star]), name), []).append(flux[row] / light)
    for magnitude in range(16, 23):
        cells = [
            percent(numpy.median(shares[magnitude, name])) if (magnitude, name) in shares else ""
            for name in ("FLUX", *runs)
        ]
        yield [f"{magnitude} to {magnitude + 1}", *cells]


def centre_rows():
    """Root mean square distances of centres from the truth, in thousandths of a pixel, at one threshold but for
    `maxcat`.
    """
    runs = {
        "maxdetect": by_maxdetect(2.25, connect=8, min_area=5),
        "smoothed": by_maxdetect_smoothed(2.25, connect=8, min_area=5),
        "maxcat": by_maxcat(),
    }
    if sep:
        runs["SEP"] = by_sep(2.25, kernel=False)
    offsets = {}
    for rng in seeds(80, 6):
        image, true, magnitudes = sparse(rng, faintest=22.0, brightest=16.0)
        for name, run in runs.items():
            found = run(image)[0]
            own = matches(true, found)
            for star in numpy.flatnonzero(own >= 0):
                offsets.setdefault((int(magnitudes[star] // 2) * 2, name), []).append(
                    numpy.sum((found[own[star]] - true[star]) ** 2)
                )
    for magnitude in (16, 18, 20):
        yield [
            f"{magnitude} to {magnitude + 2}",
            *(f"{1000 * math.sqrt(numpy.mean(offsets[magnitude, name])):.0f}" for name in runs),
        ]


def saturated_rows():
    """Bright stars whose cores are cut at 60,000, or are BLANK."""
    runs = {
        f"`--connect 8 --min-area {area}`, 2.25 sigma": by_maxdetect(2.25, connect=8, min_area=area) for area in (5, 15)
    }
    if sep:
        runs["SEP without a kernel, 2.25 sigma"] = by_sep(2.25, kernel=False)
        runs["SEP's defaults"] = by_sep(1.5)
    for core in ("cut at 60,000", "BLANK"):
        for name, run in runs.items():
            seen, pieces, offsets = [], [], []
            for rng in seeds(90, 4):
                stars = grid(128, rng)
                image = field(stars, electrons(rng.uniform(13, 15, len(stars))), rng)
                full = image >= 60000
                image = numpy.minimum(image, 60000)
                found = run(image, full if core == "BLANK" else None)[0]
                own = matches(stars, found, 3.0)
                seen.append(numpy.mean(own >= 0))
                near = (distances(stars, found) < 40).any(0)
                pieces.append((numpy.sum(near) - numpy.sum(own >= 0)) / len(stars))
                offsets += [numpy.hypot(*(found[own[star]] - stars[star])) for star in numpy.flatnonzero(own >= 0)]
            offset = f"{1000 * numpy.median(offsets):.0f}" if offsets else ""
            yield [core, name, percent(numpy.mean(seen)), f"{numpy.mean(pieces):.1f}", offset]


def rounding_rows():
    """A noise of 3: a threshold of 2.25 sigma is 6.75."""
    images = [rng.poisson(numpy.zeros((1024, 1024)) + 9).astype("i4") for rng in seeds(100, 2)]
    for threshold in (6, 7):
        counts = [len(maxdetect.detect(image, threshold, min_area=5, mesh=64, connect=8)[0]) for image in images]
        yield [str(threshold), few(numpy.mean(counts))]


def main():
    # It takes the fields from here.
    sys.modules["guide"] = sys.modules[__name__]
    import fluxes_and_noise

    os.environ["MAXDETECT"] = os.fspath(pathlib.Path(sys.argv[1]).resolve())
    if not sep:
        print("SEP isn't installed (Debian: python3-sep); its rows are left out")
    empty, deep = "sources in 1024 x 1024 empty pixels", "stars: half found at"
    table(
        "Noise by `maxdetect.noise`; true is 30, and 33.5 on the mean for the last",
        ["field", "mesh 32", "mesh 64", "mesh 128"],
        noise_rows(),
    )
    table(
        "Options",
        [
            "options",
            empty,
            deep,
            "crowd to 22.5: found",
            "crowd: false",
            "galaxies: found",
            "pieces of a galaxy beside it",
        ],
        option_rows(),
    )
    table("Thresholds of `maxcat`", ["`--sigmas`", empty, deep], threshold_rows())
    table(
        "Pairs of which both stars are found, by distance in pixels and difference in magnitude",
        ["options", *(f"{apart}, {fainter}" for apart, fainter in PAIRS)],
        pair_rows(),
    )
    table(
        "Sources by least area and contrast, at 2.25 sigma", ["min-area", "contrast", "crowd", "galaxies"], split_rows()
    )
    table("A threshold of 2.25 sigma where sigma is 3", ["threshold", empty], rounding_rows())
    inside = "false, 1.5 cells from the edge"
    table(
        "A sky that rises by half",
        ["mesh", deep, "false", inside, f"flat: {deep}", "flat: false", f"flat: {inside}"],
        gradient_rows(),
    )
    table(
        "Median part of a star's light, at 2.25 sigma",
        ["magnitude", "FLUX", "FLUX + BASE * AREA", *(["SEP's flux"] if sep else [])],
        flux_rows(),
    )
    table(
        "Root mean square distance of centres from the truth at 2.25 sigma, in thousandths of a pixel",
        ["magnitude", "XCEN, YCEN", "the same, smoothed", "`maxcat`: X, Y", *(["SEP's x, y"] if sep else [])],
        centre_rows(),
    )
    table(
        "Saturated stars",
        ["core", "options", "found", "pieces beside each", "median distance of centres, in thousandths of a pixel"],
        saturated_rows(),
    )
    fluxes_and_noise.tables(table)
    if "--check" in sys.argv[2:]:
        differing = list(differing_rows()) if sep else ["the guide's tables can't be compared without SEP"]
        print("\n" + "\n".join(differing or ["the guide's tables have these figures"]))
        sys.exit(1 if differing else 0)


if __name__ == "__main__":
    main()
