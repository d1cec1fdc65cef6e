"""Synthetic fields whose sources are known, of the kinds that survey images have: crowds, halos, faint wide galaxies,
stacks whose pixels share noise, skies that slope, stars narrower than two pixels.

`make(name, seed)` makes one of `SCENES`, `empty(kind, seed)` one of `EMPTY` without a source. A field has 1024 x 1024
pixels. But for the one of few electrons a pixel its sky has 1,000 of them, and the reading adds a noise of five.
Magnitudes are 31.5 - 2.5 log10(electrons), widths are full widths at half of the height, in pixels.
"""
import dataclasses
import math
from typing import Callable, Dict

import numpy
from scipy import ndimage, signal

SIDE = 1024
SKY, READING = 1000.0, 5.0
NOISE = math.hypot(math.sqrt(SKY), READING)
FEW = 3.0
ZERO_POINT = 31.5
STAR, GALAXY, WIDE, SPIRAL = "star", "galaxy", "wide", "spiral"
SOURCE = numpy.dtype([("x", "f8"), ("y", "f8"), ("flux", "f8"), ("kind", "U6"), ("radius", "f8")])


@dataclasses.dataclass
class Field:
    """A field: its pixels in electrons, its light without sky and noise, what is in it (centres from 0), a pixel's
    noise, and the width of its stars.
    """

    image: numpy.ndarray
    light: numpy.ndarray
    truth: numpy.ndarray
    noise: float = NOISE
    width: float = 3.2


def electrons(magnitudes):
    return 10 ** (0.4 * (ZERO_POINT - numpy.asarray(magnitudes)))


def magnitudes(fluxes):
    return ZERO_POINT - 2.5 * numpy.log10(fluxes)


def sources(x, y, fluxes, kind, radius=0.0):
    """Sources of one kind; radii are those that hold half of the light, 0 for stars."""
    table = numpy.zeros(len(x), dtype=SOURCE)
    table["x"], table["y"], table["flux"], table["kind"], table["radius"] = x, y, fluxes, kind, radius
    return table


# ---- light


def moffat(squares, width, beta):
    """The share of a star's light on a square of side 1 at these squared distances."""
    core = (width / 2) ** 2 / (2 ** (1 / beta) - 1)
    return (beta - 1) / (math.pi * core) * (1 + squares / core) ** -beta


def _reach(flux, width, beta, noise):
    """How far a star is drawn: to where it has a fiftieth of a deviation of the noise."""
    core = (width / 2) ** 2 / (2 ** (1 / beta) - 1)
    height = flux * (beta - 1) / (math.pi * core)
    return int(min(200, max(6, math.sqrt(core * max((height / (0.02 * noise)) ** (1 / beta) - 1, 4))))) + 1


def add_stars(light, table, width, beta, noise=NOISE, parts=1):
    """Adds stars, whose profile is averaged over `parts` by `parts` places in a pixel."""
    steps = (numpy.arange(parts) + 0.5) / parts - 0.5
    for star in table:
        reach = _reach(star["flux"], width, beta, noise)
        top, left = (max(0, round(float(star[axis])) - reach) for axis in "yx")
        part = light[top : round(float(star["y"])) + reach + 1, left : round(float(star["x"])) + reach + 1]
        rows, columns = (
            (numpy.arange(first, first + count)[:, None] + steps).ravel() - star[axis]
            for axis, first, count in zip("yx", (top, left), part.shape)
        )
        share = moffat(rows[:, None] ** 2 + columns[None, :] ** 2, width, beta)
        part += star["flux"] * share.reshape(part.shape[0], parts, part.shape[1], parts).mean(axis=(1, 3))


def _sersic(rows, columns, radius, index, ratio, angle, cut):
    """A Sersic profile, 1 at the radius that holds half of the light, and 0 beyond `cut` radii."""
    along = columns * math.cos(angle) + rows * math.sin(angle)
    across = (rows * math.cos(angle) - columns * math.sin(angle)) / ratio
    far = numpy.hypot(along, across) / radius
    return numpy.exp(-(2 * index - 1 / 3 + 0.009876 / index) * (far ** (1 / index) - 1)) * (far < cut)


def add_galaxies(light, table, indexes, ratios, angles, width, beta, parts=3, cut=6):
    """Adds galaxies with Sersic profiles, seen through the air: finer pixels, convolved with the stars' profile."""
    fine = numpy.zeros([side * parts for side in light.shape], dtype="f4")
    for source, index, ratio, angle in zip(table, indexes, ratios, angles):
        radius = source["radius"] * parts
        reach = int(min(cut * source["radius"] + 2, 400) * parts)
        x, y = ((source[axis] + 0.5) * parts - 0.5 for axis in "xy")
        rows, columns = (numpy.arange(round(at) - reach, round(at) + reach + 1) for at in (y, x))
        profile = _sersic(rows[:, None] - y, columns[None, :] - x, radius, index, ratio, angle, cut)
        # Near the centre the profile is steeper than a pixel shows.
        steps, near = (numpy.arange(11) + 0.5) / 11 - 0.5, slice(reach - min(6, reach), reach + min(6, reach) + 1)
        finer = [(places[near][:, None] + steps).ravel() for places in (rows, columns)]
        middle = _sersic(finer[0][:, None] - y, finer[1][None, :] - x, radius, index, ratio, angle, cut)
        count = len(finer[0]) // 11
        profile[near, near] = middle.reshape(count, 11, count, 11).mean(axis=(1, 3))
        profile *= source["flux"] / profile.sum()
        down, across = (slice(max(0, it[0]), min(it[-1] + 1, side)) for it, side in zip((rows, columns), fine.shape))
        fine[down, across] += profile[
            down.start - rows[0] : down.stop - rows[0], across.start - columns[0] : across.stop - columns[0]
        ]
    places = numpy.arange(-15 * parts, 15 * parts + 1) / parts
    star = moffat(places[None, :] ** 2 + places[:, None] ** 2, width, beta).astype("f4")
    fine = signal.fftconvolve(fine, star / star.sum(), mode="same")
    light += fine.reshape(light.shape[0], parts, light.shape[1], parts).sum(axis=(1, 3))


# ---- what is in a field


def _drawn(rng, count, brightest, faintest, slope):
    """Magnitudes whose number grows by this power of ten from one to the next."""
    ends = 10 ** (slope * brightest), 10 ** (slope * faintest)
    return numpy.log10(rng.uniform(*ends, count)) / slope


def _stars(rng, count, brightest, faintest, slope=0.25):
    x, y = rng.uniform(10, SIDE - 10, (2, count))
    return sources(x, y, electrons(_drawn(rng, count, brightest, faintest, slope)), STAR)


def _galaxies_and_stars(rng, light):
    """Galaxies of all sizes and shapes, the faint ones small, and stars among them."""
    count = 900
    bright = _drawn(rng, count, 18.0, 25.0, 0.33)
    radii = numpy.clip(numpy.exp(rng.normal(math.log(1.7), 0.35, count)) * 10 ** (-0.11 * (bright - 24)), 0.7, 25)
    x, y = rng.uniform(10, SIDE - 10, (2, count))
    galaxies = sources(x, y, electrons(bright), GALAXY, radii)
    indexes = rng.choice([1, 1, 1, 2, 3, 4], count)
    add_galaxies(light, galaxies, indexes, rng.uniform(0.25, 1, count), rng.uniform(0, math.pi, count), 3.2, 3.5)
    stars = _stars(rng, 250, 18.0, 25.0, 0.2)
    add_stars(light, stars, 3.2, 3.5)
    return numpy.concatenate([galaxies, stars])


def _cluster(rng, light):
    """A globular cluster: 5,000 stars, whose number falls from the middle outwards."""
    count = 5000
    bright = _drawn(rng, count, 17.0, 25.5, 0.28)
    far = 90 * numpy.sqrt(1 / (1 - 0.97 * rng.random(count)) - 1)
    angle = rng.uniform(0, 2 * math.pi, count)
    x, y = SIDE / 2 + far * numpy.cos(angle), SIDE / 2 + far * numpy.sin(angle)
    inside = (numpy.minimum(x, y) > 5) & (numpy.maximum(x, y) < SIDE - 6)
    stars = sources(x[inside], y[inside], electrons(bright[inside]), STAR)
    add_stars(light, stars, 3.6, 3.0)
    return stars


def _wide_galaxies(rng, light):
    """Exponential discs whose centres lie below the noise, and stars."""
    count = 36
    across, down = numpy.meshgrid(numpy.arange(6), numpy.arange(6))
    x, y = ((it.ravel() + 0.5) * SIDE / 6 + rng.uniform(-30, 30, count) for it in (across, down))
    height, radii, ratios = (
        rng.uniform(0.3, 1.0, count) * NOISE,
        rng.uniform(10, 40, count),
        rng.uniform(0.5, 1, count),
    )
    fluxes = height * 2 * math.pi * ratios * (radii / 1.678) ** 2
    discs = sources(x, y, fluxes, WIDE, radii)
    add_galaxies(light, discs, numpy.ones(count), ratios, rng.uniform(0, math.pi, count), 3.2, 3.5)
    stars = _stars(rng, 300, 19.0, 24.5)
    add_stars(light, stars, 3.2, 3.5)
    return numpy.concatenate([discs, stars])


def _spiral(rng, light):
    """A large spiral galaxy before which 600 stars stand."""
    rows, columns = numpy.mgrid[:SIDE, :SIDE] - SIDE / 2
    along = columns * math.cos(0.5) + rows * math.sin(0.5)
    across = (rows * math.cos(0.5) - columns * math.sin(0.5)) / 0.7
    far, angle = numpy.hypot(along, across), numpy.arctan2(across, along)
    arms = 0.7 * numpy.cos(2 * angle - 5 * numpy.log(far / 20 + 0.3)) * numpy.clip(far / 60, 0, 1)
    disc = 40 * NOISE * numpy.exp(-far / 90) * (1 + arms)
    bulge = 1200 * NOISE * numpy.exp(-(2 * 2.5 - 1 / 3 + 0.009876 / 2.5) * (far / 25) ** 0.4)
    light += disc + bulge
    stars = _stars(rng, 600, 17.5, 24.5)
    add_stars(light, stars, 3.2, 3.5)
    return numpy.concatenate([sources([SIDE / 2], [SIDE / 2], [(disc + bulge).sum()], SPIRAL, 120.0), stars])


def _narrow(rng, light):
    """Stars narrower than two pixels, as space telescopes see them."""
    stars = _stars(rng, 1500, 18.0, 25.5)
    add_stars(light, stars, 1.3, 3.0, parts=7)
    return stars


def _among_artefacts(rng, light):
    stars = _stars(rng, 700, 18.0, 25.0)
    add_stars(light, stars, 3.2, 3.0)
    return stars


def _few_electrons(rng, light):
    stars = _stars(rng, 900, 22.5, 29.5)
    add_stars(light, stars, 3.2, 3.0, noise=1.7)
    return stars


# ---- what a detector makes of it


def exposed(rng, light):
    return (rng.poisson(numpy.maximum(light + SKY, 0)) + rng.normal(0, READING, light.shape)).astype("f4")


def stacked(rng, light):
    """The sum of five exposures of a fifth of the time, each moved by parts of a pixel: neighbours share noise."""
    total = numpy.zeros(light.shape)
    for _ in range(5):
        by = rng.uniform(-0.5, 0.5, 2)
        seen = numpy.maximum(ndimage.shift(light, by, order=3, mode="nearest") + SKY, 0) / 5
        total += ndimage.shift(
            rng.poisson(seen) + rng.normal(0, READING / math.sqrt(5), light.shape), -by, order=1, mode="nearest"
        )
    return total.astype("f4")


def uneven(rng, light):
    """A sky that slopes, darker towards the corners, with fringes of 0.6 of its noise."""
    rows, columns = numpy.mgrid[:SIDE, :SIDE] / SIDE
    darker = 1 - 0.35 * ((columns - 0.5) ** 2 + (rows - 0.5) ** 2)
    sky = SKY * (1 + 0.25 * columns + 0.15 * rows**2 + 0.1 * numpy.sin(5 * columns * rows))
    fringes = 0.6 * NOISE * numpy.sin(2 * math.pi * (14 * columns + 3 * numpy.sin(6 * rows) + 2 * rows))
    return (rng.poisson((light + sky) * darker + fringes) + rng.normal(0, READING, light.shape)).astype("f4")


def counted(rng, light):
    return rng.poisson(light + FEW).astype("f4")


def _with_artefacts(rng, light):
    """Six stars that are much too bright, with their spikes and bleeding columns, a trail, and 250 cosmic rays."""
    rows, columns = numpy.mgrid[:SIDE, :SIDE]
    extra = numpy.zeros(light.shape)
    for _ in range(6):
        x, y = rng.uniform(80, SIDE - 80, 2)
        star = sources([x], [y], electrons(rng.uniform(12, 14, 1)), STAR)
        add_stars(extra, star, 3.2, 2.2)
        for angle in rng.uniform(0, math.pi / 2) + numpy.array([0, math.pi / 2]):
            along = (columns - x) * math.cos(angle) + (rows - y) * math.sin(angle)
            beside = (rows - y) * math.cos(angle) - (columns - x) * math.sin(angle)
            extra += star["flux"][0] * 3e-5 * numpy.exp(-(beside**2) / 2.88) / (1 + numpy.abs(along) / 8) ** 1.5
        reach, middle = int(rng.uniform(60, 200)), round(x)
        extra[max(0, int(y) - reach) : int(y) + reach, middle - 1 : middle + 2] = 65000
    slope = rng.uniform(0.2, 0.8)
    extra += 6 * NOISE * numpy.exp(-((rows - slope * columns - 200) ** 2) / (1 + slope**2) / 8)
    for _ in range(250):
        (x, y), angle = rng.uniform(5, SIDE - 5, 2), rng.uniform(0, 2 * math.pi)
        for step in numpy.arange(0, rng.exponential(4) + 1, 0.5):
            at = int(y + step * math.sin(angle)), int(x + step * math.cos(angle))
            if 0 <= min(at) and max(at) < SIDE:
                extra[at] += rng.uniform(300, 3000)
    return numpy.minimum(exposed(rng, light) + rng.poisson(extra), 65000).astype("f4")


@dataclasses.dataclass
class Scene:
    """What is in a scene's fields, and how they are seen."""

    text: str
    fill: Callable
    see: Callable = exposed
    noise: float = NOISE
    width: float = 3.2


SCENES: Dict[str, Scene] = {
    "galaxies": Scene("galaxies and stars", _galaxies_and_stars),
    "cluster": Scene("a cluster's stars", _cluster, width=3.6),
    "wide": Scene("wide faint galaxies and stars", _wide_galaxies),
    "spiral": Scene("a large spiral behind stars", _spiral),
    "stack": Scene("galaxies and stars in a stack whose pixels share noise", _galaxies_and_stars, stacked),
    "uneven": Scene("galaxies and stars on a sloping sky with fringes", _galaxies_and_stars, uneven),
    "artefacts": Scene("stars among artefacts", _among_artefacts, _with_artefacts),
    "narrow": Scene("stars 1.3 pixels wide", _narrow, width=1.3),
    "few": Scene("stars on a sky of three electrons", _few_electrons, counted, noise=math.sqrt(FEW)),
}
EMPTY = {"white": (exposed, NOISE), "stack": (stacked, NOISE), "uneven": (uneven, NOISE), "few": (counted, FEW**0.5)}


def _rng(name: str, seed: int) -> numpy.random.Generator:
    return numpy.random.default_rng([seed, *name.encode()])


def make(name: str, seed: int) -> Field:
    """A field of a scene."""
    scene, rng, light = SCENES[name], _rng(name, seed), numpy.zeros((SIDE, SIDE))
    truth = scene.fill(rng, light)
    return Field(scene.see(rng, light), light, truth, scene.noise, scene.width)


def empty(kind: str, seed: int) -> Field:
    """A field without sources."""
    see, noise = EMPTY[kind]
    light = numpy.zeros((SIDE, SIDE))
    return Field(see(_rng(f"empty {kind}", seed), light), light, numpy.zeros(0, dtype=SOURCE), noise)
