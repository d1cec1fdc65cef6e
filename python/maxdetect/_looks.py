"""How a field is looked at: by how much it is smoothed, from which threshold on, and which areas count.

All of it is told once for the whole image, so that it is the same in every window.
"""
import dataclasses
import functools
import math
from typing import Dict, List, Optional, Tuple, Union

import numpy

from . import _pointlike as pointlike, scaling, _sky as sky, _smoothing as smoothing
from ._fields import Each, Field, noise_of
from ._significance import Significance

__all__ = ["Way", "electrons", "point_sources", "seen", "way"]

# Thresholds in deviations of the noise: with smoothing, and without, where as many false sources are found.
SMOOTHED, UNSMOOTHED = 4.4, 2.25
# The Gaussian's width over that of a point source; but it isn't made narrower than this many pixels.
PART, NARROW = 0.8, 2.0
# The width that is taken for that of point sources where an image has too few of them.
USUAL = 3.0
# The least area over the square of the Gaussian's width, and the least of all; without smoothing it is one number.
AREA, LEAST_AREA, UNSMOOTHED_AREA = 0.4, 2, 5
# How many times the pixels that share noise have one peak of it that may pass for a part.
PATCH = 4.0
# Windows in which point sources are looked for: how many along a side, and how wide they are.
WINDOWS, SIDE = 2, 768


@dataclasses.dataclass(frozen=True)
class Way:
    """The width of the Gaussian that smooths, 0 for none; the noise behind it, in deviations of a pixel's; the width
    of a point source, and what is known of these; the program's threshold and the least area; and a pixel's noise in
    electrons, where they are known.
    """

    smooth: float
    noise: float
    width: float
    points: Optional[pointlike.PointSources]
    threshold: int
    min_area: int
    electrons: Optional[float]

    @property
    def significance(self) -> Significance:
        """How many deviations it is that so many pixels stand above a level by so much light in all, both in the
        program's numbers. Pixels closer together than the Gaussian reaches share their noise.
        """
        return Significance(float(scaling.SIGMA), self._own_noise, self._together)

    @property
    def patch(self) -> float:
        """How many pixels of a wide source have one peak of noise."""
        return PATCH * self._together

    @functools.cached_property
    def _together(self) -> float:
        """How many pixels share their noise."""
        return smoothing.correlated(self.smooth)

    @functools.cached_property
    def _own_noise(self) -> float:
        """How much a level of 1 in the program's numbers adds to the variance of the noise, over that of the sky."""
        if not self.electrons:
            return 0.0
        return self.noise / (scaling.SIGMA * math.sqrt(self._together)) / self.electrons

    def variance(self, level: Union[int, numpy.ndarray]) -> Union[float, numpy.ndarray]:
        """The variance of the noise at a level in the program's numbers, over that of the sky: what a pixel of the
        unsmoothed image has there, in deviations of its noise, adds its own electrons.
        """
        return 1.0 + numpy.maximum(level, 0) * self._own_noise

    @property
    def meta(self) -> Dict[str, float]:
        """Cards that say how the field was looked at."""
        told = {"THRESH": self.threshold, "MINAREA": self.min_area, "SMOOTH": round(self.smooth, 3)}
        if self.points is not None:
            told.update(FWHM=round(self.points.width, 3), NPOINT=self.points.count)
        return told


def seen(field: Field, found: sky.Sky, smooth: float, rows: slice, columns: slice) -> numpy.ndarray:
    """What stands above a field's sky in a window, smoothed, in deviations of a pixel's noise: 32-bit floating-point
    numbers, NaN where it is undefined. Pixels around the window count too, so that it is the same in every window.
    """
    more = smoothing.margin(smooth) if smooth else 0
    wide, inner = [], []
    for places, side in zip((rows, columns), field.shape):
        first, last, _ = places.indices(side)
        begin = max(0, first - more)
        wide.append(slice(begin, min(side, last + more)))
        inner.append(slice(first - begin, last - begin))
    pixels, noise = field.image(*wide), noise_of(field, found, *wide)
    above = found.above(pixels, noise, *wide)
    image = scaling.deviations(pixels, found.short_level(*wide), noise) if above is None else above
    if smooth:
        return smoothing.smoothed(image, smooth, (inner[0], inner[1]))
    image[~numpy.isfinite(image)] = numpy.nan
    return numpy.ascontiguousarray(image[tuple(inner)])


def _windows(shape: Tuple[int, int]) -> List[Tuple[slice, slice]]:
    """Windows that lie evenly over an image, or all of it where that is no more."""
    sides = []
    for side in shape:
        if side <= WINDOWS * SIDE:
            sides.append([slice(0, side)])
        else:
            steps = [(2 * k + 1) * side // (2 * WINDOWS) - SIDE // 2 for k in range(WINDOWS)]
            sides.append([slice(step, step + SIDE) for step in steps])
    return [(rows, columns) for rows in sides[0] for columns in sides[1]]


@dataclasses.dataclass
class _Light:
    """How the light of bright sources grows in a window of a field with this sky."""

    field: Field
    found: sky.Sky

    def __call__(self, window: Tuple[slice, slice]) -> numpy.ndarray:
        field, found, limit = self.field, self.found, numpy.inf
        if field.own_saturation is not None:
            limit = float((field.own_saturation - found.zero) / found.noise)
        return pointlike.growth(seen(field, found, 0, *window), limit)


def point_sources(field: Field, found: sky.Sky, each: Each = map) -> Optional[pointlike.PointSources]:
    """What the point sources of a field with this sky look like, or None where it has too few; `each` works on its
    parts.
    """
    return pointlike.told(each(_Light(field, found), _windows(field.shape)))


@dataclasses.dataclass
class _Rows:
    """Reads rows of a field with this sky that is smoothed."""

    field: Field
    found: sky.Sky
    smooth: float

    def __call__(self, rows: slice) -> numpy.ndarray:
        return seen(self.field, self.found, self.smooth, rows, slice(0, self.field.shape[1]))


def _noise_behind(field: Field, found: sky.Sky, smooth: float, each: Each = map) -> float:
    """The noise of the smoothed field, or a pixel's own where nothing is told of it."""
    try:
        noise = smoothing.noise_behind(_Rows(field, found, smooth), field.shape[0], smooth, each)
    except sky.Undefined:
        return 1.0
    return noise if noise > 0 else 1.0


def electrons(field: Field, found: sky.Sky) -> Optional[float]:
    """The noise of a pixel in electrons: about the middle of the image where it isn't even."""
    if not field.own_gain:
        return None
    middle = field.shape[0] // 2
    noise = numpy.asarray(noise_of(field, found, slice(middle, middle + 1), slice(0, field.shape[1])))
    noise = noise[numpy.isfinite(noise)]
    return field.own_gain * float(numpy.median(noise)) if noise.size else None


def _skewed(sigmas: float, electrons: Optional[float], smooth: float) -> float:
    """The threshold that noise of few electrons passes as seldom as noise without skewness passes the given one: the
    first term of the expansion of Cornish and Fisher (1938).
    """
    if not electrons:
        return sigmas
    skewness = 1 / electrons
    if smooth:
        # That of a sum weighted by a Gaussian.
        skewness *= 2 * smoothing.WIDTH / (3 * math.sqrt(math.pi) * smooth)
    return sigmas + skewness * max(sigmas**2 - 1, 0) / 6


def way(field: Field, found: sky.Sky, each: Each = map) -> Way:
    """How a field with this sky is looked at, by its settings and by what it shows itself, its parts by `each`."""
    settings = field.settings
    found = found if settings.mesh else found.flat()
    points = point_sources(field, found, each)
    width = settings.fwhm or (points.width if points else USUAL)
    smooth = 0.0 if settings.fwhm == 0 else max(PART * width, min(width, NARROW))
    noise, area = 1.0, UNSMOOTHED_AREA
    if smooth:
        noise = _noise_behind(field, found, smooth, each)
        area = max(LEAST_AREA, round(AREA * smooth**2))
    own = electrons(field, found)
    sigmas = settings.sigmas
    if sigmas is None:
        sigmas = _skewed(SMOOTHED if smooth else UNSMOOTHED, own, smooth)
    return Way(
        smooth,
        noise,
        width,
        points,
        scaling.threshold(sigmas),
        settings.min_area or area,
        own,
    )
