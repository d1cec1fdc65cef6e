"""What an image's point sources look like: their width, and which share of their light lies within which radius.

They are told from the image itself: among its bright sources those of one size are most, whatever there are besides of
galaxies, which are wider, and of cosmic rays, which are narrower.
"""
import dataclasses
from typing import Iterable, List, Optional, Tuple, Union

import numpy
import sep

from ._loops import Loop, array, whole

__all__ = ["FEWEST", "PointSources", "growth", "of", "told"]

# How many deviations of the noise a pixel of a source that is looked at has, how many such pixels there are, how
# many sources are looked at in a window, the brightest first, and how many alike tell enough.
BRIGHT, LEAST_AREA, MOST, FEWEST = 10.0, 4, 100, 5
# Half-light radii that are alike lie so far, as a part of it, from the one that most have.
ALIKE = 0.15
# Radii in pixels within which light is summed up; the first circle that is taken for all of a source; and how many
# half-light radii later ones have. No other source lies within the first of them, less than `NEAR`.
RADII = numpy.concatenate([numpy.arange(0.5, 8, 0.25), numpy.arange(8, 31, 2.0)])
FIRST, REACH, NEAR = 8.0, 6.0, 4.0
# How many radii are less.
SMALL = int(numpy.searchsorted(RADII, NEAR))

# An image, its height and width; how many centres there are, and these, columns and rows.
_CENTRED = Loop("centred", array("f4"), whole, whole, whole, array("f8"), array("f8"))
# An image, its map of sources, what is undefined, height and width; the sources' count, places and numbers; the radii,
# and how many of them are small; the light, and which sources don't stand alone.
_WITHIN = Loop(
    "light_within",
    *(array("f4"), array("i4"), array("?"), whole, whole),
    *(whole, array("f8"), array("f8"), array("i4")),
    *(whole, array("f8"), whole),
    *(array("f8"), array("?")),
)


@dataclasses.dataclass(frozen=True)
class PointSources:
    """The full width at half of the height of a point source, in pixels; the share of its light within each of some
    radii; and how many sources tell so. All of the light is what lies within the last radius.
    """

    width: float
    radii: numpy.ndarray
    shares: numpy.ndarray
    count: int

    def share(self, radius: Union[float, numpy.ndarray]) -> numpy.ndarray:
        """The share of a point source's light within a circle of this radius."""
        return numpy.interp(radius, self.radii, self.shares)

    @property
    def half(self) -> float:
        """The diameter that holds half of the light."""
        return 2 * _radius_of_half(self.radii, self.shares)


def _radius_of_half(radii: numpy.ndarray, shares: numpy.ndarray) -> float:
    """The radius that holds half of what the last one holds."""
    return float(numpy.interp(0.5 * shares[-1], numpy.maximum.accumulate(shares), radii))


def _growth(image: numpy.ndarray, undefined: numpy.ndarray, limit: float) -> numpy.ndarray:
    """The light of an image's bright sources within each of `RADII`: of those that stand alone and below a limit, as
    far from the image's edges as the last circle reaches. A row for each.
    """
    sources, segments = sep.extract(
        image, BRIGHT, minarea=LEAST_AREA, mask=undefined, filter_kernel=None, segmentation_map=True
    )
    inside = (sources["flag"] == 0) & (sources["peak"] < limit)
    for name, side in zip("yx", image.shape):
        inside &= (sources[name] > RADII[-1]) & (sources[name] < side - 1 - RADII[-1])
    numbers = numpy.flatnonzero(inside)
    numbers = numbers[numpy.argsort(-sources["flux"][numbers], kind="stable")][:MOST]
    x, y = _centred(image, sources["x"][numbers], sources["y"][numbers])
    if _WITHIN and image.dtype == "f4":
        return _by_loop(image, segments, undefined, numbers, x, y)
    return _by_sep(image, segments, undefined, sources[numbers], numbers, x, y)


def _centred(image: numpy.ndarray, x: numpy.ndarray, y: numpy.ndarray) -> Tuple[numpy.ndarray, numpy.ndarray]:
    """The centres of sources under a Gaussian window with a deviation of one pixel, from these on."""
    if _CENTRED and image.dtype == "f4":
        x, y = (numpy.array(it, dtype="f8") for it in (x, y))
        _CENTRED(numpy.ascontiguousarray(image), *image.shape, len(x), x, y)
        return x, y
    return sep.winpos(image, x, y, numpy.full(len(x), 1.0))[:2]


def _by_loop(
    image: numpy.ndarray,
    segments: numpy.ndarray,
    undefined: numpy.ndarray,
    numbers: numpy.ndarray,
    x: numpy.ndarray,
    y: numpy.ndarray,
) -> numpy.ndarray:
    """The light of the sources with these numbers, from 0 on, and places: as by SEP, to the last digit."""
    light, crowded = numpy.empty((len(numbers), len(RADII))), numpy.empty(len(numbers), dtype=bool)
    images = map(numpy.ascontiguousarray, (image, segments, undefined))
    own = (numbers + 1).astype("i4")
    _WITHIN(*images, *image.shape, len(own), x, y, own, len(RADII), RADII, SMALL, light, crowded)
    return light[~crowded]


def _by_sep(
    image: numpy.ndarray,
    segments: numpy.ndarray,
    undefined: numpy.ndarray,
    sources: numpy.ndarray,
    numbers: numpy.ndarray,
    x: numpy.ndarray,
    y: numpy.ndarray,
) -> numpy.ndarray:
    """The same by SEP, which tells of the sources too."""
    # SEP takes two thirds of the time where it need not look at the map of sources for each pixel of each circle.
    others, light = undefined | (segments != 0), []
    for source, number, at in zip(sources, numbers.tolist(), zip(x.tolist(), y.tolist())):
        left, right, top, bottom = (int(source[name]) for name in ("xmin", "xmax", "ymin", "ymax"))
        box = slice(top, bottom + 1), slice(left, right + 1)
        seen = others[box].copy()
        others[box] &= undefined[box] | (segments[box] != number + 1)
        light += _circles(image, others, *at)
        others[box] = seen
    return numpy.array(light).reshape(-1, len(RADII))


def _circles(image: numpy.ndarray, others: numpy.ndarray, x: float, y: float) -> List[numpy.ndarray]:
    """The light of a source within each of `RADII`, without the pixels of others; of one that stands alone, else
    nothing.
    """
    light: List[numpy.ndarray] = []
    for radii in (RADII[:SMALL], RADII[SMALL:]):
        places = (numpy.full(len(radii), place) for place in (x, y))
        flux, _, told = sep.sum_circle(image, *places, radii, subpix=0, mask=others)
        if not light and (told & sep.APER_HASMASKED).any():
            return []
        light.append(flux)
    return [numpy.concatenate(light)]


def _most_common(values: numpy.ndarray) -> float:
    """The value around which most lie: the half that lies closest together, and its half, and so on."""
    values = numpy.sort(values)
    while len(values) > 2:
        half = (len(values) + 1) // 2
        first = int((values[half - 1 :] - values[: len(values) - half + 1]).argmin())
        if half == len(values):
            break
        values = values[first : first + half]
    return float(values.mean())


def _alike(growth: numpy.ndarray, reach: float) -> Tuple[numpy.ndarray, float]:
    """Which sources have the half-light radius that most have, where all their light lies within some radius."""
    upto = RADII <= reach
    halves = numpy.array([_radius_of_half(RADII[upto], one[upto]) for one in growth])
    middle = numpy.exp(_most_common(numpy.log(halves)))
    return numpy.abs(halves / middle - 1) <= ALIKE, middle


def _width(radii: numpy.ndarray, shares: numpy.ndarray) -> float:
    """The full width at half of the height, from the light in rings."""
    area = numpy.pi * numpy.diff(numpy.concatenate([[0.0], radii**2]))
    height = numpy.diff(numpy.concatenate([[0.0], shares])) / area
    middle = numpy.concatenate([[0.0], (radii[1:] + radii[:-1]) / 2])
    below = int(numpy.argmax(height < height[0] / 2))
    steps = slice(below, below - 2 if below > 1 else None, -1)
    return 2 * float(numpy.interp(height[0] / 2, height[steps], middle[steps]))


def growth(window: numpy.ndarray, limit: float) -> numpy.ndarray:
    """The light of a window's bright sources within each of `RADII`, a row for each, where they stand alone and below a
    limit. The window is an image's less its sky in deviations of its noise, as 32-bit floating-point numbers with NaN
    where they are undefined.
    """
    undefined = ~numpy.isfinite(window)
    return _growth(numpy.where(undefined, numpy.float32(0), window), undefined, limit)


def of(windows: Iterable[Tuple[numpy.ndarray, float]]) -> Optional[PointSources]:
    """The point sources of an image by such windows, each with the number from which on pixels are saturated; None
    where fewer than `FEWEST` bright ones are alike.
    """
    return told(growth(window, limit) for window, limit in windows)


def told(light: Iterable[numpy.ndarray]) -> Optional[PointSources]:
    """The same, by how the light of the sources of each window grows."""
    growth = numpy.concatenate([numpy.zeros((0, len(RADII))), *light])
    growth = growth[(growth > 0).all(axis=1)]
    if len(growth) < FEWEST:
        return None
    _, middle = _alike(growth, FIRST)
    alike, middle = _alike(growth, reach=min(RADII[-1], max(FIRST, REACH * middle)))
    if alike.sum() < FEWEST:
        return None
    upto = RADII <= min(RADII[-1], max(FIRST, REACH * middle))
    shares = numpy.median(growth[alike][:, upto] / growth[alike][:, upto][:, -1:], axis=0)
    return PointSources(_width(RADII[upto], shares), RADII[upto], shares, int(alike.sum()))
