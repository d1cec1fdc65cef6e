"""The pixels of a map that belong to sources, and sums over those of each source.

Loops in C do this where they are compiled (owned.c); numpy tells the same, to the last digit.
"""
import dataclasses
import functools
from typing import NamedTuple, Tuple, Union

import numpy

from ._loops import Loop, array, flag, number, whole
from ._windows import rows_and_columns

__all__ = ["Pixels", "Shapes", "Sums", "of_map"]

# A map may be a window of a larger one, so that there are gaps between its rows.
_MAP = (numpy.ctypeslib.ndpointer(numpy.dtype("i4"), ndim=2), whole, whole, whole)
_PLACES, _COUNT = array("i8"), array("i8")
_PLAIN = Loop("plain_map", *_MAP, array("i4"), _COUNT)
_OWNED = Loop("owned_pixels", *_MAP, array("?"), whole, _PLACES, _PLACES, _COUNT)
_MASKED = Loop("owners_of_masked", _PLACES, _PLACES, whole, array("?"), array("?"))
_SUMS = Loop(
    "sums_of_sources",
    *(_PLACES, _PLACES, whole, whole, array("f4"), array("f4"), flag, number),
    *(array("i4"), array("f8"), array("f8")),
)


class Shapes(NamedTuple):
    """The centres of sources, columns and rows counted from 0, the half axes of their ellipses in pixels, and the
    angles of the long ones from the x axis towards the y axis in degrees, one of each for every source.
    """

    x: numpy.ndarray
    y: numpy.ndarray
    long: numpy.ndarray
    short: numpy.ndarray
    angle: numpy.ndarray

    def table(self) -> numpy.ndarray:
        """What places are turned by: a row of centre, cosine, sine and half axes for each source."""
        angle = numpy.radians(self.angle)
        each = (self.x, self.y, numpy.cos(angle), numpy.sin(angle), self.long, self.short)
        return numpy.array(each, dtype="f8").T.copy()


class Sums(NamedTuple):
    """Sums over the pixels of sources, one of each for every source: how many these are, their light, its variance, the
    light above 0, and that times the squares of distances from the centre in units of the ellipse.
    """

    pixels: numpy.ndarray
    light: numpy.ndarray
    variance: numpy.ndarray
    above: numpy.ndarray
    moment: numpy.ndarray


@dataclasses.dataclass
class Pixels:
    """The pixels that belong to sources: their places in the flat image, the sources' numbers there, how long a list by
    number is, and how many columns the image has.
    """

    places: numpy.ndarray
    numbers: numpy.ndarray
    length: int
    width: int

    @functools.cached_property
    def at(self) -> Tuple[numpy.ndarray, numpy.ndarray]:
        """Their rows and columns."""
        return rows_and_columns(self.places, self.width)

    def summed(self, weights: numpy.ndarray) -> numpy.ndarray:
        """The sum of the weights over each source, by number."""
        return numpy.bincount(self.numbers, weights, self.length).astype("f8", copy=False)

    def without(self, mask: numpy.ndarray) -> "Pixels":
        """Those that don't lie in a mask of the image."""
        here = mask.ravel()[self.places]
        if not here.any():
            return self
        beside = ~here
        return Pixels(self.places[beside], self.numbers[beside], self.length, self.width)

    def having(self, chosen: numpy.ndarray) -> numpy.ndarray:
        """Whether one of a source's pixels is chosen, by number."""
        found = numpy.zeros(self.length, dtype=bool)
        found[self.numbers[chosen]] = True
        return found

    def touching(self, mask: numpy.ndarray) -> numpy.ndarray:
        """Whether one of a source's pixels lies in a mask of the image, by number."""
        if not _MASKED:
            return self.having(mask.ravel()[self.places])
        found = numpy.zeros(self.length, dtype=bool)
        _MASKED(self.places, self.numbers, len(self.places), numpy.ascontiguousarray(mask, "?"), found)
        return found

    def sums(
        self, light: numpy.ndarray, noise: Union[float, numpy.ndarray], numbers: numpy.ndarray, shapes: Shapes
    ) -> Sums:
        """Sums for the sources with these numbers and shapes. `light` is the image in 32 bits, and `noise` that of its
        pixels, one number or 32 bits for each.
        """
        if not _SUMS:
            return self._by_numpy(light, noise, numbers, shapes)
        which, each = numpy.zeros(self.length, dtype="i4"), numpy.ndim(noise) > 0
        which[numbers] = numpy.arange(len(numbers))
        found = numpy.zeros((len(numbers), len(Sums._fields)))
        deviations, variance = (noise, 0) if each else (numpy.empty(0), float(noise) ** 2)
        _SUMS(
            *(self.places, self.numbers, len(self.places), self.width),
            *(numpy.ascontiguousarray(light, "f4"), numpy.ascontiguousarray(deviations, "f4"), each, variance),
            *(which, shapes.table(), found),
        )
        return Sums(*found[which[numbers]].T)

    def _by_numpy(self, light, noise, numbers, shapes) -> Sums:
        """The same without the loop."""

        def here(values):
            """The sources' values at their pixels."""
            listed = numpy.ones(self.length)
            listed[numbers] = values
            return listed[self.numbers]

        x, y, cosine, sine, long, short = map(here, shapes.table().T)
        rows, columns = self.at
        right, down = columns - x, rows - y
        along, across = (right * cosine + down * sine) / long, (down * cosine - right * sine) / short
        values = light.ravel()[self.places]
        above = numpy.maximum(values, 0).astype("f8")
        if numpy.ndim(noise) == 0:
            variance = numpy.full(len(values), float(noise) ** 2)
        else:
            variance = numpy.asarray(noise).ravel()[self.places].astype("f8") ** 2
        weights = (numpy.ones(len(values)), values, variance, above, above * (along * along + across * across))
        return Sums(*(self.summed(it)[numbers] for it in weights))


def of_map(segments: numpy.ndarray, numbers: numpy.ndarray) -> Tuple[Pixels, numpy.ndarray]:
    """The pixels of a map that belong to the sources with these numbers, which are above 0, and the map without the
    signs of its numbers, row by row in 32 bits.
    """
    segments = numpy.asarray(segments, dtype="i4")
    height, width = segments.shape
    apart, rest = divmod(segments.strides[0], segments.itemsize)
    if not _PLAIN or rest or segments.strides[1] != segments.itemsize or numpy.min(numbers, initial=1) < 1:
        return _of_map_by_numpy(segments, numbers)
    plain, count = numpy.empty(segments.shape, dtype="i4"), numpy.zeros(1, dtype="i8")
    _PLAIN(segments, apart, height, width, plain, count)
    wanted = numpy.zeros(int(numpy.max(numbers, initial=0)) + 1, dtype=bool)
    wanted[numbers] = True
    places, within = numpy.empty((2, int(count[0]) + 1), dtype="i8")
    _OWNED(segments, apart, height, width, wanted, len(wanted), places, within, count)
    return Pixels(places[: count[0]], within[: count[0]], len(wanted), width), plain


def _of_map_by_numpy(segments: numpy.ndarray, numbers: numpy.ndarray) -> Tuple[Pixels, numpy.ndarray]:
    """The same without the loops."""
    segments = numpy.ascontiguousarray(segments)
    places = numpy.flatnonzero(segments.ravel() > 0)
    # numpy takes such numbers as places without a copy.
    within = segments.ravel()[places].astype(numpy.intp)
    length = int(max(within.max(initial=0), numbers.max(initial=0))) + 1
    wanted = numpy.zeros(length, dtype=bool)
    wanted[numbers] = True
    own = wanted[within]
    return Pixels(places[own], within[own], length, segments.shape[1]), numpy.abs(segments)
