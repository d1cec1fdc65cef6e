"""Which sources are but the peaks of noise on faint light: on a galaxy's halo, a nebula, a fringe of the sky.

A source stays where the least area of its pixels would have passed the threshold above the light around it too: the
mean of those pixels of a box that lie beside all sources. Where few such pixels are there, as amid a crowd, nothing is
known of the light around, and the source stays.

Beside sources lie the pixels below the threshold, but for those next to a component, and those of the source's own
component that lie away from all of its sources. So what is made of a component depends on its own pixels and on those
near it alone.
"""
from typing import Callable, Iterator, List, NamedTuple, Tuple, Union

import numpy

from . import _boxes as boxes
from ._loops import Loop, array, flag, number as real, whole
from ._pieces import Parts
from ._sky import grown
from ._windows import rows_and_columns

__all__ = ["kept", "reach"]

# The variance of the noise on some light, over that of the sky.
Variance = Callable[[numpy.ndarray], Union[float, numpy.ndarray]]
# How far sources reach beyond their pixels, in their component and out of it, and the least share of a box that has to
# lie beside them.
BESIDE, CLOSE, LEAST_SHARE = 2, 1, 0.1
# Half of a box's side, in widths of a point source, and the least of it in pixels.
HALF, LEAST_HALF = 3.5, 8
# So many rows are at work at a time.
ROWS = 256

# Numbers, how many they are, the threshold, and whether they lie near components: instead whether they lie beside all.
_BESIDE = Loop("beside", array(">i4"), whole, whole, array("?"))
# Places of some pixels, which of them are shown, how many they are, whether these alone count, and the first place; and
# a mask, and its size.
_PAINT = Loop("paint", array("i8"), array("?"), whole, flag, whole, array("?"), whole)
# The same pixels, and the window's width; and rows and columns of those that are shown, and how many these are.
_SHOWN = Loop("shown_pixels", array("i8"), array("?"), whole, whole, array("i8"), array("i8"), array("i8"))
# Owners of pixels, which are shown, and how many they are; the owners' components and how many owners there are; and
# which pixels aren't shown, how many these are, and how many of each component.
_HIDDEN = Loop(
    "hidden_pixels",
    *(array("i4"), array("?"), whole, array("i8"), whole),
    *(array("i8"), array("i8"), array("i8")),
)
# Which of the pixels are looked at, and how many these are; places and owners of all; the components, which of them are
# chosen, and how many owners there are; a mask, its first place, its height and width, and how far it reaches; and
# which of all pixels lie away.
_AWAY = Loop(
    "away_from_shown",
    *(array("i8"), whole, array("i8"), array("i4"), array("i8"), array("?"), whole),
    *(array("?"), whole, whole, whole, whole, array("?")),
)
# Some pixels' counts and sums, how many pixels these are, the least count that tells, and the light.
_MEAN = Loop("mean_light", array("i8"), array("i8"), whole, real, array("f8"))
# The numbers of a window, and how many they are; the pixels of its parts, their owners, which are shown, and how many
# they are; light and variance about those that are shown, how far from one variance to the next, and the threshold; and
# how many sources and 0 for none there are, and how many pixels of each stand out.
_STAND_OUT = Loop(
    "stand_out",
    *(array(">i4"), whole),
    *(array("i8"), array("i4"), array("?"), whole),
    *(array("f8"), array("f8"), whole, whole),
    *(whole, array("i8")),
)


def reach(width: float) -> int:
    """Up to how many pixels from a source count for it."""
    return _half(width) + BESIDE + 1


def _half(width: float) -> int:
    return max(LEAST_HALF, round(HALF * width))


class _Around(NamedTuple):
    """For each of some pixels how many pixels of its box lie beside sources, and the sum of their numbers."""

    pixels: numpy.ndarray
    total: numpy.ndarray


def _around(
    numbers: numpy.ndarray, beside: numpy.ndarray, half: int, rows: numpy.ndarray, columns: numpy.ndarray
) -> _Around:
    """What lies around the pixels of these rows, in order, and columns: in boxes that end where the image does."""
    found = []
    for top in range(rows[0], rows[-1] + 1, ROWS) if len(rows) else ():
        some = slice(*numpy.searchsorted(rows, (top, top + ROWS)))
        seen = slice(max(0, top - half), top + ROWS + half)
        own = rows[some] - seen.start, columns[some]
        found.append(_Around(*boxes.around(numbers[seen], beside[seen], half, *own)))
    return _joined(found)


def _joined(found: List[_Around]) -> _Around:
    """What lies around pixels that were looked at some at a time."""
    if len(found) == 1:
        return found[0]
    none = numpy.zeros(0, dtype="i8")
    return _Around(*(numpy.concatenate(them) for them in zip(_Around(none, none), *found)))


class _Bands:
    """A window some rows at a time: its numbers, and the map of its sources."""

    def __init__(self, numbers: numpy.ndarray, parts: Parts):
        self.numbers, self.parts, (self.height, self.width) = numbers, parts, numbers.shape

    def rows(self, own: slice, more: int) -> slice:
        """Some rows with so many above and below, as far as the window goes."""
        return slice(max(0, own.start - more), min(self.height, own.stop + more))

    def __iter__(self) -> Iterator[Tuple[slice, slice]]:
        """The rows, some at a time, and which of the parts' pixels stand there, where some do."""
        for top in range(0, self.height, ROWS):
            own = slice(top, min(top + ROWS, self.height))
            some = slice(*numpy.searchsorted(self.parts.places, (own.start * self.width, own.stop * self.width)))
            if some.stop > some.start:
                yield own, some

    def values(self, rows: slice) -> numpy.ndarray:
        """The numbers of some rows, as they are worked with."""
        return numpy.asarray(self.numbers[rows], dtype=">i4" if _BESIDE else "i4")

    def painted(self, wide: slice, shown: bool) -> numpy.ndarray:
        """Which pixels of some rows belong to a component with a source, or to a source's node."""
        some = slice(*numpy.searchsorted(self.parts.places, (wide.start * self.width, wide.stop * self.width)))
        painted = numpy.zeros((wide.stop - wide.start, self.width), dtype=bool)
        places, own, first = self.parts.places[some], self.parts.shown[some], wide.start * self.width
        if _PAINT:
            _PAINT(places, own, len(places), shown, first, painted, painted.size)
        else:
            painted.ravel()[places - first] = own if shown else True
        return painted

    def near(self, rows: slice, reach: int, shown: bool) -> numpy.ndarray:
        """Which pixels of some rows lie within reach of a component with a source, or of a source's node."""
        wide = self.rows(rows, reach)
        return grown(self.painted(wide, shown), reach)[rows.start - wide.start : rows.stop - wide.start]

    def beside(self, rows: slice, values: numpy.ndarray, threshold: int) -> numpy.ndarray:
        """Which pixels of some rows, with these numbers, lie beside all components with a source."""
        found = self.near(rows, CLOSE, shown=False)
        if _BESIDE:
            found = numpy.ascontiguousarray(found)
            _BESIDE(values, values.size, threshold, found)
            return found
        found |= values >= threshold
        found |= values == numpy.iinfo("i4").min
        return ~found

    def around(self, half: int, threshold: int) -> _Around:
        """What lies around the pixels of the sources' nodes, beside all components."""
        found = []
        for own, some in self:
            rows = self.rows(own, half)
            values = self.values(rows)
            at, columns = self.shown(some)
            found.append(_around(values, self.beside(rows, values, threshold), half, at - rows.start, columns))
        return _joined(found)

    def shown(self, some: slice) -> Tuple[numpy.ndarray, numpy.ndarray]:
        """Rows and columns of those of the parts' pixels that sources' nodes have."""
        places, shown = self.parts.places[some], self.parts.shown[some]
        if not _SHOWN:
            return rows_and_columns(places[shown], self.width)
        rows, columns, count = (numpy.empty(size, dtype="i8") for size in (len(places), len(places), 1))
        _SHOWN(places, shown, len(places), self.width, rows, columns, count)
        return rows[: count[0]], columns[: count[0]]

    def away(self, least: float) -> numpy.ndarray:
        """Which of the parts' pixels lie away from all sources; of components with so many of these alone, and maybe of
        others.
        """
        if _AWAY:
            return self._away(least)
        found = [numpy.zeros(0, dtype=bool)]
        for rows, some in self:
            near = self.near(rows, BESIDE, shown=True)
            found.append(~near.ravel()[self.parts.places[some] - rows.start * self.width])
        return numpy.concatenate(found)

    def _away(self, least: float) -> numpy.ndarray:
        """The same by loops, which look at components alone that have so many pixels besides their sources' nodes."""
        places, owners, shown = self.parts.places, self.parts.owners, self.parts.shown
        components = numpy.ascontiguousarray(self.parts.components, dtype="i8")
        hidden = numpy.zeros(int(components.max(initial=0)) + 1, dtype="i8")
        pixels, count = numpy.empty(len(shown), dtype="i8"), numpy.empty(1, dtype="i8")
        _HIDDEN(owners, shown, len(shown), components, len(components), pixels, count, hidden)
        pixels, chosen, found = pixels[: count[0]], hidden >= least, numpy.zeros(len(shown), dtype=bool)
        if not chosen.any():
            return found
        for rows, some in self:
            wide, own = self.rows(rows, BESIDE), pixels[slice(*numpy.searchsorted(pixels, (some.start, some.stop)))]
            mask = self.painted(wide, shown=True), wide.start * self.width, wide.stop - wide.start, self.width
            _AWAY(own, len(own), places, owners, components, chosen, len(components), *mask, BESIDE, found)
        return found


def _halos(bands: _Bands, half: int, least: float) -> Iterator[Tuple[numpy.ndarray, _Around]]:
    """For each component that has so many pixels away from the sources that stand on them, which of the pixels of the
    sources' nodes it has, and what lies around these away from sources.
    """
    parts, away = bands.parts, bands.away(least)
    many = numpy.flatnonzero(numpy.bincount(parts.components[parts.owners[away]], minlength=1) >= least)
    if not many.size:
        return
    owner, node = parts.components[parts.owners], numpy.cumsum(parts.shown) - 1
    for number in many.tolist():
        own = numpy.flatnonzero(owner == number)
        rows, columns = rows_and_columns(parts.places[own], bands.width)
        top, left = rows[0], columns.min()
        box = slice(top, rows[-1] + 1), slice(left, columns.max() + 1)
        far = numpy.zeros([it.stop - it.start for it in box], dtype=bool)
        far[rows - top, columns - left] = away[own]
        shown = parts.shown[own]
        yield node[own[shown]], _around(bands.numbers[box], far, half, rows[shown] - top, columns[shown] - left)


def kept(
    numbers: numpy.ndarray,
    parts: Parts,
    threshold: int,
    area: int,
    width: float,
    variance: Variance = lambda light: 1.0,
) -> numpy.ndarray:
    """Whether each source of a window stays, by number. `numbers` are those in which the program found them with this
    threshold and this least area, the least 32-bit number where undefined; the width is that of a point source, and
    `variance` gives that of the noise on some light, over that of the sky.
    """
    half, bands = _half(width), _Bands(numbers, parts)
    least = LEAST_SHARE * (2 * half + 1) ** 2
    count, total = bands.around(half, threshold)
    for here, more in _halos(bands, half, least):
        count[here] += more.pixels
        total[here] += more.total
    light = _light(count, total, least)
    return _standing_out(numbers, parts, light, variance(light), threshold)[1:] >= area


def _light(count: numpy.ndarray, total: numpy.ndarray, least: float) -> numpy.ndarray:
    """The means of so many pixels with these sums, but not below 0; 0 where there are fewer than the least."""
    if not _MEAN:
        return numpy.where(count >= least, numpy.maximum(total / numpy.maximum(count, 1), 0), 0.0)
    light = numpy.empty(len(count))
    _MEAN(count, total, len(count), least, light)
    return light


def _standing_out(
    numbers: numpy.ndarray,
    parts: Parts,
    light: numpy.ndarray,
    variance: Union[float, numpy.ndarray],
    threshold: int,
) -> numpy.ndarray:
    """How many pixels of each source's node, by number, pass the threshold above the light around them, where the noise
    has this variance.
    """
    sources = len(parts.catalogue) + 1
    if not _STAND_OUT:
        values = numbers.ravel()[parts.places[parts.shown]]
        found = values >= light + threshold * numpy.sqrt(variance)
        return numpy.bincount(parts.owners[parts.shown], found, sources)
    numbers, variance = numpy.ascontiguousarray(numbers, dtype=">i4"), numpy.ascontiguousarray(variance, dtype="f8")
    standing, pixels = numpy.zeros(sources, dtype="i8"), (parts.places, parts.owners, parts.shown, len(parts.places))
    step = int(variance.size > 1)
    _STAND_OUT(numbers, numbers.size, *pixels, light, variance, step, threshold, sources, standing)
    return standing
