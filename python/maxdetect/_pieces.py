"""Which parts of a component are sources of their own.

Without a contrast the program splits a component wherever two parts with the least area each stand above the level at
which they meet. Some of these parts are peaks of noise on what they stand on. So parts are joined again, from the
highest meeting place down, as long as one of two has less light above it than so many deviations of the noise there.
The wider what they stand on is, the more peaks of noise it has, and the more deviations the greatest of them: about
the root of twice the logarithm of their number. What is left are nodes of the same tree: each reaches down to where it
meets the next one. So what is made of a component depends on its own pixels alone.
"""
import math
from typing import Iterator, List, NamedTuple, Tuple

import numpy

from . import _groups as groups, _nodes as nodes
from ._loops import Loop, array as row_by_row, whole
from ._maps import bands, let_go
from ._rows import Rows
from ._significance import AnySignificance

__all__ = ["Parts", "sources"]

# So many pixels are at work at a time.
CACHED = 2**16
LEAST = numpy.iinfo("i4").min
# The limit of what has none.
WITHOUT = numpy.iinfo("i8").max
# By how many rows and columns the neighbours behind a pixel lie further on.
BEHIND = [(0, 1), (1, -1), (1, 0), (1, 1)]

# Some numbers, how many they are, the threshold, and how many reach it.
_REACHING = Loop("reaching", row_by_row(">i4"), whole, whole, row_by_row("i8"))
# Numbers and map of some pixels, how many they are, the threshold, and the first one's place; and places, values and
# labels of those that pass the threshold, and how many these are.
_THRESHOLD_SET = Loop(
    "threshold_set",
    *(row_by_row(">i4"), row_by_row(">i4"), whole, whole, whole),
    *(row_by_row("i8"), row_by_row("i4"), row_by_row("i4"), row_by_row("i8")),
)
# Places, values and labels of a threshold set, how many they are, and the window's width.
_LABELLED = row_by_row("i8"), row_by_row("i4"), row_by_row("i4"), whole, whole
# Room for rows, and for places and labels of all pixels.
_SHARE_OUT = Loop("share_out", *_LABELLED, row_by_row("i8"), row_by_row("i8"), row_by_row("i4"))
# From which pixel up to which, and room for rows; and labels and levels of the pairs, and how many these are.
_TOUCHING = Loop("touching", *_LABELLED, whole, whole, *[row_by_row("i8")] * 5)
# Which pixels are shown, the labels' owners, and how many these are; and places, values, owners and what is shown of
# the pixels that have one, and how many these are.
_OWNED = Loop(
    "owned",
    *_LABELLED[:-1],
    *(row_by_row("?"), row_by_row("i4"), whole),
    *(row_by_row("i8"), row_by_row("i4"), row_by_row("i4"), row_by_row("?"), row_by_row("i8")),
)
# Numbers and owners of pixels, which of them are shown, and how many they are; the owners' numbers and limits, and how
# many these are; and what the pixels get.
_RENUMBERED = Loop(
    "renumbered",
    *(row_by_row("i4"), row_by_row("i4"), row_by_row("?"), whole),
    *(row_by_row("i4"), row_by_row("i8"), whole),
    *(row_by_row("i4"), row_by_row("?")),
)


class _Pixels:
    """The pixels of a window's threshold set, row by row, each with its number and the source to which it belongs, 0
    for none. One behind the last stands for all that aren't there.
    """

    def __init__(self, numbers: numpy.ndarray, segments: numpy.ndarray, threshold: int):
        self.height, self.width = numbers.shape
        made = _threshold_set if _THRESHOLD_SET else _threshold_set_by_numpy
        self.places, self.values, self.labels = made(numbers, segments, threshold)
        self.count = len(self.values) - 1
        self.places[self.count :] = numpy.iinfo("i8").max
        self.values[-1], self.labels[-1] = LEAST, 0

    def _in_row(self, places: numpy.ndarray, inside: List[numpy.ndarray]) -> List[numpy.ndarray]:
        """Which pixels those of a row are that stand left of some places, in them and right of them, where these are
        inside of the image.
        """
        at, found = numpy.searchsorted(self.places, places - 1), []
        for step, is_inside in zip((-1, 0, 1), inside):
            is_there = self.places[at] == places + step
            found.append(numpy.where(is_there & is_inside, at, self.count))
            at = at + is_there
        return found

    def around(self, some: numpy.ndarray) -> List[numpy.ndarray]:
        """For some pixels which ones their eight neighbours are."""
        places = self.places[some]
        columns = places % self.width
        inside = [columns != 0, numpy.True_, columns != self.width - 1]
        right = numpy.where((self.places[some + 1] == places + 1) & inside[2], some + 1, self.count)
        left = numpy.where((self.places[some - 1] == places - 1) & inside[0], some - 1, self.count)
        below, above = (self._in_row(places + by, inside) for by in (self.width, -self.width))
        return [right, *below, left, *above[::-1]]

    @property
    def labelled(self) -> Tuple[numpy.ndarray, numpy.ndarray, numpy.ndarray, int, int]:
        """What loops are told of the pixels."""
        return self.places, self.values, self.labels, self.count, self.width

    @property
    def lit(self) -> groups.Lit:
        """The pixels' numbers and labels."""
        return groups.Lit(self.values[:-1], self.labels[:-1])

    @property
    def room(self) -> numpy.ndarray:
        """Room for a row, the one above and the one below, with a column more at both ends."""
        return numpy.empty((3, self.width + 2), dtype="i8")

    def uphill(self, some: numpy.ndarray) -> numpy.ndarray:
        """For some pixels the highest of the neighbours that stand higher, or the pixel itself."""
        return numpy.concatenate([some[:0], *map(self._uphill, _chunks(some))])

    def _uphill(self, some: numpy.ndarray) -> numpy.ndarray:
        best, up = self.values[some], some
        for beside in self.around(some):
            its = self.values[beside]
            up, best = numpy.where(its > best, beside, up), numpy.maximum(best, its)
        return up

    def highest(self, some: numpy.ndarray) -> numpy.ndarray:
        """For some pixels the source of the neighbour that stands highest among those with one."""
        return numpy.concatenate([self.labels[:0], *map(self._highest, _chunks(some))])

    def _highest(self, some: numpy.ndarray) -> numpy.ndarray:
        best, label = numpy.full(some.size, LEAST, dtype="i4"), numpy.zeros(some.size, dtype="i4")
        for beside in self.around(some):
            its = self.labels[beside]
            value = numpy.where(its != 0, self.values[beside], LEAST)
            label, best = numpy.where(value > best, its, label), numpy.maximum(best, value)
        return label

    def owned(self, owner: numpy.ndarray, shown: numpy.ndarray) -> Tuple[numpy.ndarray, ...]:
        """Places and values of the pixels whose source has an owner that isn't 0, these owners, and which of the pixels
        are shown.
        """
        if not _OWNED:
            labels = owner[self.labels[:-1]]
            chosen = labels != 0
            return self.places[:-3][chosen], self.values[:-1][chosen], labels[chosen], shown[chosen]
        found = [numpy.empty(self.count, dtype=dtype) for dtype in ("i8", "i4", "i4", "?")]
        count = numpy.empty(1, dtype="i8")
        _OWNED(*self.labelled[:-1], shown, owner, len(owner), *found, count)
        places, values, owners, its = (them[: count[0]] for them in found)
        return places, values, owners, its

    def met(self) -> Iterator[numpy.ndarray]:
        """Of pairs of pixels side by side that belong to two sources the lesser number of these, the greater one, and
        the lesser of the pixels' own numbers, in three rows.
        """
        if _TOUCHING:
            yield from (self._met(first) for first in range(0, self.count, CACHED))
            return
        for one, other in self.touching():
            pair = numpy.sort([self.labels[one], self.labels[other]], axis=0)
            level = numpy.minimum(self.values[one], self.values[other])
            yield numpy.concatenate([pair, level[None, :]]).astype("i8")

    def _met(self, first: int) -> numpy.ndarray:
        """The same of some pixels, from one on, with those behind them."""
        end, count = min(first + CACHED, self.count), numpy.empty(1, dtype="i8")
        found = [numpy.empty(len(BEHIND) * (end - first), dtype="i8") for _ in range(3)]
        _TOUCHING(*self.labelled, first, end, self.room, *found, count)
        return numpy.array([them[: count[0]] for them in found])

    def touching(self) -> Iterator[Tuple[numpy.ndarray, numpy.ndarray]]:
        """Pairs of pixels side by side that belong to two sources."""
        rows = max(1, 4 * CACHED // self.width)
        for top in range(0, self.height, rows):
            begin = top * self.width
            first, last, end = numpy.searchsorted(
                self.places, (begin, begin + rows * self.width, begin + (rows + 1) * self.width)
            )
            # A table of these rows and the next one, with a place more at both ends.
            at, own = self.places[first:end] - (begin - 1), self.labels[first:last]
            labels = numpy.zeros((rows + 1) * self.width + 2, dtype="i4")
            labels[at] = self.labels[first:end]
            for down, across in BEHIND:
                step = down * self.width + across
                its = labels[at[: last - first] + step]
                one = first + numpy.flatnonzero((own != its) & (own != 0) & (its != 0))
                columns = self.places[one] % self.width + across
                one = one[(columns >= 0) & (columns < self.width)]
                yield one, numpy.searchsorted(self.places, self.places[one] + step)


def _threshold_set(numbers: numpy.ndarray, segments: numpy.ndarray, threshold: int) -> Tuple[numpy.ndarray, ...]:
    """Places, numbers and labels of a window's pixels that pass the threshold, with room for those behind the last."""
    reaching, count = 0, numpy.empty(1, dtype="i8")
    for rows in bands(numbers):
        some = numpy.ascontiguousarray(numbers[rows], dtype=">i4")
        _REACHING(some, some.size, threshold, count)
        reaching += int(count[0])
    found = numpy.empty(reaching + 3, dtype="i8"), *numpy.empty((2, reaching + 1), dtype="i4")
    first = 0
    for rows in bands(numbers):
        some, its = (numpy.ascontiguousarray(them[rows], dtype=">i4") for them in (numbers, segments))
        left = (them[first:] for them in found)
        _THRESHOLD_SET(some, its, some.size, threshold, rows.start * numbers.shape[1], *left, count)
        first += int(count[0])
        let_go(segments)
    return found


def _threshold_set_by_numpy(
    numbers: numpy.ndarray, segments: numpy.ndarray, threshold: int
) -> Tuple[numpy.ndarray, ...]:
    """The same without the loops."""
    found = []
    for rows in bands(numbers):
        values = numpy.asarray(numbers[rows], dtype="i4").ravel()
        places = numpy.flatnonzero(values >= threshold)
        labels = numpy.asarray(segments[rows]).ravel()[places].astype("i4")
        found.append((places + rows.start * numbers.shape[1], values[places], labels))
        let_go(segments)
    behind = numpy.empty(3, dtype="i8"), *numpy.empty((2, 1), dtype="i4")
    return tuple(numpy.concatenate(parts) for parts in zip(*found, behind))


def _chunks(some: numpy.ndarray) -> Iterator[numpy.ndarray]:
    return (some[first : first + CACHED] for first in range(0, len(some), CACHED))


def _share_out(pixels: _Pixels) -> None:
    """Gives each pixel of the threshold set that no source has to the one to which the way uphill leads, and what a
    peak without a source holds to the neighbour that stands highest.
    """
    if _SHARE_OUT:
        room = pixels.room, numpy.empty(pixels.count, dtype="i8"), numpy.empty(pixels.count, dtype="i4")
        _SHARE_OUT(*pixels.labelled, *room)
        return
    labels = pixels.labels
    rest = numpy.flatnonzero(labels[:-1] == 0)
    way = numpy.arange(pixels.count)
    way[rest] = up = pixels.uphill(rest)
    while True:
        further = way[up]
        if (further == up).all():
            break
        way[rest] = up = further
    labels[rest] = labels[up]
    rest = rest[labels[rest] == 0]
    while rest.size:
        given = pixels.highest(rest)
        if not given.any():
            break
        labels[rest] = given
        rest = rest[given == 0]


def _meetings(pixels: _Pixels) -> groups.Meetings:
    """Where parts meet. Two pixels side by side meet at the lesser of their numbers."""
    one, other, level = numpy.concatenate([numpy.zeros((3, 0), dtype="i8"), *pixels.met()], axis=1)
    if not len(one):
        return groups.Meetings(one, other, level)
    pairs = one * (int(pixels.labels.max()) + 1) + other
    order = numpy.argsort(pairs, kind="stable")
    starts = numpy.flatnonzero(numpy.diff(pairs[order], prepend=-1))
    level, one, other = numpy.maximum.reduceat(level[order], starts), one[order[starts]], other[order[starts]]
    order = numpy.lexsort((other, one, -level))
    return groups.Meetings(one[order], other[order], level[order])


class Parts(NamedTuple):
    """The sources of a window: their rows, numbered by their first pixels; the pixels of their components, counted row
    by row, for each of these the number of the source to which it belongs, and whether it is one of the node's, which
    alone the map has; and for each source, by number, a number of its component.
    """

    catalogue: Rows
    places: numpy.ndarray
    owners: numpy.ndarray
    shown: numpy.ndarray
    components: numpy.ndarray


def sources(
    numbers: numpy.ndarray,
    catalogue: Rows,
    segments: numpy.ndarray,
    threshold: int,
    significance: AnySignificance,
    least: float,
    patch: float = math.inf,
) -> Parts:
    """The sources of a window's whole numbers, of which the program found these rows and this map.

    Parts with less than `least` deviations of the noise are joined with what they stand on; with 0 none are. Where
    that has more than `patch` pixels, a part has to have more of them.
    """
    count, pixels = len(catalogue), _Pixels(numbers, segments, threshold)
    own = pixels.labels[:-1] != 0
    _share_out(pixels)
    meetings, owner = _meetings(pixels), numpy.arange(count + 1)
    components = groups.components(meetings, count)
    if least > 0 and meetings.ones.size:
        owner = groups.owners(meetings, pixels.lit, count, significance, least, patch)
    places, values, owners, shown = pixels.owned(owner.astype("i4"), own)
    parts = Parts(catalogue, places, owners, shown, components)
    if (owner == numpy.arange(count + 1)).all():
        return parts
    several = numpy.flatnonzero(numpy.bincount(owner[1:], minlength=count + 1) > 1)
    bases = groups.levels(meetings, owner)[several]
    return _with_changed(parts, values, owner, several, *_changed(numbers, values, parts, several, bases))


def _changed(
    numbers: numpy.ndarray, values: numpy.ndarray, parts: Parts, several: numpy.ndarray, bases: numpy.ndarray
) -> Tuple[Rows, numpy.ndarray]:
    """The rows of the nodes that several parts make together, and the numbers above which these have pixels."""
    place = numpy.full(len(parts.components), -1)
    place[several] = numpy.arange(len(several))
    pixels = nodes.of_owners(parts.places, values, parts.owners, place, len(several), numbers.shape)
    told = [None if base == groups.NONE else base for base in bases.tolist()]
    above = nodes.bases_of(numbers, pixels, told)
    return nodes.rows(several, pixels, above)[0], above


def _with_changed(
    parts: Parts,
    values: numpy.ndarray,
    owner: numpy.ndarray,
    several: numpy.ndarray,
    changed: Rows,
    above: numpy.ndarray,
) -> Parts:
    """The parts with the nodes that several make together, numbered by their first pixels. These nodes have the pixels
    above such numbers.
    """
    alone, limits = owner == numpy.arange(len(owner)), numpy.full(len(owner), WITHOUT)
    limits[several] = above
    alone[several] = alone[0] = False
    both = nodes.stacked(parts.catalogue, changed)
    # Each row is taken once, since there are many columns.
    some = numpy.flatnonzero(numpy.append(alone[numpy.asarray(parts.catalogue["NUMBER"])], several > 0))
    rows = both[some[numpy.lexsort((both["XFIRST"][some], both["YFIRST"][some]))]]
    old, new = numpy.asarray(rows["NUMBER"]), numpy.zeros(len(owner), dtype="i4")
    new[old] = numpy.arange(1, len(rows) + 1)
    rows["NUMBER"] = numpy.arange(1, len(rows) + 1, dtype=rows["NUMBER"].dtype)
    components = numpy.concatenate([[0], parts.components[old]])
    return Parts(rows, parts.places, *_renumbered(values, parts, new, limits), components)


def _renumbered(
    values: numpy.ndarray, parts: Parts, new: numpy.ndarray, limits: numpy.ndarray
) -> Tuple[numpy.ndarray, numpy.ndarray]:
    """The parts' pixels' owners by their new numbers, and which pixels are shown: where an owner has a limit those
    above, and else those that were.
    """
    if not _RENUMBERED:
        limit = limits[parts.owners]
        return new[parts.owners], numpy.where(limit == WITHOUT, parts.shown, values > limit)
    owners, shown = numpy.empty_like(parts.owners), numpy.empty_like(parts.shown)
    _RENUMBERED(values, parts.owners, parts.shown, len(values), new, limits, len(new), owners, shown)
    return owners, shown
