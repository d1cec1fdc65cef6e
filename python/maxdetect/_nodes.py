"""Rows of the program's catalogue for nodes of its tree that it didn't pick, by the same definitions.

Where the loops in C are compiled (nodes.c) they go through the pixels; numpy gives the same.
"""
from typing import Dict, List, NamedTuple, Optional, Tuple

import numpy

from ._columns import CATALOGUE
from ._loops import Loop, array, whole
from ._rows import Rows, behind_each_other
from ._windows import rows_and_columns

__all__ = ["Pixels", "bases_of", "of_owners", "of_places", "rows", "stacked"]

AROUND = [(down, across) for down in (-1, 0, 1) for across in (-1, 0, 1) if down or across]
# Sums of numbers of 32 bits times places are taken by halves of so many bits: each has room in 64.
HALF = 16
# The number of an undefined pixel.
NONE = numpy.iinfo("i4").min

# Places, numbers and owners of pixels, and how many they are; the owners' places among the nodes, and how many owners
# and nodes there are; the window's width; and where nodes begin, and rows, columns and numbers of their pixels.
_NODE_PIXELS = Loop(
    "node_pixels",
    *(array("i8"), array("i4"), array("i4"), whole),
    *(array("i8"), whole, whole, whole),
    *[array("i8")] * 4,
)
# The numbers of a window, its height and width; rows and columns of pixels and where nodes begin, how many nodes and
# pixels there are; and the nodes' limits, and the greatest numbers below.
_GREATEST_BELOW = Loop(
    "greatest_below",
    *(array(">i4"), whole, whole),
    *([array("i8")] * 3),
    *(whole, whole, array("i8"), array("i8")),
)


class Pixels(NamedTuple):
    """The pixels of some nodes, those of each one behind the other, row by row; and where each node begins."""

    rows: numpy.ndarray
    columns: numpy.ndarray
    values: numpy.ndarray
    starts: numpy.ndarray

    def sums(self, values: numpy.ndarray) -> numpy.ndarray:
        return numpy.add.reduceat(values, self.starts)

    def least(self, values: numpy.ndarray) -> numpy.ndarray:
        return numpy.minimum.reduceat(values, self.starts)

    def greatest(self, values: numpy.ndarray) -> numpy.ndarray:
        return numpy.maximum.reduceat(values, self.starts)

    def each(self, values: numpy.ndarray) -> numpy.ndarray:
        """The nodes' values at their pixels."""
        return numpy.repeat(values, numpy.diff(self.starts, append=len(self.rows)))

    def among(self, chosen: numpy.ndarray) -> "Pixels":
        """The pixels that are chosen; each node has one."""
        starts = numpy.concatenate([[0], numpy.cumsum(self.sums(chosen.astype("i8")))[:-1]])
        return Pixels(self.rows[chosen], self.columns[chosen], self.values[chosen], starts)


def of_places(
    places: numpy.ndarray, values: numpy.ndarray, of: numpy.ndarray, count: int, shape: Tuple[int, ...]
) -> Tuple[Pixels, numpy.ndarray]:
    """The pixels of so many nodes, given row by row in places of an image, with their numbers and their nodes'; and
    which of the given ones they are.
    """
    order = numpy.argsort(of, kind="stable")
    rows, columns = rows_and_columns(places[order], shape[1])
    starts = numpy.searchsorted(of[order], numpy.arange(count))
    return Pixels(rows, columns, values[order].astype("i8"), starts), order


def of_owners(
    places: numpy.ndarray,
    values: numpy.ndarray,
    owners: numpy.ndarray,
    nodes: numpy.ndarray,
    count: int,
    shape: Tuple[int, ...],
) -> Pixels:
    """The same of pixels with owners: `nodes` has for each owner which of so many nodes it is, or -1."""
    if not _NODE_PIXELS:
        at = numpy.flatnonzero(nodes[owners] >= 0)
        return of_places(places[at], values[at], nodes[owners[at]], count, shape)[0]
    starts, found = numpy.empty(count + 2, dtype="i8"), numpy.empty((3, len(places)), dtype="i8")
    _NODE_PIXELS(places, values, owners, len(places), nodes, len(nodes), count, shape[1], starts, *found)
    rows, columns, numbers = found[:, : starts[count]]
    return Pixels(rows, columns, numbers, starts[:count])


def bases_of(numbers: numpy.ndarray, pixels: Pixels, told: List[Optional[int]]) -> numpy.ndarray:
    """The nodes' bases. One that isn't told is the greatest number beside the pixels, which are a whole component then,
    and NONE where nothing beside is defined.
    """
    if None not in told:
        return numpy.array(told, dtype="i8")
    beside = _greatest_below(numbers, pixels, pixels.least(pixels.values))
    return numpy.array([level if base is None else base for base, level in zip(told, beside.tolist())], dtype="i8")


def rows(wanted: numpy.ndarray, pixels: Pixels, base: numpy.ndarray) -> Tuple[Rows, numpy.ndarray]:
    """The rows of nodes with these numbers and bases, and which of the pixels they have: those above the base. Where it
    is NONE all are the node's, and the least of them is its base.
    """
    inside = pixels.values > pixels.each(base)
    pixels = pixels.among(inside)
    base = numpy.where(base == NONE, pixels.least(pixels.values), base)
    columns = {"NUMBER": wanted, **_columns(pixels, base)}
    return Rows({name: it.astype(_type(name)) for name, it in columns.items()}), inside


def _type(name: str) -> str:
    return {"J": "i4", "K": "i8"}[CATALOGUE[name].form]


def _greatest_below(numbers: numpy.ndarray, pixels: Pixels, limits: numpy.ndarray) -> numpy.ndarray:
    """For each node the greatest number beside its pixels that is less than its limit; none of their own is."""
    if _GREATEST_BELOW:
        stored, found = numpy.ascontiguousarray(numbers, dtype=">i4"), numpy.empty(len(limits), dtype="i8")
        own = (pixels.rows, pixels.columns, pixels.starts, len(pixels.starts), len(pixels.rows))
        _GREATEST_BELOW(stored, *stored.shape, *own, limits, found)
        return found
    limits = pixels.each(limits)
    greatest = numpy.full(len(limits), NONE, dtype="i8")
    for down, across in AROUND:
        rows, columns = pixels.rows + down, pixels.columns + across
        inside = (rows >= 0) & (rows < numbers.shape[0]) & (columns >= 0) & (columns < numbers.shape[1])
        beside = numbers[rows[inside], columns[inside]].astype("i8")
        beside = numpy.where(beside < limits[inside], beside, NONE)
        greatest[inside] = numpy.maximum(greatest[inside], beside)
    return pixels.greatest(greatest)


def _columns(pixels: Pixels, base: numpy.ndarray) -> Dict[str, numpy.ndarray]:
    """The columns of nodes with these pixels; positions count from 1."""
    light = pixels.values - pixels.each(base)
    flux, area = pixels.sums(light), pixels.sums(numpy.ones(len(light), dtype="i8"))
    columns = {"LEVEL": pixels.least(pixels.values), "BASE": base, "AREA": area, "FLUX": flux}
    columns["PEAK"] = pixels.greatest(pixels.values)
    for name, places in (("X", pixels.columns), ("Y", pixels.rows)):
        columns[f"{name}MIN"], columns[f"{name}MAX"] = pixels.least(places) + 1, pixels.greatest(places) + 1
    columns["XFIRST"], columns["YFIRST"] = pixels.columns[pixels.starts] + 1, pixels.rows[pixels.starts] + 1
    # From the box's corner, so that sums of products stay small.
    x, y = (it + 1 - pixels.each(columns[f"{name}MIN"]) for name, it in (("X", pixels.columns), ("Y", pixels.rows)))
    # Without light all pixels count alike.
    light = numpy.where(pixels.each(flux) == 0, 1, light)
    for name, places in (("X", x), ("Y", y)):
        high, low = pixels.sums(places * (light >> HALF)), pixels.sums(places * (light & (2**HALF - 1)))
        # Whole numbers of any size, since a thousandth of such a sum may have no room in 64 bits.
        total = (high.astype(object) << HALF) + low
        columns[f"{name}CEN"] = 1000 * columns[f"{name}MIN"] + 1000 * total // numpy.where(flux == 0, area, flux)
    for name, one, other in (("XVAR", x, x), ("YVAR", y, y), ("XYCOV", x, y)):
        above = area.astype(object) * pixels.sums(one * other) - pixels.sums(one).astype(object) * pixels.sums(other)
        columns[name] = 1000 * above // area.astype(object) ** 2
    return columns


def stacked(one: Rows, other: Rows) -> Rows:
    """The rows of two catalogues of the program's columns."""
    return behind_each_other([one, other]) if len(one) else other[one.colnames]
