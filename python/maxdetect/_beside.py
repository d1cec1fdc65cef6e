"""The sky beside sources that are found: by how much a level is off, and the noise, by SEP's clipped statistics of the
cells of a mesh. A row of cells is looked at by itself, so all of it is one function of the image and its map.
"""
import dataclasses
from typing import Iterable, List, Tuple, Union

import numpy
import sep

from ._cells import ranges
from ._loops import Loop, array, whole
from ._ranks import at_ranks
from ._sky import Sky, filled, grown, medians

# How far a source's light reaches beyond its pixels.
GROWTH = 4
# Least share of a row of cells that they are looked at without what lies near sources, and of a cell that has to be
# left.
LEAST_SHARE, ENOUGH = 0.4, 0.5
# How many cells the loop looks at together, how many bins their histograms have at most, and how many pixels a cell may
# have that it isn't left to SEP: the loop's room is as large as so many cells.
TOGETHER, MOST_BINS, MOST_PIXELS = 8, 4096, 2**18

_COUNTS = array("i4")
_LEVELS = Loop(
    "clipped_levels",
    *(array("f4"), array("?"), whole, whole, whole, array("i8"), whole),
    *(array("f4"), _COUNTS, _COUNTS, array("f4"), array("f4")),
)


def unit_of(values: Union[float, numpy.ndarray]) -> float:
    """The power of two next to the median of what is positive, or 1 where nothing is.

    SEP squares numbers of 32 bits, which have no room for the squares of an image in very small or very large units.
    Over a power of two all numbers keep their digits.
    """
    every = numpy.asarray(values).ravel()
    positive = every[numpy.isfinite(every) & (every > 0)]
    if not positive.size:
        return 1.0
    middle = numpy.array([[(positive.size - 1) // 2, positive.size // 2]])
    return 2.0 ** round(float(numpy.log2(at_ranks(positive[None], middle).mean(dtype="f8"))))


def bands(height: int, mesh: int) -> List[Tuple[slice, slice]]:
    """The rows of each row of cells, and those of the map that tell what lies near sources there."""
    rows = [slice(top, min(top + mesh, height)) for top in range(0, height, mesh)]
    return [(it, slice(max(0, it.start - GROWTH), min(height, it.stop + GROWTH))) for it in rows]


def _left_out(segments: numpy.ndarray, within: slice, undefined: numpy.ndarray) -> numpy.ndarray:
    """Pixels that tell nothing of the sky: those without a value, and those of sources and around them, as far as
    enough others are left.
    """
    found = segments != 0
    for reach in range(GROWTH, 0, -1):
        left_out = grown(found, reach)[within] | undefined
        if numpy.count_nonzero(left_out) / left_out.size <= 1 - LEAST_SHARE:
            return left_out
    return found[within] | undefined


def _of_cell(values: numpy.ndarray, left_out: numpy.ndarray) -> Tuple[float, float]:
    """The level of a cell and its noise."""
    height, width = values.shape
    found = sep.Background(
        numpy.ascontiguousarray(values), mask=numpy.ascontiguousarray(left_out), bw=width, bh=height, fw=1, fh=1
    )
    return found.globalback, found.globalrms


def _of_cells(values: numpy.ndarray, left_out: numpy.ndarray, mesh: int, places: numpy.ndarray) -> numpy.ndarray:
    """The levels of the cells at these places in a row of cells and their noise, two rows of numbers."""
    mesh = min(mesh, values.shape[1])
    if not _LEVELS or values.dtype != "f4" or len(values) * mesh > MOST_PIXELS:
        columns = [slice(left, left + mesh) for left in (places * mesh).tolist()]
        return numpy.array([_of_cell(values[:, it], left_out[:, it]) for it in columns]).reshape(-1, 2).T
    levels, noise = numpy.empty((2, len(places)), dtype="f4")
    kept = numpy.empty(TOGETHER * len(values) * mesh, dtype="f4")
    bins, below = numpy.empty((2, MOST_BINS + 1), dtype="i4")
    pixels, outside = map(numpy.ascontiguousarray, (values, left_out))
    _LEVELS(pixels, outside, *values.shape, mesh, places, len(places), kept, bins, below, levels, noise)
    return numpy.array([levels, noise], dtype="f8")


def of_row(
    residual: numpy.ndarray, undefined: numpy.ndarray, segments: numpy.ndarray, within: slice, mesh: int
) -> numpy.ndarray:
    """Level and noise of the cells in one row of them, two rows of numbers; NaN where a cell has too few pixels beside
    sources. The residual, in 32 bits, and what is undefined of it are those of the rows `within` the map.
    """
    left_out = _left_out(segments, within, undefined)
    unit = unit_of(numpy.abs(residual[::7, ::7][~left_out[::7, ::7]]))
    lefts = numpy.arange(0, residual.shape[1], mesh)
    area = len(residual) * numpy.diff(lefts, append=residual.shape[1])
    scaled, low, high, outside = ranges(residual, 1 / unit, left_out, mesh)
    share = outside / area
    cells = numpy.array([low, numpy.zeros(len(lefts))])
    cells[:, share > 1 - ENOUGH] = numpy.nan
    places = numpy.flatnonzero((share <= 1 - ENOUGH) & (low < high)).astype("i8")
    cells[:, places] = _of_cells(scaled, left_out, mesh, places)
    return cells * unit


def joined(rows: Iterable[numpy.ndarray], found: Sky) -> Sky:
    """A sky moved by its level beside sources, with the noise there, from the rows of cells: medians over the cells,
    each the median of itself and its neighbours. The same sky where all cells have too few pixels.
    """
    levels, deviations = (numpy.array(grid) for grid in zip(*rows))
    known = numpy.isfinite(levels)
    if not known.any():
        return found
    levels, deviations = (medians(filled(grid, known)) for grid in (levels, deviations))
    offset, noise = float(numpy.median(levels)), float(numpy.median(deviations))
    return dataclasses.replace(found, levels=found.levels + offset, deviations=deviations, noise=noise)


def of_array(residual: numpy.ndarray, undefined: numpy.ndarray, segments: numpy.ndarray, found: Sky) -> Sky:
    """The same of an image that is there as an array, less its level."""
    rows = []
    for own, seen in bands(len(residual), found.mesh):
        within = slice(own.start - seen.start, own.stop - seen.start)
        rows.append(of_row(residual[own], undefined[own], segments[seen], within, found.mesh))
    return joined(rows, found)
