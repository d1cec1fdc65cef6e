"""What the cells of a mesh hold: sums and counts of the pixels in a row of cells, without those near sources.

All numbers of a cell are summed up down its columns and then across, so that each way of doing it tells the same.
"""
from typing import NamedTuple, Optional, Tuple

import numpy

from ._loops import Loop, array, flag, number, whole
from ._masks import grown, later_and_earlier
from ._ranks import PARTS, quantiles

__all__ = ["Sums", "box_sums", "cells_along", "in_cells", "of_row", "ranges"]

# How many deviations off a mean of 3 by 3 pixels shows a source, how far around it its light is looked for, and from
# where on a pixel isn't noise.
HOT, REACH, CLIP = 3.5, 3, 5.0

_BAND, _COLUMNS, _MASK, _COUNTS, _SIDES = array("f4"), array("f4"), array("?"), array("i4"), (whole, whole)
_SCALED = Loop("scaled_sums", _BAND, flag, _BAND, _COLUMNS, *_SIDES, _BAND, _MASK, _BAND, array("f4"))
_QUIET = Loop(
    "quiet",
    *(_BAND, _MASK, _BAND, _COLUMNS, *_SIDES, number, number, whole, number),
    *(array("u2"), array("u1"), _MASK, _MASK),
)
_SUMS = Loop(
    "column_sums",
    *(_BAND, flag, _BAND, _MASK, _MASK, _COLUMNS, *_SIDES, _COUNTS, _COUNTS, _COLUMNS, array("f8"), _BAND),
)
_RANGES = Loop("column_ranges", _BAND, number, _MASK, *_SIDES, _BAND, _COLUMNS, _COLUMNS, _COUNTS)


class Sums(NamedTuple):
    """For each cell in a row of cells how many pixels count and how many are there; and over those that count the sum
    of the noise, of its squares in the cell's units, and of what the noise is taken from. Or the same for each column,
    but for the squares: there it is each pixel's noise in the cell's units, 0 where it doesn't count.
    """

    pixels: numpy.ndarray
    there: numpy.ndarray
    noise: numpy.ndarray
    squares: numpy.ndarray
    residual: numpy.ndarray


def cells_along(side: int, mesh: int) -> int:
    """How many cells of so many pixels cover a side."""
    return -(-side // mesh)


def in_cells(band: numpy.ndarray, mesh: int, fill) -> numpy.ndarray:
    """A row of cells, with `fill` in the columns behind its last pixel, as an array of rows, cells, columns."""
    wide = cells_along(band.shape[1], mesh) * mesh
    if wide != band.shape[1]:
        band = numpy.pad(band, [(0, 0), (0, wide - band.shape[1])], constant_values=fill)
    return band.reshape(len(band), -1, mesh)


def box_sums(image: numpy.ndarray) -> numpy.ndarray:
    """The sum over each pixel and its neighbours, as far as there are some."""
    for axis in (0, 1):
        total = image.copy()
        later, earlier = later_and_earlier(image, 1, axis)
        to_earlier, to_later = later_and_earlier(total, 1, axis)[::-1]
        to_earlier += later
        to_later += earlier
        image = total
    return image


def _bounds(sums: numpy.ndarray) -> Tuple[float, float]:
    """Between which numbers the sums over 3 by 3 pixels lie where there is no source."""
    low, middle = quantiles(sums[::3, ::3].ravel(), PARTS)
    # Nine independent pixels have a deviation of three; neighbours that share their noise have more.
    reach = HOT * max(middle - low, 1.5)
    with numpy.errstate(all="ignore"):
        return sums.dtype.type(middle - reach), sums.dtype.type(middle + reach)


def _down(rows: numpy.ndarray, dtype: numpy.dtype) -> numpy.ndarray:
    """The sums down the columns of some rows, one row after the other."""
    total = numpy.zeros(rows.shape[1], dtype=dtype)
    for row in rows:
        total += row
    return total


def _across(columns: numpy.ndarray, mesh: int) -> numpy.ndarray:
    """The sums of the columns of each cell, one after the other; counts as whole numbers of 64 bits."""
    if columns.dtype.kind == "i":
        return numpy.add.reduceat(columns, numpy.arange(0, len(columns), mesh), dtype="i8")
    # A sum of zeros has no sign.
    return in_cells(columns[None], mesh, 0)[0].cumsum(axis=1, dtype="f8")[:, -1] + 0.0


def of_row(
    residual: numpy.ndarray,
    relative: Optional[numpy.ndarray],
    inverse: numpy.ndarray,
    unit: numpy.ndarray,
    clip: float,
    mesh: int,
) -> Sums:
    """The sums of a row of cells beside sources: of what is left of an image, and of this over a map of its noise where
    it has one. `inverse` is one over the noise of each cell, `unit` one over what squares are summed up in, and pixels
    `clip` deviations off don't count. The residual may be changed in place.
    """
    factor, unit = (numpy.repeat(it, mesh)[: residual.shape[1]] for it in (inverse, unit))
    every = (residual,) if relative is None else (residual, relative)
    looped = _SCALED and residual.size and all(it.dtype == "f4" for it in every)
    columns = (_by_loops if looped else _by_arrays)(every, factor, unit, clip)
    scaled = in_cells(columns.squares, mesh, 0)
    # numpy has an order of its own here, which is the same for the same numbers.
    squares = numpy.einsum("ijk,ijk->j", scaled, scaled).astype("f8")
    return Sums(
        squares=squares, **{name: _across(it, mesh) for name, it in columns._asdict().items() if name != "squares"}
    )


def _by_arrays(every: Tuple[numpy.ndarray, ...], factor: numpy.ndarray, unit: numpy.ndarray, clip: float) -> Sums:
    """The sums of the columns, without the loops: of the residual, and the map of its noise where it is given."""
    noise = every[0] if len(every) == 1 else every[0] / every[1]
    finite = numpy.isfinite(noise)
    if not finite.all():
        numpy.copyto(noise, 0, where=~finite)
    scaled = noise * factor
    sums = box_sums(scaled)
    low, high = _bounds(sums)
    hot = sums > high
    hot |= sums < low
    keep = ~grown(hot, REACH)
    keep &= finite
    limit = scaled.dtype.type(clip)
    keep &= scaled < limit
    keep &= scaled > -limit
    kept = noise * keep
    total = _down(kept, kept.dtype)
    kept *= unit
    other = total if len(every) == 1 else _down(numpy.where(keep, every[0], 0), numpy.dtype("f8"))
    # numpy takes twice as long for sums in 64 bits.
    count, there = (numpy.add.reduce(it, axis=0, dtype="i4") for it in (keep, finite))
    return Sums(count, there, total, kept, other)


def _by_loops(every: Tuple[numpy.ndarray, ...], factor: numpy.ndarray, unit: numpy.ndarray, clip: float) -> Sums:
    """The same by the loops."""
    residual, *relative = map(numpy.ascontiguousarray, every)
    (height, width), mapped = residual.shape, bool(relative)
    noise, sums = numpy.empty_like(residual) if mapped else residual, numpy.empty_like(residual)
    finite, hot, keep = (numpy.empty(residual.shape, dtype=bool) for _ in range(3))
    room = numpy.empty(4 * width, dtype="f4")
    _SCALED(residual, mapped, relative[0] if mapped else residual, factor, height, width, noise, finite, sums, room)
    low, high = _bounds(sums)
    counts, lines = numpy.empty(width, dtype="u2"), numpy.empty(2 * (width + 2 * REACH), dtype="u1")
    limit = float(numpy.float32(clip))
    _QUIET(noise, finite, sums, factor, height, width, low, high, REACH, limit, counts, lines, hot, keep)
    (count, there), total, other = (
        numpy.empty((2, width), dtype="i4"),
        numpy.empty(width, dtype="f4"),
        numpy.empty(width),
    )
    # What the sums over 3 by 3 pixels took is free again.
    scaled = sums
    _SUMS(noise, mapped, residual, keep, finite, unit, height, width, count, there, total, other, scaled)
    return Sums(count, there, total, scaled, other if mapped else total)


def ranges(
    values: numpy.ndarray, times: float, left_out: numpy.ndarray, mesh: int
) -> Tuple[numpy.ndarray, numpy.ndarray, numpy.ndarray, numpy.ndarray]:
    """So many times the values of a row of cells; for each cell the least and the greatest of these that aren't left
    out, NaN where there are none; and how many pixels are left out.
    """
    lefts, width = numpy.arange(0, values.shape[1], mesh), values.shape[1]
    if _RANGES and values.dtype == "f4":
        scaled, (low, high) = numpy.empty(values.shape, dtype="f4"), numpy.empty((2, width), dtype="f4")
        values, left_out = map(numpy.ascontiguousarray, (values, left_out))
        outside = numpy.empty(width, dtype="i4")
        _RANGES(values, times, left_out, *values.shape, scaled, low, high, outside)
        numpy.copyto(low, numpy.nan, where=low > high)
        high[numpy.isnan(low)] = numpy.nan
    else:
        scaled = values * numpy.float32(times)
        seen = scaled.copy()
        numpy.copyto(seen, numpy.nan, where=left_out)
        low, high = numpy.fmin.reduce(seen), numpy.fmax.reduce(seen)
        outside = numpy.add.reduce(left_out, axis=0, dtype="i4")
    # Of two zeros each may be the least, with a sign or without one.
    low, high = numpy.fmin.reduceat(low, lefts) + numpy.float32(0), numpy.fmax.reduceat(high, lefts) + numpy.float32(0)
    return scaled, low, high, _across(outside, mesh)
