"""Smoothing by a Gaussian, the same in every window of an image, and the noise that is left behind it."""
import functools
import math
from typing import Callable, Iterable, Tuple

import numpy

from . import _sky as sky
from ._loops import Loop, array, whole
from ._windows import rows_and_columns

__all__ = ["correlated", "margin", "noise_behind", "smoothed"]

# A Gaussian's width over its deviation, and how many deviations it reaches.
WIDTH, REACH = 2 * math.sqrt(2 * math.log(2)), 4.0
# The noise is told in cells of so many widths, and at least so many pixels, along a side: so narrow that a sky which
# is uneven isn't noise. So many rows of cells tell enough.
CELL, LEAST_CELL, MOST_BANDS = 6, 16, 24
# How many pixels are summed up at a time.
CACHED = 2**16
# Up to this part of an image its weights are summed up place by place.
FEW = 0.1
# For so many rows and columns the loop has to have room, besides those within reach.
ROOM = 64, 256 + 16
# How many sides are remembered with what weights come to there.
SIDES = 64
# All rows, or all columns.
EVERY = slice(0, None)
# An image, its height and width; a window's first row and column, height and width; the weights and their squares, and
# how far they reach; the roots of the summed squares by row and by column; room to work in; and what is smoothed.
_LOOP = Loop(
    "smoothed",
    *(array("f4"), whole, whole),
    *[whole] * 4,
    *(array("f8"), array("f8"), whole),
    *(array("f4"), array("f4")),
    *(array("f4"), array("f8"), array("i4")),
    array("f4"),
)


def margin(width: float) -> int:
    """How many pixels around a pixel count for its smoothed value."""
    return int(REACH * width / WIDTH + 0.5)


def correlated(width: float) -> float:
    """How many pixels share their noise in an image with white noise that is smoothed."""
    return max(1.0, 4 * math.pi * (width / WIDTH) ** 2)


def _weights(width: float) -> numpy.ndarray:
    """The weights of a pixel and its neighbours on both sides, along one axis."""
    reach = margin(width)
    return numpy.exp(-0.5 * (numpy.arange(-reach, reach + 1) * WIDTH / width) ** 2)


@functools.lru_cache(maxsize=SIDES)
def _root(side: int, width: float) -> numpy.ndarray:
    """The root of the summed squares of the weights that count at each place along a side."""
    return numpy.sqrt(_along(numpy.ones((1, side)), _weights(width) ** 2)[0]).astype("f4")


def smoothed(image: numpy.ndarray, width: float, inner: Tuple[slice, slice] = (EVERY, EVERY)) -> numpy.ndarray:
    """A window of an image smoothed by a Gaussian of this full width at half of its height, as 32-bit floating-point
    numbers row by row.

    Pixels that aren't finite count for nothing, and are NaN. Sums are taken over the root of the summed squares of the
    weights that count, so that white noise keeps its deviation, also at edges and beside undefined pixels.
    """
    weights = _weights(width)
    down, across = (_root(side, width) for side in image.shape)
    if _LOOP and image.dtype == numpy.float32:
        return _in_one_go(image, weights, down, across, inner)
    return numpy.ascontiguousarray(_by_arrays(image, weights, down, across)[inner])


def _by_arrays(
    image: numpy.ndarray, weights: numpy.ndarray, down: numpy.ndarray, across: numpy.ndarray
) -> numpy.ndarray:
    """The smoothed image by these weights, whose summed squares have these roots by row and by column."""
    finite = numpy.isfinite(image)
    defined = bool(finite.all())
    total = _along_both(image if defined else _filled(image, finite), weights)
    beside = None if defined else _beside(finite, len(weights) // 2)
    near = None if beside is None else total.ravel()[beside]
    total /= down[:, None]
    total /= across[None, :]
    if beside is None:
        return total
    # Only beside undefined pixels, so that all others have the same value in every window to the last digit.
    with numpy.errstate(divide="ignore", invalid="ignore"):
        total.ravel()[beside] = near / numpy.sqrt(_weights_at(beside, finite, weights**2))
    numpy.copyto(total, numpy.nan, where=~finite)
    return total


def _in_one_go(
    image: numpy.ndarray,
    weights: numpy.ndarray,
    down: numpy.ndarray,
    across: numpy.ndarray,
    inner: Tuple[slice, slice],
) -> numpy.ndarray:
    """The same by the loop, of a window alone."""
    (top, bottom, _), (left, right, _) = (it.indices(side) for it, side in zip(inner, image.shape))
    made, reach = numpy.empty((max(0, bottom - top), max(0, right - left)), dtype="f4"), len(weights) // 2
    rows, wide = (side + 2 * reach for side in ROOM)
    room = numpy.empty((2 * rows + 1, wide), dtype="f4"), numpy.empty(wide), numpy.empty(wide, dtype="i4")
    image, window = numpy.ascontiguousarray(image), (top, left, *made.shape)
    _LOOP(image, *image.shape, *window, weights, weights**2, reach, down, across, *room, made)
    return made


def _filled(image: numpy.ndarray, finite: numpy.ndarray) -> numpy.ndarray:
    """The image with 0 where it isn't finite: numpy's `where` takes longer."""
    image = image.copy()
    numpy.copyto(image, 0, where=~finite)
    return image


def _beside(finite: numpy.ndarray, reach: int) -> numpy.ndarray:
    """The places in the flat image of all pixels within reach of those that are not finite, in order."""
    (height, width), undefined = finite.shape, numpy.flatnonzero(~finite)
    if len(undefined) * (2 * reach + 1) ** 2 > FEW * finite.size:
        return numpy.flatnonzero(sky.grown(~finite, reach))
    steps, near = numpy.arange(-reach, reach + 1), numpy.zeros(finite.size, dtype=bool)
    rows, columns = (it[:, None] + steps for it in rows_and_columns(undefined, width))
    inside = ((rows >= 0) & (rows < height))[:, :, None] & ((columns >= 0) & (columns < width))[:, None, :]
    near[(rows[:, :, None] * width + columns[:, None, :])[inside]] = True
    return numpy.flatnonzero(near)


def _weights_at(places: numpy.ndarray, finite: numpy.ndarray, weights: numpy.ndarray) -> numpy.ndarray:
    """The weights that count at some places of a flat image, of which these pixels have a value; all within reach of
    the others are among the places. The sums are those of `_along_both` to the last digit, but of a few places.
    """
    if len(places) > FEW * finite.size:
        return _along_both(finite.astype("f4"), weights).ravel()[places]
    (height, width), reach = finite.shape, len(weights) // 2
    # Down a column without an undefined pixel near a row they are the same as of all such columns.
    down = numpy.empty((height, width + 2 * reach), dtype="f4")
    down[:, :reach] = down[:, reach + width :] = 0
    down[:, reach : reach + width] = _down(numpy.ones((height, 1), dtype="f4"), weights)
    rows, columns = rows_and_columns(numpy.flatnonzero(~finite), width)
    steps = numpy.arange(-reach, reach + 1)
    at, of = (it.ravel() for it in numpy.broadcast_arrays(rows[:, None] + steps, columns[:, None]))
    at, of = (it[(at >= 0) & (at < height)] for it in (at, of))
    seen = at + steps[:, None]
    there = (seen >= 0) & (seen < height)
    column = (there & finite[numpy.where(there, seen, 0), of]).astype("f4")
    down[at, reach + of] = _summed(column, weights.astype("f4"))
    around = down.ravel()[places + reach * (2 * (places // width) + 1) + steps[:, None]].astype("f8")
    return _summed(around, weights).astype("f4")


def _summed(rows: numpy.ndarray, weights: numpy.ndarray) -> numpy.ndarray:
    """The sums down the columns of as many rows as there are weights, which are alike on both sides, in the order of
    `_along` and `_down`.
    """
    reach = len(weights) // 2
    sums = rows[reach] * weights[reach]
    for step in range(reach):
        sums += (rows[step] + rows[-step - 1]) * weights[step]
    return sums


def _along_both(image: numpy.ndarray, weights: numpy.ndarray) -> numpy.ndarray:
    """The sums over the neighbours, weighted along rows and columns; beyond the edge is nothing."""
    image = _down(image, weights)
    band = max(1, CACHED // 4 // image.shape[1])
    for top in range(0, len(image), band):
        image[top : top + band] = _along(image[top : top + band], weights)
    return image


def _along(rows: numpy.ndarray, weights: numpy.ndarray) -> numpy.ndarray:
    """The sums along rows in 64 bits, by weights that are alike on both sides, in the order of SciPy's `correlate1d`:
    the neighbours that lie furthest off come first. It takes no longer, since the rows stand in one line, with zeros
    between them; but SciPy takes long to load.
    """
    reach, (height, width) = len(weights) // 2, rows.shape
    wide = width + reach
    line, count = numpy.zeros(height * wide + reach), height * wide - reach
    line[reach:].reshape(height, wide)[:, :width] = rows
    sums, pair = numpy.empty(height * wide), numpy.empty(count)
    own = numpy.multiply(line[reach : reach + count], weights[reach], out=sums[:count])
    for step in range(reach):
        last = 2 * reach - step
        numpy.add(line[step : step + count], line[last : last + count], out=pair)
        pair *= weights[step]
        own += pair
    return sums.reshape(height, wide)[:, :width]


def _down(image: numpy.ndarray, weights: numpy.ndarray) -> numpy.ndarray:
    """The sums down the columns, by weights that are alike on both sides: some rows at a time, so that these stay in
    the processor's cache. SciPy goes column by column, and takes five times as long.
    """
    reach, weights = len(weights) // 2, weights.astype("f4")
    padded, sums = numpy.pad(image, [(reach, reach), (0, 0)]), numpy.empty_like(image)
    band = max(1, CACHED // image.shape[1])
    room = numpy.empty((band, image.shape[1]), dtype=image.dtype)
    for top in range(0, len(image), band):
        own = sums[top : top + band]
        rows = [padded[top + step : top + step + len(own)] for step in range(len(weights))]
        numpy.multiply(rows[reach], weights[reach], out=own)
        for step in range(reach):
            pair = numpy.add(rows[step], rows[-step - 1], out=room[: len(own)])
            pair *= weights[step]
            own += pair
    return sums


def noise_behind(
    read: Callable[[slice], numpy.ndarray], height: int, width: float, each: Callable[..., Iterable] = map
) -> float:
    """The standard deviation of a smoothed image, beside its sources.

    `read` gives some of its rows; `each` calls it for several, as `map` does. It is looked at in narrow cells, of rows
    of cells that lie evenly over the image.
    """
    side = max(LEAST_CELL, math.ceil(CELL * width))
    tops = numpy.arange(0, max(height - side, 0) + 1, side)
    chosen = tops[numpy.linspace(0, len(tops) - 1, min(len(tops), MOST_BANDS)).astype(int)]
    # Rows of cells that lie side by side are read at once.
    runs = numpy.split(chosen, numpy.flatnonzero(numpy.diff(chosen) != side) + 1)
    bands = numpy.concatenate([*each(read, [slice(int(run[0]), min(int(run[-1]) + side, height)) for run in runs])])
    # A cell's own mean takes a part of what its few pixels vary together.
    lost = min(0.9, correlated(width) / side**2)
    return sky.of(sky.Held(bands), bands.shape, side, each=each).noise / math.sqrt(1 - lost)
