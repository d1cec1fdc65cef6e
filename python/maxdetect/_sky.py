"""The sky of an image: its level and its noise in the cells of a mesh, and both between them.

All of it is in floating point, and outside of what is proved of the program. A cell's level is the mean of its pixels
and its noise their standard deviation, without the pixels near sources: those within three pixels of a place whose
mean over 3 by 3 pixels lies three deviations of such means off, and those five deviations off by themselves. So
neither comes in steps on images of whole numbers, and a crowd of stars hardly moves them.
"""
import dataclasses
import functools
from typing import Any, Callable, Iterator, List, Optional, Tuple, Union

import numpy

from ._cells import CLIP, box_sums, cells_along, in_cells, of_row
from ._loops import Loop, array, flag, number as real, whole
from ._masks import grown
from ._ranks import PARTS, at_ranks

# Some of these are of other modules, and asked for here.
__all__ = [
    "Held",
    "Sky",
    "Undefined",
    "anywhere",
    "between",
    "box_sums",
    "cells_along",
    "filled",
    "filtered",
    "grown",
    "medians",
    "of",
    "quantum",
    "take_off",
]

# The part of the deviation that is left where noise alone is looked at so.
KEPT = 0.997
# Sampled pixels along a side of a cell, for the first guess.
SAMPLED = 32
# The step between an image's values is told from so many of them.
STEPS = 4000
# Rows of cells that are looked at in one go.
AT_ONCE = 4
# The part of a cell that has to be left for its level to count.
ENOUGH = 0.1
# Those cells that aren't known are filled here where that takes no more than so many looks at a cell.
SMALL = 2**19

# The noise that 32-bit floating-point numbers have room for.
LEAST_NOISE, MOST_NOISE = 1e-30, 1e30


class Undefined(ValueError):
    """An image has no pixel with a value."""


Reader = Callable[[slice], numpy.ndarray]

# A grid, its sides and the mesh; the parts of the way between centres; a window; what is made of its levels, of which
# pixels and noises, with which number and factor; room, and where it is put.
_BETWEEN = Loop(
    "between_centres",
    *(array("f8"), *[whole] * 3, array("f4"), *[whole] * 4),
    *(flag, array("f4"), array("f4"), real, real),
    *(array("f8"), array("f4")),
)
# A row of cells, its height and width, the mesh and from which to which pixel steps go; the parts; room, the numbers at
# these parts, and how many are finite.
_LOOK = Loop(
    "cells_at_parts", *(array("f4"), *[whole] * 4), *(array("f8"), whole), array("u4"), array("f4"), array("i8")
)
# What the loop makes: the level with a number added; pixels less that number and then less the level; pixels less both
# together, times a factor, or a factor over their noise.
_LEVEL, _LEFT, _SCALED, _OVER_NOISE = range(4)


def _carried_on_along(grid: numpy.ndarray, axis: int) -> numpy.ndarray:
    """The grid with one more number at both ends of an axis, in a straight line beyond the outermost two: numpy's `pad`
    does the same, but takes as long as all else for a few cells.
    """
    lines = grid if axis == 0 else grid.T
    made = numpy.empty((len(lines) + 2, lines.shape[1]), dtype=grid.dtype)
    made[1:-1] = lines
    next_one = min(1, len(lines) - 1)
    made[0], made[-1] = 2 * lines[0] - lines[next_one], 2 * lines[-1] - lines[-1 - next_one]
    if len(lines) == 1:
        made[0] = made[-1] = lines[0]
    return made if axis == 0 else numpy.ascontiguousarray(made.T)


def _carried_on(grid: numpy.ndarray) -> numpy.ndarray:
    """The grid with one more number on each side, in a straight line beyond the outermost two."""
    return _carried_on_along(_carried_on_along(grid, 0), 1)


def medians(grid: numpy.ndarray) -> numpy.ndarray:
    """The median of each number and its neighbours; beyond the edges stands what stands there."""
    if not numpy.isfinite(grid).all():
        from scipy import ndimage

        return ndimage.median_filter(grid, size=3, mode="nearest")
    # Here, since SciPy takes longer to load than a small image's sky.
    around, (rows, columns) = numpy.pad(grid, 1, mode="edge"), grid.shape
    near = [around[down : down + rows, across : across + columns] for down in range(3) for across in range(3)]
    return numpy.sort(near, axis=0)[4]


def filtered(grid: numpy.ndarray) -> numpy.ndarray:
    """The median of each number and its neighbours; at the edges the grid is carried on, so that a slope stays as it
    is.
    """
    return medians(_carried_on(grid))[1:-1, 1:-1]


def filled(grid: numpy.ndarray, known: numpy.ndarray) -> numpy.ndarray:
    """The grid with each number that isn't known replaced by the nearest one that is."""
    if known.all() or not known.any():
        return grid
    rows, columns = numpy.nonzero(~known)
    if len(numpy.unique(rows)) * known.size + len(rows) * known.shape[1] <= SMALL:
        made = grid.copy()
        made[rows, columns] = grid[_nearest(known, rows, columns)]
        return made
    from scipy import ndimage

    return grid[tuple(ndimage.distance_transform_edt(~known, return_distances=False, return_indices=True))]


def _nearest(known: numpy.ndarray, rows: numpy.ndarray, columns: numpy.ndarray) -> Tuple[numpy.ndarray, numpy.ndarray]:
    """For each of some places row and column of the nearest one that is known, as SciPy has them: of several in the
    first column that has one, and there the first. SciPy takes longer to load than an image's sky.
    """
    own, line = numpy.unique(rows, return_inverse=True)
    unknown = numpy.where(known, 0, 2 * sum(known.shape))
    down = numpy.abs(own[:, None] - numpy.arange(len(known)))[:, :, None] + unknown
    row, down = down.argmin(axis=1), down.min(axis=1)
    column = (down[line] ** 2 + (columns[:, None] - numpy.arange(known.shape[1])) ** 2).argmin(axis=1)
    return row[line, column], column


def _along(grid: numpy.ndarray, mesh: int, places: slice, dtype: str) -> numpy.ndarray:
    """The rows of a grid at these places of its first axis: linear between the cells' centres, and on in a straight
    line beyond the outermost.
    """
    at = (numpy.arange(places.start, places.stop) + 0.5) / mesh - 0.5
    before = numpy.clip(numpy.floor(at).astype(int), 0, max(len(grid) - 2, 0))
    after = numpy.minimum(before + 1, len(grid) - 1)
    part = (at - before)[:, None]
    return (grid[before] * (1 - part) + grid[after] * part).astype(dtype)


def anywhere(grid: numpy.ndarray, mesh: int, rows: slice, columns: slice) -> numpy.ndarray:
    """A grid's numbers at the pixels of a window, which may lie beyond it, as 32-bit floating-point numbers of its
    shape. A pixel has the same number in each window.
    """
    return _along(numpy.ascontiguousarray(_along(grid, mesh, rows, "f8").T), mesh, columns, "f4").T


def between(grid: numpy.ndarray, mesh: int, rows: slice, columns: slice) -> numpy.ndarray:
    """The same, quicker for windows whose columns lie within the grid; the last digit may be another there."""
    if columns.start < 0 or columns.stop > grid.shape[1] * mesh:
        return anywhere(grid, mesh, rows, columns)
    shape = (rows.stop - rows.start, columns.stop - columns.start)
    if grid.size == 1:
        return numpy.full(shape, grid[0, 0], dtype="f4")
    if _by_loop(grid):
        return _go_on(grid, mesh, rows, columns, _LEVEL)
    down = _along(grid, mesh, rows, "f8")
    if down.shape[1] == 1:
        return numpy.repeat(down.astype("f4"), shape[1], axis=1)
    # Between two centres a row changes by the same step from pixel to pixel. The first piece ends at the first centre.
    padded = _carried_on_along(down, 1)
    start = mesh // 2
    first, last = (columns.start + mesh - start) // mesh, (columns.stop - 1 + mesh - start) // mesh
    # A zero has no sign, nor has one to which it is added.
    low = padded[:, first : last + 1].astype("f4") + numpy.float32(0)
    step = (padded[:, first + 1 : last + 2] - padded[:, first : last + 1]).astype("f4")
    # numpy's own product takes twice as long.
    pixels = numpy.einsum("ij,k->ijk", step, _parts(mesh))
    pixels += low[:, :, None]
    offset = columns.start - (first * mesh + start - mesh)
    return pixels.reshape(len(low), -1)[:, offset : offset + shape[1]]


@functools.lru_cache(maxsize=16)
def _parts(mesh: int) -> numpy.ndarray:
    """Which parts of the way to the next centre the pixels lie from the one before."""
    return ((numpy.arange(mesh) + (0.5 if mesh % 2 == 0 else 0)) / mesh).astype("f4")


def _by_loop(grid: numpy.ndarray) -> bool:
    """Whether a loop knows what lies between the centres of a grid."""
    return bool(_BETWEEN) and grid.size > 0 and grid.shape[1] > 1


def _go_on(
    grid: numpy.ndarray,
    mesh: int,
    rows: slice,
    columns: slice,
    kind: int,
    pixels: Optional[numpy.ndarray] = None,
    noises: Optional[numpy.ndarray] = None,
    added: float = 0.0,
    times: float = 1.0,
) -> numpy.ndarray:
    """The loop: what `between` tells for a window whose columns lie within the grid, or what it makes of that."""
    made, room = _room(rows, columns), numpy.empty(grid.shape[1] + 2)
    grid = numpy.ascontiguousarray(grid, dtype="f8")
    images = (made if it is None else numpy.ascontiguousarray(it) for it in (pixels, noises))
    place = rows.start, columns.start
    _BETWEEN(grid, *grid.shape, mesh, _parts(mesh), *place, *made.shape, kind, *images, added, times, room, made)
    return made


def _room(rows: slice, columns: slice) -> numpy.ndarray:
    """Room for 32-bit floating-point numbers at the pixels of a window."""
    return numpy.empty((rows.stop - rows.start, columns.stop - columns.start), dtype="f4")


def take_off(pixels: numpy.ndarray, zero: float, grid: numpy.ndarray, mesh: int, rows: slice) -> numpy.ndarray:
    """The pixels of some whole rows less a number, and less what `between` tells there: 32-bit floating-point numbers
    of their own.
    """
    columns = slice(0, pixels.shape[1])
    if _by_loop(grid) and pixels.dtype == "f4":
        return _go_on(grid, mesh, rows, columns, _LEFT, pixels, added=zero)
    left = (pixels - zero).astype("f4", copy=False)
    left -= between(grid, mesh, rows, columns)
    return left


# ---- the first guess: medians of samples


def _some_finite(values: numpy.ndarray, count: int) -> numpy.ndarray:
    """So many of the first numbers that are finite, or all where there are fewer."""
    for some in (values[: 2 * count], values):
        found = some[numpy.isfinite(some)][:count]
        if len(found) == count:
            break
    return found


def quantum(values: numpy.ndarray) -> float:
    """The step between an image's values, told from some of them; 0 where they come in no steps."""
    return _step_of(_some_finite(values.ravel(), STEPS))


def _step_of(values: numpy.ndarray) -> float:
    """The same, told from these."""
    steps = numpy.diff(numpy.unique(values))
    if not steps.size:
        return 0.0
    return float(numpy.quantile(steps, 0.1)) if len(steps) < len(values) / 4 else 0.0


def _sampled(band: numpy.ndarray, mesh: int) -> numpy.ndarray:
    """The pixels of a row of cells that the first look sees, a row for each cell."""
    step = max(1, mesh // SAMPLED)
    sample = in_cells(band, mesh, numpy.nan)[::step, :, ::step].swapaxes(0, 1)
    return sample.reshape(len(sample), -1)


def _quantum_of(band: numpy.ndarray, mesh: int) -> float:
    """The quantum of the sampled pixels of a row of cells: the first cells tell it, if they have enough pixels."""
    own = cells_along(len(band), max(1, mesh // SAMPLED)) * cells_along(mesh, max(1, mesh // SAMPLED))
    few = _some_finite(_sampled(band[:, : mesh * cells_along(2 * STEPS, own)], mesh).ravel(), STEPS)
    return _step_of(few) if len(few) == STEPS else quantum(_sampled(band, mesh))


def _first_row(band: numpy.ndarray, mesh: int, rng: numpy.random.Generator) -> Tuple[numpy.ndarray, ...]:
    """The median of each cell in a row of cells, how far below it a deviation lies, how many pixels were looked at,
    and the step of the values.
    """
    quant = _quantum_of(band, mesh)
    if not quant and _LOOK and band.dtype == "f4":
        (low, middle), count = _parts_of_cells(band, mesh)
    else:
        (low, middle), count = _parts_of(_sampled(band, mesh), quant, rng)
    return middle, _less_rounding(middle - low, quant), count, numpy.full(len(count), quant)


def _parts_of(sample: numpy.ndarray, quant: float, rng: numpy.random.Generator) -> Tuple[numpy.ndarray, numpy.ndarray]:
    """For each row of numbers, which come in steps, those at `PARTS` in 64 bits, a row for each part, and how many are
    finite.
    """
    if quant:
        sample = sample + ((rng.random(sample.shape) - 0.5) * quant).astype(sample.dtype)
    finite = numpy.isfinite(sample)
    count = finite.sum(axis=1)
    ranks = numpy.clip((count[:, None] * PARTS).astype(int), 0, sample.shape[1] - 1)
    return at_ranks(numpy.where(finite, sample, sample.dtype.type(numpy.nan)), ranks).T.astype("f8"), count


def _parts_of_cells(band: numpy.ndarray, mesh: int) -> Tuple[numpy.ndarray, numpy.ndarray]:
    """The same of the sampled pixels of a row of cells, by the loop."""
    step, cells = max(1, mesh // SAMPLED), cells_along(band.shape[1], mesh)
    found, count = numpy.empty((cells, len(PARTS)), dtype="f4"), numpy.empty(cells, dtype="i8")
    room = numpy.empty(3 * cells_along(len(band), step) * cells_along(mesh, step), dtype="u4")
    band = numpy.ascontiguousarray(band)
    _LOOK(band, *band.shape, mesh, step, PARTS, len(PARTS), room, found, count)
    # Of two zeros each may stand first, with a sign or without one.
    return (found + numpy.float32(0)).T.astype("f8"), count


def _less_rounding(deviation: numpy.ndarray, quant: float) -> numpy.ndarray:
    """Deviations without what spreading the values over their steps added, but not less than that."""
    with numpy.errstate(all="ignore"):
        spread = numpy.float64(quant) ** 2 / 12
        return numpy.sqrt(numpy.maximum(deviation**2 - spread, spread))


def _whole_cells(side: int, mesh: int) -> int:
    return max(1, side // mesh)


def _guess(rows: list, shape: Tuple[int, int], mesh: int, least: float) -> Tuple[numpy.ndarray, numpy.ndarray]:
    """Level and deviation of every cell, from those of the whole ones with enough pixels: the cells that the image's
    edge cuts carry them on.
    """
    middle, deviation, count, _ = (numpy.array(part) for part in zip(*rows))
    whole = tuple(slice(0, _whole_cells(side, mesh)) for side in shape)
    known = count[whole] >= least
    if not known.any():
        known = count[whole] > 0
    more = [(0, cells_along(side, mesh) - _whole_cells(side, mesh)) for side in shape]
    level = filtered(filled(middle[whole], known))
    level = _carried_on(level)[1:, 1:][: len(level) + more[0][1], : level.shape[1] + more[1][1]]
    deviation = medians(filled(deviation[whole], known))
    return level, numpy.pad(deviation, more, mode="edge")


# ---- the second look: means without sources


def _second_row(residual, relative, deviation, quant, mesh):
    """For each cell in a row of cells the mean of the residual, its deviation in units of `relative`, and how many of
    its pixels counted and how many are there. The residual may be changed in place.
    """
    # Squares are taken in units of the deviation: 32 bits don't hold those of an image in very small or large units.
    unit = numpy.where(deviation > 0, deviation, 1.0)
    with numpy.errstate(divide="ignore"):
        inverse = numpy.where(deviation > 0, 1 / deviation, 0).astype("f4")
    clip = CLIP + 1.5 * float((quant * inverse).max())
    sums = of_row(residual, relative, inverse, (1 / unit).astype("f4"), clip, mesh)
    count = numpy.maximum(sums.pixels, 1)
    square = sums.squares / count - (sums.noise / count / unit) ** 2
    spread = unit * numpy.sqrt(numpy.maximum(square, 0)) / KEPT
    return sums.residual / count, spread, sums.pixels, sums.there


# ---- the sky of an image


@dataclasses.dataclass(frozen=True)
class Sky:
    """Level and noise of an image's sky. `zero` stands near the level; `levels` are above it, one for each cell, and
    `deviations` the noise of each, in the image's units or in those of its noise map. `noise` is the median of these.
    """

    shape: Tuple[int, int]
    mesh: int
    zero: float
    levels: numpy.ndarray
    deviations: numpy.ndarray
    noise: float

    def background(self, rows: slice, columns: slice) -> numpy.ndarray:
        """The level above `zero` at the pixels of a window, as 32-bit floating-point numbers."""
        return between(self.levels, self.mesh, rows, columns)

    def level(self, rows: slice, columns: slice) -> numpy.ndarray:
        """The level in the image's units there, in 64 bits where 32 don't hold it beside the noise."""
        if abs(self.zero) < 4096 * self.noise:
            return self.short_level(rows, columns)
        found = self.background(rows, columns).astype("f8")
        found += self.zero
        return found

    def short_level(self, rows: slice, columns: slice) -> numpy.ndarray:
        """The level in the image's units there, as 32-bit floating-point numbers."""
        if self._by_loop(columns):
            return _go_on(self.levels, self.mesh, rows, columns, _LEVEL, added=self.zero)
        found = self.background(rows, columns)
        found += self.zero
        return found

    def _by_loop(self, columns: slice) -> bool:
        """Whether a loop knows the level at a window with these columns."""
        return _by_loop(self.levels) and columns.start >= 0 and columns.stop <= self.levels.shape[1] * self.mesh

    def above(
        self, image: numpy.ndarray, noise: Union[float, numpy.ndarray], rows: slice, columns: slice
    ) -> Optional[numpy.ndarray]:
        """What an image stands above the level in a window, in parts of its noise there, as `scaling.deviations` tells
        it of the short level; None where no loop does.
        """
        if not self._by_loop(columns) or image.dtype != "f4":
            return None
        if not isinstance(noise, numpy.ndarray):
            with numpy.errstate(divide="ignore"):
                times = float((1 / numpy.asarray(noise)).astype("f4"))
            return _go_on(self.levels, self.mesh, rows, columns, _SCALED, image, added=self.zero, times=times)
        if noise.dtype != "f4" or noise.shape != image.shape:
            return None
        return _go_on(self.levels, self.mesh, rows, columns, _OVER_NOISE, image, noise, added=self.zero)

    def noises(self, rows: slice, columns: slice) -> numpy.ndarray:
        """The noise at the pixels of a window, by its cells."""
        return numpy.maximum(
            between(self.deviations, self.mesh, rows, columns), numpy.float32(self.deviations.min() / 2)
        )

    def flat(self) -> "Sky":
        """The same with one level for the whole image."""
        return dataclasses.replace(self, levels=numpy.full((1, 1), numpy.median(self.levels)))


class Held:
    """Reads the rows of an image that is held, or of a part of it that begins with this row."""

    def __init__(self, pixels: numpy.ndarray, first: int = 0):
        self.pixels, self.first = pixels, first

    def __call__(self, rows: slice) -> numpy.ndarray:
        return self.pixels[rows.start - self.first : rows.stop - self.first]


@dataclasses.dataclass
class _Look:
    """What is looked at by rows of cells: an image that is read by rows, with a map of its noise where it has one."""

    read: Reader
    relative: Optional[Reader]
    shape: Tuple[int, int]
    mesh: int

    def rows(self, number: int) -> slice:
        """The rows of pixels of a row of cells."""
        return slice(number * self.mesh, min((number + 1) * self.mesh, self.shape[0]))

    def parts(self) -> List[range]:
        """The numbers of the rows of cells, some at a time."""
        count = cells_along(self.shape[0], self.mesh)
        return [range(first, min(first + AT_ONCE, count)) for first in range(0, count, AT_ONCE)]

    def at(self, numbers: range) -> "_Look":
        """The look for those who look at some rows of cells alone: of an image that is held they are sent no more."""
        if not isinstance(self.read, Held):
            return self
        rows = slice(self.rows(numbers[0]).start, self.rows(numbers[-1]).stop)
        return dataclasses.replace(self, read=Held(self.read(rows), rows.start))


def _looked(item: Tuple[Callable, Any]) -> list:
    """What a look finds in the rows of cells that it is given."""
    look, given = item
    return look(given)


class _FirstLook(_Look):
    """The first look at some rows of cells, whose numbers are given, and how many random numbers others draw before."""

    def __call__(self, item: Tuple[range, int]) -> List[Tuple[numpy.ndarray, ...]]:
        numbers, before = item
        rng = numpy.random.Generator(numpy.random.PCG64(1).advance(before))
        return [self._row(self.rows(number), rng) for number in numbers]

    def _row(self, rows: slice, rng: numpy.random.Generator) -> Tuple[numpy.ndarray, ...]:
        band = self.read(rows)
        if self.relative is not None:
            band = _defined_by(band, self.relative(rows))
        return _first_row(band, self.mesh, rng)

    def drawn(self, numbers: range, found: Optional[List[Tuple[numpy.ndarray, ...]]] = None) -> int:
        """How many random numbers these rows of cells draw, by what was found there: at most, where nothing is known
        yet.
        """
        step, count = max(1, self.mesh // SAMPLED), 0
        for place, number in enumerate(numbers):
            if found is None or found[place][3].any():
                rows = self.rows(number)
                count += cells_along(rows.stop - rows.start, step) * cells_along(self.mesh, step)
        return count * cells_along(self.shape[1], self.mesh)


def _first_looks(look: _FirstLook, each: Callable) -> List[Tuple[numpy.ndarray, ...]]:
    """The first look at all rows of cells, with the random numbers that they have one after the other: those that are
    at work are thought to draw all that they may, and looked at again where that was wrong and matters.
    """
    parts, drawn = look.parts(), 0
    begun: List[int] = []
    found: List[List[Tuple[numpy.ndarray, ...]]] = []

    def items() -> Iterator[Tuple[_Look, Tuple[range, int]]]:
        for part in parts:
            begun.append(drawn + sum(map(look.drawn, parts[len(found) : len(begun)])))
            yield look.at(part), (part, begun[-1])

    for part, rows in zip(parts, each(_looked, items())):
        own = look.drawn(part, rows)
        found.append(look((part, drawn)) if own and begun[len(found)] != drawn else rows)
        drawn += own
    return [row for part in found for row in part]


@dataclasses.dataclass
class _SecondLook(_Look):
    """The second look at some rows of cells, whose numbers are given: by the first look at all of them."""

    zero: float
    guess: numpy.ndarray
    deviation: numpy.ndarray
    quanta: List[numpy.ndarray]

    def __call__(self, numbers: range) -> list:
        found = []
        for row in numbers:
            rows = self.rows(row)
            residual = take_off(self.read(rows), self.zero, self.guess, self.mesh, rows)
            relative = None if self.relative is None else self.relative(rows)
            found.append(_second_row(residual, relative, self.deviation[row], self.quanta[row], self.mesh))
        return found


def of(
    read: Reader, shape: Tuple[int, int], mesh: int = 64, relative: Optional[Reader] = None, each: Callable = map
) -> Sky:
    """The sky of an image that is read by rows, NaN where it is undefined: twice, a row of cells at a time.

    `relative` reads a map of its noise, in any units; the deviations are then in these. `each` calls a function for
    each of several items, in order, as `map` does. Raises ValueError where no pixel is defined.
    """
    first = _first_looks(_FirstLook(read, relative, shape, mesh), each)
    zero = numpy.concatenate([row[0] for row in first])
    if not numpy.isfinite(zero).any():
        raise Undefined("no pixel of the image is defined")
    zero = float(numpy.nanmedian(zero))
    guess, deviation = _guess(
        [(row[0] - zero, *row[1:]) for row in first], shape, mesh, ENOUGH * min(mesh, SAMPLED) ** 2
    )
    middle = float(numpy.median(deviation))
    if middle and not LEAST_NOISE < middle < MOST_NOISE:
        raise ValueError(f"its noise of {middle:.3g} is too far from 1; scale the image")
    if relative is not None:
        deviation = _in_units(deviation, _Medians(relative, None, shape, mesh), each)
    look = _SecondLook(read, relative, shape, mesh, zero, guess, deviation, [row[3] for row in first])
    second = [row for part in each(_looked, ((look.at(part), part) for part in look.parts())) for row in part]
    mean, spread, count, there = (numpy.array(part) for part in zip(*second))
    return Sky(shape, mesh, zero, *_joined(guess, mean, spread, count, there))


def _defined_by(band: numpy.ndarray, relative: numpy.ndarray) -> numpy.ndarray:
    """The rows without the pixels whose noise isn't defined."""
    return numpy.where(numpy.isfinite(relative), band, numpy.nan)


class _Medians(_Look):
    """The medians of a noise map in the cells of some rows of them, whose numbers are given."""

    def __call__(self, numbers: range) -> List[numpy.ndarray]:
        found, step = [], max(1, self.mesh // 8)
        for number in numbers:
            cells = in_cells(self.read(self.rows(number)), self.mesh, numpy.nan)[::step, :, ::step].swapaxes(0, 1)
            cells = numpy.sort(cells.reshape(len(cells), -1), axis=1)
            found.append(cells[numpy.arange(len(cells)), numpy.isfinite(cells).sum(axis=1) // 2])
        return found


def _in_units(deviation: numpy.ndarray, look: _Medians, each: Callable) -> numpy.ndarray:
    """The deviations of the cells in units of the noise map: over its median in each cell."""
    grid = numpy.array([row for part in each(look, look.parts()) for row in part])
    return deviation / filled(grid, numpy.isfinite(grid))


def _joined(guess, mean, spread, count, there):
    """Levels and deviations of the cells, and the noise: what the second look adds to the first guess. A cell that
    sources fill, or that has few pixels, takes what its nearest neighbour has.
    """
    least = ENOUGH * there.max()
    known = count >= least
    if not known.any():
        known = count > 0
    if not known.any():
        return filtered(guess), numpy.zeros_like(guess), 0.0
    level = numpy.where(there >= least, filled(guess + mean, known), guess + filled(mean, known))
    deviations = medians(filled(spread, known))
    return filtered(numpy.where(known, guess + mean, level)), deviations, float(numpy.median(spread[known]))
