"""The photometry of a field's sources once all of them are known: each in a window that the image and its sources tell,
so that no column depends on how the image was cut into tiles.

Sources are measured by blocks of the image; those that reach further than a block's window, each in a window of its
own.
"""
import concurrent.futures
import dataclasses
import itertools
import math
from typing import TYPE_CHECKING, Callable, Iterator, Optional, Tuple

import numpy

from . import (
    _beside as beside,
    _looks as looks,
    _maps as maps,
    photometry,
    _pointlike as pointlike,
    _residuals as residuals,
    scaling,
    _shapes as shapes,
    _sky as sky,
    _smoothing as smoothing,
    _windowed as windowed,
)
from ._errors import Mistake
from ._executors import each
from ._fields import Field, in_parts, noise_of
from ._rows import Rows, behind_each_other
from ._windows import Box, moved

if TYPE_CHECKING:
    from ._detection import Detector

# The side of a block, and how far its window reaches beyond it at least and at most, in pixels.
BLOCK, LEAST_REACH, REACH = 1024, 48, 128

Executor = Optional[concurrent.futures.Executor]


class _Row:
    """The sky beside sources in one row of cells: of its rows, those of the map around, and the map there."""

    def __init__(self, detector: "Detector", found: sky.Sky):
        self.detector, self.found = detector, found

    def __call__(self, item: Tuple[slice, slice, maps.Part]) -> numpy.ndarray:
        rows, seen, part = item
        columns, within = slice(0, self.found.shape[1]), slice(rows.start - seen.start, rows.stop - seen.start)
        image = self.detector.field.to_measure(rows, columns)
        residual, undefined = residuals.residual_and_undefined(image, self.found.level(rows, columns))
        return beside.of_row(residual, undefined, part.pixels(), within, self.found.mesh)


def sky_of_values(detector: "Detector", executor: Executor = None) -> Optional[sky.Sky]:
    """The sky of what a field is measured in; None where no pixel of that is defined. Raises Mistake where it has none
    to speak of.
    """
    field, found = detector.field, detector.sky
    if field.values is None:
        return found
    other = field.measured
    try:
        relative = None if other.weights is None else other.relative
        found = sky.of(other.image, field.shape, found.mesh, relative, in_parts(other, executor))
    except sky.Undefined:
        return None
    except ValueError as error:
        raise Mistake(f"{field.values.label}: {error}") from None
    return found if field.settings.mesh else found.flat()


def sky_beside(
    detector: "Detector", segments: numpy.ndarray, executor: Executor = None, found: Optional[sky.Sky] = None
) -> Optional[sky.Sky]:
    """A sky of what a field is measured in, by default that of the field itself, beside the sources of its map; None
    where there is none.
    """
    field = detector.field
    found = detector.sky if found is None and field.values is None else found
    if found is None:
        return None
    rows = (
        (own, seen, maps.Part(segments, seen, executor=executor))
        for own, seen in beside.bands(field.shape[0], found.mesh)
    )
    return beside.joined(maps.letting_go(segments, each(executor, _Row(detector, found), rows)), found)


def points_of(
    detector: "Detector", found: Optional[sky.Sky], executor: Executor = None
) -> Optional[pointlike.PointSources]:
    """The point sources of what a field is measured in, above this sky; None where it has too few."""
    field = detector.field
    if field.values is None:
        return detector.how.points
    if found is None or not found.noise > 0:
        return None
    other = dataclasses.replace(field.measured, weights=None, struck=None)
    return looks.point_sources(other, found, in_parts(other, executor))


def noise_beside(field: Field, found: sky.Sky, own: sky.Sky, rows: slice, columns: slice) -> photometry.Numbers:
    """The noise of what a field is measured in, in its units: by its weight map and its own sky, or by the one beside
    sources.
    """
    other = field.measured
    if other.weights is not None:
        return noise_of(other, own, rows, columns)
    return found.noises(rows, columns) if other.settings.local else found.noise


class _Window:
    """Measures sources in a window of a field, given with their rows and the part of the map there."""

    def __init__(
        self,
        detector: "Detector",
        found: Optional[sky.Sky],
        points: Optional[pointlike.PointSources],
        own: Optional[sky.Sky] = None,
    ):
        self.detector, self.found, self.points = detector, found, points
        self.own = own if own is not None else detector.sky

    def _sky(self, box: Box) -> Tuple[photometry.Numbers, photometry.Numbers]:
        """The level and the noise there, in the units of what is measured."""
        if self.found is None:
            return numpy.nan, numpy.nan
        level = self.found.level(box.rows, box.columns)
        return level, noise_beside(self.detector.field, self.found, self.own, box.rows, box.columns)

    def __call__(self, item: Tuple[Box, Rows, maps.Part]) -> Rows:
        box, rows, part = item
        field, settings = self.detector.field, self.detector.settings
        level, noise = self._sky(box)
        found = photometry.measured(
            field.to_measure(box.rows, box.columns),
            level,
            noise,
            part.pixels(),
            moved(rows.copy(), -box.left, -box.top),
            gain=settings.gain,
            saturation=field.saturation,
            apertures=settings.apertures,
            kron=settings.kron,
            points=self.points,
            threshold=self.detector.how.threshold,
            struck=None if field.struck is None else field.struck[box.rows, box.columns],
            seen=self.seen,
            vignet=settings.vignet,
        )
        found["STELLARITY"] = shapes.stellarity(2 * found["FLUX_RADIUS"], self.points)
        found["BACKGROUND"], found["THRESHOLD"] = self._beside(box, found, level)
        return moved(found, box.left, box.top)

    @property
    def seen(self) -> shapes.Seen:
        """How the program saw the image."""
        how, field = self.detector.how, self.detector.field
        # The smoothed image has a pixel's noise, so its light is more by the root of how many pixels share noise.
        scale = how.noise / scaling.SIGMA / math.sqrt(smoothing.correlated(how.smooth))
        return shapes.Seen(scale, how.smooth, field.values is None)

    def _beside(self, box: Box, found: Rows, level: photometry.Numbers) -> Tuple[numpy.ndarray, numpy.ndarray]:
        """The level of the sky, given for a window's pixels, at the middles of sources there, and by how much a pixel
        of the smoothed image has to stand above the level there to be a source's, in the image's units.
        """
        sides = (box.bottom - box.top, box.right - box.left)
        at = tuple(
            numpy.clip(numpy.round(numpy.asarray(found[name])).astype(int) - 1, 0, side - 1)
            for name, side in zip("YX", sides)
        )
        how, noise = self.detector.how, self.detector.noise(box.rows, box.columns)
        levels, noises = (numpy.broadcast_to(it, sides)[at].astype("f8") for it in (level, noise))
        plane = self.detector.field.values or self.detector.field.plane
        return levels + plane.origin, noises * how.threshold * self.seen.scale


def _needed(table: Rows, places: numpy.ndarray, reach: numpy.ndarray, shape: Tuple[int, int]) -> numpy.ndarray:
    """For each source in these rows the box of the image that holds it with its neighbours, and all that is so near its
    centre: the numbers of a `Box`, a line for each of them.
    """
    sides = []
    for name, side in zip("YX", shape):
        centre, first, last = (numpy.asarray(table[f"{name}{it}"])[places] for it in ("CEN", "MIN", "MAX"))
        centre = centre / 1000 - 1
        low = numpy.minimum(first - 2, numpy.floor(centre - reach))
        high = numpy.maximum(last + 1, numpy.ceil(centre + reach) + 1)
        sides += [numpy.clip(low, 0, side), numpy.clip(high, 0, side)]
    return numpy.array(sides).astype(int)


def _holds(box: Box, boxes: numpy.ndarray) -> numpy.ndarray:
    """Which boxes lie in a box."""
    top, bottom, left, right = boxes
    return (box.top <= top) & (bottom <= box.bottom) & (box.left <= left) & (right <= box.right)


def _blocks(table: Rows, reach: numpy.ndarray, shape: Tuple[int, int]) -> Iterator[Tuple[Box, numpy.ndarray]]:
    """The windows of the blocks that have sources, each with the places of their rows. Below and on the right one
    reaches as far as these do; where it begins is the block's, since a place's last digit hangs on it.
    """
    at = [
        numpy.clip((numpy.asarray(table[name]) - 1000) // (1000 * BLOCK), 0, (side - 1) // BLOCK)
        for name, side in zip(("YCEN", "XCEN"), shape)
    ]
    numbers = at[0] * ((shape[1] - 1) // BLOCK + 1) + at[1]
    order = numpy.argsort(numbers, kind="stable")
    for places in numpy.split(order, numpy.flatnonzero(numpy.diff(numbers[order])) + 1):
        top, left = (int(it[places[0]]) * BLOCK for it in at)
        behind = BLOCK + int(numpy.clip(math.ceil(reach[places].max()), LEAST_REACH, REACH))
        yield Box(
            max(0, top - REACH), min(shape[0], top + behind), max(0, left - REACH), min(shape[1], left + behind)
        ), places


def measured(
    detector: "Detector",
    found: Optional[sky.Sky],
    points: Optional[pointlike.PointSources],
    table: Rows,
    segments: numpy.ndarray,
    executor: Executor = None,
    progress: Callable[[int], None] = lambda count: None,
    own: Optional[sky.Sky] = None,
) -> Rows:
    """The columns of photometry for the sources of a field, whose map this is, above this sky and by these point
    sources. `own` is the sky of what is measured in with all that is in it, by default the detector's.
    """
    shape, work = detector.field.shape, _Window(detector, found, points, own)
    if not len(table):
        return work((Box(0, 1, 0, 1), table, maps.Part(numpy.zeros((1, 1), dtype="i4"), slice(0, 1))))
    least = max(*detector.settings.apertures, detector.settings.vignet) / 2
    reach, answers, where = photometry.reach(table, points, least), [], []
    waiting = _blocks(table, reach, shape)
    while True:
        windows = []
        ahead, behind = itertools.tee(waiting)
        items = ((box, table[places], maps.Part(segments, box.rows, box.columns, executor)) for box, places in ahead)
        for (box, places), answer in zip(behind, each(executor, work, items)):
            progress(0)
            maps.let_go(segments)
            wanted = numpy.maximum(answer["KRON_RADIUS"], windowed.reach(answer["FLUX_RADIUS"])) + 2
            boxes = _needed(table, places, numpy.maximum(reach[places], wanted), shape)
            held = _holds(box, boxes)
            answers.append(answer if held.all() else answer[held])
            where.append(places[held])
            windows += [
                (Box(*boxes[:, number].tolist()), places[[number]]) for number in numpy.flatnonzero(~held).tolist()
            ]
        if not windows:
            break
        waiting = iter(windows)
    order = numpy.argsort(numpy.concatenate(where))
    return behind_each_other(answers)[order]
