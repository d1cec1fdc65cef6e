"""Wide faint sources, whose light no pixel shows: found in the means of blocks of pixels, without the sources that are
found before.

A block is so wide that the light of a faint galaxy adds up, and the sky beneath is told by cells so wide that it isn't
taken for sky. What adjoins a large source that is found already is that one's halo, and no source of its own.
"""
import dataclasses
from typing import NamedTuple, Tuple

import numpy
from scipy import ndimage

from . import (
    _kernel as kernel,
    _looks as looks,
    _nodes as nodes,
    scaling,
    _sky as sky,
    _smoothing as smoothing,
)
from ._errors import Mistake
from ._fields import Field
from ._joining import without_gaps
from ._rows import Rows, behind_each_other
from ._windows import Box, moved

__all__ = ["Found", "THRESHOLD", "beneath", "found"]

# The side of a block and of the sky's cells in pixels; how far sources reach beyond their pixels; and the least share
# of the pixels about a block that has to be left.
BLOCK, MESH, BESIDE, LEAST_SHARE = 8, 256, 2, 0.15
# In blocks: the full width at half of the height of the Gaussian that smooths, and the least area. The threshold is in
# thirtieths of the smoothed noise, the contrast in thousandths.
WIDTH, LEAST_AREA, THRESHOLD, CONTRAST = 2.5, 8, scaling.threshold(2.6), 50
# A source is large where it has more pixels than half a block; a wide source has at least so many times as many pixels
# as the large ones in it and beside it.
LARGE, TIMES = BLOCK**2 // 2, 16


class Found(NamedTuple):
    """Rows of wide sources in the image's columns and rows, and where each has its pixels: a box and truth values."""

    rows: Rows
    places: Tuple[Tuple[Box, numpy.ndarray], ...]


def beneath(field: Field) -> Tuple[Field, sky.Sky]:
    """The field as it is looked at for wide sources, and its sky in wide cells."""
    field = dataclasses.replace(field, settings=dataclasses.replace(field.settings, mesh=MESH))
    try:
        relative = None if field.weights is None else field.relative
        return field, sky.of(field.image, field.shape, MESH, relative)
    except ValueError as error:
        raise Mistake(f"{field.plane.label}: {error}") from None


class _Blocks(NamedTuple):
    """For each block the sum of its pixels that belong to no source, how many they are, and how many pixels belong to
    large sources.
    """

    light: numpy.ndarray
    pixels: numpy.ndarray
    large: numpy.ndarray


def _summed(values: numpy.ndarray) -> numpy.ndarray:
    height, width = (side // BLOCK for side in values.shape)
    return values.reshape(height, BLOCK, width, BLOCK).sum(axis=(1, 3), dtype="f8")


def _blocks(field: Field, found: sky.Sky, segments: numpy.ndarray) -> _Blocks:
    """The whole blocks of a field: those that its edge cuts are left out."""
    height, width = (side // BLOCK * BLOCK for side in field.shape)
    area = numpy.bincount(without_gaps(segments).ravel())
    large, parts = area > LARGE, []
    large[0] = False
    for top in range(0, height, MESH):
        rows = slice(max(0, top - BESIDE), min(field.shape[0], top + MESH + BESIDE))
        own = slice(top - rows.start, min(top + MESH, height) - rows.start)
        labels = without_gaps(segments[rows])
        seen = looks.seen(field, found, 0, slice(top, min(top + MESH, height)), slice(0, width))
        free = ~sky.grown(labels != 0, BESIDE)[own, :width] & numpy.isfinite(seen)
        seen = numpy.where(free, seen, numpy.float32(0))
        parts.append([_summed(it) for it in (seen, free, large[labels[own, :width]])])
    return _Blocks(*(numpy.concatenate(it) for it in zip(*parts)))


def _numbers(blocks: _Blocks) -> numpy.ndarray:
    """What the program is to see of blocks: their smoothed light in thirtieths of its noise, which is as even as if
    all their pixels counted.
    """
    deviation = WIDTH / smoothing.WIDTH
    light, count = (ndimage.gaussian_filter(it, deviation, mode="nearest") for it in (blocks.light, blocks.pixels))
    squares = ndimage.gaussian_filter(blocks.pixels, deviation / 2**0.5, mode="nearest")
    known = count > LEAST_SHARE * BLOCK**2
    values = light / numpy.sqrt(numpy.maximum(squares, 0.05 * BLOCK**2))
    low, middle = numpy.percentile(values[known], (15.87, 50)) if known.any() else (0.0, 0.0)
    if not middle > low:
        return numpy.full(values.shape, kernel.LEAST, dtype="i4")
    scaled = numpy.where(known, (values - middle) * (scaling.SIGMA / (middle - low)), numpy.nan)
    return scaling.whole_numbers(scaled).filled(kernel.LEAST).astype("i4")


def _is_halo(labels: numpy.ndarray, blocks: _Blocks, count: int) -> numpy.ndarray:
    """Which wide sources are but the halos of large ones, by number."""
    halo = numpy.zeros(count + 1, dtype=bool)
    for number, part in enumerate(ndimage.find_objects(labels), 1):
        at = tuple(slice(max(0, it.start - 1), it.stop + 1) for it in part)
        own = labels[at] == number
        about = sky.grown(own, 1)
        halo[number] = TIMES * blocks.large[at][about].sum() > own.sum() * BLOCK**2
    return halo


def found(field: Field, wide_sky: sky.Sky, segments: numpy.ndarray, program=None) -> Found:
    """The wide sources of a field with this sky of wide cells, beside those of its map."""
    if min(field.shape) < BLOCK:
        return Found(Rows({}), ())
    blocks = _blocks(field, wide_sky, segments)
    numbers = _numbers(blocks)
    catalogue, labels = kernel.detect_stored(
        numbers, THRESHOLD, program=program, mesh=0, min_area=LEAST_AREA, contrast=CONTRAST, connect=8
    )
    halo, made, places = _is_halo(labels, blocks, len(catalogue)), [], []
    for number, base, part in zip(catalogue["NUMBER"], catalogue["BASE"], ndimage.find_objects(labels)):
        if halo[number]:
            continue
        box = Box(*(int(bound) * BLOCK for it in part for bound in (it.start, it.stop)))
        pixels = numpy.kron(labels[part] == number, numpy.ones((BLOCK, BLOCK), dtype=bool))
        own = pixels & (numpy.asarray(segments[box.rows, box.columns]) == 0)
        values = numpy.kron(numbers[part], numpy.ones((BLOCK, BLOCK), dtype="i4")).ravel()
        at = numpy.flatnonzero(own)
        node, _ = nodes.of_places(at, values[at], numpy.zeros(len(at), dtype="i8"), 1, own.shape)
        made.append(moved(nodes.rows(numpy.array([1]), node, numpy.array([base]))[0], box.left, box.top))
        places.append((box, own))
    return Found(behind_each_other(made) if made else Rows({}), tuple(places))
