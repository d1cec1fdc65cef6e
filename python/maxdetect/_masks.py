"""Masks that grow: all pixels near those of a mask."""
from typing import Tuple

import numpy

from ._loops import Loop, array, whole

__all__ = ["grown", "later_and_earlier"]

# The loop counts the rows within reach in 16 bits.
MOST_REACH = 2**15 - 1

_GROWN = Loop("grown", array("?"), whole, whole, whole, array("u2"), array("u1"), array("?"))


def later_and_earlier(image: numpy.ndarray, by: int, axis: int) -> Tuple[numpy.ndarray, numpy.ndarray]:
    """All but the first places of an axis, and all but the last."""
    return (image[by:], image[:-by]) if axis == 0 else (image[:, by:], image[:, :-by])


def grown(mask: numpy.ndarray, reach: int) -> numpy.ndarray:
    """The mask with all pixels up to so many columns and rows away."""
    if not _GROWN or not mask.size or not 0 <= reach <= MOST_REACH:
        return _by_shifts(mask, reach)
    mask, (height, width) = numpy.ascontiguousarray(mask, dtype=bool), mask.shape
    counts, lines = numpy.empty(width, dtype="u2"), numpy.empty(2 * (width + 2 * reach), dtype="u1")
    made = numpy.empty_like(mask)
    _GROWN(mask, height, width, reach, counts, lines, made)
    return made


def _by_shifts(mask: numpy.ndarray, reach: int) -> numpy.ndarray:
    """The same without the loop."""
    for axis in (0, 1):
        sides = [side + 2 * reach * (axis == along) for along, side in enumerate(mask.shape)]
        wide, length = numpy.zeros(sides, dtype=bool), 1
        inner = slice(reach, reach + mask.shape[axis])
        wide[(inner, slice(None)) if axis == 0 else (slice(None), inner)] = mask
        # Whether one of so many pixels is in it, from one of them to all from `reach` before to `reach` behind.
        while length <= 2 * reach:
            step = min(length, 2 * reach + 1 - length)
            later, earlier = later_and_earlier(wide, step, axis)
            wide, length = later | earlier, length + step
        mask = wide
    return mask
