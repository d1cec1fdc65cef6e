"""Sums over boxes of an image, in whole numbers, so that they are the same in every window that holds the box."""
from typing import Tuple

import numpy

from ._loops import Loop, array, whole

__all__ = ["around", "both_sums", "sums", "within"]

# So many rows are at work at a time.
ROWS = 32

# An image, which of its pixels are chosen, its height and width, and half a box; rows and columns of some pixels, and
# how many they are; room for pixels and sums down the columns and along a row; and what lies around the pixels.
_LOOP = Loop(
    "around_pixels",
    *(array(">i4"), array("?"), whole, whole, whole),
    *(array("i8"), array("i8"), whole),
    *(array("i4"), array("i8"), array("i8"), array("i8")),
    *(array("i8"), array("i8")),
)


def around(
    image: numpy.ndarray, chosen: numpy.ndarray, half: int, rows: numpy.ndarray, columns: numpy.ndarray
) -> Tuple[numpy.ndarray, numpy.ndarray]:
    """For each of the pixels of these rows, in order, and columns how many of the pixels up to `half` rows and columns
    away are chosen, as far as the image of 32 bits goes, and their sum.
    """
    if _LOOP:
        return _around(image, chosen, half, rows, columns)
    bounds = []
    for at, side in ((rows, image.shape[0]), (columns, image.shape[1])):
        bounds += [numpy.maximum(at - half, 0), numpy.minimum(at + half + 1, side)]
    bits = ((2 * half + 1) ** 2).bit_length()
    if 2 * bits < 32:
        both = within(both_sums(image, chosen, bits), *bounds)
        return both & (2**bits - 1), both >> bits
    return within(sums(chosen, "i4"), *bounds).astype("i8"), within(sums(numpy.where(chosen, image, 0)), *bounds)


def _around(
    image: numpy.ndarray, chosen: numpy.ndarray, half: int, rows: numpy.ndarray, columns: numpy.ndarray
) -> Tuple[numpy.ndarray, numpy.ndarray]:
    """The same by the loop."""
    (height, width), count = image.shape, len(rows)
    image, chosen = numpy.ascontiguousarray(image, dtype=">i4"), numpy.ascontiguousarray(chosen)
    at = (numpy.ascontiguousarray(it, dtype="i8") for it in (rows, columns))
    room = (numpy.empty(width + 1, dtype=dtype) for dtype in ("i4", "i8", "i8", "i8"))
    pixels, totals = numpy.empty(count, dtype="i8"), numpy.empty(count, dtype="i8")
    _LOOP(image, chosen, height, width, half, *at, count, *room, pixels, totals)
    return pixels, totals


def sums(image: numpy.ndarray, dtype: str = "i8") -> numpy.ndarray:
    """For each corner between pixels the sum of all that lie above and left of it: the image's shape, and a row and a
    column more.
    """
    found = numpy.zeros([side + 1 for side in image.shape], dtype=dtype)
    numpy.cumsum(image, axis=1, dtype=dtype, out=found[1:, 1:])
    # By rows, since numpy's sums down the columns take six times as long.
    for row in range(1, len(found)):
        found[row] += found[row - 1]
    return found


def both_sums(image: numpy.ndarray, chosen: numpy.ndarray, bits: int) -> numpy.ndarray:
    """The sums of the chosen pixels of an image of 32 bits, 2^`bits` times, and how many these are, in one number: that
    of a box with less than 2^`bits` pixels has room for both, also where that of the whole image overflows.
    """
    found = numpy.zeros([side + 1 for side in image.shape], dtype="i8")
    for top in range(0, len(image), ROWS):
        both = image[top : top + ROWS].astype("i8")
        # numpy takes three times as long to shift.
        both *= 2**bits
        both += 1
        both *= chosen[top : top + ROWS]
        numpy.cumsum(both, axis=1, out=found[top + 1 : top + 1 + len(both), 1:])
        # While they are in the processor's cache.
        for row in range(top + 1, top + 1 + len(both)):
            found[row] += found[row - 1]
    return found


def within(found: numpy.ndarray, top, bottom, left, right) -> numpy.ndarray:
    """The sums over boxes from `top` up to `bottom` and from `left` up to `right`, of what `sums` gave."""
    # By places in a flat array, which takes half as long.
    flat, width = found.ravel(), found.shape[1]
    above, below = numpy.multiply(top, width), numpy.multiply(bottom, width)
    return flat[below + right] - flat[above + right] - flat[below + left] + flat[above + left]
