"""What a cell of the program's mesh without a defined pixel has as its number: the lower median of the whole image."""
from typing import Optional

import numpy

from ._wholenumbers import AT_ONCE, parts, undefined_of, value_range

__all__ = ["lower_median", "number_of"]

# Values are counted in so many stretches at a time.
STRETCHES = 2**16


def number_of(image: numpy.ndarray, blank: Optional[int], mesh: int) -> Optional[int]:
    """The lower median of an image's defined pixels where some cell of the mesh has none; else None."""
    return lower_median(image, blank) if _has_empty_cell(image, blank, mesh) else None


def _has_empty_cell(image: numpy.ndarray, blank: Optional[int], mesh: int) -> bool:
    if mesh < 1 or (blank is None and numpy.ma.getmask(image) is numpy.ma.nomask):
        return False
    lefts, step = numpy.arange(0, image.shape[1], mesh), mesh * max(1, AT_ONCE // mesh)
    for top in range(0, len(image), step):
        undefined = undefined_of(image[top : top + step], blank)
        if undefined is not None:
            rows = numpy.logical_and.reduceat(undefined, numpy.arange(0, len(undefined), mesh), axis=0)
            if numpy.logical_and.reduceat(rows, lefts, axis=1).any():
                return True
    return False


def lower_median(image: numpy.ndarray, blank: Optional[int]) -> int:
    """The lower median of an image's defined pixels, or 0 of none. Some rows at a time are looked at, as often as it
    takes until the stretch of values in which it lies has one alone.
    """
    low, high = value_range(image, blank)
    rank = None
    while low < high:
        width, counts = -(-(high + 1 - low) // STRETCHES), numpy.zeros(STRETCHES, dtype="i8")
        for values, undefined in parts(image, blank):
            defined = values.ravel() if undefined is None else values[~undefined]
            places = (defined.astype("i8") - low) // width
            counts += numpy.bincount(places[(places >= 0) & (places < STRETCHES)], minlength=STRETCHES)
        below = numpy.cumsum(counts)
        rank = (int(below[-1]) - 1) // 2 if rank is None else rank
        stretch = int(numpy.searchsorted(below, rank, side="right"))
        rank -= int(below[stretch - 1]) if stretch else 0
        low, high = low + stretch * width, min(high, low + (stretch + 1) * width - 1)
    return low
