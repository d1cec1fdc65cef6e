"""Images less their levels, and where they are undefined.

A loop in C tells both at once where it is compiled (residuals.c); numpy tells the same, to the last digit.
"""
from typing import Optional, Tuple, Union

import numpy

from ._loops import Loop, array, number, whole

__all__ = ["residual_and_undefined", "residual_of", "undefined_in"]

_LOOP = Loop("residuals", array("f4"), array("f4"), whole, number, array("f4"), array("?"))

Numbers = Union[float, numpy.ndarray]


def undefined_in(image: numpy.ndarray, mask: Optional[numpy.ndarray] = None) -> numpy.ndarray:
    """Which pixels have no value, row by row: those that aren't finite, or are masked in the image or by a mask."""
    undefined = ~numpy.isfinite(numpy.ma.getdata(image))
    for more in (numpy.ma.getmask(image), mask):
        if more is not None and more is not numpy.ma.nomask:
            undefined |= numpy.asarray(more, dtype=bool)
    return numpy.ascontiguousarray(undefined)


def residual_of(image: numpy.ndarray, level: Numbers, undefined: numpy.ndarray, times: float = 1) -> numpy.ndarray:
    """So many times the image less its level, in 32 bits, which hold that where they may not hold the values
    themselves; row by row, with 0 where it is undefined.
    """
    data = numpy.ma.getdata(image)
    residual = (data - level if data.dtype.kind == "f" else data.astype("f8") - level).astype(
        "f4", order="C", copy=False
    )
    numpy.copyto(residual, 0, where=undefined)
    residual *= numpy.float32(times)
    return residual


def residual_and_undefined(
    image: numpy.ndarray, level: Numbers, mask: Optional[numpy.ndarray] = None, times: float = 1
) -> Tuple[numpy.ndarray, numpy.ndarray]:
    """What `residual_of` and `undefined_in` tell."""
    pixels, levels = numpy.ma.getdata(image), numpy.asarray(level)
    plain = mask is None and numpy.ma.getmask(image) is numpy.ma.nomask
    if not _LOOP or not plain or pixels.shape != levels.shape or not pixels.dtype == levels.dtype == "f4":
        undefined = undefined_in(image, mask)
        return residual_of(image, level, undefined, times), undefined
    residual, undefined = numpy.empty(pixels.shape, dtype="f4"), numpy.empty(pixels.shape, dtype=bool)
    pixels, levels = map(numpy.ascontiguousarray, (pixels, levels))
    _LOOP(pixels, levels, pixels.size, float(numpy.float32(times)), residual, undefined)
    return residual, undefined
